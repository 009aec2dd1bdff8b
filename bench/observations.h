/* The rows of a flight's observations, by the library's program and by printf, in messages of few observations and of as many as they can have. */
#ifndef OBSERVATIONS_H
#define OBSERVATIONS_H

/* Leaves the streams in the folder; stops where the programs do not print the same rows of them. */
void observations_compare(const char *folder);

/* Prints the nanoseconds that each program takes for an observation. */
void observations_measure(const char *folder);

/* Says which targets are reached; answers 1 where one is missed. */
int observations_judge(void);

#endif
