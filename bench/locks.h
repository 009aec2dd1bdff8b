/* The library's breaks of lock, measured beside those of lock.h, in messages of few observations and of as many as they can have. */
#ifndef LOCKS_H
#define LOCKS_H

/* Makes the messages; answers 1 where both answer and leave the same for each of them, whole and damaged, else 0. */
int locks_agree(void);

/* Prints the nanoseconds that each takes for an observation; answers 1, or 0 where the two do not come to the same. */
int locks_measure(void);

#endif
