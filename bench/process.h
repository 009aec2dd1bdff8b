/* CPU time: this process's own, and that of a program run as a child. */
#ifndef PROCESS_H
#define PROCESS_H

/* The seconds of CPU time that this process has taken so far. */
double process_own_seconds(void);

/* Runs the program with its standard input from one file and its standard output to another. Answers the seconds of CPU time, user and system, that
 * the child took; less than 0 where it could not be run or did not end with 0. */
double process_seconds(const char *program, const char *input, const char *output);

/* Whether two files have the same bytes. */
int process_same(const char *one, const char *other);

#endif
