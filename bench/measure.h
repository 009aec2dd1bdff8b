/* How the bench measures: what it compares runs by turns, in short rounds, and of each the best CPU time counts. */
#ifndef MEASURE_H
#define MEASURE_H

#include <stdint.h>

/* Whether another round is due, of so many that run by turns and have taken so many seconds together. */
int measure_due(int rounds, double seconds, int runners);

/* The better of two times. */
double measure_best(double one, double other);

/* A short pass over all that is measured, on what it is given; answers a number that rests on all of it. */
typedef uint64_t measure_pass(const void *on);

/* What runs by turns with another: a pass, what it is given, and the best time that it has taken. */
typedef struct {
    measure_pass *pass;
    const void *on;
    double best;
} measure_runner;

/* Runs both by turns of several passes, for half a second or more, over so many parts a pass, and leaves the best nanoseconds a part; answers 1, or 0
 * where the two do not come to the same number. */
int measure_turns(measure_runner *one, measure_runner *other, int parts);

/* Says why nothing can be measured, and ends with 2. */
_Noreturn void measure_stop(const char *format, ...) __attribute__((format(printf, 1, 2)));

#endif
