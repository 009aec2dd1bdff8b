/* The rounds, the best, the turns and the stop: see measure.h. */
#include "measure.h"
#include "process.h"

#include <stdarg.h>
#include <stdio.h>
#include <stdlib.h>

/* So many rounds at least, and so many seconds for each: a shared machine has slow seconds, and all need their turns in a fast one. */
static const int ROUNDS = 9;
static const double SECONDS = 0.75;

/* Turns of so many passes, and so many seconds of them: the CPU time of a virtual machine may come out 8 microseconds too short where it was
 * interrupted, and then a turn of one pass is the best of all. */
enum { PASSES = 16 };
static const double TURNS = 0.5;

int measure_due(int rounds, double seconds, int runners) {
    return rounds < ROUNDS || seconds < SECONDS * runners;
}

double measure_best(double one, double other) {
    return one < other ? one : other;
}

/* Makes the best nanoseconds a part less where this turn is faster; answers the sum of its numbers. */
static uint64_t timed(measure_runner *runner, int parts) {
    double before = process_own_seconds();
    uint64_t sum = 0;
    for (int i = 0; i < PASSES; i++) {
        sum += runner->pass(runner->on);
    }
    runner->best = measure_best(runner->best, (process_own_seconds() - before) * 1e9 / PASSES / parts);
    return sum;
}

int measure_turns(measure_runner *one, measure_runner *other, int parts) {
    double begin = process_own_seconds();
    int same = 1;
    one->best = other->best = 1e9;
    while (process_own_seconds() - begin < TURNS) {
        same &= timed(one, parts) == timed(other, parts);
    }
    return same;
}

void measure_stop(const char *format, ...) {
    va_list words;
    va_start(words, format);
    fputs("bench: ", stderr);
    vfprintf(stderr, format, words);
    fputc('\n', stderr);
    va_end(words);
    exit(2);
}
