/* The rows of observations, measured: see observations.h. */
#include "observations.h"
#include "measure.h"
#include "programs.h"
#include "streams.h"

#include <stdio.h>
#include <stdlib.h>

/* The streams, and how many observations a message of each has. Both have as many observations in all, which fill pairs of a new and an old message:
 * the start of a program counts as much in both. */
enum { USUAL, FULL, STREAMS, FEW = 7, MANY = 255, OBSERVATIONS = 60 * 2 * FEW * MANY };
static const char *const names[STREAMS] = {"usual", "full"};
static const int counts[STREAMS] = {FEW, MANY};

/* How many times as fast as the C at the last level the library's program has to be. */
static const double TARGET = 5;

/* How much of the time of an observation of usual one of full may take: as much, and 2 % for the measuring. */
static const double ALLOWANCE = 1.02;

static programs_times best[STREAMS];

static void keep(const char *folder, int stream, void make(uint8_t *, size_t)) {
    size_t pairs = OBSERVATIONS / (2 * (size_t)counts[stream]), length = pairs * (15 + 16 + 2 * 24 * (size_t)counts[stream]);
    uint8_t *bytes = malloc(length);
    if (bytes == NULL) {
        measure_stop("no memory for the streams");
    }
    make(bytes, length);
    programs_keep(folder, names[stream], bytes, length);
    free(bytes);
}

void observations_compare(const char *folder) {
    keep(folder, USUAL, stream_usual);
    keep(folder, FULL, stream_full);
    for (int i = 0; i < STREAMS; i++) {
        programs_compare(folder, "rows", names[i]);
    }
}

static double nanoseconds(double seconds) {
    return seconds * 1e9 / OBSERVATIONS;
}

void observations_measure(const char *folder) {
    programs_measure(folder, "rows", names, STREAMS, best);
    printf("%-8s %12s %5s %18s %10s %8s\n", "rows of", "observations", "C at", "ns an observation", "C's ns", "ratio");
    for (int i = 0; i < STREAMS; i++) {
        for (int level = 0; level < LEVELS; level++) {
            double library = nanoseconds(best[i].library), c = nanoseconds(best[i].c[level]);
            printf("%-8s %12d %5s %18.1f %10.1f %8.2f\n", names[i], counts[i], programs_levels[level], library, c, c / library);
        }
    }
}

int observations_judge(void) {
    double ratio = best[FULL].library / best[USUAL].library;
    int missed = ratio > ALLOWANCE;
    printf("full, in rows: an observation to take at most %.2f of one of usual, %.2f, %s\n", ALLOWANCE, ratio, missed ? "MISSED" : "reached");
    for (int i = 0; i < STREAMS; i++) {
        missed |= programs_judge(names[i], "in rows", &best[i], LEVELS - 1, TARGET);
    }
    return missed;
}
