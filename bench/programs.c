/* The programs as children: see programs.h. */
#include "programs.h"
#include "measure.h"
#include "process.h"

#include <stdarg.h>
#include <stdio.h>

const char *const programs_levels[LEVELS] = {"-O2", "-O3"};

typedef struct {
    char text[512];
} path;

static path path_of(const char *format, ...) {
    path p;
    va_list parts;
    va_start(parts, format);
    int length = vsnprintf(p.text, sizeof p.text, format, parts);
    va_end(parts);
    if (length < 0 || (size_t)length >= sizeof p.text) {
        measure_stop("the folder's name is too long");
    }
    return p;
}

static path file_of(const char *folder, const char *stream) {
    return path_of("%s/%s.bin", folder, stream);
}

void programs_keep(const char *folder, const char *stream, const uint8_t *bytes, size_t length) {
    FILE *file = fopen(file_of(folder, stream).text, "wb");
    if (file == NULL || fwrite(bytes, 1, length, file) != length || fclose(file) != 0) {
        measure_stop("the stream %s cannot be written into %s", stream, folder);
    }
}

/* The seconds of a program, at a level or the library's, on a stream. */
static double seconds_of(const char *folder, const char *program, const char *level, const char *stream, const char *output) {
    path name = path_of("%s/%s%s", folder, program, level);
    double taken = process_seconds(name.text, file_of(folder, stream).text, output);
    if (taken < 0) {
        measure_stop("%s cannot be run, or fails, on the stream %s", name.text, stream);
    }
    return taken;
}

/* What is printed stays in the folder where it differs. */
void programs_compare(const char *folder, const char *program, const char *stream) {
    path given = path_of("%s/%s.%s", folder, stream, program);
    seconds_of(folder, program, "", stream, given.text);
    for (int i = 0; i < LEVELS; i++) {
        path wanted = path_of("%s%s", given.text, programs_levels[i]);
        seconds_of(folder, program, programs_levels[i], stream, wanted.text);
        if (!process_same(given.text, wanted.text)) {
            measure_stop("what the programs %s print of %s differs: compare %s and %s", program, stream, given.text, wanted.text);
        }
        remove(wanted.text);
    }
    remove(given.text);
}

/* What is printed is thrown away: the programs are measured, and not the disk. Answers the seconds that all took. */
static double turn(const char *folder, const char *program, const char *stream, programs_times *best) {
    double taken = seconds_of(folder, program, "", stream, "/dev/null"), sum = taken;
    best->library = measure_best(best->library, taken);
    for (int i = 0; i < LEVELS; i++) {
        taken = seconds_of(folder, program, programs_levels[i], stream, "/dev/null");
        best->c[i] = measure_best(best->c[i], taken);
        sum += taken;
    }
    return sum;
}

void programs_measure(const char *folder, const char *program, const char *const *streams, int count, programs_times *best) {
    double spent = 0;
    for (int i = 0; i < count; i++) {
        best[i] = (programs_times){1e9, {1e9, 1e9}};
    }
    for (int round = 0; measure_due(round, spent, count * (1 + LEVELS)); round++) {
        for (int i = 0; i < count; i++) {
            spent += turn(folder, program, streams[i], &best[i]);
        }
    }
}

int programs_judge(const char *stream, const char *how, const programs_times *best, int level, double target) {
    double ratio = best->c[level] / best->library;
    int missed = ratio < target;
    printf("%s, %s: to reach %.2f of the C at %s, %.2f, %s\n", stream, how, target, programs_levels[level], ratio, missed ? "MISSED" : "reached");
    return missed;
}
