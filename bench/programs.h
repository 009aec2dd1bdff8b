/* The library's programs beside those in C, run as children on files. All stand in one folder: a program of the library by its name, the one in C by
 * that name with what gcc was told behind it, as listing-O2. */
#ifndef PROGRAMS_H
#define PROGRAMS_H

#include <stddef.h>
#include <stdint.h>

/* What gcc was told. */
enum { LEVELS = 2 };
extern const char *const programs_levels[LEVELS];

/* The best seconds of the library's program, and of the one in C at each level. */
typedef struct {
    double library, c[LEVELS];
} programs_times;

/* Leaves a stream in the folder, for the programs to read. */
void programs_keep(const char *folder, const char *stream, const uint8_t *bytes, size_t length);

/* Stops where the programs of this name do not print the same of a stream. */
void programs_compare(const char *folder, const char *program, const char *stream);

/* Runs the programs of this name by turns on each of so many streams. */
void programs_measure(const char *folder, const char *program, const char *const *streams, int count, programs_times *best);

/* Says whether the library's program is so many times as fast as the C at a level; answers 1 where that is missed. */
int programs_judge(const char *stream, const char *how, const programs_times *best, int level, double target);

#endif
