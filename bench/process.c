/* CPU time, of this process and of a child: see process.h. */
#define _DEFAULT_SOURCE
#include "process.h"

#include <fcntl.h>
#include <spawn.h>
#include <stdio.h>
#include <sys/resource.h>
#include <sys/wait.h>
#include <time.h>
#include <unistd.h>

double process_own_seconds(void) {
    struct timespec now;
    clock_gettime(CLOCK_PROCESS_CPUTIME_ID, &now);
    return (double)now.tv_sec + (double)now.tv_nsec / 1e9;
}

static double seconds(struct timeval time) {
    return (double)time.tv_sec + (double)time.tv_usec / 1e6;
}

/* Starts the program; answers 0 where that went well. It is spawned and not forked, so that the child's time has no copy of this process in it. */
static int start(const char *program, const char *input, const char *output, pid_t *child) {
    char *const words[] = {(char *)program, NULL}, *const environment[] = {NULL};
    posix_spawn_file_actions_t files;
    if (posix_spawn_file_actions_init(&files) != 0) {
        return -1;
    }
    int failed = posix_spawn_file_actions_addopen(&files, STDIN_FILENO, input, O_RDONLY, 0) != 0 ||
                 posix_spawn_file_actions_addopen(&files, STDOUT_FILENO, output, O_WRONLY | O_CREAT | O_TRUNC, 0644) != 0 ||
                 posix_spawn(child, program, &files, NULL, words, environment) != 0;
    posix_spawn_file_actions_destroy(&files);
    return failed;
}

double process_seconds(const char *program, const char *input, const char *output) {
    struct rusage usage;
    pid_t child;
    int status;
    if (start(program, input, output, &child) != 0 || wait4(child, &status, 0, &usage) != child || !WIFEXITED(status) || WEXITSTATUS(status) != 0) {
        return -1;
    }
    return seconds(usage.ru_utime) + seconds(usage.ru_stime);
}

int process_same(const char *one, const char *other) {
    FILE *a = fopen(one, "rb"), *b = fopen(other, "rb");
    int same = a != NULL && b != NULL;
    while (same) {
        int c = getc(a);
        same = c == getc(b);
        if (c == EOF) {
            break;
        }
    }
    if (a != NULL) {
        fclose(a);
    }
    if (b != NULL) {
        fclose(b);
    }
    return same;
}
