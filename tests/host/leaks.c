/* Goes into a host that is compiled with the address sanitizer, where that cannot look for leaks itself: all that the host has allocated is freed at its
 * end, and so is what standard input and output hold until then. */
#include <stdio.h>
#include <unistd.h>

size_t __sanitizer_get_current_allocated_bytes(void);

static size_t before;

__attribute__((constructor)) static void at_the_beginning(void) {
    before = __sanitizer_get_current_allocated_bytes();
}

__attribute__((destructor)) static void at_the_end(void) {
    fclose(stdin);
    fclose(stdout);
    size_t after = __sanitizer_get_current_allocated_bytes();
    if (after != before) {
        fprintf(stderr, "%zu bytes at the beginning, %zu at the end: not all is freed\n", before, after);
        _exit(23);
    }
}
