/* Prints the breaks of lock in a recording, as `cablesound breaks TYPE` does: `locks TYPE`, of standard input, 61,440 bytes at most.
 *
 * An example for a tool of a host's own: one history for the whole recording, which goes through it message by message.
 */
#include "cablesound.h"

#include <inttypes.h>
#include <stdio.h>
#include <stdlib.h>

static uint8_t recording[61440];
static uint64_t history[CS_HISTORY_WORDS];
static uint64_t list[CS_BREAKS_NUMBERS];

/* An entry is three numbers: the SID, the message time, and which of the two it is. */
static void print_entry(uint64_t position, const uint64_t *entry) {
    printf("%" PRIu64 " %" PRIu64 " %" PRIu64 " %s\n", position, entry[0], entry[1], entry[2] == CS_CLOCK_BACK ? "clock-back" : "new-lock");
}

/* Ends with the refusal of a call that refused: a message from cs_next and a list of this length give none. */
int main(int argc, char **argv) {
    cs_breaks_fresh(history, argc > 1 ? (uint8_t)atoi(argv[1]) : 0);
    printf("at sid time break\n");
    size_t length = fread(recording, 1, sizeof recording, stdin);
    cs_found found = cs_next(recording, length, 0);
    while (found.kind == CS_MESSAGE) {
        cs_listed listed = cs_breaks(recording + found.position, (size_t)found.length, history, list, CS_BREAKS_NUMBERS);
        if (listed.refusal != 0) {
            return (int)listed.refusal;
        }
        for (size_t entry = 0; entry < listed.count; entry++) {
            print_entry(found.position, list + 3 * entry);
        }
        found = cs_next(recording, length, (size_t)(found.position + found.length));
    }
    return 0;
}
