/* Prints why each byte of a recording is or is not the first of a message, as `cablesound why` does: of standard input, 61,440 bytes at most.
 *
 * An example for a tool of a host's own: the kinds of a reason, and what the value of each is.
 */
#include "cablesound.h"

#include <inttypes.h>
#include <stdio.h>

static uint8_t recording[61440];

static int print_reason(size_t position, const cs_reason *reason) {
    switch (reason->kind) {
    case CS_INSIDE:
        return printf("%zu inside %" PRIu64 "\n", position, reason->value);
    case CS_GIVEN:
        return printf("%zu given %" PRIu64 "\n", position, reason->value);
    case CS_SYNC:
        return printf("%zu sync %" PRIu64 "\n", position, reason->value);
    case CS_CUT_UNKNOWN:
        return printf("%zu short -\n", position);
    case CS_CUT_SHORT:
        return printf("%zu short %" PRIu64 "\n", position, reason->value);
    case CS_CHECKSUM:
        return printf("%zu checksum %02" PRIX64 "\n", position, reason->value);
    default:
        return -1;
    }
}

int main(void) {
    size_t length = fread(recording, 1, sizeof recording, stdin);
    printf("at reason value\n");
    for (size_t position = 0; position < length; position++) {
        cs_reason reason = cs_why(recording, length, position);
        if (reason.refusal != 0 || print_reason(position, &reason) < 0) {
            return 1;
        }
    }
    /* No byte stands at the end. */
    return cs_why(recording, length, length).refusal == CS_PAST_THE_END ? 0 : 1;
}
