/* Lists the messages of a recording: `recording FILE`, or standard input without FILE. It reads in odd pieces, as a radio link would hand them on.
 *
 * An example for firmware: one state for the whole stream, a window and an output that are never freed, and a look at the refusal of every answer.
 */
#include "cablesound.h"

#include <inttypes.h>
#include <stdio.h>

/* The window belongs to the reader from cs_fresh to the end. The output has the newest message until the next call. */
static uint8_t window[CS_LONGEST];
static uint8_t output[CS_LONGEST];

/* How many bytes of the stream lie behind us, as messages or as gap. */
static uint64_t behind;

/* The phase, and what its polarity says of it. Half a cycle that is due is not in the cycles: who computes the track adjusts them, once. */
static void print_phase(cs_cycles phase) {
    switch (phase.kind) {
    case CS_WITHHELD:
        printf(" phase withheld\n");
        break;
    case CS_NOT_FINITE:
        printf(" phase not finite\n");
        break;
    case CS_POLARITY_UNKNOWN:
        printf(" phase %.6f polarity unknown\n", phase.cycles);
        break;
    case CS_NOT_CORRECTED:
        printf(" phase %.6f not corrected since lock\n", phase.cycles);
        break;
    case CS_DUE_HALF:
        printf(" phase %.6f due half a cycle\n", phase.cycles);
        break;
    default:
        printf(" phase %.6f polarity undefined %" PRIu64 "\n", phase.cycles, phase.code);
        break;
    }
}

static void print_observation(uint64_t form, const cs_observation *observation) {
    uint64_t range = cs_range_um((uint32_t)observation->pseudorange);
    printf("  sid %" PRIu64 " range_um %" PRIu64 " rate %" PRId64, observation->sid, range, observation->rate);
    print_phase(cs_phase(form, *observation));
}

/* Prints the message at the front of the output: its header, read once, says how many observations there are to ask for. Answers 0, or the refusal of
 * the call that refused. */
static uint64_t print_message(const cs_answer *answer) {
    size_t length = (size_t)answer->length;
    cs_head head = cs_read_header(output, length);
    if (head.refusal != 0) {
        return head.refusal;
    }
    printf("at %" PRIu64 " bytes %" PRIu64 " gap %" PRIu64 " form %s count %" PRIu64 " time %" PRIu64 "\n", behind + answer->gap, answer->length,
           answer->gap, head.header.form == CS_OLD ? "old" : "new", head.count, head.header.time);
    behind += answer->gap + answer->length;

    /* An index from the count on would be refused with CS_NO_OBSERVATION. */
    for (size_t index = 0; index < head.count; index++) {
        cs_observed observed = cs_read_observation(output, length, index);
        if (observed.refusal != 0) {
            return observed.refusal;
        }
        print_observation(head.header.form, &observed.observation);
    }
    return 0;
}

/* Feeds one piece: each call gives at most one message, so the rest of the piece is offered again until the reader needs more. */
static uint64_t feed(cs_state *state, const uint8_t *piece, size_t length) {
    size_t taken = 0;
    for (;;) {
        cs_answer answer = cs_feed(state, piece + taken, length - taken, window, sizeof window, output, sizeof output);
        if (answer.refusal != 0) {
            return answer.refusal;
        }
        if (answer.kind != CS_MESSAGE) {
            return 0;
        }
        taken += (size_t)answer.taken;
        uint64_t refusal = print_message(&answer);
        if (refusal != 0) {
            return refusal;
        }
    }
}

/* The stream is over: messages may still be held behind a false start, so this goes on until the end is answered. The state then has how many bytes
 * came and how many went through the checksum, which a byte under several false starts does several times. */
static uint64_t finish(cs_state *state) {
    for (;;) {
        cs_answer answer = cs_finish(state, window, sizeof window, output, sizeof output);
        if (answer.refusal != 0) {
            return answer.refusal;
        }
        if (answer.kind == CS_END) {
            printf("end %" PRIu64 " gap %" PRIu64 " summed %" PRIu64 "\n", state->total, answer.gap, state->summed);
            return 0;
        }
        uint64_t refusal = print_message(&answer);
        if (refusal != 0) {
            return refusal;
        }
    }
}

/* Reads pieces of 1, 7, 509, 64 and 3 bytes in turn until the file ends. */
static uint64_t list(FILE *file) {
    static const size_t lengths[] = {1, 7, 509, 64, 3};
    uint8_t piece[509];
    cs_state state = cs_fresh();
    size_t turn = 0, length;
    while ((length = fread(piece, 1, lengths[turn], file)) > 0) {
        uint64_t refusal = feed(&state, piece, length);
        if (refusal != 0) {
            return refusal;
        }
        turn = (turn + 1) % (sizeof lengths / sizeof lengths[0]);
    }
    return finish(&state);
}

int main(int argc, char **argv) {
    FILE *file = argc > 1 ? fopen(argv[1], "rb") : stdin;
    if (file == NULL) {
        perror(argv[1]);
        return 1;
    }
    uint64_t refusal = list(file);
    int unread = ferror(file);
    if (file != stdin) {
        fclose(file);
    }
    if (refusal != 0) {
        fprintf(stderr, "recording: refused with %" PRIu64 "\n", refusal);
        return 1;
    }
    if (unread) {
        fprintf(stderr, "recording: the file cannot be read to its end\n");
        return 1;
    }
    return 0;
}
