/* The rows over the careful reader in C: standard input to a row an observation, by printf into a large buffer. */
#include "input.h"

#include <inttypes.h>
#include <stdio.h>
#include <string.h>

enum { BUFFER = 65536, EXPONENT = 2047 };

static input recording;

static int exponent_of(uint64_t phase) {
    return (int)(phase >> 52 & EXPONENT);
}

static uint64_t digits_of(uint64_t phase) {
    const uint64_t leading = UINT64_C(1) << 52;
    return leading | (phase & (leading - 1));
}

/* An odd number of sixteenths ends in half a thousandth exactly. The rows have it away from zero, and %.3f to even. */
static int ends_in_a_half(uint64_t phase) {
    return __builtin_ctzll(digits_of(phase)) + exponent_of(phase) == 1075 - 4;
}

static void print_half(uint64_t phase) {
    uint64_t sixteenths = digits_of(phase) >> (1075 - 4 - exponent_of(phase)), size = (sixteenths * 125 + 1) / 2;
    printf("%s%" PRIu64 ".%03u", phase >> 63 ? "-" : "", size / 1000, (unsigned)(size % 1000));
}

/* The phase in cycles, or the word for one that is none. Answers whether it has cycles. */
static int print_phase(int valid, uint64_t phase) {
    double cycles;
    memcpy(&cycles, &phase, sizeof cycles);
    if (!valid) {
        fputs("withheld", stdout);
        return 0;
    }
    if (exponent_of(phase) == EXPONENT) {
        fputs("nonfinite", stdout);
        return 0;
    }
    if (exponent_of(phase) > 1075) {
        fputs("wide", stdout);
    } else if (ends_in_a_half(phase)) {
        print_half(phase);
    } else {
        printf("%.3f", cycles);
    }
    return 1;
}

/* Position, time, form and TYPE. */
static void print_head(uint64_t position, const reader_message *m, const message_header *h) {
    if (h->new) {
        printf("%" PRIu64 " %" PRIu32 " v2 %u ", position, h->time, m->bytes[4]);
    } else {
        printf("%" PRIu64 " %" PRIu32 " v1 - ", position, h->time);
    }
}

static void print_observation(int new, const uint8_t *o) {
    static const char *const polarities[] = {"unknown", "undefined1", "undefined2", "undefined3", "undefined4", "uncorrected", "undefined6", "half"};
    unsigned condition = (unsigned)o[1] << 8 | o[2];
    uint64_t phase = (uint64_t)message_word(o + 4) << 32 | message_word(o + 8);
    uint64_t range = (message_word(o + 12) * UINT64_C(149896229) + 7500) / 15000, lock = 2 * (uint64_t)message_word(o + 20);
    uint32_t raw = message_word(o + 16), rate = raw >> 31 ? -raw : raw;
    printf("%u %u %04X %" PRIu64 ".%06u ", o[0], o[3], condition, range / 1000000, (unsigned)(range % 1000000));
    int shown = print_phase(new && (condition & 4) != 0, phase);
    printf(" %016" PRIX64 " %s %s%" PRIu32 ".%04" PRIu32 " %" PRIu64 "\n", phase, shown ? polarities[condition >> 8 & 7] : "-", raw >> 31 ? "-" : "",
           rate / 10000, rate % 10000, lock);
}

static void print_rows(uint64_t position, const reader_message *m) {
    message_header head = message_head(m->bytes);
    for (int i = 0; i < head.count; i++) {
        print_head(position, m, &head);
        print_observation(head.new, head.observations + MESSAGE_OBSERVATION * i);
    }
}

int main(void) {
    reader_message message;
    uint64_t position = 0;
    setvbuf(stdout, NULL, _IOFBF, BUFFER);
    puts("at time form type sid cn0 condition range phase bits polarity rate lock");
    for (input_open(&recording); input_next(&recording, &message); position += message.length) {
        position += message.gap;
        print_rows(position, &message);
    }
    return fflush(stdout) != 0 || ferror(stdout) || recording.failed;
}
