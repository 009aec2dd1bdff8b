/* The messages that both list the breaks of, and the measuring: see locks.h. */
#include "locks.h"
#include "lock.h"
#include "measure.h"
#include "message.h"
#include "streams.h"

#include <stdio.h>
#include <string.h>

/* Few observations a message, and as many as it can have. Both streams have as many observations in all, few enough for the cache. */
enum { STREAMS = 2, FEW = 7, MANY = 255, OBSERVATIONS = 8 * FEW * MANY, MESSAGES = OBSERVATIONS / FEW, SPACE = MESSAGES * (16 + 24 * FEW) };

/* The TYPE that the breaks are listed of. */
enum { SIGNAL = 0 };

typedef struct {
    const uint8_t *bytes;
    size_t length;
} message;

/* A stream, how many observations a message of it has, and where its messages stand. */
typedef struct {
    const char *name;
    uint8_t count;
    uint8_t *bytes;
    message *messages;
} stream;

static uint8_t bytes[STREAMS][SPACE];
static message messages[STREAMS][MESSAGES];
static const stream streams[STREAMS] = {{"usual", FEW, bytes[0], messages[0]}, {"full", MANY, bytes[1], messages[1]}};

/* The histories and the lists of both. */
static uint64_t history[CS_HISTORY_WORDS], list[CS_BREAKS_NUMBERS], c_list[CS_BREAKS_NUMBERS];
static lock_history c_history;

static size_t messages_of(const stream *s) {
    return OBSERVATIONS / s->count;
}

static void make(const stream *s) {
    size_t at = 0;
    stream_locks(s->bytes, SPACE, s->count);
    for (size_t i = 0; i < messages_of(s); i++) {
        size_t length = message_claimed(s->bytes + at, SPACE - at);
        s->messages[i] = (message){s->bytes + at, length};
        at += length;
    }
}

static void begin(void) {
    cs_breaks_fresh(history, SIGNAL);
    lock_fresh(&c_history, SIGNAL);
}

/* ---- the same */

/* Whether the library's words say what the table in C says. */
static int same_history(void) {
    int same = history[0] == c_history.signal;
    for (size_t sid = 0; sid < 256; sid++) {
        const uint64_t *words = history + 1 + 3 * sid;
        const lock_last *last = &c_history.last[sid];
        same &= words[0] == (uint64_t)last->seen && words[1] == last->time && words[2] == last->lock;
    }
    return same;
}

/* Whether both answer this refusal, or none and the same count, and leave the same lists, to their ends, and histories. */
static int agree(const uint8_t *given, size_t length, size_t list_length, uint64_t refusal) {
    stream_noise((uint8_t *)list, sizeof list);
    memcpy(c_list, list, sizeof list);
    cs_listed listed = cs_breaks(given, length, history, list, list_length), c_listed = lock_breaks(given, length, &c_history, c_list, list_length);
    return listed.refusal == refusal && memcmp(&listed, &c_listed, sizeof listed) == 0 && memcmp(list, c_list, sizeof list) == 0 && same_history();
}

/* The same for a message of which a byte is changed. */
static int agree_changed(const message *m, size_t place, size_t list_length, uint64_t refusal) {
    uint8_t changed[MESSAGE_LONGEST];
    memcpy(changed, m->bytes, m->length);
    changed[place] ^= 1;
    return agree(changed, m->length, list_length, refusal);
}

/* The same for every refusal, in the order in which they are tried: a list that is too short is the last of them. */
static int agree_refused(const message *m, size_t i) {
    size_t short_list = CS_BREAKS_NUMBERS - 1, any_list = CS_BREAKS_NUMBERS - i % 2, count = m->bytes[3] == '2' ? 6 : 5;
    return agree(m->bytes, i % 15, any_list, CS_TOO_SHORT) && agree_changed(m, i % 4, any_list, CS_NO_SYNC) &&
           agree(m->bytes, m->length - 1, any_list, CS_WRONG_LENGTH) && agree_changed(m, count, any_list, CS_WRONG_LENGTH) &&
           agree_changed(m, m->length - 1 - i % 24, any_list, CS_BAD_CHECKSUM) && agree(m->bytes, m->length, short_list, CS_SMALL_BUFFER);
}

int locks_agree(void) {
    int same = 1;
    for (const stream *s = streams; s < streams + STREAMS; s++) {
        make(s);
        begin();
        for (size_t i = 0; i < messages_of(s); i++) {
            const message *m = &s->messages[i];
            same &= agree_refused(m, i) && agree(m->bytes, m->length, CS_BREAKS_NUMBERS, 0);
        }
    }
    return same;
}

/* ---- the times */

static uint64_t library_pass(const void *on) {
    const stream *s = on;
    uint64_t breaks = 0;
    cs_breaks_fresh(history, SIGNAL);
    for (size_t i = 0; i < messages_of(s); i++) {
        breaks += cs_breaks(s->messages[i].bytes, s->messages[i].length, history, list, CS_BREAKS_NUMBERS).count;
    }
    return breaks;
}

static uint64_t c_pass(const void *on) {
    const stream *s = on;
    uint64_t breaks = 0;
    lock_fresh(&c_history, SIGNAL);
    for (size_t i = 0; i < messages_of(s); i++) {
        breaks += lock_breaks(s->messages[i].bytes, s->messages[i].length, &c_history, c_list, CS_BREAKS_NUMBERS).count;
    }
    return breaks;
}

int locks_measure(void) {
    int same = 1;
    printf("%-10s %12s %18s %10s %8s\n", "breaks of", "observations", "ns an observation", "C's ns", "ratio");
    for (const stream *s = streams; s < streams + STREAMS; s++) {
        measure_runner library = {.pass = library_pass, .on = s}, c = {.pass = c_pass, .on = s};
        same &= measure_turns(&library, &c, OBSERVATIONS);
        printf("%-10s %12d %18.1f %10.1f %8.2f\n", s->name, s->count, library.best, c.best, c.best / library.best);
    }
    return same;
}
