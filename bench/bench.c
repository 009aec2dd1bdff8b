/* Measures the library and its programs beside the careful reader in C and the programs over it: `bench FOLDER`. FOLDER has all the programs, as
 * programs.h names them.
 *
 * It first makes sure that both give the same messages and gaps, and print the same bytes. It ends with 1 where a target is missed, with 2 where
 * nothing can be measured.
 */
#include "cablesound.h"
#include "locks.h"
#include "measure.h"
#include "observations.h"
#include "process.h"
#include "programs.h"
#include "reader.h"
#include "records.h"
#include "streams.h"

#include <inttypes.h>
#include <stdio.h>
#include <stdlib.h>

/* A stream; the bytes that are fed, few enough for the cache, so that the readers are measured and not the memory; the bytes that are listed, enough
 * for the start of a program not to count; and how many times as fast as the C at each level the listing has to be, 0 where that is not judged. */
typedef struct {
    const char *name;
    void (*make)(uint8_t *, size_t);
    size_t fed, listed;
    double targets[LEVELS];
    uint8_t *bytes;
} stream;

/* Mixed is for comparing what both give, and not measured. */
static stream streams[] = {
    {"clean", stream_clean, 1 << 20, 32 << 20, {1.3, 1.15}, NULL},
    {"noise", stream_noise, 1 << 20, 32 << 20, {1.0, 1.15}, NULL},
    {"hostile", stream_hostile, 128 << 10, 256 << 10, {10, 0}, NULL},
    {"mixed", stream_mixed, 1 << 20, 1 << 20, {0, 0}, NULL},
};
enum { MEASURED = 3, ALL = 4 };

/* The most nanoseconds that a feed of one byte may take. */
static const double FEED_TARGET = 150;

/* What gcc was told for this program, and the reader in C with it. */
static const char OWN_LEVEL[] = "-O2";

/* What a reader gave, and the bytes that the library's stream reader summed. Where `whole` is not 0 the digest covers every byte, else little more
 * than the lengths, so that it costs next to nothing. */
typedef struct {
    uint64_t messages, gaps, calls, digest, summed;
    int whole;
} tally;

/* Runs a reader over bytes in pieces of so many. */
typedef void run(const uint8_t *bytes, size_t length, size_t piece, tally *t);

/* One way to go over a stream. */
typedef struct {
    const char *name;
    size_t piece;
    run *library;
} way;

static void note(tally *t, const uint8_t *message, size_t length, uint64_t gap) {
    const uint64_t prime = UINT64_C(0x100000001B3);
    t->messages++;
    t->gaps += gap;
    t->digest = (t->digest ^ gap ^ (uint64_t)length << 32 ^ message[length - 1]) * prime;
    for (size_t i = 0; t->whole && i < length; i++) {
        t->digest = (t->digest ^ message[i]) * prime;
    }
}

/* ---- both readers */

static void run_library(const uint8_t *bytes, size_t length, size_t piece, tally *t) {
    static uint8_t window[CS_LONGEST], output[CS_LONGEST];
    cs_state state = cs_fresh();
    cs_answer answer;
    for (size_t at = 0; at < length;) {
        size_t end = length - at < piece ? length : at + piece;
        while (at < end) {
            answer = cs_feed(&state, bytes + at, end - at, window, sizeof window, output, sizeof output);
            if (answer.refusal != 0) {
                measure_stop("the library refuses a feed");
            }
            t->calls++;
            at += (size_t)answer.taken;
            if (answer.kind == CS_MESSAGE) {
                note(t, output, (size_t)answer.length, answer.gap);
            }
        }
    }
    while ((answer = cs_finish(&state, window, sizeof window, output, sizeof output)).kind == CS_MESSAGE) {
        note(t, output, (size_t)answer.length, answer.gap);
    }
    t->gaps += answer.gap;
    t->summed = state.summed;
}

/* The plain reader, which takes the stream as one recording, whatever the piece. */
static void run_plain(const uint8_t *bytes, size_t length, size_t piece, tally *t) {
    cs_found found;
    (void)piece;
    for (size_t at = 0; (found = cs_next(bytes, length, at)).kind == CS_MESSAGE; at = (size_t)(found.position + found.length)) {
        note(t, bytes + found.position, (size_t)found.length, found.gap);
        t->calls++;
    }
    t->calls++;
    t->gaps += found.gap;
}

static void run_c(const uint8_t *bytes, size_t length, size_t piece, tally *t) {
    static reader r;
    reader_message message;
    reader_open(&r);
    for (size_t at = 0; at < length;) {
        size_t end = length - at < piece ? length : at + piece;
        while (at < end) {
            at += reader_put(&r, bytes + at, end - at);
            while (reader_next(&r, &message)) {
                note(t, message.bytes, message.length, message.gap);
            }
        }
    }
    reader_end(&r);
    while (reader_next(&r, &message)) {
        note(t, message.bytes, message.length, message.gap);
    }
    t->gaps += r.gap;
}

static const way ways[] = {
    {"whole", SIZE_MAX, run_library},
    {"4096", 4096, run_library},
    {"64", 64, run_library},
    {"1", 1, run_library},
    {"cs_next", SIZE_MAX, run_plain},
};
enum { WAYS = 5 };

/* ---- in memory */

static void compare(const stream *s, const way *w) {
    tally library = {.whole = 1}, c = {.whole = 1};
    w->library(s->bytes, s->fed, w->piece, &library);
    run_c(s->bytes, s->fed, w->piece, &c);
    if (library.messages != c.messages || library.gaps != c.gaps || library.digest != c.digest) {
        measure_stop("%s (%s): the library gives %" PRIu64 " messages, %" PRIu64 " gap bytes, digest %016" PRIx64 ", the C %" PRIu64 ", %" PRIu64
                     ", %016" PRIx64,
                     s->name, w->name, library.messages, library.gaps, library.digest, c.messages, c.gaps, c.digest);
    }
}

static double seconds_of(run *reader, const stream *s, const way *w, uint64_t *calls) {
    tally t = {.whole = 0};
    double before = process_own_seconds();
    reader(s->bytes, s->fed, w->piece, &t);
    double taken = process_own_seconds() - before;
    *calls = t.calls;
    return taken;
}

/* Prints a row without its end. */
static void print_row(const char *name, const char *how, const char *level, size_t length, double library, double c) {
    double bytes = (double)length / 1e6;
    printf("%-8s %-8s %5s %10.1f %10.1f %8.2f", name, how, level, bytes / library, bytes / c, c / library);
}

/* Prints the row; answers the nanoseconds of one call of the library. */
static double measure(const stream *s, const way *w) {
    double library = 1e9, c = 1e9, begin = process_own_seconds();
    uint64_t calls = 0, none;
    for (int round = 0; measure_due(round, process_own_seconds() - begin, 2); round++) {
        library = measure_best(library, seconds_of(w->library, s, w, &calls));
        c = measure_best(c, seconds_of(run_c, s, w, &none));
    }
    double call = library * 1e9 / (double)calls;
    print_row(s->name, w->name, OWN_LEVEL, s->fed, library, c);
    printf(" %12.1f\n", call);
    return call;
}

/* ---- the bytes summed */

/* Prints how many bytes of a stream go through the checksum for each byte fed, beside the most that a stream of its length can cost: 6,131 for every
 * three bytes behind the first. */
static void print_summed(const stream *s) {
    tally t = {.whole = 0};
    run_library(s->bytes, s->fed, s->fed, &t);
    double fed = (double)s->fed, most = 6131.0 * (double)((s->fed - 1) / 3);
    printf("%-8s %10zu %12" PRIu64 " %12.2f %12.2f\n", s->name, s->fed, t.summed, (double)t.summed / fed, most / fed);
}

/* ---- all of it */

static void make_streams(void) {
    for (int i = 0; i < ALL; i++) {
        streams[i].bytes = malloc(streams[i].listed);
        if (streams[i].bytes == NULL) {
            measure_stop("no memory for the streams");
        }
        streams[i].make(streams[i].bytes, streams[i].listed);
    }
}

static void compare_all(const char *folder) {
    for (int i = 0; i < ALL; i++) {
        for (int j = 0; j < WAYS; j++) {
            compare(&streams[i], &ways[j]);
        }
        programs_keep(folder, streams[i].name, streams[i].bytes, streams[i].listed);
        programs_compare(folder, "listing", streams[i].name);
    }
    programs_compare(folder, "rows", "mixed");
    observations_compare(folder);
    if (!records_agree()) {
        measure_stop("the library and the C differ in a record");
    }
    if (!locks_agree()) {
        measure_stop("the library and the C differ in the breaks of a message");
    }
}

/* Prints the rows of a stream; answers the nanoseconds of a feed of one byte. */
static double measure_stream(const stream *s, const char *folder, programs_times *listing) {
    double feed = 0;
    for (int j = 0; j < WAYS; j++) {
        double call = measure(s, &ways[j]);
        feed = ways[j].piece == 1 ? call : feed;
    }
    programs_measure(folder, "listing", &s->name, 1, listing);
    for (int level = 0; level < LEVELS; level++) {
        print_row(s->name, "listing", programs_levels[level], s->listed, listing->library, listing->c[level]);
        printf("\n");
    }
    return feed;
}

/* Prints the first table; answers the nanoseconds of a feed of one byte, in the worst stream. */
static double measure_streams(const char *folder, programs_times *listings) {
    double worst = 0;
    printf("%-8s %-8s %5s %10s %10s %8s %12s\n", "stream", "pieces", "C at", "MB/s", "C's MB/s", "ratio", "ns a call");
    for (int i = 0; i < MEASURED; i++) {
        double feed = measure_stream(&streams[i], folder, &listings[i]);
        worst = feed > worst ? feed : worst;
    }
    return worst;
}

/* Says which targets of the listing are reached; answers 1 where one is missed. */
static int judge_listings(const programs_times *listings) {
    int missed = 0;
    for (int level = 0; level < LEVELS; level++) {
        for (int i = 0; i < MEASURED; i++) {
            if (streams[i].targets[level] > 0) {
                missed |= programs_judge(streams[i].name, "listed", &listings[i], level, streams[i].targets[level]);
            }
        }
    }
    return missed;
}

static int judge_feed(double feed) {
    int missed = feed >= FEED_TARGET;
    printf("a feed of one byte, to stay under %.0f ns: %.1f ns, %s\n", FEED_TARGET, feed, missed ? "MISSED" : "reached");
    return missed;
}

int main(int argc, char **argv) {
    if (argc != 2) {
        measure_stop("it is run as bench FOLDER");
    }
    const char *folder = argv[1];
    programs_times listings[MEASURED];
    make_streams();
    compare_all(folder);
    double feed = measure_streams(folder, listings);
    printf("%-8s %10s %12s %12s %12s\n", "stream", "bytes fed", "bytes summed", "a byte fed", "at most");
    for (int i = 0; i < ALL; i++) {
        print_summed(&streams[i]);
    }
    if (!records_measure()) {
        measure_stop("the library and the C come to different numbers over the records");
    }
    if (!locks_measure()) {
        measure_stop("the library and the C come to different numbers of breaks");
    }
    observations_measure(folder);
    int missed = judge_listings(listings);
    missed |= judge_feed(feed);
    missed |= observations_judge();
    return missed;
}
