/* The records that both are measured on, and the measuring: see records.h. */
#include "records.h"
#include "measure.h"
#include "record.h"
#include "streams.h"

#include <stdio.h>
#include <string.h>

/* Enough records for nothing to be guessed, few enough for the cache. */
enum { RECORDS = 1 << 14, SIZE = CS_RANGECMP_BYTES };

static uint8_t bytes[RECORDS][SIZE];
static cs_rangecmp numbers[RECORDS];

/* The three calls, the library's or the C's. */
typedef struct {
    cs_rangecmp (*read)(const uint8_t *, size_t);
    cs_written (*write)(uint8_t *, size_t, cs_rangecmp);
    cs_adr (*adr)(const uint8_t *, size_t);
} calls;

static const calls library = {cs_rangecmp_read, cs_rangecmp_write, cs_rangecmp_adr};
static const calls c = {record_read, record_write, record_adr};

/* Random bytes, with the status of GPS L1 C/A in seven records of eight; and their numbers, with a PRN that is too wide in one of eight. */
static void make(void) {
    stream_noise(bytes[0], sizeof bytes);
    for (size_t i = 0; i < RECORDS; i++) {
        uint8_t *record = bytes[i], chance = record[SIZE - 1];
        if (chance % 8 != 0) {
            record[2] &= 0x18;
            record[3] &= 0xFC;
        }
        numbers[i] = record_read(record, SIZE);
        numbers[i].prn += chance / 8 % 8 == 0 ? 256 : 0;
    }
}

/* Whether both answer the same for the first bytes of a record, and write the same into as many. */
static int agree(size_t i, size_t length) {
    uint8_t given[SIZE] = {0}, wanted[SIZE] = {0};
    cs_rangecmp read = library.read(bytes[i], length), c_read = c.read(bytes[i], length);
    cs_written written = library.write(given, length, numbers[i]), c_written = c.write(wanted, length, numbers[i]);
    cs_adr adr = library.adr(bytes[i], length), c_adr = c.adr(bytes[i], length);
    return memcmp(&read, &c_read, sizeof read) == 0 && memcmp(&written, &c_written, sizeof written) == 0 && memcmp(given, wanted, SIZE) == 0 &&
           memcmp(&adr, &c_adr, sizeof adr) == 0;
}

int records_agree(void) {
    int same = 1;
    make();
    for (size_t i = 0; i < RECORDS; i++) {
        same &= agree(i, SIZE) && agree(i, i % SIZE);
    }
    return same;
}

static uint64_t read_all(const void *with) {
    const calls *by = with;
    uint64_t sum = 0;
    for (size_t i = 0; i < RECORDS; i++) {
        sum += by->read(bytes[i], SIZE).range;
    }
    return sum;
}

static uint64_t write_all(const void *with) {
    const calls *by = with;
    uint8_t output[SIZE] = {0};
    uint64_t sum = 0;
    for (size_t i = 0; i < RECORDS; i++) {
        sum += by->write(output, SIZE, numbers[i]).length + output[SIZE - 1];
    }
    return sum;
}

static uint64_t adr_all(const void *with) {
    const calls *by = with;
    uint64_t sum = 0;
    for (size_t i = 0; i < RECORDS; i++) {
        sum += (uint64_t)by->adr(bytes[i], SIZE).adr;
    }
    return sum;
}

static int measure(const char *name, measure_pass *all) {
    measure_runner by_library = {.pass = all, .on = &library}, by_c = {.pass = all, .on = &c};
    int same = measure_turns(&by_library, &by_c, RECORDS);
    printf("%-8s %12.1f %10.1f %8.2f\n", name, by_library.best, by_c.best, by_c.best / by_library.best);
    return same;
}

int records_measure(void) {
    printf("%-8s %12s %10s %8s\n", "record", "ns a record", "C's ns", "ratio");
    return measure("read", read_all) & measure("write", write_all) & measure("adr", adr_all);
}
