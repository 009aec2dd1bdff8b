/* Prints the RANGECMP record on standard input, field by field, and its corrected ADR: by the header's names alone. Ends with 1 where the record is not
 * written as the bytes that it was read from. */
#include "cablesound.h"

#include <inttypes.h>
#include <stdio.h>
#include <string.h>

static void print_fields(const cs_rangecmp *record) {
    printf("status %08" PRIX64 "\ndoppler %" PRId64 "\nrange %" PRIu64 "\nadr %" PRId64 "\n", record->status, record->doppler, record->range, record->adr);
    printf("range_deviation %" PRIu64 "\nrange_mm %" PRIu64 "\n", record->range_deviation, cs_rangecmp_range_mm(record->range_deviation));
    printf("adr_deviation %" PRIu64 "\nadr_512ths %" PRIu64 "\n", record->adr_deviation, cs_rangecmp_adr_512ths(record->adr_deviation));
    printf("prn %" PRIu64 "\nlock %" PRIu64 "\ncn0 %" PRIu64 "\nreserved %" PRIu64 "\n", record->prn, record->lock, record->cn0, record->reserved);
}

/* One byte more than a record has, so that a longer input is refused as one. */
int main(void) {
    uint8_t bytes[CS_RANGECMP_BYTES + 1], again[CS_RANGECMP_BYTES];
    size_t length = fread(bytes, 1, sizeof bytes, stdin);
    cs_rangecmp record = cs_rangecmp_read(bytes, length);
    if (record.refusal != 0) {
        printf("refused %" PRIu64 "\n", record.refusal);
        return 0;
    }
    print_fields(&record);
    cs_adr corrected = cs_rangecmp_adr(bytes, length);
    if (corrected.refusal != 0) {
        printf("refused %" PRIu64 "\n", corrected.refusal);
    } else {
        printf("rolls %" PRId64 "\ncorrected %" PRId64 "\n", corrected.rolls, corrected.adr);
    }
    cs_written written = cs_rangecmp_write(again, sizeof again, record);
    return written.refusal == 0 && written.length == length && memcmp(again, bytes, length) == 0 ? 0 : 1;
}
