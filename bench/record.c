/* RANGECMP records in plain C: see record.h. Shifts and masks over three words, and 128 bits for the rolls. */
#include "record.h"

#include <string.h>

/* The three words of a record. The machine has the least significant byte first, too. */
typedef struct {
    uint64_t low, middle, high;
} words;

static words load(const uint8_t *record) {
    words w;
    memcpy(&w, record, sizeof w);
    return w;
}

/* The Doppler has bits 32 to 59: up to the top, and down again with its sign. */
cs_rangecmp record_read(const uint8_t *record, size_t length) {
    if (length != CS_RANGECMP_BYTES) {
        return (cs_rangecmp){.refusal = CS_OTHER_LENGTH};
    }
    words w = load(record);
    return (cs_rangecmp){
        .status = w.low & 0xFFFFFFFF,
        .doppler = (int64_t)(w.low << 4) >> 36,
        .range = w.low >> 60 | (w.middle & 0xFFFFFFFF) << 4,
        .adr = (int64_t)w.middle >> 32,
        .range_deviation = w.high & 15,
        .adr_deviation = w.high >> 4 & 15,
        .prn = w.high >> 8 & 255,
        .lock = w.high >> 16 & 0x1FFFFF,
        .cn0 = (w.high >> 37 & 31) + 20,
        .reserved = w.high >> 42,
    };
}

static int fits(const cs_rangecmp *r) {
    uint64_t above = r->status >> 32 | r->range >> 36 | r->range_deviation >> 4 | r->adr_deviation >> 4 | r->prn >> 8 | r->lock >> 21;
    above |= r->reserved >> 22;
    return above == 0 && r->cn0 - 20 < 32 && (uint64_t)r->doppler + (1 << 27) < 1 << 28 && r->adr == (int32_t)r->adr;
}

cs_written record_write(uint8_t *output, size_t output_length, cs_rangecmp r) {
    if (!fits(&r)) {
        return (cs_written){CS_TOO_WIDE, 0};
    }
    if (output_length < CS_RANGECMP_BYTES) {
        return (cs_written){CS_NO_ROOM, 0};
    }
    words w = {
        r.status | ((uint64_t)r.doppler & 0xFFFFFFF) << 32 | r.range << 60,
        r.range >> 4 | (uint64_t)r.adr << 32,
        r.range_deviation | r.adr_deviation << 4 | r.prn << 8 | r.lock << 16 | (r.cn0 - 20) << 37 | r.reserved << 42,
    };
    memcpy(output, &w, sizeof w);
    return (cs_written){0, sizeof w};
}

/* (range / wavelength + ADR) / 2^23 over its one denominator: twice the fraction and a half, cut, is the nearest, halves away from zero. */
static int64_t rolls_of(uint64_t range, int64_t adr) {
    const __int128 wavelength = 1902936727984, rolled = wavelength << 31;
    __int128 scaled = (__int128)range * 20000000000000 + wavelength * adr;
    return (int64_t)((2 * scaled + (scaled < 0 ? -rolled : rolled)) / (2 * rolled));
}

cs_adr record_adr(const uint8_t *record, size_t length) {
    if (length != CS_RANGECMP_BYTES) {
        return (cs_adr){.refusal = CS_OTHER_LENGTH};
    }
    words w = load(record);
    if ((w.low & 0x03E70000) != 0) {
        return (cs_adr){.refusal = CS_OTHER_SIGNAL};
    }
    int64_t adr = (int64_t)w.middle >> 32, rolls = rolls_of(w.low >> 60 | (w.middle & 0xFFFFFFFF) << 4, adr);
    return (cs_adr){0, rolls, adr - rolls * (INT64_C(1) << 31)};
}
