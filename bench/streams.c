/* The streams that both readers are measured on: see streams.h. A message that the end cuts short is left cut. */
#include "streams.h"

#include <string.h>

enum { LONGEST = 6136 };

/* SplitMix64. */
static uint64_t next_random(uint64_t *seed) {
    uint64_t z = *seed += UINT64_C(0x9E3779B97F4A7C15);
    z = (z ^ z >> 30) * UINT64_C(0xBF58476D1CE4E5B9);
    z = (z ^ z >> 27) * UINT64_C(0x94D049BB133111EB);
    return z ^ z >> 31;
}

static void fill(uint8_t *bytes, size_t length, uint64_t *seed) {
    for (size_t at = 0; at < length; at += 8) {
        uint64_t word = next_random(seed);
        memcpy(bytes + at, &word, length - at < 8 ? length - at : 8);
    }
}

static size_t length_of(int new, uint8_t count) {
    return (new ? 16 : 15) + 24 * (size_t)count;
}

/* Makes a message of what stands there, by its sync string, its count and its checksum; answers its length. */
static size_t seal(uint8_t *bytes, int new, uint8_t count) {
    size_t length = length_of(new, count);
    uint8_t sum = 0;
    memcpy(bytes, new ? "MAC2" : "MACM", 4);
    bytes[new ? 6 : 5] = count;
    for (size_t i = 4; i < length - 1; i++) {
        sum ^= bytes[i];
    }
    bytes[length - 1] = sum;
    return length;
}

/* A whole message, of random fields; answers its length. */
static size_t make_message(uint8_t *bytes, int new, uint8_t count, uint64_t *seed) {
    fill(bytes, length_of(new, count), seed);
    return seal(bytes, new, count);
}

/* As much of a part as there is room for; answers where the next part goes. */
static size_t add(uint8_t *bytes, size_t length, size_t at, const void *part, size_t part_length) {
    size_t taken = part_length < length - at ? part_length : length - at;
    memcpy(bytes + at, part, taken);
    return at + taken;
}

void stream_clean(uint8_t *bytes, size_t length) {
    uint8_t message[LONGEST];
    uint64_t seed = 1;
    int new = 1;
    for (size_t at = 0; at < length; new = !new) {
        at = add(bytes, length, at, message, make_message(message, new, 7, &seed));
    }
}

void stream_noise(uint8_t *bytes, size_t length) {
    uint64_t seed = 2;
    fill(bytes, length, &seed);
}

void stream_hostile(uint8_t *bytes, size_t length) {
    for (size_t at = 0; at < length;) {
        at = add(bytes, length, at, "MACMx\xFF", 6);
    }
}

void stream_mixed(uint8_t *bytes, size_t length) {
    uint8_t part[LONGEST];
    uint64_t seed = 3;
    for (size_t at = 0; at < length;) {
        uint64_t random = next_random(&seed);
        size_t kind = random % 8, some = random >> 8 & 31, place = random >> 16;
        /* Few messages are long, so that there are many of them. */
        size_t size = make_message(part, random >> 63, (uint8_t)(some == 0 ? 255 : some % 8), &seed);
        if (kind == 0) {
            part[place % size] ^= 1;
        } else if (kind == 1) {
            size = place % size;
        } else if (kind == 2) {
            fill(part, size, &seed);
        } else if (kind == 3) {
            at = add(bytes, length, at, "MACMAC2", some % 8);
        }
        at = add(bytes, length, at, part, size);
    }
}

/* ---- what a receiver in flight sends */

/* A field of so many bytes; answers where the next one goes. */
static uint8_t *put(uint8_t *field, size_t bytes, uint64_t number) {
    for (size_t i = bytes; i > 0; i--) {
        field[i - 1] = (uint8_t)number;
        number >>= 8;
    }
    return field + bytes;
}

static uint64_t between(uint64_t *seed, uint64_t least, uint64_t most) {
    return least + next_random(seed) % (most - least + 1);
}

/* The bits of a double of 10^6 up to 2 * 10^8 cycles, with every bit of its fraction, and of either sign. */
static uint64_t make_phase(uint64_t *seed) {
    uint64_t random = next_random(seed), bits;
    double cycles = 1e6 + 199e6 * ((double)(random >> 11) / 9007199254740992.0);
    memcpy(&bits, &cycles, sizeof bits);
    return bits | random << 63;
}

/* All is valid, save the phase in one observation of 16; the polarity is one of the three that are defined. */
static uint64_t make_condition(uint64_t *seed) {
    static const uint64_t polarities[] = {0, 5, 7};
    return (between(seed, 1, 16) == 16 ? 0x3B : 0x3F) | polarities[between(seed, 0, 2)] << 8;
}

/* SID, CONDITION, C/N0, PHASE, PR of 20,000 up to 25,000 km, RATE of 5,000 Hz either way, lock of up to an hour. */
static void make_observation(uint8_t *at, uint64_t *seed) {
    at = put(at, 1, between(seed, 1, 32));
    at = put(at, 2, make_condition(seed));
    at = put(at, 1, between(seed, 30, 50));
    at = put(at, 8, make_phase(seed));
    at = put(at, 4, between(seed, 2001384572, 2501730714));
    at = put(at, 4, between(seed, 0, 100000000) - 50000000);
    put(at, 4, between(seed, 0, 1800000));
}

/* TYPE 0, with the TFOM, VERSION and OFFSET of the sample recording; answers where the observations go. */
static uint8_t *make_header(uint8_t *message, int new, uint64_t time) {
    uint8_t *field = new ? put(message + 4, 3, 0x000300) : put(message + 4, 2, 0x0200);
    return put(put(field, 4, time), 4, 0x407C1000);
}

/* Ten messages a second. */
static void make_flight(uint8_t *bytes, size_t length, uint8_t count) {
    uint8_t message[LONGEST];
    uint64_t seed = 4, time = 245370000;
    int new = 1;
    for (size_t at = 0; at < length; new = !new) {
        uint8_t *observations = make_header(message, new, time);
        for (size_t i = 0; i < count; i++) {
            make_observation(observations + 24 * i, &seed);
        }
        time += 100;
        at = add(bytes, length, at, message, seal(message, new, count));
    }
}

void stream_usual(uint8_t *bytes, size_t length) {
    make_flight(bytes, length, 7);
}

void stream_full(uint8_t *bytes, size_t length) {
    make_flight(bytes, length, 255);
}

/* A SID's lock count goes on by a tenth of a second at each appearance, save one in 64, where its lock is new. */
static void make_lock(uint8_t *observation, uint32_t *locks, uint64_t *seed) {
    uint32_t *lock = &locks[observation[0]];
    *lock = between(seed, 1, 64) == 64 ? 0 : *lock + 50;
    put(observation + 20, 4, *lock);
}

/* Of sixteen messages one has TYPE 1, and one is old, with VERSION 0 where the others have TYPE, so that its form alone tells it. The clock goes back
 * by two seconds once in 1,785 observations. */
void stream_locks(uint8_t *bytes, size_t length, uint8_t count) {
    uint8_t message[LONGEST];
    uint32_t locks[256];
    uint64_t seed = 5, time = 245370000;
    for (size_t sid = 0; sid < 256; sid++) {
        locks[sid] = (uint32_t)between(&seed, 0, 1800000);
    }
    for (size_t at = 0, made = 1; at < length; made++) {
        int new = made % 16 != 0;
        uint8_t *observations = make_header(message, new, time);
        message[4] = made % 16 == 8;
        for (size_t i = 0; i < count; i++) {
            make_observation(observations + 24 * i, &seed);
            make_lock(observations + 24 * i, locks, &seed);
        }
        time += 100;
        time -= between(&seed, 1, 1785) <= count ? 2000 : 0;
        at = add(bytes, length, at, message, seal(message, new, count));
    }
}
