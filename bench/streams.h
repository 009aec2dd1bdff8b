/* The streams that both readers are measured on, the same in every run. */
#ifndef STREAMS_H
#define STREAMS_H

#include <stddef.h>
#include <stdint.h>

/* Messages of 7 observations, new and old by turns, with right checksums and nothing between them. */
void stream_clean(uint8_t *bytes, size_t length);

/* Bytes of a generator with a fixed seed. */
void stream_noise(uint8_t *bytes, size_t length);

/* MACM x FF, again and again: every sixth byte claims the longest old message, and none of them is one. */
void stream_hostile(uint8_t *bytes, size_t length);

/* What a bad link leaves: messages of all counts, some damaged, some cut short, with noise and parts of sync strings between them. */
void stream_mixed(uint8_t *bytes, size_t length);

/* What a receiver in flight sends: as clean, but with numbers of the size that they have there. */
void stream_usual(uint8_t *bytes, size_t length);

/* The same with 255 observations a message, the most that it can have. */
void stream_full(uint8_t *bytes, size_t length);

/* For the breaks: messages of so many observations with the numbers of a flight, in the new form and of TYPE 0, save one of eight, and with a few
 * breaks of either kind. */
void stream_locks(uint8_t *bytes, size_t length, uint8_t count);

#endif
