/* The history of lock in plain C, for the library to be measured beside: what cs_breaks_fresh and cs_breaks do, refusals included. */
#ifndef LOCK_H
#define LOCK_H

#include "cablesound.h"

/* What is kept of a SID: whether it was seen, and its last time and lock count. */
typedef struct {
    int seen;
    uint32_t time, lock;
} lock_last;

/* The history of the messages of one TYPE, by SID. */
typedef struct {
    uint8_t signal;
    lock_last last[256];
} lock_history;

void lock_fresh(lock_history *history, uint8_t signal);
cs_listed lock_breaks(const uint8_t *message, size_t length, lock_history *history, uint64_t *list, size_t list_length);

#endif
