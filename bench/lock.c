/* The history of lock in plain C: see lock.h. The message is checked once, and of each observation two fields are read. */
#include "lock.h"
#include "message.h"

#include <string.h>

/* Where TYPE stands in the new form, and in an observation SID and LOCKTIME; and the shortest message. */
enum { TYPE = 4, SID = 0, LOCKTIME = 20, SHORTEST = 15 };

void lock_fresh(lock_history *history, uint8_t signal) {
    memset(history, 0, sizeof *history);
    history->signal = signal;
}

static uint64_t check(const uint8_t *message, size_t length) {
    if (length < SHORTEST) {
        return CS_TOO_SHORT;
    }
    size_t claimed = message_claimed(message, length);
    if (claimed == MESSAGE_CLAIMS_NOTHING) {
        return CS_NO_SYNC;
    }
    if (claimed != length) {
        return CS_WRONG_LENGTH;
    }
    return message_agrees(message, length) ? 0 : CS_BAD_CHECKSUM;
}

/* Which of the two breaks it is that a SID appears with this time and lock count, or 0 for none. */
static uint64_t break_of(const lock_last *last, uint32_t time, uint32_t lock) {
    if (!last->seen) {
        return 0;
    }
    if (time < last->time) {
        return CS_CLOCK_BACK;
    }
    return lock < last->lock ? CS_NEW_LOCK : 0;
}

/* Takes all observations of a message; answers how many breaks are listed. */
static uint64_t list_breaks(const message_header *head, lock_history *history, uint64_t *list) {
    uint64_t count = 0;
    for (size_t i = 0; i < head->count; i++) {
        const uint8_t *observation = head->observations + MESSAGE_OBSERVATION * i;
        lock_last *last = &history->last[observation[SID]];
        uint32_t lock = message_word(observation + LOCKTIME);
        uint64_t which = break_of(last, head->time, lock);
        *last = (lock_last){1, head->time, lock};
        if (which != 0) {
            uint64_t *entry = list + 3 * count++;
            entry[0] = observation[SID];
            entry[1] = head->time;
            entry[2] = which;
        }
    }
    return count;
}

cs_listed lock_breaks(const uint8_t *message, size_t length, lock_history *history, uint64_t *list, size_t list_length) {
    uint64_t refusal = check(message, length);
    if (refusal != 0) {
        return (cs_listed){refusal, 0};
    }
    if (list_length < CS_BREAKS_NUMBERS) {
        return (cs_listed){CS_SMALL_BUFFER, 0};
    }
    message_header head = message_head(message);
    if (!head.new || message[TYPE] != history->signal) {
        return (cs_listed){0, 0};
    }
    return (cs_listed){0, list_breaks(&head, history, list)};
}
