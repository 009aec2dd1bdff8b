/* A careful reader of MACM in plain C, for the library to be measured beside: fixed memory, pieces in, messages and gaps out.
 *
 * Put a piece, take messages until there is none, put the rest; at the end of the stream say so and take what is left.
 */
#ifndef READER_H
#define READER_H

#include "message.h"

/* A window of twice the longest message: as much memory as the library's window and output together. */
#define READER_WINDOW (2 * MESSAGE_LONGEST)

/* The held bytes are those from start up to end. gap counts the gap bytes since the last message. */
typedef struct {
    uint8_t window[READER_WINDOW];
    size_t start, end;
    uint64_t gap;
    int ended;
} reader;

/* A message, which stands in the window until the next call, and the gap bytes before it. */
typedef struct {
    const uint8_t *bytes;
    size_t length;
    uint64_t gap;
} reader_message;

void reader_open(reader *r);

/* Takes as much of the piece as the window has room for, and answers how much. Once reader_next has answered 0 there is room for a byte or more. */
size_t reader_put(reader *r, const uint8_t *piece, size_t length);

/* Answers 1 and the next message, or 0: more bytes are needed, or the stream is over and gap has the gap bytes that are left. */
int reader_next(reader *r, reader_message *message);

/* The stream ends here: what is unsettled for want of bytes alone is gap. */
void reader_end(reader *r);

#endif
