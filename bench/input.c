/* Standard input as a recording: see input.h. */
#include "input.h"

#include <unistd.h>

void input_open(input *in) {
    reader_open(&in->reader);
    in->taken = 0;
    in->got = 0;
    in->failed = 0;
}

/* The next block, or the end of the stream. */
static void refill(input *in) {
    ssize_t got = read(STDIN_FILENO, in->block, sizeof in->block);
    in->failed = got < 0;
    in->taken = 0;
    in->got = got > 0 ? (size_t)got : 0;
    if (got <= 0) {
        reader_end(&in->reader);
    }
}

int input_next(input *in, reader_message *message) {
    while (!reader_next(&in->reader, message)) {
        if (in->reader.ended) {
            return 0;
        }
        if (in->taken == in->got) {
            refill(in);
        }
        in->taken += reader_put(&in->reader, in->block + in->taken, in->got - in->taken);
    }
    return 1;
}
