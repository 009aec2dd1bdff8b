/* Standard input as a recording, read in large blocks over the careful reader: what the programs in C share. */
#ifndef INPUT_H
#define INPUT_H

#include "reader.h"

enum { INPUT_BLOCK = 65536 };

/* The reader, and the block that it is fed: taken of got bytes so far. failed is 1 where reading has failed. */
typedef struct {
    reader reader;
    uint8_t block[INPUT_BLOCK];
    size_t taken, got;
    int failed;
} input;

void input_open(input *in);

/* Answers 1 and the next message; or 0, and the reader has the gap bytes that are left. */
int input_next(input *in, reader_message *message);

#endif
