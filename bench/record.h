/* RANGECMP records in plain C, for the library to be measured beside. Each function does what cs_rangecmp_read, cs_rangecmp_write and cs_rangecmp_adr
 * do, refusals included. */
#ifndef RECORD_H
#define RECORD_H

#include "cablesound.h"

cs_rangecmp record_read(const uint8_t *record, size_t length);
cs_written record_write(uint8_t *output, size_t output_length, cs_rangecmp record);
cs_adr record_adr(const uint8_t *record, size_t length);

#endif
