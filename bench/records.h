/* The library's calls on RANGECMP records, measured beside those of record.h, on random records: some are of another signal, some too wide. */
#ifndef RECORDS_H
#define RECORDS_H

/* Makes the records; answers 1 where both answer the same for each of them, bytes and refusals included, else 0. */
int records_agree(void);

/* Prints the nanoseconds that each call takes for a record; answers 1, or 0 where the two do not come to the same. */
int records_measure(void);

#endif
