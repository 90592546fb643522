/* The stored answers of crates/replay_answers/stdin: for each, a kind, a text, and what souper_format writes for it. */
#ifndef RECORDS_H
#define RECORDS_H

#include "souper.h"

typedef struct Record {
    uint32_t kind;
    uint32_t status; /* SOUPER_DONE or SOUPER_REFUSED */
    const uint8_t *text;
    size_t text_length;
    const uint8_t *answer;
    size_t answer_length;
} Record;

/* The records of a file, and their number. Ends the program if the file is not the 560 records from end to end. */
Record *read_records(const char *path, size_t *count);

/* Frees the records and their texts. */
void free_records(Record *records);

/* The number of cases that hold, and of those that do not. */
extern size_t passed, failed;

/* Counts a case, and says which it is if it does not hold. */
void expect(int holds, const char *what, const Record *record);

/* Prints what was counted, and returns the status of the program. */
int summary(const char *name);

#endif
