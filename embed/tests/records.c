#include "records.h"

#include <stdio.h>
#include <stdlib.h>
#include <string.h>

size_t passed, failed;

/* The bytes that the texts of the records lie in. */
static uint8_t *all;

static void give_up(const char *path) {
    fprintf(stderr, "%s: no records\n", path);
    exit(2);
}

/* The bytes of a file, with a 0 after the last. */
static uint8_t *read_file(const char *path, size_t *length) {
    FILE *file = fopen(path, "rb");
    size_t room = 1 << 16, got;
    uint8_t *bytes = malloc(room + 1);
    *length = 0;
    if (file == NULL || bytes == NULL) {
        give_up(path);
    }
    while ((got = fread(bytes + *length, 1, room - *length, file)) > 0) {
        *length += got;
        if (*length == room) {
            bytes = realloc(bytes, (room *= 2) + 1);
            if (bytes == NULL) {
                give_up(path);
            }
        }
    }
    fclose(file);
    bytes[*length] = 0;
    return bytes;
}

static uint32_t kind_of(const char *word) {
    return strcmp(word, "lhs") == 0 ? SOUPER_LHS : strcmp(word, "rhs") == 0 ? SOUPER_RHS : SOUPER_REP;
}

Record *read_records(const char *path, size_t *count) {
    size_t length, room = 0;
    const uint8_t *at = all = read_file(path, &length), *end = at + length;
    Record *records = NULL;
    for (*count = 0; at < end; ++*count) {
        Record record;
        char kind[4];
        int head = 0;
        if (*count == room) {
            room = room ? 2 * room : 64;
            records = realloc(records, room * sizeof *records);
        }
        if (records == NULL
            || sscanf((const char *)at, "%3s %u %*s %zu %zu%n", kind, &record.status, &record.text_length, &record.answer_length, &head) != 4) {
            give_up(path);
        }
        record.kind = kind_of(kind);
        record.text = at + head + 1;
        record.answer = record.text + record.text_length + 1;
        at = record.answer + record.answer_length + 1;
        records[*count] = record;
    }
    if (at != end || *count != 560) {
        give_up(path);
    }
    return records;
}

void free_records(Record *records) {
    free(records);
    free(all);
}

void expect(int holds, const char *what, const Record *record) {
    if (holds) {
        passed++;
        return;
    }
    failed++;
    printf("  %s does not hold", what);
    if (record != NULL) {
        printf(" of %.*s", (int)record->text_length, (const char *)record->text);
    }
    printf("\n");
}

int summary(const char *name) {
    printf("%s: %zu passed, %zu failed\n", name, passed, failed);
    return failed != 0;
}
