/* Each allocation of each call refused in turn, by heap.c over an allocator that refuses the N-th, or all from it on: the call says that memory
 * ran out, or answers as if it had not; nothing leaks, and a buffer that is not written is as before.
 * To be linked with --wrap for malloc, realloc and free of heap.c. */
#include "records.h"

#include <stdio.h>
#include <stdlib.h>
#include <string.h>

void *__real_malloc(size_t size);
void *__real_realloc(void *block, size_t size);
void __real_free(void *block);
void *__wrap_malloc(size_t size);
void *__wrap_realloc(void *block, size_t size);
void __wrap_free(void *block);

static size_t asked, refused, live, ran_out;
static int refuses_the_rest;

static int is_refused(void) {
    asked++;
    return refused != 0 && (refuses_the_rest ? asked >= refused : asked == refused);
}

void *__wrap_malloc(size_t size) {
    void *block = is_refused() ? NULL : __real_malloc(size);
    live += block != NULL;
    return block;
}

void *__wrap_realloc(void *block, size_t size) {
    return is_refused() ? NULL : __real_realloc(block, size);
}

void __wrap_free(void *block) {
    live -= block != NULL;
    __real_free(block);
}

enum { FORMAT, CHECK, SAME, READ, WRITE, KEY, LOCATE, HINT, FLAW, FIND, CALLS };

static uint8_t out[1 << 16], code[1 << 16];
static size_t code_length;

static SouperOutcome locate(const Record *record) {
    SouperLocation location = souper_locate(record->kind, record->text, record->text_length);
    return (SouperOutcome){location.status, 0, 0, location.offset, location.line, location.column};
}

static SouperOutcome flaw(const Record *record) {
    SouperFlaw found = souper_flaw(record->kind, code, code_length);
    return (SouperOutcome){found.status, 0, 0, found.position, 0, 0};
}

/* As the store, or as what it is asked for. */
static SouperOutcome find(const Record *record) {
    static const char store[] = "%x:i8 = var infer %x result 1  %x:i8 = var infer %x result 2";
    static const char query[] = "%y:i8 = var infer %y";
    if (record->kind == SOUPER_REP) {
        return souper_find(record->text, record->text_length, (const uint8_t *)query, strlen(query), out, sizeof out);
    }
    return souper_find((const uint8_t *)store, strlen(store), record->text, record->text_length, out, sizeof out);
}

static SouperOutcome call(int which, const Record *record) {
    switch (which) {
    case FORMAT:
        memset(out, 0xaa, record->answer_length + 1);
        return souper_format(record->kind, record->text, record->text_length, out, record->answer_length);
    case CHECK:
        return souper_check(record->kind, record->text, record->text_length);
    case READ:
        return souper_read(record->kind, record->text, record->text_length, out, sizeof out);
    case WRITE:
        memset(out, 0xaa, record->answer_length + 1);
        return souper_write(record->kind, code, code_length, out, record->answer_length);
    case KEY:
        return souper_key(record->kind, SOUPER_KEY | SOUPER_RENAME, record->text, record->text_length, out, sizeof out);
    case LOCATE:
        return locate(record);
    case HINT:
        return souper_hint(record->kind, 3, record->text, record->text_length, out, sizeof out);
    case FLAW:
        return flaw(record);
    case FIND:
        return find(record);
    default:
        return souper_same(record->kind, record->text, record->text_length, record->answer, record->answer_length);
    }
}

/* The answer, or nothing if memory ran out, and the byte after it as before. */
static int is_written(const Record *record, uint32_t status) {
    if (out[record->answer_length] != 0xaa) {
        return 0;
    }
    for (size_t i = 0; i < record->answer_length; i++) {
        if (out[i] != (status == SOUPER_OUT_OF_MEMORY ? 0xaa : record->answer[i])) {
            return 0;
        }
    }
    return 1;
}

static void refuse_each(int which, const Record *record) {
    SouperOutcome wanted, outcome;
    size_t count;
    refused = asked = 0;
    wanted = call(which, record);
    count = asked;
    expect(live == 0, "that all is freed", record);
    for (size_t i = 1; i <= count; i++) {
        refused = i;
        asked = 0;
        outcome = call(which, record);
        expect(outcome.status == SOUPER_OUT_OF_MEMORY ? outcome.length == 0 && outcome.line == 0
                                                      : outcome.status == wanted.status && outcome.length == wanted.length,
               "the outcome without memory", record);
        expect(live == 0, "that all is freed without memory", record);
        ran_out += outcome.status == SOUPER_OUT_OF_MEMORY;
        expect((which != FORMAT && which != WRITE) || is_written(record, outcome.status), "the buffer without memory", record);
    }
}

/* Whether the call can be asked: the code of a text that is refused is none. */
static int has_call(int which, const Record *record) {
    if (which != WRITE && which != FLAW) {
        return 1;
    }
    refused = 0;
    SouperOutcome outcome = souper_read(record->kind, record->text, record->text_length, code, sizeof code);
    code_length = outcome.length;
    return outcome.status == SOUPER_DONE;
}

int main(int argc, char **argv) {
    size_t count;
    Record *records = read_records(argc == 2 ? argv[1] : "", &count);
    live = 0;
    for (size_t i = 0; i < count; i++) {
        expect(records[i].answer_length < sizeof out, "that its answer has room", &records[i]);
        for (int which = FORMAT; which < CALLS && records[i].answer_length < sizeof out; which++) {
            if (!has_call(which, &records[i])) {
                continue;
            }
            refuses_the_rest = 0;
            refuse_each(which, &records[i]);
            refuses_the_rest = 1;
            refuse_each(which, &records[i]);
        }
    }
    refused = 0;
    expect(ran_out > count, "that memory ran out more often than once a text", NULL);
    free_records(records);
    return summary("C: each allocation refused in turn");
}
