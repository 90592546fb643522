/* Eight threads, each with every stored answer and both questions, from another place of the list each. */
#include "records.h"

#include <pthread.h>
#include <stdio.h>
#include <stdlib.h>
#include <string.h>

enum { THREADS = 8 };

static Record *records;
static size_t count;

typedef struct Work {
    size_t first, right, wrong;
} Work;

static int is_right(const Record *record) {
    uint8_t *out = malloc(record->answer_length + 1);
    SouperOutcome format, check, same;
    int right;
    if (out == NULL) {
        return 0;
    }
    format = souper_format(record->kind, record->text, record->text_length, out, record->answer_length);
    check = souper_check(record->kind, record->text, record->text_length);
    same = souper_same(record->kind, record->text, record->text_length, record->text, record->text_length);
    right = format.status == record->status && format.length == record->answer_length
        && memcmp(out, record->answer, format.length) == 0 && check.length == format.length && same.status == record->status;
    free(out);
    return right;
}

static void *work(void *argument) {
    Work *work = argument;
    for (size_t i = 0; i < count; i++) {
        if (is_right(&records[(work->first + i) % count])) {
            work->right++;
        } else {
            work->wrong++;
        }
    }
    return NULL;
}

int main(int argc, char **argv) {
    pthread_t threads[THREADS];
    Work works[THREADS];
    records = read_records(argc == 2 ? argv[1] : "", &count);
    for (size_t i = 0; i < THREADS; i++) {
        works[i] = (Work){i * count / THREADS, 0, 0};
        if (pthread_create(&threads[i], NULL, work, &works[i]) != 0) {
            return 2;
        }
    }
    for (size_t i = 0; i < THREADS; i++) {
        pthread_join(threads[i], NULL);
        passed += works[i].right;
        failed += works[i].wrong;
    }
    free_records(records);
    return summary("C: eight threads");
}
