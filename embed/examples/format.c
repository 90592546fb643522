/* Formats a file: format lhs|rhs|rep FILE. Status 0: the canonical texts are on standard output; 1: the text was refused;
 * 2: the words are wrong; 3: the file could not be read, or is not UTF-8, or the output failed, or memory ran out. */
#include "souper.h"

#include <stdio.h>
#include <stdlib.h>
#include <string.h>
#include <unistd.h>

/* The bytes of a file, or NULL. */
static uint8_t *read_file(const char *path, size_t *length) {
    FILE *file = fopen(path, "rb");
    uint8_t *bytes = NULL;
    long size;
    if (file == NULL) {
        return NULL;
    }
    if (fseek(file, 0, SEEK_END) == 0 && (size = ftell(file)) >= 0 && fseek(file, 0, SEEK_SET) == 0) {
        *length = (size_t)size;
        bytes = malloc(*length + 1);
        if (bytes != NULL && fread(bytes, 1, *length, file) != *length) {
            free(bytes);
            bytes = NULL;
        }
    }
    fclose(file);
    return bytes;
}

/* Calls souper_format with a buffer that is long enough. The buffer is NULL if there is no memory for it. */
static SouperOutcome format(uint32_t kind, const uint8_t *text, size_t length, uint8_t **out) {
    size_t room = length + length / 4 + 256;
    for (;;) {
        SouperOutcome outcome = {SOUPER_OUT_OF_MEMORY, 0, 0, 0, 0, 0};
        *out = malloc(room);
        if (*out == NULL) {
            return outcome;
        }
        outcome = souper_format(kind, text, length, *out, room);
        if (outcome.status != SOUPER_SHORT) {
            return outcome;
        }
        free(*out);
        room = outcome.length;
    }
}

static int kind_of(const char *word) {
    static const char *const words[] = {"lhs", "rhs", "rep"};
    for (int kind = SOUPER_LHS; kind <= SOUPER_REP; kind++) {
        if (strcmp(word, words[kind]) == 0) {
            return kind;
        }
    }
    return -1;
}

/* The length of the UTF-8 of a control character of two bytes, or of one that turns the direction of a text; else 0. */
static size_t hidden(const uint8_t *at, const uint8_t *end) {
    if (end - at > 1 && at[0] == 0xc2 && at[1] < 0xa0) {
        return 2;
    }
    if (end - at > 2 && at[0] == 0xe2) {
        return (at[1] == 0x80 && at[2] >= 0xaa && at[2] <= 0xae) || (at[1] == 0x81 && at[2] >= 0xa6 && at[2] <= 0xa9) ? 3 : 0;
    }
    return 0;
}

/* Writes what a parse error shows. At a terminal, what that may obey is another character. */
static void show(const uint8_t *text, size_t length) {
    const uint8_t *end = text + length;
    if (!isatty(STDERR_FILENO)) {
        fwrite(text, 1, length, stderr);
        return;
    }
    while (text < end) {
        size_t bytes = hidden(text, end);
        if (bytes > 0) {
            fputs("\xef\xbf\xbd", stderr);
            text += bytes;
            continue;
        }
        if ((*text < 0x20 && *text != '\n') || *text == 0x7f) {
            fprintf(stderr, "\xe2\x90%c", *text == 0x7f ? 0xa1 : 0x80 + *text);
        } else {
            fputc(*text, stderr);
        }
        text++;
    }
}

/* Writes the hint for a refused text, if there is one. One that is longer than the buffer is left out. */
static void show_hint(uint32_t kind, const uint8_t *text, size_t length) {
    uint8_t out[512];
    SouperOutcome outcome = souper_hint(kind, 0, text, length, out, sizeof out);
    if (outcome.status == SOUPER_REFUSED && outcome.length > 0) {
        fputs("hint: ", stderr);
        show(out, outcome.length);
        fputc('\n', stderr);
    }
}

int main(int argc, char **argv) {
    int kind = argc == 3 ? kind_of(argv[1]) : -1, status = 3;
    size_t length = 0;
    uint8_t *text, *out;
    SouperOutcome outcome;
    if (kind < 0) {
        fprintf(stderr, "usage: format lhs|rhs|rep FILE\n");
        return 2;
    }
    text = read_file(argv[2], &length);
    if (text == NULL) {
        perror(argv[2]);
        return 3;
    }
    outcome = format((uint32_t)kind, text, length, &out);
    switch (outcome.status) {
    case SOUPER_DONE:
        status = fwrite(out, 1, outcome.length, stdout) == outcome.length && fflush(stdout) == 0 ? 0 : 3;
        break;
    case SOUPER_REFUSED:
        fprintf(stderr, "%s:%zu:%zu (byte %zu)\n", argv[2], outcome.line, outcome.column, outcome.offset);
        show(out, outcome.length);
        fputc('\n', stderr);
        show_hint((uint32_t)kind, text, length);
        status = 1;
        break;
    default:
        fprintf(stderr, "%s: %s\n", argv[2], souper_status_text(outcome.status));
    }
    free(out);
    free(text);
    return status;
}
