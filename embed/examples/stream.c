/* Prints the key of each item of a stream: stream lhs|rhs|rep <FILE. In memory are the bytes that were read last, and the unfinished
 * segment before them. Status 0: done; 1: a segment was refused, and reading went on after it; 2: the words are wrong; 3: the stream
 * could not be read, or is not UTF-8, or memory ran out. */
#include "souper.h"

#include <stdio.h>
#include <stdlib.h>
#include <string.h>

enum { STEP = 65536 };

/* Prints the keys of the items of a text. */
static uint32_t print_keys(uint32_t kind, const uint8_t *text, size_t length) {
    size_t room = 2 * length + 256;
    for (;;) {
        uint8_t *out = malloc(room);
        SouperOutcome outcome;
        if (out == NULL) {
            return SOUPER_OUT_OF_MEMORY;
        }
        /* A record is `; `, the key of 64 digits, a newline, the text and a byte 0. */
        outcome = souper_key(kind, SOUPER_KEY | SOUPER_NULL, text, length, out, room);
        for (size_t at = 0; outcome.status == SOUPER_DONE && at < outcome.length; at += strlen((char *)out + at) + 1) {
            printf("%.64s\n", (char *)out + at + 2);
        }
        free(out);
        if (outcome.status != SOUPER_SHORT) {
            return outcome.status;
        }
        room = outcome.length;
    }
}

static size_t count_lines(const uint8_t *text, size_t length) {
    size_t count = 0;
    for (size_t i = 0; i < length; i++) {
        count += text[i] == '\n';
    }
    return count;
}

/* Writes the hint for a refused segment, if there is one, with lines of the stream. */
static void print_hint(uint32_t kind, size_t lines, const uint8_t *text, size_t length) {
    char out[512];
    SouperOutcome outcome = souper_hint(kind, lines, text, length, (uint8_t *)out, sizeof out);
    if (outcome.status == SOUPER_REFUSED && outcome.length > 0) {
        fprintf(stderr, "hint: %.*s\n", (int)outcome.length, out);
    }
}

/* Whole segments: all in one call or, if one is invalid, one by one. `*line` is the number of lines before them. */
static int read_segments(uint32_t kind, const uint8_t *text, size_t length, size_t *line) {
    uint32_t done = print_keys(kind, text, length);
    int status = 0;
    if (done == SOUPER_DONE) {
        *line += count_lines(text, length);
        return 0;
    }
    while (length > 0) {
        SouperOutcome segment = souper_first_segment(kind, text, length);
        done = segment.status == SOUPER_DONE ? print_keys(kind, text, segment.length) : segment.status;
        if (done == SOUPER_REFUSED) {
            SouperLocation at = souper_locate(kind, text, segment.length);
            fprintf(stderr, "%zu:%zu: refused\n", *line + at.line, at.column);
            print_hint(kind, *line, text, segment.length);
            status = 1;
        } else if (done != SOUPER_DONE) {
            fprintf(stderr, "after line %zu: %s\n", *line, souper_status_text(done));
            return 3;
        }
        *line += count_lines(text, segment.length);
        text += segment.length;
        length -= segment.length;
    }
    return status;
}

int main(int argc, char **argv) {
    static const char *const words[] = {"lhs", "rhs", "rep"};
    size_t room = 0, length = 0, got = 1, line = 0;
    uint8_t *buffer = NULL;
    uint32_t kind = 0;
    int status = 0;
    while (kind < 3 && (argc != 2 || strcmp(argv[1], words[kind]) != 0)) {
        kind++;
    }
    if (kind == 3) {
        fprintf(stderr, "usage: stream lhs|rhs|rep\n");
        return 2;
    }
    while (status < 3 && got > 0) {
        SouperOutcome cut;
        int found;
        if (room - length < STEP) {
            uint8_t *larger = realloc(buffer, room = 2 * room + STEP);
            if (larger == NULL) {
                free(buffer);
                return 3;
            }
            buffer = larger;
        }
        got = fread(buffer + length, 1, STEP, stdin);
        length += got;
        /* At the end, and where bytes are not UTF-8, what is left is read. */
        cut = souper_last_cut(kind, buffer, length);
        if (got == 0 || cut.status == SOUPER_NOT_UTF8) {
            cut.length = length;
        }
        found = read_segments(kind, buffer, cut.length, &line);
        status = found > status ? found : status;
        memmove(buffer, buffer + cut.length, length -= cut.length);
    }
    free(buffer);
    return ferror(stdin) || fflush(stdout) != 0 ? 3 : status;
}
