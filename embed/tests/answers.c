/* Each stored answer through C: what is written, by buffers of every length up to the one that is wanted, and what the two
 * questions answer of the same text. Bytes of a buffer that a call may not write are seen to be as before. */
#include "records.h"

#include <stdio.h>
#include <stdlib.h>
#include <string.h>

static const SouperOutcome nothing;

static int equal(SouperOutcome a, SouperOutcome b) {
    return a.status == b.status && a.input == b.input && a.length == b.length && a.offset == b.offset && a.line == b.line
        && a.column == b.column;
}

static int untouched(const uint8_t *bytes, size_t length) {
    for (size_t i = 0; i < length; i++) {
        if (bytes[i] != 0xaa) {
            return 0;
        }
    }
    return 1;
}

static uint8_t *buffer(size_t length) {
    uint8_t *out = malloc(length ? length : 1);
    if (out == NULL) {
        exit(2);
    }
    return memset(out, 0xaa, length ? length : 1);
}

/* The line and the column are those of the byte before the offset, or of the first, and those that the answer begins with. */
static int is_place(const Record *record, SouperOutcome outcome) {
    size_t line = 1, column = 1;
    char head[64];
    if (outcome.offset > record->text_length) {
        return 0;
    }
    for (size_t i = 0; i + 1 < outcome.offset; i++) {
        column = record->text[i] == '\n' ? 1 : column + 1;
        line += record->text[i] == '\n';
    }
    snprintf(head, sizeof head, "unknown:%zu:%zu: ", line, column);
    return outcome.line == line && outcome.column == column && strlen(head) <= record->answer_length
        && memcmp(record->answer, head, strlen(head)) == 0;
}

/* The line and the column are those of the byte at the offset, or of the end. A token is not at fault in white space. */
static int is_location(const Record *record, SouperOutcome outcome, SouperLocation location) {
    size_t line = 1, column = 1;
    if (location.status != SOUPER_REFUSED || location.at_end > 1 || location.offset > record->text_length) {
        return 0;
    }
    for (size_t i = 0; i < location.offset; i++) {
        column = record->text[i] == '\n' ? 1 : column + 1;
        line += record->text[i] == '\n';
    }
    for (size_t i = location.offset; location.at_end && i < record->text_length; i++) {
        if (strchr(" \t\n\f\r", record->text[i]) == NULL || record->text[i] == 0) {
            return 0;
        }
    }
    return location.line == line && location.column == column && (location.at_end || location.offset == outcome.offset);
}

static int is_located(SouperLocation a, uint32_t status, uint32_t at_end, size_t offset, size_t line, size_t column) {
    return a.status == status && a.at_end == at_end && a.offset == offset && a.line == line && a.column == column;
}

static void lengths(const Record *record) {
    for (size_t length = 0; length < record->answer_length; length++) {
        uint8_t *out = buffer(length);
        SouperOutcome short_outcome = nothing;
        SouperOutcome outcome = souper_format(record->kind, record->text, record->text_length, out, length);
        short_outcome.status = SOUPER_SHORT;
        short_outcome.length = record->answer_length;
        expect(equal(outcome, short_outcome) && untouched(out, length), "short", record);
        free(out);
    }
}

static SouperOutcome written(const Record *record, size_t more) {
    size_t length = record->answer_length + more;
    uint8_t *out = buffer(length);
    SouperOutcome outcome = souper_format(record->kind, record->text, record->text_length, out, length);
    expect(outcome.status == record->status && outcome.input == 0 && outcome.length == record->answer_length, "its status", record);
    expect(memcmp(out, record->answer, record->answer_length) == 0, "what is written", record);
    expect(untouched(out + record->answer_length, more), "the rest of the buffer", record);
    free(out);
    return outcome;
}

/* The canonical texts from the code, by buffers of every length up to the one that is wanted; a code that is cut off is none. */
static void written_back(const Record *record, const uint8_t *code, size_t length) {
    for (size_t room = 0; room <= record->answer_length; room++) {
        uint8_t *out = buffer(room);
        SouperOutcome wanted = nothing, outcome = souper_write(record->kind, code, length, out, room);
        wanted.status = room < record->answer_length ? SOUPER_SHORT : SOUPER_DONE;
        wanted.length = record->answer_length;
        expect(equal(outcome, wanted), "the outcome for a code", record);
        expect(wanted.status == SOUPER_DONE ? memcmp(out, record->answer, room) == 0 : untouched(out, room), "what is written of a code", record);
        free(out);
    }
    if (length > 0) {
        uint8_t byte = 0xaa;
        SouperOutcome outcome = souper_write(record->kind, code, length - 1, &byte, 1);
        expect(outcome.status == SOUPER_NO_CODE && outcome.offset < length && byte == 0xaa, "a code that is cut off", record);
    }
}

/* The records without flags are the canonical texts but for the newline that the text of a right-hand side lacks. */
static void recorded(const Record *record) {
    for (size_t room = 0; record->kind != SOUPER_RHS && room <= record->answer_length; room++) {
        uint8_t *out = buffer(room);
        SouperOutcome outcome = souper_key(record->kind, 0, record->text, record->text_length, out, room);
        uint32_t wanted = room < record->answer_length ? (uint32_t)SOUPER_SHORT : record->status;
        expect(outcome.status == wanted && outcome.length == record->answer_length, "the outcome of records", record);
        expect(wanted == SOUPER_SHORT ? untouched(out, room) : memcmp(out, record->answer, room) == 0, "the records", record);
        free(out);
    }
}

/* The code: a buffer that is too short stays as it is, one of the length takes it; what is refused is refused as by format. */
static void codes(const Record *record, SouperOutcome format) {
    uint8_t *out = buffer(0);
    SouperOutcome outcome = souper_read(record->kind, record->text, record->text_length, out, 0);
    free(out);
    if (record->status == SOUPER_REFUSED) {
        expect(outcome.status == SOUPER_SHORT && outcome.length == format.length, "the length of a refusal in place of code", record);
        return;
    }
    size_t length = outcome.length;
    expect(outcome.status == (length ? SOUPER_SHORT : SOUPER_DONE), "the length of the code", record);
    for (size_t less = length < 9 ? length : 9; less > 0; less--) {
        out = buffer(length - less);
        outcome = souper_read(record->kind, record->text, record->text_length, out, length - less);
        expect(outcome.status == SOUPER_SHORT && outcome.length == length && untouched(out, length - less), "short code", record);
        free(out);
    }
    out = buffer(length + 1);
    outcome = souper_read(record->kind, record->text, record->text_length, out, length + 1);
    expect(outcome.status == SOUPER_DONE && outcome.length == length && untouched(out + length, 1), "the code", record);
    written_back(record, out, length);
    free(out);
}

static void questions(const Record *record, SouperOutcome format) {
    SouperOutcome check = souper_check(record->kind, record->text, record->text_length);
    SouperOutcome first = souper_same(record->kind, record->text, record->text_length, record->answer, record->answer_length);
    SouperOutcome second = souper_same(record->kind, (const uint8_t *)"", 0, record->text, record->text_length);
    SouperOutcome wanted = nothing;
    SouperLocation location = souper_locate(record->kind, record->text, record->text_length);
    uint8_t room[1024];
    size_t written;
    memset(room, 0xaa, sizeof room);
    SouperOutcome hint = souper_hint(record->kind, 0, record->text, record->text_length, room, sizeof room);
    if (record->status == SOUPER_REFUSED) {
        expect(is_place(record, format), "its place", record);
        expect(is_location(record, format, location), "its location", record);
        wanted.length = hint.length;
        wanted.status = hint.length <= sizeof room ? SOUPER_REFUSED : SOUPER_SHORT;
        written = wanted.status == SOUPER_REFUSED ? hint.length : 0;
        expect(equal(hint, wanted) && untouched(room + written, sizeof room - written), "its hint", record);
        expect(equal(check, format), "the check of what is refused", record);
        expect(equal(first, format), "a first text that is refused", record);
        format.input = 1;
        expect(equal(second, format), "a second text that is refused", record);
        return;
    }
    int is_same = record->text_length == record->answer_length && memcmp(record->text, record->answer, record->text_length) == 0;
    wanted.length = record->answer_length;
    expect(equal(format, wanted), "an outcome without a place", record);
    expect(is_located(location, SOUPER_DONE, 0, 0, 0, 0), "no location", record);
    expect(equal(hint, nothing) && untouched(room, sizeof room), "no hint", record);
    wanted.status = is_same ? SOUPER_DONE : SOUPER_DIFFERENT;
    expect(equal(check, wanted), "whether it is canonical", record);
    wanted = nothing;
    expect(equal(first, wanted), "that it is the same as its canonical text", record);
    wanted.status = record->answer_length ? SOUPER_DIFFERENT : SOUPER_DONE;
    expect(equal(second, wanted), "whether it is the same as no items", record);
    check = souper_check(record->kind, record->answer, record->answer_length);
    expect(check.status == SOUPER_DONE, "that a canonical text is canonical", record);
}

/* Two texts are the same if and only if their canonical texts are: a record and the next one of its kind. */
static void neighbors(const Record *record, const Record *next) {
    SouperOutcome wanted = nothing, outcome;
    int is_same = record->answer_length == next->answer_length && memcmp(record->answer, next->answer, next->answer_length) == 0;
    outcome = souper_same(record->kind, record->text, record->text_length, next->text, next->text_length);
    wanted.status = is_same ? SOUPER_DONE : SOUPER_DIFFERENT;
    expect(equal(outcome, wanted), "whether it is the same as the next", record);
}

/* The segments of a text's whole lines make up these lines, and the last begins at the last cut point. */
static void cuts(const Record *record) {
    size_t lines = record->text_length, at = 0, last = 0;
    SouperOutcome wanted = nothing;
    while (lines > 0 && record->text[lines - 1] != '\n') {
        lines--;
    }
    while (at < lines) {
        SouperOutcome segment = souper_first_segment(record->kind, record->text + at, lines - at);
        wanted.length = segment.length;
        expect(equal(segment, wanted) && segment.length > 0 && segment.length <= lines - at, "a segment", record);
        expect(record->text[at + segment.length - 1] == '\n', "that a segment ends with a line", record);
        last = at;
        at += segment.length > 0 ? segment.length : lines;
    }
    wanted.length = last;
    expect(at == lines, "that the segments make up the text", record);
    expect(equal(souper_last_cut(record->kind, record->text, record->text_length), wanted), "the last cut point", record);
}

/* As a store that is asked nothing, or as left-hand sides that an empty store is asked for: a byte 0 for each. */
static void asked(const Record *record, SouperOutcome format) {
    int is_store = record->kind == SOUPER_REP;
    const uint8_t *none = (const uint8_t *)"";
    size_t room = record->answer_length, count = 0;
    uint8_t *out = buffer(room);
    SouperOutcome outcome = is_store ? souper_find(record->text, record->text_length, none, 0, out, room)
                                     : souper_find(none, 0, record->text, record->text_length, out, room);
    if (record->status == SOUPER_REFUSED) {
        format.input = is_store ? 0 : 1;
        expect(equal(outcome, format) && memcmp(out, record->answer, room) == 0, "a store or a query that is refused", record);
    } else {
        SouperOutcome wanted = nothing;
        for (size_t i = 1; !is_store && i < room; i++) {
            count += record->answer[i - 1] == '\n' && record->answer[i] == '\n';
        }
        wanted.length = count;
        expect(equal(outcome, wanted) && untouched(out + count, room - count), "the answers of an empty store", record);
        while (count > 0 && out[count - 1] == 0) {
            count--;
        }
        expect(count == 0, "that there are none", record);
    }
    free(out);
}

static const Record *next_of_kind(const Record *record, const Record *end) {
    for (const Record *next = record + 1; next < end; next++) {
        if (next->kind == record->kind && next->status == SOUPER_DONE && next->answer_length > 0) {
            return next;
        }
    }
    return NULL;
}

/* Offset, line and column are counted by hand. */
static void locations(void) {
    static const struct {
        uint32_t kind;
        const char *text;
        uint32_t at_end;
        size_t offset, line, column;
    } rows[] = {
        {SOUPER_LHS, "%x = var\n%y = frob %x\ninfer %y", 0, 14, 2, 6},
        {SOUPER_LHS, "%x = var\n%x = var\ninfer %x", 0, 9, 2, 1},
        {SOUPER_LHS, "%x = var\ninfer %x\n\n%y = var\ninfer %z\n", 0, 34, 5, 7},
        {SOUPER_LHS, "5", 0, 0, 1, 1},
        {SOUPER_LHS, "%x = var ; \u00e9\ninfer\u2003%x 5", 0, 25, 2, 12},
        {SOUPER_LHS, "%x = var\ninfer", 1, 14, 2, 6},
        {SOUPER_LHS, "%x = var\ninfer\n", 1, 14, 2, 6},
        {SOUPER_LHS, "%x = var\ninfer \t\n  ", 1, 14, 2, 6},
        {SOUPER_RHS, "result 1\nresult", 1, 15, 2, 7},
        {SOUPER_REP, "%x = var\ncand %x", 1, 16, 2, 8},
    };
    for (size_t i = 0; i < sizeof rows / sizeof *rows; i++) {
        SouperLocation found = souper_locate(rows[i].kind, (const uint8_t *)rows[i].text, strlen(rows[i].text));
        expect(is_located(found, SOUPER_REFUSED, rows[i].at_end, rows[i].offset, rows[i].line, rows[i].column), rows[i].text, NULL);
    }
}

/* The hints of rejected texts, by buffers of every length. */
static void hints(void) {
    static const char twice[] = "%x = var\n%left = var\n%left = var\ninfer %left\n";
    static const struct {
        uint32_t kind;
        size_t lines;
        const char *text, *hint;
    } rows[] = {
        {SOUPER_LHS, 0, "%x = var\n%y = ad %x, 1\ninfer %y", "did you mean 'add'?"},
        {SOUPER_RHS, 5, "%x = var\nreslt %x", "did you mean 'result'?"},
        {SOUPER_REP, 0, "cnd 1 2", "did you mean 'cand'?"},
        {SOUPER_LHS, 0, "%x = var\n", "the 'infer' line is missing at the end"},
        {SOUPER_LHS, 0, "%x = var\ninfer %y", ""},
        {SOUPER_LHS, 0, twice, "'%left' is defined on line 2"},
        {SOUPER_LHS, 3, twice, "'%left' is defined on line 5"},
    };
    for (size_t i = 0; i < sizeof rows / sizeof *rows; i++) {
        size_t length = strlen(rows[i].hint);
        for (size_t room = 0; room <= length + 3; room++) {
            uint8_t *out = buffer(room);
            SouperOutcome wanted = nothing;
            SouperOutcome outcome = souper_hint(rows[i].kind, rows[i].lines, (const uint8_t *)rows[i].text, strlen(rows[i].text), out, room);
            wanted.status = room < length ? SOUPER_SHORT : SOUPER_REFUSED;
            wanted.length = length;
            expect(equal(outcome, wanted), rows[i].hint, NULL);
            if (wanted.status == SOUPER_SHORT) {
                expect(untouched(out, room), "a short hint", NULL);
            } else {
                expect(memcmp(out, rows[i].hint, length) == 0 && untouched(out + length, room - length), rows[i].hint, NULL);
            }
            free(out);
        }
    }
    uint8_t byte = 0xaa;
    SouperOutcome outcome = souper_hint(SOUPER_LHS, SIZE_MAX, (const uint8_t *)twice, strlen(twice), &byte, 1);
    expect(outcome.status == SOUPER_SHORT && byte == 0xaa, "a hint after more lines than there can be", NULL);
}

/* Two replacements with one left-hand side, the first of them twice, by buffers of every length; a left-hand side without an answer. */
static void found(void) {
    static const char store[] = "%x:i32 = var %y = mul %x, 2 infer %y %z = shl %x, 1 result %z  %a:i32 = var %b = mul %a, 2 cand %b 0 "
                                "%c:i32 = var %d = mul %c, 2 %e = shl %c, 1 cand %d %e  cand 3 4";
    static const char queries[] = "%n:i32 = var %t = mul %n, 2 infer %t  %n:i32 = var infer %n  %3:i32 = var %2 = mul %3, 2 infer %2";
    static const char answers[] = "%n:i32 = var\n%t = mul %n, 2\ninfer %t\n%2 = shl %n, 1\nresult %2\n\n"
                                  "%n:i32 = var\n%t = mul %n, 2\ninfer %t\nresult 0\n\n\0"
                                  "\0"
                                  "%3:i32 = var\n%2 = mul %3, 2\ninfer %2\n%4 = shl %3, 1\nresult %4\n\n"
                                  "%3:i32 = var\n%2 = mul %3, 2\ninfer %2\nresult 0\n\n";
    for (size_t room = 0; room <= sizeof answers + 3; room++) {
        uint8_t *out = buffer(room);
        SouperOutcome wanted = nothing;
        SouperOutcome outcome = souper_find((const uint8_t *)store, strlen(store), (const uint8_t *)queries, strlen(queries), out, room);
        wanted.status = room < sizeof answers ? SOUPER_SHORT : SOUPER_DONE;
        wanted.length = sizeof answers;
        expect(equal(outcome, wanted), "the outcome of answers", NULL);
        if (wanted.status == SOUPER_SHORT) {
            expect(untouched(out, room), "short answers", NULL);
        } else {
            expect(memcmp(out, answers, sizeof answers) == 0 && untouched(out + sizeof answers, room - sizeof answers), "the answers", NULL);
        }
        free(out);
    }
}

/* What no number may do: a kind that is none, bytes that are no text, no bytes. */
static void numbers(void) {
    static const uint32_t none[] = {3, 7, 256, 0x80000000u, UINT32_MAX};
    uint8_t byte = 0xaa, empty = 0, bad[] = {'%', 'x', 0xff}, bad_line[] = {0xff, '\n'};
    uint32_t width = 0xaa;
    SouperOutcome no_kind = nothing, no_text = nothing;
    no_kind.status = SOUPER_NO_KIND;
    no_text.status = SOUPER_NOT_UTF8;
    SouperOutcome second_text = no_text;
    second_text.input = 1;
    expect(equal(souper_find(bad, sizeof bad, bad, sizeof bad, &byte, 1), no_text) && byte == 0xaa, "no text, store", NULL);
    expect(equal(souper_find(&empty, 0, bad, sizeof bad, &byte, 1), second_text) && byte == 0xaa, "no text, queries", NULL);
    expect(equal(souper_find(&empty, 0, &empty, 0, &byte, 0), nothing) && byte == 0xaa, "no bytes, find", NULL);
    for (size_t i = 0; i < sizeof none / sizeof *none; i++) {
        expect(equal(souper_format(none[i], bad, sizeof bad, &byte, 1), no_kind) && byte == 0xaa, "no kind", NULL);
        expect(equal(souper_read(none[i], bad, sizeof bad, &byte, 1), no_kind) && byte == 0xaa, "no kind, code", NULL);
        expect(equal(souper_write(none[i], bad, sizeof bad, &byte, 1), no_kind) && byte == 0xaa, "no kind, write", NULL);
        expect(equal(souper_key(none[i], 0, bad, sizeof bad, &byte, 1), no_kind) && byte == 0xaa, "no kind, key", NULL);
        expect(equal(souper_check(none[i], bad, sizeof bad), no_kind), "no kind, check", NULL);
        expect(is_located(souper_locate(none[i], bad, sizeof bad), SOUPER_NO_KIND, 0, 0, 0, 0), "no kind, locate", NULL);
        expect(equal(souper_hint(none[i], 0, bad, sizeof bad, &byte, 1), no_kind) && byte == 0xaa, "no kind, hint", NULL);
        expect(souper_flaw(none[i], bad, sizeof bad).status == SOUPER_NO_KIND, "no kind, flaw", NULL);
        expect(souper_widths(none[i], bad, sizeof bad, &width, 1).status == SOUPER_NO_KIND && width == 0xaa, "no kind, widths", NULL);
        expect(equal(souper_last_cut(none[i], bad, sizeof bad), no_kind), "no kind, last cut", NULL);
        expect(equal(souper_first_segment(none[i], bad, sizeof bad), no_kind), "no kind, first segment", NULL);
        expect(equal(souper_same(none[i], bad, sizeof bad, bad, sizeof bad), no_kind), "no kind, same", NULL);
    }
    for (uint32_t kind = SOUPER_LHS; kind <= SOUPER_REP; kind++) {
        expect(equal(souper_format(kind, bad, sizeof bad, &byte, 1), no_text) && byte == 0xaa, "no text", NULL);
        expect(equal(souper_read(kind, bad, sizeof bad, &byte, 1), no_text) && byte == 0xaa, "no text, code", NULL);
        expect(equal(souper_key(kind, 7, bad, sizeof bad, &byte, 1), no_text) && byte == 0xaa, "no text, key", NULL);
        expect(souper_key(kind, 8, bad, sizeof bad, &byte, 1).status == SOUPER_NO_FLAGS && byte == 0xaa, "no flags", NULL);
        expect(souper_write(kind, bad, sizeof bad, &byte, 1).status == SOUPER_NO_CODE && byte == 0xaa, "no code", NULL);
        expect(equal(souper_check(kind, bad, sizeof bad), no_text), "no text, check", NULL);
        expect(is_located(souper_locate(kind, bad, sizeof bad), SOUPER_NOT_UTF8, 0, 0, 0, 0), "no text, locate", NULL);
        expect(equal(souper_hint(kind, 0, bad, sizeof bad, &byte, 1), no_text) && byte == 0xaa, "no text, hint", NULL);
        expect(souper_flaw(kind, bad, sizeof bad).status == SOUPER_NO_CODE, "no code, flaw", NULL);
        expect(souper_widths(kind, bad, sizeof bad, &width, 1).status == SOUPER_NO_CODE && width == 0xaa, "no code, widths", NULL);
        expect(equal(souper_last_cut(kind, bad, sizeof bad), nothing), "an unfinished line, last cut", NULL);
        expect(equal(souper_last_cut(kind, bad_line, sizeof bad_line), no_text), "no text, last cut", NULL);
        expect(equal(souper_first_segment(kind, bad, sizeof bad), no_text), "no text, first segment", NULL);
        expect(equal(souper_same(kind, bad, sizeof bad, &empty, 0), no_text), "no text, first", NULL);
        expect(equal(souper_same(kind, &empty, 0, bad, sizeof bad), second_text), "no text, second", NULL);
        expect(equal(souper_format(kind, &empty, 0, &byte, 0), nothing), "no bytes", NULL);
        expect(equal(souper_write(kind, &empty, 0, &byte, 0), nothing), "no bytes, write", NULL);
        expect(equal(souper_check(kind, &empty, 0), nothing), "no bytes, check", NULL);
        expect(is_located(souper_locate(kind, &empty, 0), SOUPER_DONE, 0, 0, 0, 0), "no bytes, locate", NULL);
        expect(equal(souper_hint(kind, 0, &empty, 0, &byte, 0), nothing), "no bytes, hint", NULL);
        expect(souper_flaw(kind, &empty, 0).status == SOUPER_NO_CODE, "no bytes, flaw", NULL);
        expect(equal(souper_last_cut(kind, &empty, 0), nothing), "no bytes, last cut", NULL);
        expect(equal(souper_first_segment(kind, &empty, 0), nothing), "no bytes, first segment", NULL);
        expect(equal(souper_same(kind, &empty, 0, &empty, 0), nothing), "no bytes, same", NULL);
    }
}

/* What is said of the left-hand side, with room for so many widths. */
static SouperWidths widths(const char *text, uint32_t *out, size_t room) {
    uint8_t code[512];
    const SouperOutcome coded = souper_read(SOUPER_LHS, (const uint8_t *)text, strlen(text), code, sizeof code);
    expect(coded.status == SOUPER_DONE, "a code for widths", NULL);
    return souper_widths(SOUPER_LHS, code, coded.length, out, room);
}

static void widths_and_flaws(void) {
    uint32_t out[6] = {1, 1, 1, 1, 1, 1};
    const char *typed = "%x:i8 = var  %y = uadd.with.overflow %x, 1  %z = extractvalue %y, 1  infer %z";
    SouperWidths found = widths(typed, out, 5);
    expect(found.status == SOUPER_SHORT && found.length == 6 && found.root == 1 && out[0] == 1, "widths, short", NULL);
    found = widths(typed, out, 6);
    expect(found.status == SOUPER_DONE && found.length == 6 && found.root == 1 && found.reason == 0, "widths", NULL);
    expect(out[0] == 8 && out[1] == 9 && out[2] == 1 && out[3] == 0 && out[4] == 8 && out[5] == 9, "widths, written", NULL);
    found = widths("%x:i8 = var  %y:i9 = add %x, 1  infer %y", out, 6);
    expect(found.status == SOUPER_NO_WIDTHS && found.location == SOUPER_AT_STATEMENT && found.position == 1, "no widths", NULL);
    expect(found.reason == SOUPER_CONFLICT && found.left == 8 && found.right == 9 && out[0] == 8, "widths that clash", NULL);
    found = widths("%x = var  infer %x", out, 6);
    expect(found.status == SOUPER_NO_WIDTHS && found.reason == SOUPER_UNDETERMINED && found.position == 0, "a width is missing", NULL);
}

/* The texts of the numbers that the header has are distinct; every other number is unknown. */
static void texts(const char *(*text_of)(uint32_t), uint32_t first, uint32_t last) {
    static const uint32_t none[] = {16, 17, 1000, 0x80000000u, UINT32_MAX};
    for (uint32_t number = first; number <= last; number++) {
        expect(strcmp(text_of(number), "unknown") != 0, "a text", NULL);
        for (uint32_t other = first; other < number; other++) {
            expect(strcmp(text_of(number), text_of(other)) != 0, "another text", NULL);
        }
    }
    for (size_t i = 0; i < sizeof none / sizeof *none; i++) {
        expect(strcmp(text_of(none[i]), "unknown") == 0, "a number without a text", NULL);
    }
}

int main(int argc, char **argv) {
    size_t count;
    Record *records = read_records(argc == 2 ? argv[1] : "", &count);
    for (size_t i = 0; i < count; i++) {
        SouperOutcome outcome = written(&records[i], 0);
        expect(equal(written(&records[i], 7), outcome), "the same outcome for a longer buffer", &records[i]);
        lengths(&records[i]);
        codes(&records[i], outcome);
        recorded(&records[i]);
        questions(&records[i], outcome);
        cuts(&records[i]);
        if (records[i].kind != SOUPER_RHS) {
            asked(&records[i], outcome);
        }
        const Record *next = next_of_kind(&records[i], records + count);
        if (records[i].status == SOUPER_DONE && next != NULL) {
            neighbors(&records[i], next);
        }
    }
    locations();
    hints();
    found();
    numbers();
    widths_and_flaws();
    texts(souper_status_text, SOUPER_DONE, SOUPER_NO_WIDTHS);
    texts(souper_reason_text, SOUPER_INVALID_NAME, SOUPER_DUPLICATE_NAME);
    texts(souper_width_reason_text, SOUPER_TYPED_BLOCK, SOUPER_RANGE);
    expect(strcmp(souper_status_text(SOUPER_NOT_UTF8), "not UTF-8") == 0, "the text of a status", NULL);
    expect(strcmp(souper_reason_text(0), "unknown") == 0, "a reason of 0", NULL);
    free_records(records);
    return summary("C: the stored answers, every length of the buffer, the questions, codes, records and answers");
}
