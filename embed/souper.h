/* Souper IR for C and C++: canonical texts and their keys, whether two texts have the same graphs, whether a text is canonical,
 * what replacements answer for left-hand sides, the code of graphs, which is read and written without a parser, where a stream of
 * items may be cut, and where a text is at fault.
 *
 * The functions are those of libsouper_c.a, whose contracts are proved. docs/EMBEDDING.md says what is proved, what is tested,
 * and how to build and link.
 *
 * Texts are UTF-8. Lengths and offsets are in bytes; a text needs no byte 0 at its end, and gets none. A text spells a list
 * of items of one kind: left-hand sides, right-hand sides or replacements. Two items are the same graph if a one-to-one map
 * between the statements that they need carries one to the other; names and the order of path conditions count, the order
 * of other statements does not.
 *
 * No function aborts, throws or keeps a pointer. What a call allocates is freed when it returns, so there is nothing to free.
 * There is no state: calls may run at once, on any threads. The caller sees to this:
 *
 *   - a pointer is not null, even if its length is 0, and its bytes may be read, or for `out` written;
 *   - `out` overlaps no other argument, and while a call runs, no other thread writes its arguments or uses its `out`;
 *   - no call is made from a signal handler, nor in the child of a fork of a process with threads;
 *   - rattle_alloc, rattle_realloc and rattle_dealloc are linked; heap.c has them.
 *
 * `out` need not be initialised. */
#ifndef SOUPER_H
#define SOUPER_H

#include <stddef.h>
#include <stdint.h>

/* The version of this header, and of what is packed with it; the number is as of souper_version. */
#define SOUPER_VERSION "2.0.0"
#define SOUPER_VERSION_NUMBER 2000000

#if defined(__GNUC__)
#define SOUPER_CALL __attribute__((nonnull, warn_unused_result))
#else
#define SOUPER_CALL
#endif

#ifdef __cplusplus
#define SOUPER_INLINE inline
extern "C" {
#else
#define SOUPER_INLINE static inline
#endif

/* Kinds. */
enum { SOUPER_LHS = 0, SOUPER_RHS = 1, SOUPER_REP = 2 };

/* Statuses. */
enum {
    SOUPER_DONE = 0,            /* done; or, to a question, yes */
    SOUPER_REFUSED = 1,         /* a text spells no list of items of the kind */
    SOUPER_NO_KIND = 2,         /* the kind is not 0, 1 or 2 */
    SOUPER_OUT_OF_MEMORY = 3,   /* an allocation failed */
    SOUPER_NOT_UTF8 = 4,        /* a text is not UTF-8 */
    SOUPER_SHORT = 5,           /* `out` is too short; nothing was written */
    SOUPER_DIFFERENT = 6,       /* to a question, no */
    SOUPER_NO_CODE = 7,         /* the bytes are the code of no list of items of the kind */
    SOUPER_NOT_WELL_FORMED = 8, /* the bytes are the code of items, and one of them is not well formed */
    SOUPER_NO_FLAGS = 9,        /* a flag is none of the three */
    SOUPER_NO_WIDTHS = 10       /* the bytes begin with the code of an item that has no widths */
};

/* Flags of souper_key; they may be combined by `|`. */
enum {
    SOUPER_KEY = 1,    /* before each text a line `; ` and the SHA-256 of the text in hexadecimal digits */
    SOUPER_RENAME = 2, /* names %0, %1, .. in printed order */
    SOUPER_NULL = 4    /* a byte 0 after each text in place of the newline */
};

/* Where an item is not well formed. */
enum {
    SOUPER_AT_STATEMENT = 1, /* at the statement at `position` */
    SOUPER_AT_INFER = 2,     /* at the infer line */
    SOUPER_AT_RESULT = 3,    /* at the result line */
    SOUPER_AT_CAND = 4       /* at the cand line */
};

/* Why, in the order in which the reasons are looked for at one statement or line. */
enum {
    SOUPER_INVALID_NAME = 1,              /* the name is not % and letters, digits, _ or . */
    SOUPER_EMPTY_BITS = 2,                /* a list of bits is empty */
    SOUPER_ZERO_WIDTH = 3,                /* a width is 0 */
    SOUPER_USE_BEFORE_DEFINITION = 4,     /* an operand or the block is not a statement before this one */
    SOUPER_NOT_AN_ASSIGNMENT = 5,         /* an operand is no assignment */
    SOUPER_NOT_A_BLOCK = 6,               /* what is used as a block is none */
    SOUPER_VALUE_COUNT = 7,               /* a phi has not one value per predecessor of its block */
    SOUPER_PREDECESSOR_OUT_OF_RANGE = 8,  /* the block of a condition has no such predecessor */
    SOUPER_DUPLICATE_NAME = 9             /* a needed assignment before it has the same name */
};

/* Why an item has no widths. Of flaws of one row the first in the item is told; those of an earlier row come before. */
enum {
    SOUPER_TYPED_BLOCK = 1,      /* a block has a type */
    SOUPER_FACT_ON_COMPUTED = 2, /* a fact is about a value that is no input */
    SOUPER_BLOCK_AS_VALUE = 3,   /* an operand or a root is a block */
    SOUPER_PAIR_AS_VALUE = 4,    /* an operand or a root is the value of a word .with.overflow */
    SOUPER_NOT_A_PAIR = 5,       /* the first operand of extractvalue is none */
    SOUPER_BAD_INDEX = 6,        /* the second is not 0 or 1 */

    SOUPER_CONFLICT = 7, /* a width has to be both `left` and `right` */

    SOUPER_UNDETERMINED = 8, /* nothing says which width it is */

    SOUPER_NOT_WIDER = 9,          /* the result of zext or sext is not wider than the operand */
    SOUPER_NOT_NARROWER = 10,      /* the result of trunc is not narrower */
    SOUPER_BYTE_SWAP = 11,         /* the width of bswap is not a multiple of 16 */
    SOUPER_CONSTANT_TOO_WIDE = 12, /* a constant does not fit its width */
    SOUPER_BIT_COUNT = 13,         /* known or demanded bits are not as many as the width */
    SOUPER_SIGN_BITS = 14,         /* there are more sign bits than the width has */
    SOUPER_RANGE = 15              /* an end of a range does not fit, or equal ends say neither nothing nor everything */
};

/* What a call did. What is not named for the status is 0. */
typedef struct SouperOutcome {
    uint32_t status;
    uint32_t input; /* REFUSED, NOT_UTF8: of two texts, which one: 0 the first, 1 the second */
    size_t length;  /* see each function */
    size_t offset;  /* REFUSED: how many bytes were read; NO_CODE, NOT_WELL_FORMED: where the code of the item begins */
    size_t line;    /* REFUSED: the line of the last of these bytes, or of the first of the text if there is none; from 1 */
    size_t column;  /* REFUSED: its column, from 1 */
} SouperOutcome;

/* Where a text is at fault. With another status than REFUSED the other numbers are 0. */
typedef struct SouperLocation {
    uint32_t status; /* DONE: the text spells items. REFUSED, NO_KIND, OUT_OF_MEMORY, NOT_UTF8: as above */
    uint32_t at_end; /* 1: the text ended where more is wanted; else 0 */
    size_t offset;   /* where the token at fault begins or, if the text ended, the white space at its end */
    size_t line;     /* its line, from 1 */
    size_t column;   /* its column, in bytes and from 1 */
} SouperLocation;

/* The first flaw of an item. What is not named for the status is 0. */
typedef struct SouperFlaw {
    uint32_t status;
    uint32_t location; /* NOT_WELL_FORMED: one of the four */
    uint32_t reason;   /* NOT_WELL_FORMED: one of the nine */
    size_t position;   /* AT_STATEMENT: the position of the statement among those of the item, from 0 */
} SouperFlaw;

/* The widths of an item, or its first flaw. What is not named for the status is 0. */
typedef struct SouperWidths {
    uint32_t status;
    uint32_t location; /* NOT_WELL_FORMED, NO_WIDTHS: one of the four */
    uint32_t reason;   /* NOT_WELL_FORMED: one of the nine; NO_WIDTHS: one of the fifteen */
    uint32_t left;     /* CONFLICT: one of the two widths */
    uint32_t right;    /* CONFLICT: the other */
    uint32_t root;     /* DONE, SHORT: the width of the operands of the last lines */
    size_t position;   /* AT_STATEMENT: the position of the statement among those of the item, from 0 */
    size_t length;     /* DONE: how many widths were written; SHORT: how many would be */
} SouperWidths;

/* The version of the library: 1,000,000 times the major number, 1,000 times the minor number, and the patch number. */
uint32_t souper_version(void);

/* Writes the canonical text of each item that the text spells, a newline after each, to the beginning of `out`.
 *
 * DONE: `length` bytes were written.
 * REFUSED: `length` bytes were written, which show the refusal, as UTF-8 of four lines with no newline at the end.
 * SHORT: `out` has fewer than the `length` bytes that DONE or REFUSED would write.
 * NO_KIND, OUT_OF_MEMORY, NOT_UTF8: as above.
 *
 * The other bytes of `out` are as before; unless the status is DONE or REFUSED, all of them. */
SOUPER_CALL SouperOutcome souper_format(uint32_t kind, const uint8_t *text, size_t text_length, uint8_t *out, size_t out_length);

/* Writes the code of the items that the text spells, with all their statements, to the beginning of `out`: bytes from which a
 * program makes the graph without a parser. docs/EMBEDDING.md says where the code is described.
 *
 * DONE: `length` bytes were written, the code. REFUSED, SHORT, NO_KIND, OUT_OF_MEMORY, NOT_UTF8 and the other bytes of `out`:
 * as for souper_format. */
SOUPER_CALL SouperOutcome souper_read(uint32_t kind, const uint8_t *text, size_t text_length, uint8_t *out, size_t out_length);

/* Writes the canonical text of each item that the code has, a newline after each, to the beginning of `out`: of the code that
 * souper_read writes for a text, what souper_format writes for the text.
 *
 * DONE: `length` bytes were written.
 * NO_CODE: `length` items were read before the first whose code is none, which begins at `offset`.
 * NOT_WELL_FORMED: the item at index `length`, from 0, is not well formed; its code begins at `offset`.
 * SHORT: `out` has fewer than the `length` bytes that DONE would write.
 * NO_KIND, OUT_OF_MEMORY: as above.
 *
 * The other bytes of `out` are as before; unless the status is DONE, all of them. */
SOUPER_CALL SouperOutcome souper_write(uint32_t kind, const uint8_t *code, size_t code_length, uint8_t *out, size_t out_length);

/* Where the item whose code the bytes begin with is not well formed first, and why. What comes after its code is not read: the
 * `offset` of NOT_WELL_FORMED from souper_write is where such a code begins.
 *
 * DONE: the item is well formed. NOT_WELL_FORMED: it is not; of its needed statements in their order, and then of its last lines,
 * the first that is not is told. NO_CODE: the bytes begin with the code of no item of the kind. NO_KIND, OUT_OF_MEMORY. */
SOUPER_CALL SouperFlaw souper_flaw(uint32_t kind, const uint8_t *code, size_t code_length);

/* Writes the widths, in bits, of the item whose code the bytes begin with to the beginning of `out`: of the result of each statement in
 * the order of the code, and then of the operands of each. A width is 0 where there is none (a block, a path condition, the operands of
 * an input), and of a statement that the item does not need. The condition of a select has one bit besides; the value of a word
 * .with.overflow has one bit more than its operands. What comes after the item's code is not read.
 *
 * DONE: `length` widths were written, twice as many as there are statements. SHORT: `out` has room for fewer. NOT_WELL_FORMED, NO_WIDTHS:
 * the first flaw is told. NO_CODE: the bytes begin with the code of no item of the kind. NO_KIND, OUT_OF_MEMORY.
 *
 * The other elements of `out` are as before; unless the status is DONE, all of them. */
SOUPER_CALL SouperWidths souper_widths(uint32_t kind, const uint8_t *code, size_t code_length, uint32_t *out, size_t out_length);

/* Writes the record of each item that the text spells to the beginning of `out`: its canonical text and a newline, and what
 * the flags add or change. The program souper_items writes the same records.
 *
 * NO_FLAGS: a flag is none of the three. The other statuses, and the other bytes of `out`: as for souper_format. */
SOUPER_CALL SouperOutcome souper_key(uint32_t kind, uint32_t flags, const uint8_t *text, size_t text_length, uint8_t *out,
                                     size_t out_length);

/* Whether the text is canonical: what souper_format would write for it is the text itself.
 *
 * DONE: yes. DIFFERENT: no; the text spells items, and souper_format would write other bytes. REFUSED: the text spells
 * no list of such items. With these, `length` is what souper_format would write. NO_KIND, OUT_OF_MEMORY, NOT_UTF8. */
SOUPER_CALL SouperOutcome souper_check(uint32_t kind, const uint8_t *text, size_t text_length);

/* Where the text is at fault. The numbers of an outcome are of the byte before; these are for editors. */
SOUPER_CALL SouperLocation souper_locate(uint32_t kind, const uint8_t *text, size_t text_length);

/* Writes the hint for a refused text to the beginning of `out`: what its writer may have meant, for a person, as UTF-8 of one line
 * without its end. It may name lines: `lines` is how many come before the text in its input, 0 if it is whole.
 *
 * DONE: the text spells items. REFUSED: `length` bytes were written; 0 if there is no hint. SHORT: `out` has fewer than the `length`
 * bytes that REFUSED would write. NO_KIND, OUT_OF_MEMORY, NOT_UTF8: as above.
 *
 * The other bytes of `out` are as before; unless the status is REFUSED, all of them. */
SOUPER_CALL SouperOutcome souper_hint(uint32_t kind, size_t lines, const uint8_t *text, size_t text_length, uint8_t *out,
                                      size_t out_length);

/* Whether two texts spell lists of one length, in which each item is the same graph as the one at its index in the other.
 *
 * DONE: yes. DIFFERENT: no. REFUSED: text number `input` spells no list of such items; `length` is what souper_format
 * would write for it. NO_KIND, OUT_OF_MEMORY, NOT_UTF8. The second text is read after the first. */
SOUPER_CALL SouperOutcome souper_same(uint32_t kind, const uint8_t *a, size_t a_length, const uint8_t *b, size_t b_length);

/* Writes what the replacements of `store` answer for each left-hand side of `queries`, in order, to the beginning of `out`: one
 * string each, ended by a byte 0, with the canonical text of each answer and a newline after it. So an answer ends with an empty
 * line, and the string of a left-hand side without an answer is empty.
 *
 * The answers are the replacements whose left-hand side is the same graph up to names, in the order in which `store` has them
 * first, with the names of the left-hand side that was asked for: the text of each begins with its text. A replacement that
 * `store` has twice, up to names, is one answer. A `cand` of a value is written with `infer` and `result`; one of a constant has
 * no left-hand side.
 *
 * DONE: `length` bytes were written. REFUSED: text number `input` is refused, 0 for `store`, 1 for `queries`; what souper_format
 * would write for it, as replacements or as left-hand sides, was written. SHORT, OUT_OF_MEMORY, NOT_UTF8 and the other bytes of
 * `out`: as for souper_format. `queries` is read after `store`.
 *
 * Each call reads `store` anew: ask for many left-hand sides at once, or pass the replacements alone that a database has by the
 * keys of left-hand sides. */
SOUPER_CALL SouperOutcome souper_find(const uint8_t *store, size_t store_length, const uint8_t *queries, size_t queries_length,
                                      uint8_t *out, size_t out_length);

/* The last cut point of a text that begins where a stream does, or at a cut point of it: what comes before can be read by itself, by
 * each call above. A stream is cut where an item ends and a line of the next begins, as the tokens of the lines show it, be the items
 * valid or not. Between two cut points is a segment.
 *
 * DONE: `length` bytes come before it; 0 if there is none yet. NOT_UTF8: a line is not UTF-8. NO_KIND. The bytes after the last newline
 * are passed over, so that a text may end within a line, and within a character. No memory is allocated. */
SOUPER_CALL SouperOutcome souper_last_cut(uint32_t kind, const uint8_t *text, size_t text_length);

/* The first segment of a text that ends at a cut point, or where its stream ends. If the segments of a refused text are read one by
 * one, an invalid one takes no other with it.
 *
 * DONE: it has `length` bytes, up to the first cut point or else the end; 0 if the text is empty. NOT_UTF8: a line of it, or the line
 * after it, is not UTF-8. NO_KIND. No memory is allocated. */
SOUPER_CALL SouperOutcome souper_first_segment(uint32_t kind, const uint8_t *text, size_t text_length);

/* What a status says, in a few words. These texts are the header's own: of a number that it does not have, as a library of a later
 * version may return it, they are "unknown". */
SOUPER_INLINE const char *souper_status_text(uint32_t status) {
    switch (status) {
    case SOUPER_DONE:
        return "done";
    case SOUPER_REFUSED:
        return "refused";
    case SOUPER_NO_KIND:
        return "no such kind";
    case SOUPER_OUT_OF_MEMORY:
        return "out of memory";
    case SOUPER_NOT_UTF8:
        return "not UTF-8";
    case SOUPER_SHORT:
        return "the buffer is too short";
    case SOUPER_DIFFERENT:
        return "different";
    case SOUPER_NO_CODE:
        return "no code of items";
    case SOUPER_NOT_WELL_FORMED:
        return "not well formed";
    case SOUPER_NO_FLAGS:
        return "no such flag";
    case SOUPER_NO_WIDTHS:
        return "no widths";
    default:
        return "unknown";
    }
}

/* The same of the reason of a flaw. */
SOUPER_INLINE const char *souper_reason_text(uint32_t reason) {
    switch (reason) {
    case SOUPER_INVALID_NAME:
        return "the name is not % and letters, digits, _ or .";
    case SOUPER_EMPTY_BITS:
        return "a list of bits is empty";
    case SOUPER_ZERO_WIDTH:
        return "a width is 0";
    case SOUPER_USE_BEFORE_DEFINITION:
        return "it uses what is not a statement before it";
    case SOUPER_NOT_AN_ASSIGNMENT:
        return "an operand is no assignment";
    case SOUPER_NOT_A_BLOCK:
        return "what it uses as a block is none";
    case SOUPER_VALUE_COUNT:
        return "it has not one value per predecessor of its block";
    case SOUPER_PREDECESSOR_OUT_OF_RANGE:
        return "its block has no such predecessor";
    case SOUPER_DUPLICATE_NAME:
        return "an assignment before it has the same name";
    default:
        return "unknown";
    }
}

/* The same of the reason why an item has no widths. */
SOUPER_INLINE const char *souper_width_reason_text(uint32_t reason) {
    switch (reason) {
    case SOUPER_TYPED_BLOCK:
        return "a block has no width";
    case SOUPER_FACT_ON_COMPUTED:
        return "only an input has facts";
    case SOUPER_BLOCK_AS_VALUE:
        return "a block is no value";
    case SOUPER_PAIR_AS_VALUE:
        return "only extractvalue takes the value of a word .with.overflow";
    case SOUPER_NOT_A_PAIR:
        return "extractvalue takes the value of a word .with.overflow";
    case SOUPER_BAD_INDEX:
        return "the index of extractvalue is 0 or 1";
    case SOUPER_CONFLICT:
        return "two widths clash";
    case SOUPER_UNDETERMINED:
        return "a width is missing";
    case SOUPER_NOT_WIDER:
        return "the result is not wider than the operand";
    case SOUPER_NOT_NARROWER:
        return "the result is not narrower than the operand";
    case SOUPER_BYTE_SWAP:
        return "the width of bswap is a multiple of 16";
    case SOUPER_CONSTANT_TOO_WIDE:
        return "a constant does not fit its width";
    case SOUPER_BIT_COUNT:
        return "not as many bits as the width";
    case SOUPER_SIGN_BITS:
        return "more sign bits than the width";
    case SOUPER_RANGE:
        return "not a range of the width";
    default:
        return "unknown";
    }
}

#undef SOUPER_CALL
#undef SOUPER_INLINE

#ifdef __cplusplus
}
#endif

#endif
