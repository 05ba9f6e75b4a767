/* Nitarehpu: the placeholder reader for report templates, for C.
 *
 * Reads a template text as the Rust compiler's format-string parser does, and writes what it finds as plain numbers into lists that the caller
 * lends. No allocation, no global state: calls may run side by side on lists of their own.
 *
 * What the caller sees to, and nothing checks:
 *   - each pointer leads to as many readable (the lists, an output, and at nitarehpu_part the state and the buffer: also writable) elements as the length
 *     after it says; with length 0 it may be null;
 *   - nothing that a call writes overlaps anything else that it is handed: no list, output, state or buffer another one, the text, the snippet or a part;
 *     what is only read may be the same bytes;
 *   - pieces and errors are aligned for uint32_t; places, lines, answer and state for size_t.
 * Every other argument gets a defined answer. The library is for x86-64 Linux, on a processor of the second level (x86-64-v2, which nearly every one is); it does not
 * look whether it is on one.
 */
#ifndef NITAREHPU_H
#define NITAREHPU_H

#include <stddef.h>
#include <stdint.h>

#ifdef __cplusplus
extern "C" {
#endif

/* mode; any other number is refused with 1 */
enum { NITAREHPU_FORMAT = 0, NITAREHPU_INLINE_ASM = 1, NITAREHPU_DIAGNOSTIC = 2 };

/* What a call answers. A refusal changes no list of records. Checked in this order, 255 before all. */
enum {
    NITAREHPU_DONE = 0,
    NITAREHPU_MODE = 1,        /* the mode is above 2 */
    NITAREHPU_STYLE = 2,       /* above 255 hashes, or a snippet without a style */
    NITAREHPU_LONG = 3,        /* the text is over 65,535 bytes, or the snippet over 66,048; at nitarehpu_finish also: a part was left out */
    NITAREHPU_UTF8 = 4,        /* the text is not UTF-8: the place is where its longest valid prefix ends */
    NITAREHPU_NEWLINE = 5,     /* a newline is marked as appended, and the text does not end in one */
    NITAREHPU_PIECES = 6,      /* the list of pieces is too short; the counts say what is needed */
    NITAREHPU_ERRORS = 7,      /* the list of errors is */
    NITAREHPU_PLACES = 8,      /* the list of argument places is */
    NITAREHPU_LINES = 9,       /* the list of line spans is */
    NITAREHPU_FAULTY = 10,     /* nitarehpu_plain alone, after 1, 3 and 4: the text has errors */
    NITAREHPU_OUTPUT = 11,     /* nitarehpu_plain alone, last: the output is too short; the answer says how many bytes are needed */
    NITAREHPU_UNFIT = 16,      /* nitarehpu_part and nitarehpu_finish alone, before 1: the state's count is beyond the buffer, or the buffer is under 65,535 bytes */
    NITAREHPU_NOT_FORMAT = 17, /* nitarehpu_member alone, after 1: the mode is 1 or 2 */
    NITAREHPU_NO_ANSWER = 255  /* the answer's list has no room for its eight numbers (nitarehpu_member and nitarehpu_plain: four), or the state's none for its three: nothing was read, and nothing is written */
};

/* The answer's eight numbers: which of the above, the place (of 4, else 0), how many records each list needs (for 0 and 6 to 9, else 0), how many
 * arguments the pieces want (for 0, else 0): one more than the largest argument number in any piece's place, width, precision or star, 0 if none has a
 * number. A number that is over range adds nothing, nor does a field met where a closing brace is missing. And how many characters were passed (for 0,
 * else 0), those that are read a second time counted again: never more than twice the text's characters. */
enum { NITAREHPU_ANSWER_NUMBERS = 8 };

/* Numbers of a record: a piece's 40 and an error's 16 are laid out as the structs below; a span of the snippet is 2: start, end. */
enum { NITAREHPU_PIECE_NUMBERS = 40, NITAREHPU_ERROR_NUMBERS = 16, NITAREHPU_SPAN_NUMBERS = 2 };

/* A span of the snippet that may be absent: present is 0 or 1, and without it start and end are 0. */

/* A number that is written in the text is at most 65,535. One above that is over range: it is an error of kind 7, its kind of place or amount says so, and no
 * value stands for it. A text without errors has none. */

/* A width or a precision. */
typedef struct nitarehpu_amount {
    uint32_t kind;             /* 0 implied, 1 fixed, 2 by argument (number$), 3 by star, 4 by name (name$), 5 fixed and over range, 6 by argument and over range */
    uint32_t value;            /* 1: the number; 2, 3: the argument's number; 4: the name's first byte in the text; 5, 6: 0, which means nothing */
    uint32_t name_end;         /* 4: where the name's bytes end */
    uint32_t name_span_start;  /* 4: the name's span */
    uint32_t name_span_end;
    uint32_t span_present;     /* the whole width, or the precision with its dot */
    uint32_t span_start;
    uint32_t span_end;
} nitarehpu_amount_t;

/* A piece. Of a literal the kind, the start and the end are told, and the rest is 0. */
typedef struct nitarehpu_piece {
    uint32_t kind;             /* 0 a literal, 1 an argument */
    uint32_t start;            /* its bytes in the text: of a literal its view, of an argument from its opening brace */
    uint32_t end;              /* to where reading stood afterwards */
    uint32_t place;            /* 0 the next argument, 1 by number, 2 by name, 3 by a number that is over range */
    uint32_t place_value;      /* 0, 1: the argument's number; 2: the name's first byte in the text; 3: 0, which means nothing */
    uint32_t place_end;        /* 2: where the name's bytes end */
    uint32_t place_span_start;
    uint32_t place_span_end;
    uint32_t fill_present;
    uint32_t fill;             /* the fill character's code */
    uint32_t fill_span_start;
    uint32_t fill_span_end;
    uint32_t align;            /* 0 none, 1 left, 2 right, 3 centre */
    uint32_t sign;             /* 0 none, 1 plus, 2 minus */
    uint32_t alternate;        /* 1 with `#` */
    uint32_t zero;             /* 1 with the flag `0` */
    nitarehpu_amount_t width;
    nitarehpu_amount_t precision;
    uint32_t type_start;       /* the type's bytes in the text; empty where there is none */
    uint32_t type_end;
    uint32_t hex;              /* 1 for x?, 2 for X?, else 0 */
    uint32_t reserved[2];      /* 0 */
    uint32_t type_span_present;
    uint32_t type_span_start;
    uint32_t type_span_end;
} nitarehpu_piece_t;

/* The kinds of errors. Those marked `front` are put before the records that the list has by then, the last one found first; the others come after them
 * in the order of reading. 8 to 15 come only beside a 2, and only where two characters or more are left. docs/RULES.md has each in full. */
enum {
    NITAREHPU_KIND_UNMATCHED = 1,    /* a `}` that closes nothing and is not doubled: reading stops at it */
    NITAREHPU_KIND_EXPECTED = 2,     /* another character stands where a placeholder's `}` should; it is quoted */
    NITAREHPU_KIND_UNCLOSED = 3,     /* the text ends where a placeholder's `}` should stand */
    NITAREHPU_KIND_RAW_NAME = 4,     /* front: a name written `r#name`; the suggestion is to drop the `r#` */
    NITAREHPU_KIND_AFTER_DEBUG = 5,  /* front: `#`, `x` or `X` after the type `?`; it is quoted, and belongs before the `?` */
    NITAREHPU_KIND_UNDERSCORE = 6,   /* `_` alone where a word was looked for */
    NITAREHPU_KIND_TOO_LARGE = 7,    /* a number above 65,535; its digits are quoted */
    NITAREHPU_KIND_DEBUG_FIRST = 8,  /* front: `?:` where the `}` should stand; the word after it, perhaps empty, is quoted */
    NITAREHPU_KIND_NO_COLON = 9,     /* front: `?}` where the `}` should stand; the suggestion is a `:` before the `?` */
    NITAREHPU_KIND_EQUALS = 10,      /* front: `=}` where the `}` should stand */
    NITAREHPU_KIND_MISPLACED = 11,   /* front: `<`, `>` or `^` where the `}` should stand; it is quoted */
    NITAREHPU_KIND_PLUS_FIRST = 12,  /* front: `+` where the `}` should stand */
    NITAREHPU_KIND_FIELD = 13,       /* front: a name, a dot, a name: fields are not read */
    NITAREHPU_KIND_TUPLE_INDEX = 14, /* front: a name, a dot, a number: nor are tuple indexes */
    NITAREHPU_KIND_COMMA = 15        /* front: `,` where the `}` should stand */
};

/* An error record. */
typedef struct nitarehpu_error {
    uint32_t kind;             /* one of the above */
    uint32_t span_start;
    uint32_t span_end;
    uint32_t piece;            /* how many pieces were listed when it was recorded: the number, from 0, of the placeholder in which it was
                                  found; of kind 1 the number of all pieces */
    uint32_t reserved_second;  /* 0 */
    uint32_t second_present;   /* 2, 3: a fill that is `}`, else the placeholder's opening brace; 10, 15: that brace */
    uint32_t second_start;
    uint32_t second_end;
    uint32_t reserved_quoted;  /* 0 */
    uint32_t quoted_present;   /* bytes of the text that the message quotes */
    uint32_t quoted_start;
    uint32_t quoted_end;
    uint32_t reserved_suggestion; /* 0 */
    uint32_t suggestion_present; /* 4: the `r#`; 5: the `?` and the character after it; 9: the `?` */
    uint32_t suggestion_start;
    uint32_t suggestion_end;
} nitarehpu_error_t;

/* Reads a text.
 *   snippet     is looked at only if `given` is not 0
 *   style       0: none; any other: a raw string with `hashes` hashes
 *   newline     not 0: the text's last newline was appended to it
 *   pieces, errors, places, lines: the lists, with their lengths in numbers; a rest that is no whole record is left alone
 *   answer      gets the eight numbers
 * Returns the first of the answer's numbers. Done fills the first records of each list, and the rest stay as they were.
 *
 * How often the text is read, once it is known to be UTF-8: once into pieces and errors, and once more where a record belongs to the front. A reading that
 * only counts comes first, unless pieces and errors have room for a record for each byte of the text (none has more) and the snippet is not the text's own raw
 * literal. For such a literal, argument places and line spans take one more reading each.
 */
uint8_t nitarehpu_read(const uint8_t *text, size_t text_length, const uint8_t *snippet, size_t snippet_length, uint8_t mode, uint8_t style,
                       size_t hashes, uint8_t given, uint8_t newline, uint32_t *pieces, size_t pieces_length, uint32_t *errors,
                       size_t errors_length, size_t *places, size_t places_length, size_t *lines, size_t lines_length, size_t *answer,
                       size_t answer_length);

/* Says how many records each list of the same call would need, how many arguments its pieces want and how many characters it passes, with the same refusals 1 to 5
 * and 255. One reading, which only counts. */
uint8_t nitarehpu_count(const uint8_t *text, size_t text_length, const uint8_t *snippet, size_t snippet_length, uint8_t mode, uint8_t style,
                        size_t hashes, uint8_t given, uint8_t newline, size_t *answer, size_t answer_length);

/* The rules of member templates, in their order. docs/RULES.md, section 13, has each in full. */
enum {
    NITAREHPU_RULE_ERROR = 1,   /* the text is not read without error; the piece is 0 */
    NITAREHPU_RULE_UNNAMED = 2, /* a place is no name */
    NITAREHPU_RULE_TAKEN = 3,   /* a width or precision is taken from an argument, a star or a name */
    NITAREHPU_RULE_NUMBER = 4,  /* a second place is called number; or none is, and the piece is the number of pieces */
    NITAREHPU_RULE_DATE = 5     /* a place called date stands before the one called number */
};

/* The verdict's four numbers: a refusal's number and its place (of 4, else 0); the first rule that is broken, and the first piece that breaks it, counted
 * from 0. What a verdict does not have is 0: a member template gets four times 0. */
enum { NITAREHPU_VERDICT_NUMBERS = 4 };

/* Says whether a text is a member template, and if not, why. The arguments are those of nitarehpu_read without its lists of records; `answer` gets the four
 * numbers. Returns the first of them: refusals 1, 17, 2 to 5 and 255. One reading, which keeps no record and ends at the first error. */
uint8_t nitarehpu_member(const uint8_t *text, size_t text_length, const uint8_t *snippet, size_t snippet_length, uint8_t mode, uint8_t style,
                         size_t hashes, uint8_t given, uint8_t newline, size_t *answer, size_t answer_length);

/* The four numbers of nitarehpu_plain's answer: a refusal's number, or 0; its place (of 4, else 0); how many bytes the plain form has (for 0 and 11, else 0); how
 * many arguments its pieces want (for 0, else 0), which are as many as the text's. */
enum { NITAREHPU_PLAIN_NUMBERS = 4 };

/* Writes the plain form of a text without errors: one way to write all texts that say the same. No optional whitespace, no leading zeros, no `.` without a
 * precision, no colon without a spec; docs/RULES.md, section 15, has it in full. The text is read with no style and no snippet, which change nothing of it.
 *   output      gets the plain form over its first bytes, and the rest stays as it was; with as many bytes as the text has it is always long enough
 *   answer      gets the four numbers
 * Returns the first of them: refusals 1, 3, 4, 10, 11 and 255, each of which leaves the output as it was. Two texts of one mode say the same exactly where their
 * plain forms are the same bytes. Two readings, and one more that only measures where the output is shorter than the text. */
uint8_t nitarehpu_plain(const uint8_t *text, size_t text_length, uint8_t mode, uint8_t *output, size_t output_length, size_t *answer,
                        size_t answer_length);

/* A text that arrives in parts, cut anywhere, perhaps inside a letter. The caller lends a buffer of at least 65,535 bytes and a state of three numbers, which
 * are 0 before the first part: how many bytes of the buffer are taken, up to which of them the text is UTF-8, and whether a part was left out since the text
 * would have passed the limit. Each call gets the state and the buffer as the call before left them; for any other nothing undefined happens, and
 * docs/RULES.md, section 16, says what is answered. */
enum { NITAREHPU_STATE_NUMBERS = 3, NITAREHPU_BUFFER_BYTES = 65535 };

/* Takes a part: writes it into the buffer behind those before it, and carries the check for UTF-8 on. A part with which the text would pass 65,535 bytes writes
 * nothing; this is remembered in the state, and all parts after it are left out, too. Returns 0; 16, which changes nothing; or 255, where the state's list has no
 * room for three numbers, which changes nothing either. */
uint8_t nitarehpu_part(size_t *state, size_t state_length, uint8_t *buffer, size_t buffer_length, const uint8_t *bytes, size_t bytes_length);

/* Reads the text that was taken: what nitarehpu_read answers for all parts joined, and the same lists; 3 where a part was left out. The arguments are those of
 * nitarehpu_read with the state and the buffer in the text's place, which are not changed. Refusals: 255, where the answer's list or the state's is too short;
 * 16; then those of nitarehpu_read. What was checked as the parts came is not checked again. */
uint8_t nitarehpu_finish(const size_t *state, size_t state_length, const uint8_t *buffer, size_t buffer_length, const uint8_t *snippet, size_t snippet_length,
                         uint8_t mode, uint8_t style, size_t hashes, uint8_t given, uint8_t newline, uint32_t *pieces, size_t pieces_length,
                         uint32_t *errors, size_t errors_length, size_t *places, size_t places_length, size_t *lines, size_t lines_length,
                         size_t *answer, size_t answer_length);

#ifdef __cplusplus
}
#endif

#endif
