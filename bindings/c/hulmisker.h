/*
 * hulmisker.h - reads Python requirement lines (PEP 508, PEP 440) and their environment markers.
 *
 * The functions are those of crates/gateway, in the static library libgateway.a. What each answers is proved there for every input; "document 01"
 * is the paper that decides it (README.md). Plain C99, and usable from C++. Link with -lgateway; nothing else is needed but memcpy and memset.
 *
 * What holds for every function:
 *
 * - It returns 0 if the input is accepted, else document 01's number of the refusal, 1 to 31 (enum hulmisker_refusal). The numbers 32 to 41 are document 02's;
 *   no function of this header gives one of them yet.
 * - It always writes all of `figures`. The first two, HULMISKER_REFUSED_START and HULMISKER_REFUSED_LEN, are the start and the length of the refused span, and
 *   0, 0 if nothing is refused. The figures behind them are what was found; on a refusal they are 0.
 * - Any other buffer is written on success alone, and there only at its front, as far as the counts say: what lies behind keeps its content. A
 *   refusal leaves every such buffer as it was.
 * - A span is a start and a length in bytes from the start of the lent text. Spans of what was found lie within it. A refused span may point one past
 *   what is there, where the fault is the end: it then starts at the text's end, with length 1 or 0. Refusal 3 is always at 0, 1, also for an empty text.
 * - Text is a pointer and a length, and needs no 0 at its end. No byte behind the length is read.
 * - An empty text is any pointer that is not NULL, with length 0. NULL with length 0 is outside the rules of the language that the library is written
 *   in, as it is for a slice of Rust. The compiled code, as built and tested here (test.c), reads nothing through it and answers as for any empty text.
 * - Every other pointer must point to as many elements as the declaration says, aligned as its type asks. No buffer that is written may overlap
 *   another one or the text. Nothing may write to the text until the call returns. A length is at most SIZE_MAX / 2.
 * - No state, no allocation, no lock, no call back, no exception: calls from any number of threads at once are safe as long as they share no buffer that
 *   is written. Every call ends.
 * - Stack: less than HULMISKER_STACK bytes, whatever the input. That is measured (stack.c), not proved.
 */
#ifndef HULMISKER_H
#define HULMISKER_H

#include <stddef.h>
#include <stdint.h>

#if SIZE_MAX != UINT64_MAX
#error "hulmisker: the library is for machines with 64-bit addresses"
#endif

#ifdef __cplusplus
extern "C" {
#endif

/* Limits: just so many are read, one more is refused. */
enum {
    HULMISKER_MAX_LINE = 4096,       /* bytes of a line, of extras or a marker alone, of a version, pattern or specifier */
    HULMISKER_MAX_LIST = 32,         /* extras, and specifiers */
    HULMISKER_MAX_DEPTH = 16,        /* open parentheses of a marker */
    HULMISKER_MAX_COMPARISONS = 64,  /* comparisons that a marker keeps */
    HULMISKER_MAX_WARNINGS = 64,
    HULMISKER_MAX_WORDS = 127,       /* words of a program */
    HULMISKER_MAX_VALUES = 35,       /* values that stand at a time while a program runs */
    HULMISKER_STACK = 32768          /* bytes of stack, see above */
};

/*
 * How many numbers stand for a span, a comparison and a warning in a list of them, and where in it each of these stands. Item k of a list starts at k times
 * the size of its items.
 */
enum {
    HULMISKER_SPAN_SIZE = 2,
    HULMISKER_SPAN_START = 0,
    HULMISKER_SPAN_LEN = 1,

    HULMISKER_COMPARISON_SIZE = 5,
    HULMISKER_COMPARISON_SORT = 0,
    HULMISKER_COMPARISON_KEY = 1,
    HULMISKER_COMPARISON_OPERATOR = 2,
    HULMISKER_COMPARISON_START = 3,  /* the literal, without its quotes */
    HULMISKER_COMPARISON_LEN = 4,

    HULMISKER_WARNING_SIZE = 3,
    HULMISKER_WARNING_KIND = 0,
    HULMISKER_WARNING_START = 1,
    HULMISKER_WARNING_LEN = 2
};

/* Sizes of the buffers, in elements. */
enum {
    HULMISKER_EXTRAS_SIZE = HULMISKER_MAX_LIST * HULMISKER_SPAN_SIZE,
    HULMISKER_SPECIFIERS_SIZE = HULMISKER_MAX_LIST * HULMISKER_SPAN_SIZE,
    HULMISKER_COMPARISONS_SIZE = HULMISKER_MAX_COMPARISONS * HULMISKER_COMPARISON_SIZE,
    HULMISKER_WARNINGS_SIZE = HULMISKER_MAX_WARNINGS * HULMISKER_WARNING_SIZE,
    HULMISKER_WORDS_SIZE = HULMISKER_MAX_WORDS,
    HULMISKER_LINE_FIGURES = 12,
    HULMISKER_EXTRAS_FIGURES = 3,
    HULMISKER_MARKER_FIGURES = 5,
    HULMISKER_VERSION_FIGURES = 2,   /* of hulmisker_pattern and hulmisker_specifier too */
    HULMISKER_NORMALISE_FIGURES = 3,
    HULMISKER_CHECK_FIGURES = 2,
    HULMISKER_RUN_FIGURES = 3
};

/* Document 01's refusals by their numbers, and from 32 on document 02's, which no function gives yet. */
enum hulmisker_refusal {
    HULMISKER_ACCEPTED = 0,
    HULMISKER_TOO_LONG = 1,
    HULMISKER_NOT_ASCII = 2,
    HULMISKER_NAME_MISSING = 3,
    HULMISKER_NAME_START = 4,
    HULMISKER_NAME_END = 5,
    HULMISKER_EXTRAS_OPEN = 6,
    HULMISKER_EXTRAS_COMMA = 7,
    HULMISKER_EXTRA_START = 8,
    HULMISKER_EXTRA_JOIN = 9,
    HULMISKER_EXTRA_AFTER = 10,
    HULMISKER_EXTRA_END = 11,
    HULMISKER_EXTRAS_MANY = 12,
    HULMISKER_URL_EMPTY = 13,
    HULMISKER_VERSION_BAD = 14,
    HULMISKER_SPECIFIERS_OPEN = 15,
    HULMISKER_SPECIFIERS_MANY = 16,
    HULMISKER_LINE_GOES_ON = 17,
    HULMISKER_VALUE_MISSING = 18,
    HULMISKER_VALUE_UNKNOWN = 19,
    HULMISKER_OPERATOR_UNKNOWN = 20,
    HULMISKER_NOT_UNSPACED = 21,
    HULMISKER_EXPECTED_FOUND_END = 22,
    HULMISKER_EXPECTED_FOUND_OTHER = 23,
    HULMISKER_MARKER_GOES_ON = 24,
    HULMISKER_TOO_DEEP = 25,
    HULMISKER_COMPARISONS_MANY = 26,
    HULMISKER_WARNINGS_MANY = 27,
    HULMISKER_NAME_BAD = 28,
    HULMISKER_OUTPUT_SHORT = 29,
    HULMISKER_PROGRAM_BAD = 30,
    HULMISKER_COUNT_OVER = 31,
    HULMISKER_SEGMENTS_MANY = 32,
    HULMISKER_TEXT_ENDED = 33,
    HULMISKER_NUMBER_REPEATED = 34,
    HULMISKER_RECORD_BAD = 35,
    HULMISKER_LINES_MANY = 36,
    HULMISKER_CABINET_BAD = 37,
    HULMISKER_CLAIM_WRONG = 38,
    HULMISKER_CLAIM_OUTSIDE = 39,
    HULMISKER_CLAIM_OPEN = 40,
    HULMISKER_PIECE_LONG = 41
};

/* Indices of the figures. The first two are the same for every function. */
enum {
    HULMISKER_REFUSED_START = 0,
    HULMISKER_REFUSED_LEN = 1,

    HULMISKER_LINE_NAME_START = 2,
    HULMISKER_LINE_NAME_LEN = 3,
    HULMISKER_LINE_HAS_URL = 4,      /* 1 or 0 */
    HULMISKER_LINE_URL_START = 5,
    HULMISKER_LINE_URL_LEN = 6,
    HULMISKER_LINE_EXTRAS = 7,       /* how many; so the four below */
    HULMISKER_LINE_SPECIFIERS = 8,
    HULMISKER_LINE_COMPARISONS = 9,
    HULMISKER_LINE_WARNINGS = 10,
    HULMISKER_LINE_WORDS = 11,

    HULMISKER_EXTRAS_COUNT = 2,

    HULMISKER_MARKER_COMPARISONS = 2,
    HULMISKER_MARKER_WARNINGS = 3,
    HULMISKER_MARKER_WORDS = 4,

    HULMISKER_NORMALISE_LEN = 2,

    HULMISKER_RUN_ANSWER = 2         /* 1 yes, 0 no */
};

/* The sort of a kept comparison. */
enum hulmisker_sort {
    HULMISKER_SORT_VERSION = 0,          /* the literal is a version or a pattern */
    HULMISKER_SORT_VERSION_LIST = 1,     /* versions with white space between them, or none */
    HULMISKER_SORT_STRING = 2,
    HULMISKER_SORT_EXTRA_NORMAL = 3,     /* an extra's name that can be normalised */
    HULMISKER_SORT_EXTRA_ARBITRARY = 4   /* one that can't */
};

/* The key of a kept comparison: a marker's name. */
enum hulmisker_key {
    HULMISKER_KEY_PYTHON_VERSION = 0,
    HULMISKER_KEY_PYTHON_FULL_VERSION = 1,
    HULMISKER_KEY_IMPLEMENTATION_VERSION = 2,
    HULMISKER_KEY_OS_NAME = 3,
    HULMISKER_KEY_SYS_PLATFORM = 4,
    HULMISKER_KEY_PLATFORM_RELEASE = 5,
    HULMISKER_KEY_PLATFORM_SYSTEM = 6,
    HULMISKER_KEY_PLATFORM_VERSION = 7,
    HULMISKER_KEY_PLATFORM_MACHINE = 8,
    HULMISKER_KEY_PLATFORM_PYTHON_IMPLEMENTATION = 9,
    HULMISKER_KEY_IMPLEMENTATION_NAME = 10,
    HULMISKER_KEY_EXTRA = 11
};

/* The operator of a kept comparison, as it is between key and literal: with the literal first it was mirrored. */
enum hulmisker_operator {
    HULMISKER_OPERATOR_EQUAL = 0,
    HULMISKER_OPERATOR_NOT_EQUAL = 1,
    HULMISKER_OPERATOR_LESS = 2,
    HULMISKER_OPERATOR_LESS_EQUAL = 3,
    HULMISKER_OPERATOR_GREATER = 4,
    HULMISKER_OPERATOR_GREATER_EQUAL = 5,
    HULMISKER_OPERATOR_COMPATIBLE = 6,
    HULMISKER_OPERATOR_IN = 7,           /* the key's text is part of the literal; for a list of versions: it is one of them */
    HULMISKER_OPERATOR_NOT_IN = 8,
    HULMISKER_OPERATOR_CONTAINS = 9,     /* the literal is part of the key's text: 'x' in os_name */
    HULMISKER_OPERATOR_NOT_CONTAINS = 10
};

/* Why a comparison warned, as document 01 numbers the kinds. */
enum hulmisker_warning_kind {
    HULMISKER_WARNING_VERSION = 1,       /* a version key against no literal, an invalid version, or one that can't go with the operator */
    HULMISKER_WARNING_NAMES = 2,         /* a string key against a name */
    HULMISKER_WARNING_COMPATIBLE = 3,    /* a string key, ~= and a literal on its right */
    HULMISKER_WARNING_EXTRA = 4,         /* extra against a name, with an operator other than == and !=, or with a name that can't be normalised */
    HULMISKER_WARNING_LITERALS = 5       /* two literals */
};

/* The words of a program: 0 to 63 push the comparison of that number. */
enum {
    HULMISKER_WORD_AND = 64,
    HULMISKER_WORD_OR = 65,
    HULMISKER_WORD_YES = 66
};

/*
 * A requirement line: a name, extras, then specifiers or a URL, then a marker. Refusals 1 to 27.
 *
 * The figures behind the first two: HULMISKER_LINE_NAME_START to HULMISKER_LINE_WORDS. A line without a marker has no comparison and the program 66.
 */
uint8_t hulmisker_line(const uint8_t *line, size_t line_len, size_t figures[HULMISKER_LINE_FIGURES], size_t extras[HULMISKER_EXTRAS_SIZE],
                       size_t specifiers[HULMISKER_SPECIFIERS_SIZE], size_t comparisons[HULMISKER_COMPARISONS_SIZE], size_t warnings[HULMISKER_WARNINGS_SIZE],
                       uint8_t words[HULMISKER_WORDS_SIZE]);

/*
 * Extras alone: what follows the closing bracket is not looked at, and text without a leading `[` has no extras. Refusals 1, 2 and 6 to 12.
 *
 * figures[HULMISKER_EXTRAS_COUNT]: how many extras.
 */
uint8_t hulmisker_extras(const uint8_t *line, size_t line_len, size_t figures[HULMISKER_EXTRAS_FIGURES], size_t extras[HULMISKER_EXTRAS_SIZE]);

/*
 * A marker alone. Refusals 1, 2 and 18 to 27.
 *
 * The figures behind the first two, HULMISKER_MARKER_COMPARISONS to HULMISKER_MARKER_WORDS: how many comparisons are kept, how many warnings, how many words. The
 * program passes hulmisker_check for the count of comparisons, which are numbered from 0 as they stand in `comparisons`. A comparison that is ignored is
 * not in the program; if all are, it is the one word 66.
 */
uint8_t hulmisker_marker(const uint8_t *line, size_t line_len, size_t figures[HULMISKER_MARKER_FIGURES], size_t comparisons[HULMISKER_COMPARISONS_SIZE],
                         size_t warnings[HULMISKER_WARNINGS_SIZE], uint8_t words[HULMISKER_WORDS_SIZE]);

/* A version, by PEP 440's Appendix B. Refusals 1, 2 and 14. */
uint8_t hulmisker_version(const uint8_t *text, size_t text_len, size_t figures[HULMISKER_VERSION_FIGURES]);

/* A version, or epoch and release and `.*`. Refusals 1, 2 and 14. */
uint8_t hulmisker_pattern(const uint8_t *text, size_t text_len, size_t figures[HULMISKER_VERSION_FIGURES]);

/* An operator and a version or pattern that may go with it. Refusals 1, 2 and 14. */
uint8_t hulmisker_specifier(const uint8_t *text, size_t text_len, size_t figures[HULMISKER_VERSION_FIGURES]);

/*
 * The normal form of a name, at the front of `out`, with no 0 behind it. A normal form is never longer than its name; the name may have any length.
 * Refusals 28 and 29: `out` is then as it was.
 *
 * figures[HULMISKER_NORMALISE_LEN]: the length of the normal form.
 */
uint8_t hulmisker_normalise(const uint8_t *name, size_t name_len, uint8_t *out, size_t out_len, size_t figures[HULMISKER_NORMALISE_FIGURES]);

/* Whether a program may be run with `count` comparisons. Refusals 31 and 30, whose start is the number of a word. */
uint8_t hulmisker_check(const uint8_t *program, size_t program_len, size_t count, size_t figures[HULMISKER_CHECK_FIGURES]);

/*
 * Checks a program as hulmisker_check does and runs it: bit k of `assignment` says whether comparison k holds. Bits from `count` up have no effect.
 *
 * figures[HULMISKER_RUN_ANSWER]: 1 for yes, 0 for no.
 */
uint8_t hulmisker_run(const uint8_t *program, size_t program_len, size_t count, uint64_t assignment, size_t figures[HULMISKER_RUN_FIGURES]);

/* The rest of this file is not proved: it spells out numbers. */

/* A refusal's text: short English, without the place. Document 01 leaves texts open, so they may change where numbers do not. */
static inline const char *hulmisker_refusal_text(unsigned number)
{
    switch (number) {
    case HULMISKER_ACCEPTED: return "accepted";
    case HULMISKER_TOO_LONG: return "the text is over 4096 bytes";
    case HULMISKER_NOT_ASCII: return "a byte that is not ASCII";
    case HULMISKER_NAME_MISSING: return "no name before the end";
    case HULMISKER_NAME_START: return "a name starts with a letter or digit";
    case HULMISKER_NAME_END: return "a name ends with a letter or digit";
    case HULMISKER_EXTRAS_OPEN: return "the bracket of the extras is not closed";
    case HULMISKER_EXTRAS_COMMA: return "a comma before the first extra";
    case HULMISKER_EXTRA_START: return "an extra starts with a letter or digit";
    case HULMISKER_EXTRA_JOIN: return "no comma between two extras";
    case HULMISKER_EXTRA_AFTER: return "after an extra stands a comma, a bracket or white space";
    case HULMISKER_EXTRA_END: return "an extra ends with a letter or digit";
    case HULMISKER_EXTRAS_MANY: return "over 32 extras";
    case HULMISKER_URL_EMPTY: return "the URL is empty";
    case HULMISKER_VERSION_BAD: return "not a valid version, pattern or specifier";
    case HULMISKER_SPECIFIERS_OPEN: return "the parenthesis of the specifiers is not closed";
    case HULMISKER_SPECIFIERS_MANY: return "over 32 specifiers";
    case HULMISKER_LINE_GOES_ON: return "the line goes on after its last part";
    case HULMISKER_VALUE_MISSING: return "the marker ends where a value is wanted";
    case HULMISKER_VALUE_UNKNOWN: return "neither a known marker name nor quoted";
    case HULMISKER_OPERATOR_UNKNOWN: return "not a known operator";
    case HULMISKER_NOT_UNSPACED: return "no white space after 'not'";
    case HULMISKER_EXPECTED_FOUND_END: return "the marker ends before what was opened here, or 'in', is complete";
    case HULMISKER_EXPECTED_FOUND_OTHER: return "another byte where ')' or 'in' is wanted";
    case HULMISKER_MARKER_GOES_ON: return "the marker goes on after its last part";
    case HULMISKER_TOO_DEEP: return "over 16 open parentheses";
    case HULMISKER_COMPARISONS_MANY: return "over 64 kept comparisons";
    case HULMISKER_WARNINGS_MANY: return "over 64 warnings";
    case HULMISKER_NAME_BAD: return "the name cannot be normalised";
    case HULMISKER_OUTPUT_SHORT: return "the output is shorter than the normal form";
    case HULMISKER_PROGRAM_BAD: return "the program breaks a stack rule";
    case HULMISKER_COUNT_OVER: return "the count of comparisons is over 64";
    case HULMISKER_SEGMENTS_MANY: return "a version with over 16 release or 8 local segments is compared";
    case HULMISKER_TEXT_ENDED: return "the text has ended, and is not restarted";
    case HULMISKER_NUMBER_REPEATED: return "a comparison number more than once in a program to be explained";
    case HULMISKER_RECORD_BAD: return "a record out of order, or a field that no line gives";
    case HULMISKER_LINES_MANY: return "over 4294967295 lines";
    case HULMISKER_CABINET_BAD: return "a cabinet is made of its variable texts and its extras in normal form";
    case HULMISKER_CLAIM_WRONG: return "the claimed answer is not the one judged";
    case HULMISKER_CLAIM_OUTSIDE: return "the claimed set has a number that is not below the count";
    case HULMISKER_CLAIM_OPEN: return "the claimed set does not fix the answer";
    case HULMISKER_PIECE_LONG: return "the piece is over 512 bytes";
    default: return "no refusal has this number";
    }
}

/* A warning's text, as short. */
static inline const char *hulmisker_warning_text(size_t kind)
{
    switch (kind) {
    case HULMISKER_WARNING_VERSION: return "a version name is compared with what is no fitting version";
    case HULMISKER_WARNING_NAMES: return "two names are compared";
    case HULMISKER_WARNING_COMPATIBLE: return "strings are compared with ~=";
    case HULMISKER_WARNING_EXTRA: return "extra is compared by an operator or with a name that does not fit";
    case HULMISKER_WARNING_LITERALS: return "two literals are compared";
    default: return "no warning has this kind";
    }
}

static inline const char *hulmisker_sort_text(size_t sort)
{
    switch (sort) {
    case HULMISKER_SORT_VERSION: return "version";
    case HULMISKER_SORT_VERSION_LIST: return "version list";
    case HULMISKER_SORT_STRING: return "string";
    case HULMISKER_SORT_EXTRA_NORMAL: return "extra";
    case HULMISKER_SORT_EXTRA_ARBITRARY: return "arbitrary extra";
    default: return "no sort has this code";
    }
}

/* A key's name, as a marker spells it. */
static inline const char *hulmisker_key_text(size_t key)
{
    switch (key) {
    case HULMISKER_KEY_PYTHON_VERSION: return "python_version";
    case HULMISKER_KEY_PYTHON_FULL_VERSION: return "python_full_version";
    case HULMISKER_KEY_IMPLEMENTATION_VERSION: return "implementation_version";
    case HULMISKER_KEY_OS_NAME: return "os_name";
    case HULMISKER_KEY_SYS_PLATFORM: return "sys_platform";
    case HULMISKER_KEY_PLATFORM_RELEASE: return "platform_release";
    case HULMISKER_KEY_PLATFORM_SYSTEM: return "platform_system";
    case HULMISKER_KEY_PLATFORM_VERSION: return "platform_version";
    case HULMISKER_KEY_PLATFORM_MACHINE: return "platform_machine";
    case HULMISKER_KEY_PLATFORM_PYTHON_IMPLEMENTATION: return "platform_python_implementation";
    case HULMISKER_KEY_IMPLEMENTATION_NAME: return "implementation_name";
    case HULMISKER_KEY_EXTRA: return "extra";
    default: return "no key has this code";
    }
}

static inline const char *hulmisker_operator_text(size_t code)
{
    switch (code) {
    case HULMISKER_OPERATOR_EQUAL: return "==";
    case HULMISKER_OPERATOR_NOT_EQUAL: return "!=";
    case HULMISKER_OPERATOR_LESS: return "<";
    case HULMISKER_OPERATOR_LESS_EQUAL: return "<=";
    case HULMISKER_OPERATOR_GREATER: return ">";
    case HULMISKER_OPERATOR_GREATER_EQUAL: return ">=";
    case HULMISKER_OPERATOR_COMPATIBLE: return "~=";
    case HULMISKER_OPERATOR_IN: return "in";
    case HULMISKER_OPERATOR_NOT_IN: return "not in";
    case HULMISKER_OPERATOR_CONTAINS: return "contains";
    case HULMISKER_OPERATOR_NOT_CONTAINS: return "not contains";
    default: return "no operator has this code";
    }
}

#ifdef __cplusplus
}
#endif

#endif
