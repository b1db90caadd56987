/*
 * Reads requirement lines and prints what stands in them.
 *
 *     example [-a BITS] [LINE..]
 *
 * Without a LINE the lines of standard input are read. BITS is the assignment under which each marker's program is run: bit k says whether
 * comparison k holds (0x5: the first and the third). Without -a every comparison holds. The status is 1 if a line was refused.
 */
#include "hulmisker.h"

#include <errno.h>
#include <stdio.h>
#include <stdlib.h>
#include <string.h>

/* One byte, one column: what is no printable ASCII is shown as '?', so that a row of '^' stands where it should. */
static void put_bytes(const uint8_t *text, size_t len)
{
    for (size_t i = 0; i < len; i++)
        putchar(text[i] >= 32 && text[i] < 127 ? text[i] : '?');
}

static void put_part(const char *what, const uint8_t *line, size_t start, size_t len)
{
    printf("  %-10s '", what);
    put_bytes(line + start, len);
    printf("'\n");
}

static void put_list(const char *what, const uint8_t *line, const size_t *spans, size_t count)
{
    for (size_t i = 0; i < count; i++) {
        const size_t *span = spans + HULMISKER_SPAN_SIZE * i;
        put_part(what, line, span[HULMISKER_SPAN_START], span[HULMISKER_SPAN_LEN]);
    }
}

static void put_row(size_t start, size_t len)
{
    for (size_t i = 0; i < start; i++)
        putchar(' ');
    for (size_t i = 0; i < (len ? len : 1); i++) /* an empty span has a place too */
        putchar('^');
    putchar('\n');
}

/* The buffers of hulmisker_line. They are lent again and again; what a call leaves unread in them is nobody's concern. */
struct lists {
    size_t figures[HULMISKER_LINE_FIGURES];
    size_t extras[HULMISKER_EXTRAS_SIZE];
    size_t specifiers[HULMISKER_SPECIFIERS_SIZE];
    size_t comparisons[HULMISKER_COMPARISONS_SIZE];
    size_t warnings[HULMISKER_WARNINGS_SIZE];
    uint8_t words[HULMISKER_WORDS_SIZE];
};

static void put_marker(const uint8_t *line, const struct lists *found, uint64_t assignment)
{
    size_t kept = found->figures[HULMISKER_LINE_COMPARISONS], words = found->figures[HULMISKER_LINE_WORDS];
    for (size_t i = 0; i < kept; i++) {
        const size_t *c = found->comparisons + HULMISKER_COMPARISON_SIZE * i;
        printf("  %-10s %zu: %s, %s %s '", "comparison", i, hulmisker_sort_text(c[HULMISKER_COMPARISON_SORT]), hulmisker_key_text(c[HULMISKER_COMPARISON_KEY]),
               hulmisker_operator_text(c[HULMISKER_COMPARISON_OPERATOR]));
        put_bytes(line + c[HULMISKER_COMPARISON_START], c[HULMISKER_COMPARISON_LEN]);
        printf("'\n");
    }
    for (size_t i = 0; i < found->figures[HULMISKER_LINE_WARNINGS]; i++) {
        const size_t *w = found->warnings + HULMISKER_WARNING_SIZE * i;
        printf("  %-10s %zu, %s: ", "warning", w[HULMISKER_WARNING_KIND], hulmisker_warning_text(w[HULMISKER_WARNING_KIND]));
        put_bytes(line + w[HULMISKER_WARNING_START], w[HULMISKER_WARNING_LEN]);
        putchar('\n');
    }
    printf("  %-10s", "program");
    for (size_t i = 0; i < words; i++)
        printf(" %u", (unsigned)found->words[i]);
    size_t ran[HULMISKER_RUN_FIGURES];
    uint8_t number = hulmisker_run(found->words, words, kept, assignment, ran);
    if (number) /* proved not to happen: the program of an accepted marker passes the check */
        abort();
    printf("\n  %-10s %s\n", "answer", ran[HULMISKER_RUN_ANSWER] ? "yes" : "no");
}

/* Whether the line is accepted. */
static int show(const uint8_t *line, size_t len, uint64_t assignment)
{
    static struct lists found;
    const size_t *f = found.figures;
    uint8_t number = hulmisker_line(line, len, found.figures, found.extras, found.specifiers, found.comparisons, found.warnings, found.words);
    if (number) {
        printf("refused %u: %s\n", (unsigned)number, hulmisker_refusal_text(number));
        put_bytes(line, len);
        putchar('\n');
        put_row(f[HULMISKER_REFUSED_START], f[HULMISKER_REFUSED_LEN]);
        return 0;
    }
    put_bytes(line, len);
    putchar('\n');
    put_part("name", line, f[HULMISKER_LINE_NAME_START], f[HULMISKER_LINE_NAME_LEN]);
    put_list("extra", line, found.extras, f[HULMISKER_LINE_EXTRAS]);
    put_list("specifier", line, found.specifiers, f[HULMISKER_LINE_SPECIFIERS]);
    if (f[HULMISKER_LINE_HAS_URL])
        put_part("URL", line, f[HULMISKER_LINE_URL_START], f[HULMISKER_LINE_URL_LEN]);
    put_marker(line, &found, assignment);
    return 1;
}

/* Lines of standard input, of any length: a line longer than the buffer is over the limit as well, and its front is enough to refuse it. */
static int show_input(uint64_t assignment)
{
    static uint8_t line[HULMISKER_MAX_LINE + 1];
    size_t len = 0, some = 0;
    int good = 1, c;
    while ((c = getchar()) != EOF) {
        some = 1;
        if (c != '\n') {
            if (len < sizeof line)
                line[len++] = (uint8_t)c;
            continue;
        }
        good &= show(line, len, assignment);
        len = some = 0;
    }
    if (some)
        good &= show(line, len, assignment);
    return good;
}

int main(int argc, char **argv)
{
    uint64_t assignment = UINT64_MAX;
    int next = 1, good = 1;
    if (next < argc && strcmp(argv[next], "-a") == 0) {
        char *end = NULL;
        errno = 0;
        if (next + 1 < argc)
            assignment = strtoull(argv[next + 1], &end, 0);
        if (!end || end == argv[next + 1] || *end || errno) {
            fprintf(stderr, "usage: example [-a BITS] [LINE..]\n");
            return 2;
        }
        next += 2;
    }
    if (next == argc)
        return !show_input(assignment);
    for (; next < argc; next++)
        good &= show((const uint8_t *)argv[next], strlen(argv[next]), assignment);
    return !good;
}
