/*
 * Tests of libgateway.a through hulmisker.h, with fixed expectations.
 *
 * Every call goes through a function here that lends buffers full of a pattern, with a pattern between and around them, and then looks at every byte:
 * on a refusal only the figures have changed; on success only the figures and the fronts of the lists, as far as the counts say. Each text stands in
 * memory of just its length, so that a sanitizer sees a read behind it.
 */
#include "hulmisker.h"

#include <stdarg.h>
#include <stdio.h>
#include <stdlib.h>
#include <string.h>

static unsigned failed, tried;
static unsigned char met[HULMISKER_COUNT_OVER + 1]; /* which refusals were seen */

static void expect(int good, const char *what, const char *input, const char *got, const char *wanted)
{
    tried++;
    if (good)
        return;
    failed++;
    printf("FAILED %s on '%.80s'\n  got    %s\n  wanted %s\n", what, input, got, wanted);
}

/* What a call answered, as text. */
static char answer[16384];
static size_t answered;

static void begin(void)
{
    answered = 0;
    answer[0] = 0;
}

static void say(const char *form, ...)
{
    va_list rest;
    va_start(rest, form);
    answered += (size_t)vsnprintf(answer + answered, sizeof answer - answered, form, rest);
    va_end(rest);
}

static void say_refusal(uint8_t number, const size_t *figures)
{
    expect(number < sizeof met, "a refusal's number", "some text", "a number that no function gives", "0 to 31");
    if (number < sizeof met)
        met[number] = 1;
    say("%u at %zu, %zu", (unsigned)number, figures[HULMISKER_REFUSED_START], figures[HULMISKER_REFUSED_LEN]);
}

static void say_spans(const char *name, const char *text, const size_t *spans, size_t count)
{
    say(" %s", name);
    for (size_t i = 0; i < count; i++) {
        const size_t *span = spans + HULMISKER_SPAN_SIZE * i;
        say("{%.*s}", (int)span[HULMISKER_SPAN_LEN], text + span[HULMISKER_SPAN_START]);
    }
}

static void say_marker(const char *text, const size_t *comparisons, size_t kept, const size_t *warnings, size_t warned, const uint8_t *words, size_t count)
{
    for (size_t i = 0; i < kept; i++) {
        const size_t *c = comparisons + HULMISKER_COMPARISON_SIZE * i;
        say(" (%zu %zu %zu {%.*s})", c[HULMISKER_COMPARISON_SORT], c[HULMISKER_COMPARISON_KEY], c[HULMISKER_COMPARISON_OPERATOR],
            (int)c[HULMISKER_COMPARISON_LEN], text + c[HULMISKER_COMPARISON_START]);
    }
    for (size_t i = 0; i < warned; i++) {
        const size_t *w = warnings + HULMISKER_WARNING_SIZE * i;
        say(" warning %zu at %zu, %zu", w[HULMISKER_WARNING_KIND], w[HULMISKER_WARNING_START], w[HULMISKER_WARNING_LEN]);
    }
    say(" words");
    for (size_t i = 0; i < count; i++)
        say(" %u", (unsigned)words[i]);
}

/* The buffers of all functions, with room around each. */
struct room {
    size_t r0[4];
    size_t figures[HULMISKER_LINE_FIGURES];
    size_t r1[4];
    size_t extras[HULMISKER_EXTRAS_SIZE];
    size_t r2[4];
    size_t specifiers[HULMISKER_SPECIFIERS_SIZE];
    size_t r3[4];
    size_t comparisons[HULMISKER_COMPARISONS_SIZE];
    size_t r4[4];
    size_t warnings[HULMISKER_WARNINGS_SIZE];
    size_t r5[4];
    uint8_t words[HULMISKER_WORDS_SIZE];
    uint8_t r6[33];
};

static struct room room;

#define PATTERN 0xA5

static void lend(void)
{
    memset(&room, PATTERN, sizeof room);
    begin();
}

static size_t all_pattern(const void *from, const void *to)
{
    for (const uint8_t *p = from; p < (const uint8_t *)to; p++)
        if (*p != PATTERN)
            return 0;
    return 1;
}

/* Whether nothing changed but so many figures and so many items of each list. */
static void kept_rest(const char *what, const char *input, size_t figures, size_t extras, size_t specifiers, size_t comparisons, size_t warnings, size_t words)
{
    int good = all_pattern(&room, room.figures) && all_pattern(room.figures + figures, room.extras) &&
               all_pattern(room.extras + HULMISKER_SPAN_SIZE * extras, room.specifiers) &&
               all_pattern(room.specifiers + HULMISKER_SPAN_SIZE * specifiers, room.comparisons) &&
               all_pattern(room.comparisons + HULMISKER_COMPARISON_SIZE * comparisons, room.warnings) &&
               all_pattern(room.warnings + HULMISKER_WARNING_SIZE * warnings, room.words) && all_pattern(room.words + words, &room + 1);
    expect(good, what, input, "a buffer has changed where it must not", "every other byte as it was");
}

/* A copy of just len bytes; also for length 0 a pointer that is not NULL. */
static uint8_t *exact(const char *text, size_t len)
{
    uint8_t *copy = malloc(len ? len : 1);
    if (!copy)
        abort();
    if (len)
        memcpy(copy, text, len);
    return copy;
}

static void release(uint8_t *copy, const char *text, size_t len)
{
    expect(len == 0 || memcmp(copy, text, len) == 0, "the lent text", text, "changed", "unchanged");
    free(copy);
}

/* The first two figures where nothing is refused. */
static void expect_no_place(const char *what, const char *input)
{
    expect(room.figures[HULMISKER_REFUSED_START] == 0 && room.figures[HULMISKER_REFUSED_LEN] == 0, what, input, "a place", "0, 0");
}

static void line_n(const char *text, size_t len, const char *wanted)
{
    uint8_t *copy = exact(text, len);
    const size_t *f = room.figures;
    lend();
    uint8_t number = hulmisker_line(copy, len, room.figures, room.extras, room.specifiers, room.comparisons, room.warnings, room.words);
    if (number) {
        say_refusal(number, f);
        for (int i = HULMISKER_LINE_NAME_START; i < HULMISKER_LINE_FIGURES; i++)
            expect(f[i] == 0, "a figure of a refused line", text, "not 0", "0");
    } else {
        size_t has_url = f[HULMISKER_LINE_HAS_URL], url = f[HULMISKER_LINE_URL_START], url_len = f[HULMISKER_LINE_URL_LEN];
        expect_no_place("the first figures of an accepted line", text);
        expect(has_url == 1 || (has_url == 0 && url == 0 && url_len == 0), "the URL's figures", text, "others", "1 and a span, or three times 0");
        say("{%.*s}", (int)f[HULMISKER_LINE_NAME_LEN], text + f[HULMISKER_LINE_NAME_START]);
        if (f[HULMISKER_LINE_EXTRAS])
            say_spans("extras", text, room.extras, f[HULMISKER_LINE_EXTRAS]);
        if (f[HULMISKER_LINE_SPECIFIERS])
            say_spans("specifiers", text, room.specifiers, f[HULMISKER_LINE_SPECIFIERS]);
        if (has_url)
            say(" url{%.*s}", (int)url_len, text + url);
        say_marker(text, room.comparisons, f[HULMISKER_LINE_COMPARISONS], room.warnings, f[HULMISKER_LINE_WARNINGS], room.words, f[HULMISKER_LINE_WORDS]);
    }
    kept_rest("hulmisker_line", text, HULMISKER_LINE_FIGURES, f[HULMISKER_LINE_EXTRAS], f[HULMISKER_LINE_SPECIFIERS], f[HULMISKER_LINE_COMPARISONS],
              f[HULMISKER_LINE_WARNINGS], f[HULMISKER_LINE_WORDS]);
    expect(strcmp(answer, wanted) == 0, "hulmisker_line", text, answer, wanted);
    release(copy, text, len);
}

static void line(const char *text, const char *wanted)
{
    line_n(text, strlen(text), wanted);
}

static void extras_n(const char *text, size_t len, const char *wanted)
{
    uint8_t *copy = exact(text, len);
    lend();
    uint8_t number = hulmisker_extras(copy, len, room.figures, room.extras);
    if (number) {
        say_refusal(number, room.figures);
        expect(room.figures[HULMISKER_EXTRAS_COUNT] == 0, "the count of refused extras", text, "not 0", "0");
    } else {
        expect_no_place("the first figures of accepted extras", text);
        say_spans("extras", text, room.extras, room.figures[HULMISKER_EXTRAS_COUNT]);
    }
    kept_rest("hulmisker_extras", text, HULMISKER_EXTRAS_FIGURES, room.figures[HULMISKER_EXTRAS_COUNT], 0, 0, 0, 0);
    expect(strcmp(answer, wanted) == 0, "hulmisker_extras", text, answer, wanted);
    release(copy, text, len);
}

static void extras(const char *text, const char *wanted)
{
    extras_n(text, strlen(text), wanted);
}

static void marker_n(const char *text, size_t len, const char *wanted)
{
    uint8_t *copy = exact(text, len);
    lend();
    uint8_t number = hulmisker_marker(copy, len, room.figures, room.comparisons, room.warnings, room.words);
    size_t kept = room.figures[HULMISKER_MARKER_COMPARISONS], warned = room.figures[HULMISKER_MARKER_WARNINGS], words = room.figures[HULMISKER_MARKER_WORDS];
    if (number) {
        say_refusal(number, room.figures);
        expect(kept == 0 && warned == 0 && words == 0, "the counts of a refused marker", text, "not 0", "0");
    } else {
        expect_no_place("the first figures of an accepted marker", text);
        say_marker(text, room.comparisons, kept, room.warnings, warned, room.words, words);
        size_t place[HULMISKER_CHECK_FIGURES] = {9, 9};
        expect(hulmisker_check(room.words, words, kept, place) == 0, "the check of an accepted marker's program", text, "refused", "passed");
    }
    kept_rest("hulmisker_marker", text, HULMISKER_MARKER_FIGURES, 0, 0, kept, warned, words);
    if (wanted)
        expect(strcmp(answer, wanted) == 0, "hulmisker_marker", text, answer, wanted);
    release(copy, text, len);
}

static void marker(const char *text, const char *wanted)
{
    marker_n(text, strlen(text), wanted);
}

typedef uint8_t version_check(const uint8_t *text, size_t text_len, size_t figures[HULMISKER_VERSION_FIGURES]);

static void version_n(version_check *by, const char *name, const char *text, size_t len, const char *wanted)
{
    uint8_t *copy = exact(text, len);
    lend();
    uint8_t number = by(copy, len, room.figures);
    say_refusal(number, room.figures);
    kept_rest(name, text, HULMISKER_VERSION_FIGURES, 0, 0, 0, 0, 0);
    expect(strcmp(answer, wanted) == 0, name, text, answer, wanted);
    release(copy, text, len);
}

static void version(version_check *by, const char *name, const char *text, const char *wanted)
{
    version_n(by, name, text, strlen(text), wanted);
}

static void normalise(const char *name, size_t room_len, const char *wanted)
{
    size_t len = strlen(name);
    uint8_t *copy = exact(name, len), *out = malloc(room_len + 1);
    if (!out)
        abort();
    memset(out, PATTERN, room_len + 1);
    lend();
    uint8_t number = hulmisker_normalise(copy, len, out, room_len, room.figures);
    size_t written = room.figures[HULMISKER_NORMALISE_LEN];
    if (number) {
        say_refusal(number, room.figures);
        expect(written == 0, "the length of a refused name", name, "not 0", "0");
    } else {
        expect_no_place("the first figures of an accepted name", name);
        say("%.*s", (int)written, (const char *)out);
    }
    expect(all_pattern(out + written, out + room_len + 1), "hulmisker_normalise", name, "the output changed behind the normal form", "unchanged");
    kept_rest("hulmisker_normalise", name, HULMISKER_NORMALISE_FIGURES, 0, 0, 0, 0, 0);
    expect(strcmp(answer, wanted) == 0, "hulmisker_normalise", name, answer, wanted);
    free(out);
    release(copy, name, len);
}

static void check(const uint8_t *program, size_t len, size_t count, const char *wanted)
{
    uint8_t *copy = exact((const char *)program, len);
    lend();
    uint8_t number = hulmisker_check(copy, len, count, room.figures);
    say_refusal(number, room.figures);
    kept_rest("hulmisker_check", "a program", HULMISKER_CHECK_FIGURES, 0, 0, 0, 0, 0);
    expect(strcmp(answer, wanted) == 0, "hulmisker_check", "a program", answer, wanted);
    release(copy, (const char *)program, len);
}

static void run(const uint8_t *program, size_t len, size_t count, uint64_t assignment, const char *wanted)
{
    uint8_t *copy = exact((const char *)program, len);
    lend();
    uint8_t number = hulmisker_run(copy, len, count, assignment, room.figures);
    size_t yes = room.figures[HULMISKER_RUN_ANSWER];
    if (number) {
        say_refusal(number, room.figures);
        expect(yes == 0, "the answer of a refused program", "a program", "not 0", "0");
    } else {
        expect_no_place("the first figures of a run", "a program");
        expect(yes <= 1, "the answer of a run", "a program", "another", "0 or 1");
        say(yes ? "yes" : "no");
    }
    kept_rest("hulmisker_run", "a program", HULMISKER_RUN_FIGURES, 0, 0, 0, 0, 0);
    expect(strcmp(answer, wanted) == 0, "hulmisker_run", "a program", answer, wanted);
    release(copy, (const char *)program, len);
}

/* Text that is made: the same part over and over. */
static char made[40000];

static const char *repeat(const char *front, const char *part, const char *joint, size_t times, const char *back)
{
    made[0] = 0;
    strcat(made, front);
    char *at = made + strlen(made);
    for (size_t i = 0; i < times; i++)
        at += snprintf(at, sizeof made - (size_t)(at - made), "%s%s", i ? joint : "", part);
    snprintf(at, sizeof made - (size_t)(at - made), "%s", back);
    return made;
}

/* Document 01, "Cases to prove together". */
static void documents_cases(void)
{
    marker("os_name=='a'and os_name=='b'", " (2 3 0 {a}) (2 3 0 {b}) words 0 1 64");
    marker("os_name=='a' and(os_name=='b')", "24 at 13, 16");
    marker("os_name=='a' or os_name=='b' and os_name=='c'", " (2 3 0 {a}) (2 3 0 {b}) (2 3 0 {c}) words 0 1 2 64 65");
    marker("'a'=='b' or os_name=='c'", " (2 3 0 {c}) warning 5 at 0, 8 words 0");
    marker("('a'=='b')", " warning 5 at 1, 8 words 66");
    marker("python_version in 'abc'", " warning 1 at 0, 23 warning 1 at 0, 23 words 66");
    marker("os_name ~= 'a'", " warning 3 at 0, 14 words 66");
    marker("'a' ~= os_name", " (2 3 6 {a}) words 0");
    marker("os_name not in'x'", " (2 3 8 {x}) words 0");
    marker("os_name not'x'", "21 at 11, 1");
    marker("", "18 at 0, 1");
    marker("os_name=='a", "22 at 9, 1");
    extras("[,", "7 at 1, 1");
    extras("[a,]", "8 at 3, 1");
    normalise("Foo._-Bar", 9, "foo-bar");
    line("foo-;", "5 at 3, 1");
}

static void lines(void)
{
    line("requests [security,tests] >= 2.8.1, == 2.8.* ; python_version > \"3.8\"",
         "{requests} extras{security}{tests} specifiers{>= 2.8.1}{ == 2.8.* } (0 0 4 {3.8}) words 0");
    line("A", "{A} words 66");
    line(" \tname [ ] ", "{name} words 66");
    line("a(>1,<2);extra=='b'", "{a} specifiers{>1}{<2} (3 11 0 {b}) words 0");
    line("a @ http://x ; os_name=='a'", "{a} url{http://x} (2 3 0 {a}) words 0");
    line("a @ ;", "{a} url{;} words 66");
    line("a[b]@x", "{a} extras{b} url{x} words 66");
    line("a;'1'<python_version or 'x' in os_name or 'y' not in sys_platform", "{a} (0 0 4 {1}) (2 3 9 {x}) (2 4 10 {y}) words 0 1 65 2 65");
    line("a;extra=='-' and extra<'b'", "{a} (4 11 0 {-}) warning 4 at 2, 10 warning 4 at 17, 9 words 0");
    line("a;python_full_version in '1 2'", "{a} (1 1 7 {1 2}) words 0");
    line("a; python_version=='1' and python_full_version!='1' and implementation_version<'1' and os_name<='a' and sys_platform>'a' and "
         "platform_release>='a' and platform_system=='a' and platform_version=='a' and platform_machine=='a' and "
         "platform_python_implementation=='a' and implementation_name=='a' and extra=='a'",
         "{a} (0 0 0 {1}) (0 1 1 {1}) (0 2 2 {1}) (2 3 3 {a}) (2 4 4 {a}) (2 5 5 {a}) (2 6 0 {a}) (2 7 0 {a}) (2 8 0 {a}) (2 9 0 {a}) (2 10 0 {a}) "
         "(3 11 0 {a}) words 0 1 64 2 64 3 64 4 64 5 64 6 64 7 64 8 64 9 64 10 64 11 64");
    line("", "3 at 0, 1");
    line("  ", "3 at 0, 1");
    line("a\200", "2 at 1, 1");
    line("./foo", "4 at 0, 1");
    line("a[", "6 at 1, 1");
    line("a[,b]", "7 at 2, 1");
    line("a[b,]", "8 at 4, 1");
    line("a[b c]", "9 at 4, 1");
    line("a[b$]", "10 at 3, 1");
    line("a[b-]", "11 at 3, 1");
    line("a @ ", "13 at 4, 0");
    line("a ==x", "14 at 2, 3");
    line("a(>1", "15 at 1, 1");
    line("a b", "17 at 2, 1");
    line("a @ http://x; os_name=='a'", "17 at 14, 1");
    line("a;", "18 at 2, 1");
    line("a;b=='c'", "19 at 2, 1");
    line("a;os_name", "20 at 9, 0");
    line("a;os_name = 'b'", "20 at 10, 1");
    line("a;os_name not", "21 at 13, 1");
    line("a;os_name not i", "22 at 15, 1");
    line("a;(os_name=='b'", "22 at 2, 1");
    line("a;(os_name=='b' c", "23 at 16, 1");
    line("a;os_name=='b' c", "24 at 15, 0");
}

/* The counts that the marker made last left in the figures. */
static void counts(const char *what, size_t kept, size_t warned, size_t words)
{
    int good = room.figures[HULMISKER_MARKER_COMPARISONS] == kept && room.figures[HULMISKER_MARKER_WARNINGS] == warned &&
               room.figures[HULMISKER_MARKER_WORDS] == words;
    expect(good, what, made, "other counts", "as many as there is place for");
}

static void limits(void)
{
    static const char one[] = " (2 3 0 {a}) words 0";
    line(repeat("", "a", "", 4097, ""), "1 at 4096, 1");
    line(repeat("a", " ", "", 4095, ""), "{a} words 66");
    extras(repeat("[a]", " ", "", 4094, ""), "1 at 4096, 1");
    extras(repeat("[a]", " ", "", 4093, ""), " extras{a}");
    marker(repeat("os_name=='a'", " ", "", 4085, ""), "1 at 4096, 1");
    marker(repeat("os_name=='a'", " ", "", 4084, ""), one);
    version(hulmisker_version, "hulmisker_version", repeat("1", " ", "", 4096, ""), "1 at 4096, 1");
    version(hulmisker_version, "hulmisker_version", repeat("1", " ", "", 4095, ""), "0 at 0, 0");
    version(hulmisker_pattern, "hulmisker_pattern", repeat("1.*", " ", "", 4094, ""), "1 at 4096, 1");
    version(hulmisker_pattern, "hulmisker_pattern", repeat("1.*", " ", "", 4093, ""), "0 at 0, 0");
    version(hulmisker_specifier, "hulmisker_specifier", repeat(">1", " ", "", 4095, ""), "1 at 4096, 1");
    version(hulmisker_specifier, "hulmisker_specifier", repeat(">1", " ", "", 4094, ""), "0 at 0, 0");

    static const char many[] = "{a}{a}{a}{a}{a}{a}{a}{a}{a}{a}{a}{a}{a}{a}{a}{a}{a}{a}{a}{a}{a}{a}{a}{a}{a}{a}{a}{a}{a}{a}{a}{a}";
    char wanted[256];
    snprintf(wanted, sizeof wanted, " extras%s", many);
    extras(repeat("[", "a", ",", 32, "]"), wanted);
    extras(repeat("[", "a", ",", 33, "]"), "12 at 65, 1");
    snprintf(wanted, sizeof wanted, "{b} extras%s words 66", many);
    line(repeat("b[", "a", ",", 32, "]"), wanted);
    line(repeat("b[", "a", ",", 33, "]"), "12 at 66, 1");
    line(repeat("a", ">1", ",", 32, ""), "{a} specifiers{>1}{>1}{>1}{>1}{>1}{>1}{>1}{>1}{>1}{>1}{>1}{>1}{>1}{>1}{>1}{>1}{>1}{>1}{>1}{>1}{>1}{>1}{>1}{>1}{>1}"
                                         "{>1}{>1}{>1}{>1}{>1}{>1}{>1} words 66");
    line(repeat("a", ">1", ",", 33, ""), "16 at 97, 2");

    marker(repeat("", "(", "", 16, "os_name=='a'))))))))))))))))"), one);
    marker(repeat("", "(", "", 17, "os_name=='a')))))))))))))))))"), "25 at 16, 1");
    line(repeat("a;", "(", "", 17, "os_name=='a')))))))))))))))))"), "25 at 18, 1");

    marker(repeat("", "os_name=='a'", " or ", 64, ""), NULL);
    counts("64 comparisons", HULMISKER_MAX_COMPARISONS, 0, HULMISKER_MAX_WORDS);
    expect(room.words[HULMISKER_WORDS_SIZE - 1] == HULMISKER_WORD_OR && room.comparisons[HULMISKER_COMPARISONS_SIZE - 1] == 1, "64 comparisons", made,
           "other numbers at the ends", "65, 1");
    marker(repeat("", "os_name=='a'", " or ", 65, ""), "26 at 1024, 12");
    line(repeat("a;", "os_name=='a'", " or ", 65, ""), "26 at 1026, 12");
    marker(repeat("", "'a'=='b'", " or ", 64, ""), NULL);
    counts("64 warnings", 0, HULMISKER_MAX_WARNINGS, 1);
    expect(room.words[0] == HULMISKER_WORD_YES && room.warnings[HULMISKER_WARNINGS_SIZE - 1] == 8, "64 warnings", made, "other numbers at the ends", "66, 8");
    marker(repeat("", "'a'=='b'", " or ", 65, ""), "27 at 768, 8");
    line(repeat("a;", "'a'=='b'", " or ", 65, ""), "27 at 770, 8");
}

static void markers_alone(void)
{
    marker("'1'>=python_full_version or 'x' in os_name or 'y' not in sys_platform", " (0 1 3 {1}) (2 3 9 {x}) (2 4 10 {y}) words 0 1 65 2 65");
    marker("implementation_version not in '1 2' and extra!='B'", " (1 2 8 {1 2}) (3 11 1 {B}) words 0 1 64");
    marker("extra=='$' or os_name==extra", " (4 11 0 {$}) warning 4 at 0, 10 warning 2 at 14, 14 words 0");
    marker("(os_name=='a' and 'b'=='c') or (os_name>'d' and (os_name<'e' or 'f'=='g'))", " (2 3 0 {a}) (2 3 4 {d}) (2 3 2 {e}) warning 5 at 18, 8 warning 5 at 64, 8 words 0 1 2 64 65");
    marker("\177\200", "2 at 1, 1");
    marker("x", "19 at 0, 1");
    marker("os_name", "20 at 7, 0");
    marker("os_name not  i", "22 at 14, 1");
    marker("os_name not x", "23 at 12, 1");
    marker("os_name=='a')", "24 at 12, 0");
}

static void extras_alone(void)
{
    extras("", " extras");
    extras("[]", " extras");
    extras("[ A , b.c ] and more", " extras{A}{b.c}");
    extras(" [a]", " extras");
    extras("[\377", "2 at 1, 1");
    extras("[a", "6 at 0, 1");
    extras("[a b]", "9 at 3, 1");
    extras("[a/]", "10 at 2, 1");
    extras("[a-]", "11 at 2, 1");
    extras("[a-", "11 at 2, 1");
}

static void versions(void)
{
    version(hulmisker_version, "hulmisker_version", "1.0", "0 at 0, 0");
    version(hulmisker_version, "hulmisker_version", " v1!2.3rc4.post5.dev6+l.7 ", "0 at 0, 0");
    version(hulmisker_version, "hulmisker_version", "18446744073709551615", "0 at 0, 0");
    version(hulmisker_version, "hulmisker_version", "18446744073709551616", "14 at 0, 20");
    version(hulmisker_version, "hulmisker_version", "1.*", "14 at 0, 3");
    version(hulmisker_version, "hulmisker_version", "", "14 at 0, 0");
    version(hulmisker_version, "hulmisker_version", "1\200", "2 at 1, 1");
    version(hulmisker_pattern, "hulmisker_pattern", "1.*", "0 at 0, 0");
    version(hulmisker_pattern, "hulmisker_pattern", "1a1", "0 at 0, 0");
    version(hulmisker_pattern, "hulmisker_pattern", "1a1.*", "14 at 0, 5");
    version(hulmisker_pattern, "hulmisker_pattern", "\200", "2 at 0, 1");
    version(hulmisker_specifier, "hulmisker_specifier", ">=1", "0 at 0, 0");
    version(hulmisker_specifier, "hulmisker_specifier", "==1.*", "0 at 0, 0");
    version(hulmisker_specifier, "hulmisker_specifier", ">1.*", "14 at 0, 4");
    version(hulmisker_specifier, "hulmisker_specifier", "~=1", "14 at 0, 3");
    version(hulmisker_specifier, "hulmisker_specifier", "~=1.2", "0 at 0, 0");
    version(hulmisker_specifier, "hulmisker_specifier", "===abc", "14 at 0, 6");
    version(hulmisker_specifier, "hulmisker_specifier", "=1\200", "2 at 2, 1");
}

static void names(void)
{
    normalise("Foo._-Bar", 8, "foo-bar");
    normalise("Foo._-Bar", 7, "foo-bar");
    normalise("Foo._-Bar", 6, "29 at 0, 1");
    normalise("", 0, "");
    normalise("", 5, "");
    normalise("A", 0, "29 at 0, 1");
    normalise("A", 1, "a");
    normalise("a$-", 9, "28 at 1, 1");
    normalise("--", 9, "28 at 0, 1");
    normalise("a--", 9, "28 at 2, 1");
    normalise("a\200", 9, "28 at 1, 1");
    normalise("a-", 0, "28 at 1, 1");
    const char *long_name = repeat("", "a", "", 16000, "");
    static char copy[16001];
    strcpy(copy, long_name);
    normalise(copy, 16000, copy);
    normalise(copy, 15999, "29 at 0, 1");
}

static void programs(void)
{
    static const uint8_t precedence[] = {0, 1, 2, 64, 65}; /* 0 or 1 and 2 */
    static const char *const told[] = {"no", "yes", "no", "yes", "no", "yes", "yes", "yes"};
    for (uint64_t bits = 0; bits < 8; bits++) {
        run(precedence, 5, 3, bits, told[bits]);
        run(precedence, 5, 3, bits | ~(uint64_t)7, told[bits]); /* bits from the count up have no effect */
    }
    check(precedence, 5, 3, "0 at 0, 0");
    check(precedence, 5, 64, "0 at 0, 0");
    check(precedence, 5, 65, "31 at 0, 1");
    check(precedence, 5, SIZE_MAX, "31 at 0, 1");
    check(precedence, 5, (size_t)1 << 32, "31 at 0, 1");
    check(precedence, 5, 2, "30 at 2, 1");
    check(precedence, 4, 3, "30 at 4, 1");
    check(precedence, 0, 3, "30 at 0, 1");
    check(precedence, 0, 65, "31 at 0, 1");
    run(precedence, 5, 65, 7, "31 at 0, 1");
    run(precedence, 5, (size_t)1 << 32, 7, "31 at 0, 1");
    run(precedence, 5, 2, 7, "30 at 2, 1");
    run(precedence, 0, 0, 7, "30 at 0, 1");

    static const uint8_t yes[] = {HULMISKER_WORD_YES}, unknown[] = {67}, early[] = {0, 64};
    run(yes, 1, 0, 0, "yes");
    check(unknown, 1, 64, "30 at 0, 1");
    check(early, 2, 1, "30 at 1, 1");

    uint8_t wide[128]; /* 64 values joined one by one: 127 words */
    for (int joint = HULMISKER_WORD_AND; joint <= HULMISKER_WORD_OR; joint++) {
        size_t len = 0;
        for (uint8_t k = 0; k < 64; k++) {
            wide[len++] = k;
            if (k)
                wide[len++] = (uint8_t)joint;
        }
        check(wide, 127, 64, "0 at 0, 0");
        check(wide, 127, 63, "30 at 125, 1");
        wide[127] = 0;
        check(wide, 128, 64, "30 at 127, 1");
        run(wide, 127, 64, 0, "no");
        run(wide, 127, 64, ~(uint64_t)0, "yes");
        for (int k = 0; k < 64; k++) { /* each bit decides */
            run(wide, 127, 64, (uint64_t)1 << k, joint == HULMISKER_WORD_OR ? "yes" : "no");
            run(wide, 127, 64, ~((uint64_t)1 << k), joint == HULMISKER_WORD_OR ? "yes" : "no");
        }
    }

    uint8_t high[71]; /* 35 and 36 values at a time */
    memset(high, 0, 36);
    memset(high + 35, HULMISKER_WORD_AND, 34);
    check(high, 69, 1, "0 at 0, 0");
    memset(high, 0, 36);
    memset(high + 36, HULMISKER_WORD_AND, 35);
    check(high, 71, 1, "30 at 35, 1");
}

/* NULL with length 0: see hulmisker.h. */
static void null_and_nothing(void)
{
    lend();
    expect(hulmisker_line(NULL, 0, room.figures, room.extras, room.specifiers, room.comparisons, room.warnings, room.words) == 3, "hulmisker_line", "NULL", "other", "3");
    expect(hulmisker_extras(NULL, 0, room.figures, room.extras) == 0 && room.figures[2] == 0, "hulmisker_extras", "NULL", "other", "0, no extras");
    expect(hulmisker_marker(NULL, 0, room.figures, room.comparisons, room.warnings, room.words) == 18, "hulmisker_marker", "NULL", "other", "18");
    expect(hulmisker_version(NULL, 0, room.figures) == 14, "hulmisker_version", "NULL", "other", "14");
    expect(hulmisker_pattern(NULL, 0, room.figures) == 14, "hulmisker_pattern", "NULL", "other", "14");
    expect(hulmisker_specifier(NULL, 0, room.figures) == 14, "hulmisker_specifier", "NULL", "other", "14");
    expect(hulmisker_normalise(NULL, 0, NULL, 0, room.figures) == 0 && room.figures[HULMISKER_NORMALISE_LEN] == 0, "hulmisker_normalise", "NULL", "other", "0, length 0");
    expect(hulmisker_normalise((const uint8_t *)"A", 1, NULL, 0, room.figures) == 29, "hulmisker_normalise", "A into NULL", "other", "29");
    expect(hulmisker_check(NULL, 0, 0, room.figures) == 30, "hulmisker_check", "NULL", "other", "30");
    expect(hulmisker_run(NULL, 0, 0, 0, room.figures) == 30, "hulmisker_run", "NULL", "other", "30");
}

/* The texts of the header: one for each number, all different, and one for what has none. */
static void texts(void)
{
    for (unsigned i = 0; i <= HULMISKER_PIECE_LONG; i++)
        for (unsigned k = i + 1; k <= HULMISKER_PIECE_LONG + 1; k++)
            expect(strcmp(hulmisker_refusal_text(i), hulmisker_refusal_text(k)) != 0, "hulmisker_refusal_text", "two numbers", "one text", "two texts");
    for (size_t i = 0; i < 12; i++)
        for (size_t k = i + 1; k < 13; k++) {
            expect(strcmp(hulmisker_key_text(i), hulmisker_key_text(k)) != 0, "hulmisker_key_text", "two codes", "one text", "two texts");
            if (k < 12)
                expect(strcmp(hulmisker_operator_text(i), hulmisker_operator_text(k)) != 0, "hulmisker_operator_text", "two codes", "one text", "two texts");
            if (k < 6)
                expect(strcmp(hulmisker_sort_text(i), hulmisker_sort_text(k)) != 0, "hulmisker_sort_text", "two codes", "one text", "two texts");
            if (k < 7)
                expect(strcmp(hulmisker_warning_text(i), hulmisker_warning_text(k)) != 0 || i == 0, "hulmisker_warning_text", "two kinds", "one text", "two texts");
        }
    expect(strcmp(hulmisker_key_text(HULMISKER_KEY_EXTRA), "extra") == 0, "hulmisker_key_text", "11", "other", "extra");
    expect(strcmp(hulmisker_operator_text(HULMISKER_OPERATOR_NOT_CONTAINS), "not contains") == 0, "hulmisker_operator_text", "10", "other", "not contains");
}

int main(void)
{
    documents_cases();
    lines();
    limits();
    markers_alone();
    extras_alone();
    versions();
    names();
    programs();
    null_and_nothing();
    texts();
    for (unsigned number = 1; number < sizeof met; number++) {
        char text[16];
        snprintf(text, sizeof text, "%u", number);
        expect(met[number], "the tests", text, "a refusal that no test meets", "each of the 31");
    }
    printf("%u expectations, %u failed\n", tried, failed);
    return failed != 0;
}
