/*
 * How much stack a call takes: each runs in a thread whose stack is full of a pattern, and the deepest byte that changed is looked for. Fails if a call
 * takes HULMISKER_STACK bytes or more. The lines are those that nest deepest: what recurses is the marker's parentheses alone, 16 at most. What the
 * thread's start and the dynamic linker leave below is counted too, so a figure may be some 2,000 bytes too high.
 */
#define _POSIX_C_SOURCE 200809L
#include "hulmisker.h"

#include <pthread.h>
#include <stdio.h>
#include <stdlib.h>
#include <string.h>

enum { ROOM = 1 << 18, PATTERN = 0xA5 };

static uint8_t *stack;
static size_t untouched, base;
static void (*call)(void);
static const char *text;
static size_t figures[HULMISKER_LINE_FIGURES], extras[HULMISKER_EXTRAS_SIZE], specifiers[HULMISKER_SPECIFIERS_SIZE];
static size_t comparisons[HULMISKER_COMPARISONS_SIZE], warnings[HULMISKER_WARNINGS_SIZE];
static uint8_t words[HULMISKER_WORDS_SIZE], out[5000];

static void a_line(void) { hulmisker_line((const uint8_t *)text, strlen(text), figures, extras, specifiers, comparisons, warnings, words); }
static void a_marker(void) { hulmisker_marker((const uint8_t *)text, strlen(text), figures, comparisons, warnings, words); }
static void an_extras(void) { hulmisker_extras((const uint8_t *)text, strlen(text), figures, extras); }
static void a_version(void) { hulmisker_version((const uint8_t *)text, strlen(text), figures); }
static void a_pattern(void) { hulmisker_pattern((const uint8_t *)text, strlen(text), figures); }
static void a_specifier(void) { hulmisker_specifier((const uint8_t *)text, strlen(text), figures); }
static void a_name(void) { hulmisker_normalise((const uint8_t *)text, strlen(text), out, sizeof out, figures); }
static void a_check(void) { hulmisker_check(words, sizeof words, HULMISKER_MAX_COMPARISONS, figures); }
static void a_run(void) { hulmisker_run(words, sizeof words, HULMISKER_MAX_COMPARISONS, 1, figures); }

static void *measured(void *none)
{
    volatile uint8_t here = 0;
    call();
    while (untouched < ROOM && stack[untouched] == PATTERN)
        untouched++;
    base = (size_t)((uintptr_t)&here - (uintptr_t)stack);
    return none;
}

static int report(const char *name, void (*function)(void), const char *line)
{
    pthread_attr_t how;
    pthread_t thread;
    memset(stack, PATTERN, ROOM);
    call = function;
    text = line;
    untouched = 0;
    if (pthread_attr_init(&how) || pthread_attr_setstack(&how, stack, ROOM) || pthread_create(&thread, &how, measured, NULL) || pthread_join(thread, NULL))
        abort();
    size_t used = base > untouched ? base - untouched : ROOM;
    printf("%6zu bytes of stack: %s\n", used, name);
    return used < HULMISKER_STACK;
}

int main(void)
{
#define DEEP "(((((((((((((((("
#define SHALLOW "))))))))))))))))"
    int good = 1;
    void *room = NULL;
    if (posix_memalign(&room, 65536, ROOM))
        abort();
    stack = room;
    good &= report("a line without a marker", a_line, "a[b,c]>=1,<2");
    good &= report("a line with a version in 16 parentheses", a_line, "a[b,c]>=1,<2;" DEEP "python_version>='1!2.3rc4.post5.dev6'" SHALLOW);
    good &= report("a line with a list in 16 parentheses", a_line, "a;" DEEP "python_version in '1 2.3+l.4'" SHALLOW);
    good &= report("a line with an extra in 16 parentheses", a_line, "a;" DEEP "extra=='a.b'" SHALLOW);
    good &= report("a line with 17 parentheses", a_line, "a;" DEEP "(os_name=='a')" SHALLOW);
    good &= report("a marker with a version in 16 parentheses", a_marker, DEEP "'1!2.3rc4.post5.dev6'<python_version" SHALLOW);
    good &= report("extras", an_extras, "[a,b.c]");
    good &= report("a version", a_version, "1!2.3rc4.post5.dev6+l.7");
    good &= report("a pattern", a_pattern, "1!2.3.*");
    good &= report("a specifier", a_specifier, "==1!2.3rc4.post5.dev6+l.7");
    good &= report("a name", a_name, "A.-_b");
    for (size_t i = 0; i < sizeof words; i++)
        words[i] = i == 0 ? 0 : i % 2 ? (uint8_t)((i + 1) / 2) : HULMISKER_WORD_OR;
    good &= report("the check of 127 words", a_check, "");
    good &= report("a run of 127 words", a_run, "");
    free(stack);
    if (!good)
        printf("over the %d bytes that hulmisker.h states\n", HULMISKER_STACK);
    return !good;
}
