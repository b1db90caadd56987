/* How much stack a call takes: the call runs on a painted stack of its own, and then the paint that is left is counted.
   Room that a frame reserves and never writes is seen only if a deeper frame writes below it. */
#include <stddef.h>
#include <string.h>
#include <ucontext.h>
#if __has_include(<valgrind/callgrind.h>)
#include <valgrind/callgrind.h>
#else /* then nothing is counted: bench/run --count says so */
#define CALLGRIND_ZERO_STATS
#define CALLGRIND_DUMP_STATS
#endif

enum { ROOM = 1 << 20, PAINT = 0xA5 };

static unsigned char room[ROOM] __attribute__((aligned(64)));
static ucontext_t here, there;
static void (*the_call)(void *);
static void *its_argument;

static void start(void) { the_call(its_argument); }

static void nothing(void *argument) { (void)argument; }

static size_t touched(void (*call)(void *), void *argument) {
    size_t left = 0;
    memset(room, PAINT, ROOM);
    the_call = call;
    its_argument = argument;
    getcontext(&there);
    there.uc_stack.ss_sp = room;
    there.uc_stack.ss_size = ROOM;
    there.uc_link = &here;
    makecontext(&there, start, 0);
    swapcontext(&here, &there);
    while (left < ROOM && room[left] == PAINT)
        left++;
    return ROOM - left;
}

/* Without what the switch to the other stack takes. */
size_t stack_used(void (*call)(void *), void *argument) {
    size_t most = touched(call, argument);
    return most - touched(nothing, 0);
}

/* Under valgrind's callgrind: what is done between these two is counted, and the count goes to a file of its own. */
void counting_starts(void) { CALLGRIND_ZERO_STATS; }

void counting_ends(void) { CALLGRIND_DUMP_STATS; }
