/* The stack that a function uses: it runs on a stack of its own, painted before, and the lowest byte that it wrote
   tells. */
#include "bench.h"
#include <string.h>
#include <ucontext.h>

enum { ROOM = 1 << 20, PAINT = 0x5a };

static _Alignas(64) uint8_t stack[ROOM];
static ucontext_t here, there;

static void nothing(void) { }

/* The bytes that a function used of the painted stack. */
static size_t used(void (*f)(void))
{
    memset(stack, PAINT, sizeof stack);
    getcontext(&there);
    there.uc_stack.ss_sp = stack;
    there.uc_stack.ss_size = sizeof stack;
    there.uc_link = &here;
    makecontext(&there, f, 0);
    swapcontext(&here, &there);
    size_t low = 0;
    while (low < ROOM && stack[low] == PAINT)
        low++;
    return ROOM - low;
}

size_t stack_of(void (*f)(void)) { return used(f) - used(nothing); }
