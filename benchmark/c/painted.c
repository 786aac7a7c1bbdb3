/* Makes a call on a stack of its own that was painted before, to see how deep it went. Not for
   use from two threads at once. */

#define _XOPEN_SOURCE 700
#include <stddef.h>
#include <stdint.h>
#include <string.h>
#include <ucontext.h>

enum { PAINT = 0xc7 };

static ucontext_t here, there;
static void (*called)(void *);
static void *given;

static void enter(void) { called(given); }

/* How many bytes of the stack call(argument) used, or SIZE_MAX on failure. */
size_t painted_depth(uint8_t *stack, size_t stack_len, void (*call)(void *), void *argument) {
    called = call;
    given = argument;
    memset(stack, PAINT, stack_len);
    if (getcontext(&there) != 0) return SIZE_MAX;
    there.uc_stack.ss_sp = stack;
    there.uc_stack.ss_size = stack_len;
    there.uc_link = &here;
    makecontext(&there, enter, 0);
    if (swapcontext(&here, &there) != 0) return SIZE_MAX;
    size_t untouched = 0;
    while (untouched < stack_len && stack[untouched] == PAINT) untouched++;
    return stack_len - untouched;
}
