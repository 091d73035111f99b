// stack_of(f, arg): the bytes of stack that a call f(arg) writes, its return address too, on x86-64, by painting. f runs on a thread whose
// stack holds a known byte, and the lowest byte that changed is looked for; twice, with two paints, so that a byte that f writes with the
// paint's own value is seen. It needs no tool, and holds natively and under any emulator. Compile with -pthread.
#include <pthread.h>
#include <stddef.h>
#include <stdint.h>
#include <stdlib.h>
#include <string.h>
enum { PAINTED = 4 << 20, USED_BY_START = 16384 };
struct paint { void (*f)(void *); void *arg; uint8_t *low, *sp, *end; int byte; };

// The caller's stack pointer.
static __attribute__((noinline)) void paint_here(void *p) { ((struct paint *)p)->sp = (uint8_t *)__builtin_frame_address(0) + 16; }

// Paints over what the thread's start used, with no call and so no stack of its own, and calls f.
static __attribute__((noinline)) void *paint_run(void *p) {
    struct paint *q = p;
    void (*volatile here)(void *) = paint_here;
    here(q);
    for (volatile uint8_t *b = q->sp - USED_BY_START; b < q->sp; b++) *b = q->byte;
    q->f(q->arg);
    for (q->end = q->low; q->end < q->sp && *(volatile uint8_t *)q->end == q->byte;) q->end++;
    return 0;
}

static size_t stack_of(void (*f)(void *), void *arg) {
    size_t most = 0;
    uint8_t *stack = aligned_alloc(65536, PAINTED);
    for (int k = 0; k < 2; k++) {
        struct paint q = {f, arg, stack, 0, 0, k ? 0xa5 : 0x5a};
        pthread_t thread;
        pthread_attr_t attr;
        memset(stack, q.byte, PAINTED);
        pthread_attr_init(&attr);
        pthread_attr_setstack(&attr, stack, PAINTED);
        if (pthread_create(&thread, &attr, paint_run, &q)) abort();
        pthread_join(thread, 0);
        if ((size_t)(q.sp - q.end) > most) most = q.sp - q.end;
    }
    free(stack);
    return most;
}
