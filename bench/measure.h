// A measured program names its turn, `void turn(void *)`, and says how: "count N" runs N turns for an instruction counter around the
// program, "time" prints the nanoseconds of one turn, "stack" the bytes of stack that one turn writes.
#include "paint.h"
#include <stdio.h>
#include <time.h>

// What a turn answers goes here, so that no compiler leaves it out.
static volatile uint64_t kept;

// Processor time: what other work on the machine takes is not in it.
static double seconds(void) {
    struct timespec t;
    clock_gettime(CLOCK_PROCESS_CPUTIME_ID, &t);
    return t.tv_sec + t.tv_nsec * 1e-9;
}

// The least of 30 runs, each of as many turns as take about four milliseconds.
static double nanoseconds(void (*turn)(void *), void *arg) {
    double best = 1e9, from;
    long turns = 1;
    for (;; turns *= 2) {
        from = seconds();
        for (long i = 0; i < turns; i++) turn(arg);
        if (seconds() - from > 2e-3) break;
    }
    for (int run = 0; run < 30; run++) {
        from = seconds();
        for (long i = 0; i < turns; i++) turn(arg);
        double t = (seconds() - from) / turns * 1e9;
        if (t < best) best = t;
    }
    return best;
}

static int measure(const char *how, const char *count, void (*turn)(void *), void *arg) {
    if (!strcmp(how, "count")) for (long n = atol(count); n--;) turn(arg);
    else if (!strcmp(how, "time")) printf("%.1f\n", nanoseconds(turn, arg));
    else if (!strcmp(how, "stack")) printf("%zu\n", stack_of(turn, arg));
    else return 2;
    return 0;
}
