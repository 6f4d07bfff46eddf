// The least time of a call over many samples, and a line that says it.
#include <stddef.h>
#include <stdio.h>
#include <time.h>

static double now_ns(void) {
    struct timespec at;
    clock_gettime(CLOCK_MONOTONIC, &at);
    return at.tv_sec * 1e9 + at.tv_nsec;
}

// The least time of one call, in ns, over two seconds of samples of a tenth of a millisecond, or of one call where that
// takes longer. A short sample is seldom interrupted.
static double least_time(void (*call)(void)) {
    double begun = now_ns();
    call();
    long calls = (long)(1e5 / (now_ns() - begun)) + 1;
    double least = 0;
    do {
        double from = now_ns();
        for (long i = 0; i < calls; i++) call();
        double one = (now_ns() - from) / (double)calls;
        if (least == 0 || one < least) least = one;
    } while (now_ns() - begun < 2e9);
    return least;
}

// A line of figures; `bytes` is 0 where a rate says nothing.
static void report(const char *name, size_t bytes, double ns) {
    printf("%-32s %12.0f ns", name, ns);
    if (bytes > 0) printf(" %10.2f MB/s", (double)bytes / ns * 1e3);
    printf("\n");
}
