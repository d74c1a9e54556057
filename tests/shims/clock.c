/* A library that stands before the clock that a run reads (tests/outside/progressed).
 *
 * CLOCK_STEPS has whole nanoseconds, with a comma after each: the n-th of them is how far the clock is on at its n-th reading. A
 * reading past the last one fails with EIO.
 */
#include <errno.h>
#include <stdlib.h>
#include <time.h>
#include <unistd.h>

static const long second = 1000000000;
static const char *steps;
static long told;

/* Without its steps the process ends at once, so that no run passes for one by this clock. */
__attribute__((constructor)) static void start(void) {
    steps = getenv("CLOCK_STEPS");
    if (!steps) _exit(99);
}

int clock_gettime(clockid_t which, struct timespec *now) {
    char *end;
    long step = strtol(steps, &end, 10);
    (void)which;
    if (*end != ',') {
        errno = EIO;
        return -1;
    }
    steps = end + 1;
    told += step;
    now->tv_sec = told / second;
    now->tv_nsec = told % second;
    return 0;
}
