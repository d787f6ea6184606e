/* Loaded before the C library into a server: each sync takes SYNC_NANOSECONDS, and no disk is asked. So two programs can be compared on a
 * disk that is as fast for both, which a real one rarely is for minutes. */
#define _GNU_SOURCE
#include <stdlib.h>
#include <sys/prctl.h>
#include <time.h>

static long nanoseconds;

__attribute__((constructor)) static void read_time(void)
{
    const char *text = getenv("SYNC_NANOSECONDS");
    nanoseconds = text ? atol(text) : 0;
}

static int wait_as_long_as_a_sync(void)
{
    static __thread int is_exact;
    if (!is_exact) {
        /* A thread wakes up to 50 us late otherwise. */
        prctl(PR_SET_TIMERSLACK, 1);
        is_exact = 1;
    }
    struct timespec end;
    clock_gettime(CLOCK_MONOTONIC, &end);
    end.tv_nsec += nanoseconds;
    end.tv_sec += end.tv_nsec / 1000000000;
    end.tv_nsec %= 1000000000;
    while (clock_nanosleep(CLOCK_MONOTONIC, TIMER_ABSTIME, &end, NULL) != 0)
        ;
    return 0;
}

int fsync(int file)
{
    (void)file;
    return wait_as_long_as_a_sync();
}

int fdatasync(int file)
{
    (void)file;
    return wait_as_long_as_a_sync();
}
