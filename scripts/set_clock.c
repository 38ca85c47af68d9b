/* Sets the clock of the program that it is loaded ahead of (LD_PRELOAD): the variable MOMENTS has seconds since
 * 1970, with commas between, of which each look at the clock takes the next and the last one serves again and
 * again. Where one is `none` the clock cannot be read. */

#include <errno.h>
#include <stdlib.h>
#include <string.h>
#include <sys/syscall.h>
#include <time.h>
#include <unistd.h>

static const char *left;

static const char *next_moment(void) {
    if (!left) left = getenv("MOMENTS");
    const char *moment = left, *comma = left ? strchr(left, ',') : NULL;
    if (comma) left = comma + 1;
    return moment;
}

int clock_gettime(clockid_t clock, struct timespec *time) {
    const char *moment = clock == CLOCK_REALTIME ? next_moment() : NULL;
    if (!moment) return (int)syscall(SYS_clock_gettime, clock, time);
    if (!strncmp(moment, "none", 4)) {
        errno = EINVAL;
        return -1;
    }
    time->tv_sec = (time_t)strtoll(moment, NULL, 10);
    time->tv_nsec = 999999999;
    return 0;
}
