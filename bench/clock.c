// clock.c: loaded before the C library (LD_PRELOAD), it puts the clock forward by the seconds that the file has which
// CLOCK_OFFSET names, or back where there are fewer than 0.
#define _GNU_SOURCE
#include <fcntl.h>
#include <stdlib.h>
#include <sys/syscall.h>
#include <sys/time.h>
#include <time.h>
#include <unistd.h>
static long offset(void) {
    char text[32];
    const char *name = getenv("CLOCK_OFFSET");
    int file = name ? open(name, O_RDONLY) : -1;
    ssize_t length = file < 0 ? 0 : read(file, text, sizeof text - 1);
    if (file >= 0)
        close(file);
    if (length <= 0)
        return 0;
    text[length] = 0;
    return atol(text);
}
int clock_gettime(clockid_t clock, struct timespec *shown) {
    int status = syscall(SYS_clock_gettime, clock, shown);
    if (!status && clock == CLOCK_REALTIME)
        shown->tv_sec += offset();
    return status;
}
int gettimeofday(struct timeval *shown, void *zone) {
    struct timespec now;
    (void)zone;
    if (clock_gettime(CLOCK_REALTIME, &now))
        return -1;
    shown->tv_sec = now.tv_sec;
    shown->tv_usec = now.tv_nsec / 1000;
    return 0;
}
time_t time(time_t *shown) {
    struct timespec now;
    if (clock_gettime(CLOCK_REALTIME, &now))
        return -1;
    if (shown)
        *shown = now.tv_sec;
    return now.tv_sec;
}
