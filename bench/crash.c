// crash.c: loaded before the C library (LD_PRELOAD), it notes after each sync that succeeds how long the file is, on
// a line of the file that CRASH_LOG names. With CRASH_NOSYNC no sync is made, and each is answered as one that
// succeeded, as where the program forgot it.
#define _GNU_SOURCE
#include <dlfcn.h>
#include <fcntl.h>
#include <stdio.h>
#include <stdlib.h>
#include <sys/stat.h>
#include <unistd.h>
static void note(int fd) {
    char name[64], path[4096], line[4200];
    struct stat found;
    const char *log = getenv("CRASH_LOG");
    snprintf(name, sizeof name, "/proc/self/fd/%d", fd);
    ssize_t length = readlink(name, path, sizeof path - 1);
    if (!log || length < 0 || fstat(fd, &found) || !S_ISREG(found.st_mode))
        return;
    path[length] = 0;
    int size = snprintf(line, sizeof line, "%lld %s\n", (long long)found.st_size, path);
    int to = open(log, O_WRONLY | O_CREAT | O_APPEND, 0600);
    if (to < 0 || write(to, line, size) != size)
        abort();
    close(to);
}
static int synced(int fd, const char *name) {
    if (getenv("CRASH_NOSYNC"))
        return 0;
    int (*call)(int) = (int (*)(int))dlsym(RTLD_NEXT, name);
    int status = call(fd);
    if (!status)
        note(fd);
    return status;
}
int fsync(int fd) { return synced(fd, "fsync"); }
int fdatasync(int fd) { return synced(fd, "fdatasync"); }
