// For tests/sizes.sh, loaded before the C library: a write that takes at most WRITE_MOST bytes, and of which the one with the number WRITE_FAILS,
// counted from 0, fails, as into a pipe that is full and may not wait; those behind it go through again.
#define _GNU_SOURCE
#include <dlfcn.h>
#include <errno.h>
#include <stdlib.h>
#include <unistd.h>

ssize_t write(int fd, const void *buf, size_t count) {
    static long done;
    ssize_t (*next)(int, const void *, size_t) = (ssize_t(*)(int, const void *, size_t))dlsym(RTLD_NEXT, "write");
    const char *most = getenv("WRITE_MOST");
    const char *fails = getenv("WRITE_FAILS");
    if (fails && done++ == atol(fails)) {
        errno = EAGAIN;
        return -1;
    }
    if (most && count > (size_t)atol(most))
        count = (size_t)atol(most);
    return next(fd, buf, count);
}
