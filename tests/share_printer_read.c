// For tests/printer.sh, loaded before the C library: a read that gives at most READ_MOST bytes, and that fails once READ_TIMES reads are done.
#define _GNU_SOURCE
#include <dlfcn.h>
#include <errno.h>
#include <stdlib.h>
#include <unistd.h>

ssize_t read(int fd, void *buf, size_t count) {
    static long done;
    ssize_t (*next)(int, void *, size_t) = (ssize_t(*)(int, void *, size_t))dlsym(RTLD_NEXT, "read");
    const char *most = getenv("READ_MOST");
    const char *times = getenv("READ_TIMES");
    if (times && done >= atol(times)) {
        errno = EIO;
        return -1;
    }
    done++;
    if (most && count > (size_t)atol(most))
        count = (size_t)atol(most);
    return next(fd, buf, count);
}
