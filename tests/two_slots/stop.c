/* Preloaded to a program: ends it, as a kill would, when so many bytes have been written by pwrite as STOP_AFTER says; of the last write a part is done. */
#define _GNU_SOURCE
#include <dlfcn.h>
#include <stdlib.h>
#include <unistd.h>

ssize_t pwrite(int fd, const void *bytes, size_t count, off_t place) {
    static ssize_t (*plain)(int, const void *, size_t, off_t);
    static long left = -1;
    if (plain == NULL) {
        *(void **)&plain = dlsym(RTLD_NEXT, "pwrite");
        left = getenv("STOP_AFTER") == NULL ? -1 : atol(getenv("STOP_AFTER"));
    }
    if (left >= 0 && (size_t)left < count) {
        if (left > 0 && plain(fd, bytes, (size_t)left, place) != left) abort();
        _exit(99);
    }
    if (left >= 0) left -= (long)count;
    return plain(fd, bytes, count, place);
}
