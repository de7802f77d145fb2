/* Put before the C library (LD_PRELOAD), it lets the file whose name is FAILING give so many bytes as FILE_ROOM says,
   and fail from then on, each time that it is opened. A call gives at most FILE_PIECE bytes of any file; what isn't set
   knows no bound. */
#define _GNU_SOURCE
#include <dlfcn.h>
#include <errno.h>
#include <stdio.h>
#include <stdlib.h>
#include <string.h>
#include <unistd.h>

/* The number in the environment, or -1. */
static long bound(const char *name) {
    const char *number = getenv(name);
    return number ? atol(number) : -1;
}

/* Whether a descriptor is of the file that fails. */
static int is_failing(int fd) {
    char link[64], path[4096];
    const char *name = getenv("FAILING");
    snprintf(link, sizeof link, "/proc/self/fd/%d", fd);
    ssize_t size = readlink(link, path, sizeof path - 1);
    if (!name || size < 0) return 0;
    path[size] = 0;
    return strcmp(path, name) == 0;
}

ssize_t read(int fd, void *bytes, size_t size) {
    static ssize_t (*real)(int, void *, size_t);
    if (!real) real = dlsym(RTLD_NEXT, "read");
    long piece = bound("FILE_PIECE"), room = bound("FILE_ROOM");
    if (fd > 2 && piece > 0 && (long)size > piece) size = (size_t)piece;
    if (fd > 2 && room >= 0 && is_failing(fd)) {
        long left = room - (long)lseek(fd, 0, SEEK_CUR);
        if (left <= 0 && size > 0) {
            errno = EIO;
            return -1;
        }
        if ((long)size > left) size = (size_t)left;
    }
    return real(fd, bytes, size);
}
