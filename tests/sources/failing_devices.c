/* Put before the C library (LD_PRELOAD), it lets standard input tell, and standard output and standard error take,
   so many bytes as READ_ROOM, WRITE_ROOM and ERROR_ROOM give, and fails from then on. PIECE is the most bytes that a
   call of these moves. What isn't set knows no bound. */
#define _GNU_SOURCE
#include <dlfcn.h>
#include <errno.h>
#include <stdlib.h>
#include <unistd.h>

enum { NOT_ASKED = -2, NO_BOUND = -1 };

/* The number in the environment. */
static long bound(const char *name) {
    const char *number = getenv(name);
    return number ? atol(number) : NO_BOUND;
}

/* Takes up to so many bytes of the room that is left; -1 where none is. */
static ssize_t taken(const char *name, long *left, size_t size) {
    long piece = bound("PIECE");
    if (piece != NO_BOUND && (long)size > piece) size = (size_t)piece;
    if (*left == NOT_ASKED) *left = bound(name);
    if (*left == NO_BOUND) return (ssize_t)size;
    if (*left == 0 && size > 0) {
        errno = EIO;
        return -1;
    }
    if ((long)size > *left) size = (size_t)*left;
    *left -= (long)size;
    return (ssize_t)size;
}

ssize_t read(int fd, void *bytes, size_t size) {
    static ssize_t (*real)(int, void *, size_t);
    static long left = NOT_ASKED;
    if (!real) real = dlsym(RTLD_NEXT, "read");
    ssize_t room = fd == 0 ? taken("READ_ROOM", &left, size) : (ssize_t)size;
    return room < 0 ? -1 : real(fd, bytes, (size_t)room);
}

ssize_t write(int fd, const void *bytes, size_t size) {
    static ssize_t (*real)(int, const void *, size_t);
    static long left = NOT_ASKED, error_left = NOT_ASKED;
    if (!real) real = dlsym(RTLD_NEXT, "write");
    ssize_t room = (ssize_t)size;
    if (fd == 1) room = taken("WRITE_ROOM", &left, size);
    if (fd == 2) room = taken("ERROR_ROOM", &error_left, size);
    return room < 0 ? -1 : real(fd, bytes, (size_t)room);
}
