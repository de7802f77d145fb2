/* Put before the C library (LD_PRELOAD), it fails one call that opens, takes or dials a link, reads from one or writes
   to one: the one whose number, from 1, LINK_FAILS gives. The call that closes one side of a link, and those on that
   link after it, are counted apart, by CLOSING_FAILS; where one of these is failed, the file is made that CLOSING_SEEN
   names. A read or a write brings at most as many bytes as LINK_PIECE gives, where it is there. */
#define _GNU_SOURCE
#include <dlfcn.h>
#include <errno.h>
#include <fcntl.h>
#include <stdlib.h>
#include <sys/socket.h>
#include <unistd.h>

static long number(const char *name) {
    const char *text = getenv(name);
    return text ? atol(text) : 0;
}

static int counts_to(long *left, const char *name) {
    if (*left < 0) *left = number(name);
    if (*left > 0 && --*left == 0) {
        errno = ECONNRESET;
        return 1;
    }
    return 0;
}

static int fails(void) {
    static long left = -1;
    return counts_to(&left, "LINK_FAILS");
}

static int closing_fails(void) {
    static long left = -1;
    if (!counts_to(&left, "CLOSING_FAILS")) return 0;
    close(creat(getenv("CLOSING_SEEN"), 0600));
    errno = ECONNRESET;
    return 1;
}

/* The link whose one side was closed last, or none. */
static int closing = -1;

static int opened(int fd) {
    if (fd == closing) closing = -1;
    return fd;
}

static size_t piece(size_t size) {
    size_t most = (size_t)number("LINK_PIECE");
    return most > 0 && most < size ? most : size;
}

int socket(int domain, int type, int protocol) {
    int (*real)(int, int, int) = dlsym(RTLD_NEXT, "socket");
    return fails() ? -1 : opened(real(domain, type, protocol));
}

int bind(int fd, const struct sockaddr *address, socklen_t length) {
    int (*real)(int, const struct sockaddr *, socklen_t) = dlsym(RTLD_NEXT, "bind");
    return fails() ? -1 : real(fd, address, length);
}

int listen(int fd, int backlog) {
    int (*real)(int, int) = dlsym(RTLD_NEXT, "listen");
    return fails() ? -1 : real(fd, backlog);
}

int accept4(int fd, struct sockaddr *address, socklen_t *length, int flags) {
    int (*real)(int, struct sockaddr *, socklen_t *, int) = dlsym(RTLD_NEXT, "accept4");
    return fails() ? -1 : opened(real(fd, address, length, flags));
}

int connect(int fd, const struct sockaddr *address, socklen_t length) {
    int (*real)(int, const struct sockaddr *, socklen_t) = dlsym(RTLD_NEXT, "connect");
    return fails() ? -1 : real(fd, address, length);
}

ssize_t recv(int fd, void *bytes, size_t size, int flags) {
    ssize_t (*real)(int, void *, size_t, int) = dlsym(RTLD_NEXT, "recv");
    return (fd == closing ? closing_fails() : fails()) ? -1 : real(fd, bytes, piece(size), flags);
}

int shutdown(int fd, int how) {
    int (*real)(int, int) = dlsym(RTLD_NEXT, "shutdown");
    closing = fd;
    return closing_fails() ? -1 : real(fd, how);
}

int setsockopt(int fd, int level, int name, const void *value, socklen_t length) {
    int (*real)(int, int, int, const void *, socklen_t) = dlsym(RTLD_NEXT, "setsockopt");
    return fd == closing && closing_fails() ? -1 : real(fd, level, name, value, length);
}

ssize_t send(int fd, const void *bytes, size_t size, int flags) {
    ssize_t (*real)(int, const void *, size_t, int) = dlsym(RTLD_NEXT, "send");
    return fails() ? -1 : real(fd, bytes, piece(size), flags);
}
