/* Put before the C library (LD_PRELOAD), it watches what a process does to the files below the folder CRASH_ROOT: its
   calls that write, sync, cut, rename, remove, and make folders, and the files that it makes.

   CRASH_AT    the process is killed before the call of this number, from 1; where CRASH_HALF is there and the call is a
               write, half of it is written first
   CRASH_FAIL  the call of this number fails with EIO
   CRASH_ROOM  so many bytes can be written to these files; then ENOSPC. Where CRASH_FULL is the end of a file's path,
               only to that file
   CRASH_LOG   each call that was made is added to this file: a letter, two numbers, the lengths of a path and of the
               bytes, and these

   A process that this one starts isn't watched. */
#define _GNU_SOURCE
#include <dlfcn.h>
#include <errno.h>
#include <fcntl.h>
#include <limits.h>
#include <signal.h>
#include <stdarg.h>
#include <stdint.h>
#include <stdio.h>
#include <stdlib.h>
#include <string.h>
#include <sys/stat.h>
#include <sys/syscall.h>
#include <unistd.h>

#define REAL(name) ((__typeof__(&name))dlsym(RTLD_NEXT, #name))

static char root[PATH_MAX];
static const char *full;
static long at, fail, calls, room = -1;
static int is_half, log_file = -1;

__attribute__((constructor)) static void begin(void) {
    const char *text = getenv("CRASH_ROOT");
    if (text != NULL && strlen(text) < sizeof root - 1) {
        strcpy(root, text);
        strcat(root, "/");
    }
    at = (text = getenv("CRASH_AT")) ? atol(text) : 0;
    fail = (text = getenv("CRASH_FAIL")) ? atol(text) : 0;
    room = (text = getenv("CRASH_ROOM")) ? atol(text) : -1;
    full = getenv("CRASH_FULL");
    is_half = getenv("CRASH_HALF") != NULL;
    if ((text = getenv("CRASH_LOG")) != NULL)
        log_file = (int)syscall(SYS_openat, AT_FDCWD, text, O_WRONLY | O_APPEND | O_CREAT | O_CLOEXEC, 0666);
    unsetenv("LD_PRELOAD");
}

/* Whether a path is one of a file below the root; the root itself is one too. */
static int is_ours(const char *path) {
    size_t length = strlen(root);
    if (length == 0 || strncmp(path, root, length - 1) != 0) return 0;
    return path[length - 1] == 0 || path[length - 1] == '/';
}

/* The path of an open file, where that is one of ours. */
static const char *path_of(int fd) {
    static char path[PATH_MAX];
    char link[64];
    snprintf(link, sizeof link, "/proc/self/fd/%d", fd);
    ssize_t length = readlink(link, path, sizeof path - 1);
    if (length < 0) return NULL;
    path[length] = 0;
    return is_ours(path) ? path : NULL;
}

static int ends_in(const char *path, const char *end) {
    size_t whole = strlen(path), part = strlen(end);
    return whole >= part && strcmp(path + whole - part, end) == 0;
}

static int is_last(void) { return ++calls == at; }

static void end(void) {
    kill(getpid(), SIGKILL);
    for (;;) pause();
}

static int fails(void) {
    if (calls != fail) return 0;
    errno = EIO;
    return 1;
}

/* Counts a call, and ends the process before it where its turn has come; whether it fails. */
static int count(void) {
    if (is_last()) end();
    return fails();
}

static void put(const void *bytes, size_t size) {
    const char *from = bytes;
    while (size > 0) {
        ssize_t done = syscall(SYS_write, log_file, from, size);
        if (done <= 0) abort();
        from += done;
        size -= (size_t)done;
    }
}

static void note(char letter, const char *path, int64_t first, int64_t second, const void *bytes, size_t size) {
    int error = errno;
    if (log_file >= 0) {
        int64_t numbers[4] = {first, second, (int64_t)strlen(path), (int64_t)size};
        put(&letter, 1);
        put(numbers, sizeof numbers);
        put(path, strlen(path));
        put(bytes, size);
    }
    errno = error;
}

/* How much of a write is done: none where there is no room. */
static ssize_t allowed(const char *path, size_t size) {
    if (room < 0 || (full != NULL && !ends_in(path, full))) return (ssize_t)size;
    if (room == 0) {
        errno = ENOSPC;
        return -1;
    }
    if ((long)size > room) size = (size_t)room;
    room -= (long)size;
    return (ssize_t)size;
}

static ssize_t written(int fd, const void *bytes, size_t size, off_t offset, int is_placed) {
    ssize_t (*plain)(int, const void *, size_t) = REAL(write);
    ssize_t (*placed)(int, const void *, size_t, off_t) = REAL(pwrite64);
    const char *path = path_of(fd);
    if (path == NULL) return is_placed ? placed(fd, bytes, size, offset) : plain(fd, bytes, size);
    if (is_last()) {
        if (is_half && size > 1) {
            if (is_placed) placed(fd, bytes, size / 2, offset);
            else plain(fd, bytes, size / 2);
        }
        end();
    }
    if (fails()) return -1;
    ssize_t most = allowed(path, size);
    if (most < 0) return -1;
    ssize_t done = is_placed ? placed(fd, bytes, (size_t)most, offset) : plain(fd, bytes, (size_t)most);
    if (done > 0) note('w', path, is_placed ? offset : lseek(fd, 0, SEEK_CUR) - done, 0, bytes, (size_t)done);
    return done;
}

ssize_t write(int fd, const void *bytes, size_t size) { return written(fd, bytes, size, 0, 0); }
ssize_t pwrite(int fd, const void *bytes, size_t size, off_t offset) { return written(fd, bytes, size, offset, 1); }
ssize_t pwrite64(int fd, const void *bytes, size_t size, off64_t offset) { return written(fd, bytes, size, offset, 1); }

static int synced(int fd, int (*real)(int)) {
    const char *path = path_of(fd);
    if (path == NULL) return real(fd);
    if (count()) return -1;
    int outcome = real(fd);
    if (outcome == 0) note('s', path, 0, 0, "", 0);
    return outcome;
}

int fsync(int fd) { return synced(fd, REAL(fsync)); }
int fdatasync(int fd) { return synced(fd, REAL(fdatasync)); }

static int cut(int fd, off_t size) {
    const char *path = path_of(fd);
    if (path != NULL && count()) return -1;
    int outcome = REAL(ftruncate64)(fd, size);
    if (path != NULL && outcome == 0) note('t', path, size, 0, "", 0);
    return outcome;
}

int ftruncate(int fd, off_t size) { return cut(fd, size); }
int ftruncate64(int fd, off64_t size) { return cut(fd, size); }

int unlink(const char *path) {
    if (is_ours(path) && count()) return -1;
    int outcome = REAL(unlink)(path);
    if (outcome == 0 && is_ours(path)) note('u', path, 0, 0, "", 0);
    return outcome;
}

int rename(const char *from, const char *to) {
    if (is_ours(to) && count()) return -1;
    int outcome = REAL(rename)(from, to);
    if (outcome == 0 && is_ours(to)) note('r', from, 0, 0, to, strlen(to));
    return outcome;
}

int mkdir(const char *path, mode_t mode) {
    if (is_ours(path) && count()) return -1;
    int outcome = REAL(mkdir)(path, mode);
    if (outcome == 0 && is_ours(path)) note('m', path, 0, 0, "", 0);
    return outcome;
}

static int opened(int folder, const char *path, int flags, mode_t mode) {
    struct stat status;
    int is_new = (flags & O_CREAT) && is_ours(path) && stat(path, &status) != 0;
    int fd = (int)syscall(SYS_openat, folder, path, flags, mode);
    if (fd >= 0 && is_new) note('c', path, 0, 0, "", 0);
    else if (fd >= 0 && (flags & O_TRUNC) && is_ours(path)) note('t', path, 0, 0, "", 0);
    return fd;
}

#define MODE(flags) \
    ((flags) & O_CREAT ? (va_start(more, flags), mode = (mode_t)va_arg(more, int), va_end(more), mode) : 0)
#define OPEN(name) \
    int name(const char *path, int flags, ...) { \
        va_list more; \
        mode_t mode; \
        return opened(AT_FDCWD, path, flags, MODE(flags)); \
    }
#define OPEN_AT(name) \
    int name(int folder, const char *path, int flags, ...) { \
        va_list more; \
        mode_t mode; \
        return opened(folder, path, flags, MODE(flags)); \
    }
OPEN(open)
OPEN(open64)
OPEN_AT(openat)
OPEN_AT(openat64)
