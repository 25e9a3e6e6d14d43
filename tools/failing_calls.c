/* Stands between a program and the C library's calls of the system (LD_PRELOAD). Of the calls below, the one that FAILED_CALL
 * numbers is refused with EIO, without being made; before the one that KILLED_BEFORE numbers, or right after the one that
 * KILLED_AFTER numbers, the process is killed. With SHORT_PIECES no read or write moves more than so many bytes. With
 * REFUSED_LINKS no file gets a second name, and the error has this number: 1 as in a file system without hard links, 18 as of a
 * file that is mounted by itself, which can't be renamed either. At the end the count of calls is written to the file that
 * CALLS_FILE names. */
#define _GNU_SOURCE
#include <dlfcn.h>
#include <errno.h>
#include <fcntl.h>
#include <signal.h>
#include <stdarg.h>
#include <stdio.h>
#include <stdlib.h>
#include <sys/stat.h>
#include <sys/syscall.h>
#include <sys/types.h>
#include <unistd.h>

static unsigned long calls, failed, before, after;
static size_t piece;
static int link_error;

static unsigned long number(const char *name) {
    const char *given = getenv(name);
    return given ? strtoul(given, NULL, 10) : 0;
}

__attribute__((constructor)) static void read_numbers(void) {
    failed = number("FAILED_CALL");
    before = number("KILLED_BEFORE");
    after = number("KILLED_AFTER");
    piece = number("SHORT_PIECES");
    link_error = (int)number("REFUSED_LINKS");
}

__attribute__((destructor)) static void say_count(void) {
    const char *name = getenv("CALLS_FILE");
    char text[32];
    int length = snprintf(text, sizeof text, "%lu\n", calls);
    int file = name ? (int)syscall(SYS_openat, AT_FDCWD, name, O_WRONLY | O_CREAT | O_TRUNC, 0600) : -1;
    if (file >= 0 && syscall(SYS_write, file, text, length) < 0) _exit(3);
}

static int is_refused(void) {
    calls++;
    if (calls == before) kill(getpid(), SIGKILL);
    if (calls != failed) return 0;
    errno = EIO;
    return 1;
}

static void made(void) {
    if (calls == after) kill(getpid(), SIGKILL);
}

#define REAL(name, result, ...) ((result (*)(__VA_ARGS__))dlsym(RTLD_NEXT, name))
#define MAKE(failure, result, call)        \
    if (is_refused()) return failure;      \
    result answer = call;                  \
    int error = errno;                     \
    made();                                \
    errno = error;                         \
    return answer

int open(const char *path, int flags, ...) {
    va_list rest;
    va_start(rest, flags);
    mode_t mode = va_arg(rest, mode_t);
    va_end(rest);
    MAKE(-1, int, REAL("open", int, const char *, int, mode_t)(path, flags, mode));
}

int openat(int folder, const char *path, int flags, ...) {
    va_list rest;
    va_start(rest, flags);
    mode_t mode = va_arg(rest, mode_t);
    va_end(rest);
    MAKE(-1, int, REAL("openat", int, int, const char *, int, mode_t)(folder, path, flags, mode));
}

ssize_t read(int file, void *buffer, size_t size) {
    if (piece && size > piece) size = piece;
    MAKE(-1, ssize_t, REAL("read", ssize_t, int, void *, size_t)(file, buffer, size));
}

ssize_t write(int file, const void *buffer, size_t size) {
    if (piece && size > piece) size = piece;
    MAKE(-1, ssize_t, REAL("write", ssize_t, int, const void *, size_t)(file, buffer, size));
}

int fchmod(int file, mode_t mode) { MAKE(-1, int, REAL("fchmod", int, int, mode_t)(file, mode)); }

int fsync(int file) { MAKE(-1, int, REAL("fsync", int, int)(file)); }

int close(int file) { MAKE(-1, int, REAL("close", int, int)(file)); }

int fchown(int file, uid_t owner, gid_t group) { MAKE(-1, int, REAL("fchown", int, int, uid_t, gid_t)(file, owner, group)); }

int ftruncate(int file, off_t length) { MAKE(-1, int, REAL("ftruncate", int, int, off_t)(file, length)); }

off_t lseek(int file, off_t offset, int whence) { MAKE(-1, off_t, REAL("lseek", off_t, int, off_t, int)(file, offset, whence)); }

int link(const char *from, const char *to) {
    if (link_error) {
        errno = link_error;
        return -1;
    }
    MAKE(-1, int, REAL("link", int, const char *, const char *)(from, to));
}

int flock(int file, int how) { MAKE(-1, int, REAL("flock", int, int, int)(file, how)); }

int rename(const char *from, const char *to) {
    if (link_error == EXDEV) {
        errno = EBUSY;
        return -1;
    }
    MAKE(-1, int, REAL("rename", int, const char *, const char *)(from, to));
}

int unlink(const char *path) { MAKE(-1, int, REAL("unlink", int, const char *)(path)); }

int statx(int folder, const char *path, int flags, unsigned int mask, struct statx *facts) {
    MAKE(-1, int, REAL("statx", int, int, const char *, int, unsigned int, struct statx *)(folder, path, flags, mask, facts));
}

char *realpath(const char *path, char *resolved) {
    MAKE(NULL, char *, REAL("realpath", char *, const char *, char *)(path, resolved));
}

ssize_t getdents64(int folder, void *buffer, size_t size) {
    MAKE(-1, ssize_t, REAL("getdents64", ssize_t, int, void *, size_t)(folder, buffer, size));
}
