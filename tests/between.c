// Stands between the program and the C library: it counts what the program itself asks for, from the start of `main` on.
// REFUSE_ALLOCATION and REFUSE_CALL are the numbers, from 1, of what is refused, calls being those that open, make, look at,
// read, write, sync and rename files and set their modes; MOST is the number of bytes that a read or
// a write moves at most; COUNTS is a file that gets both counts at the end.
#define _GNU_SOURCE
#include <errno.h>
#include <fcntl.h>
#include <stdarg.h>
#include <stdio.h>
#include <stdlib.h>
#include <sys/stat.h>
#include <sys/syscall.h>
#include <unistd.h>

extern void *__libc_malloc(size_t);
extern void *__libc_calloc(size_t, size_t);
extern void *__libc_realloc(void *, size_t);

static long allocations, calls, refused_allocation, refused_call, most;
static int begun;

static long number(const char *name) {
    const char *text = getenv(name);
    return text ? atol(text) : 0;
}

__attribute__((constructor)) static void begin(void) {
    refused_allocation = number("REFUSE_ALLOCATION");
    refused_call = number("REFUSE_CALL");
    most = number("MOST");
    begun = 1;
}

__attribute__((destructor)) static void end(void) {
    const char *name = getenv("COUNTS");
    char text[64];
    begun = 0;
    if (!name) return;
    int length = snprintf(text, sizeof text, "%ld %ld\n", allocations, calls);
    int file = syscall(SYS_openat, AT_FDCWD, name, O_WRONLY | O_CREAT | O_TRUNC, 0644);
    syscall(SYS_write, file, text, length);
}

static int is_refused(long *count, long refused) {
    return begun && ++*count == refused;
}

void *malloc(size_t size) {
    return is_refused(&allocations, refused_allocation) ? NULL : __libc_malloc(size);
}

void *calloc(size_t count, size_t size) {
    return is_refused(&allocations, refused_allocation) ? NULL : __libc_calloc(count, size);
}

void *realloc(void *old, size_t size) {
    return is_refused(&allocations, refused_allocation) ? NULL : __libc_realloc(old, size);
}

static int call_fails(void) {
    errno = EIO;
    return is_refused(&calls, refused_call);
}

int open(const char *name, int flags, ...) {
    va_list rest;
    va_start(rest, flags);
    int mode = va_arg(rest, int);
    va_end(rest);
    return call_fails() ? -1 : syscall(SYS_openat, AT_FDCWD, name, flags, mode);
}

int rename(const char *from, const char *to) {
    return call_fails() ? -1 : syscall(SYS_renameat, AT_FDCWD, from, AT_FDCWD, to);
}

int statx(int folder, const char *name, int flags, unsigned mask, struct statx *found) {
    return call_fails() ? -1 : syscall(SYS_statx, folder, name, flags, mask, found);
}

int fchmod(int file, mode_t mode) {
    return call_fails() ? -1 : syscall(SYS_fchmod, file, mode);
}

int fsync(int file) {
    return call_fails() ? -1 : syscall(SYS_fsync, file);
}

static size_t moved(size_t count) {
    return most && count > (size_t)most ? (size_t)most : count;
}

ssize_t read(int file, void *bytes, size_t count) {
    return call_fails() ? -1 : syscall(SYS_read, file, bytes, moved(count));
}

ssize_t write(int file, const void *bytes, size_t count) {
    return call_fails() ? -1 : syscall(SYS_write, file, bytes, moved(count));
}
