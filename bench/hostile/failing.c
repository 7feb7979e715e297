/* Calls of the C library that fail, for failing.py, which loads this library before it.

   FAILING names a kind of call, and FROM and TO which calls of that kind fail, counted from 1; none does where FROM is 0. MODE `short` has reads and
   writes carry one byte instead. When the program ends, the numbers of calls of each kind are written to the descriptor COUNTS. */
#define _GNU_SOURCE
#include <errno.h>
#include <fcntl.h>
#include <stdarg.h>
#include <stdio.h>
#include <stdlib.h>
#include <string.h>
#include <sys/syscall.h>
#include <unistd.h>

enum kind { MEMORY, OPEN_TO_READ, OPEN_TO_WRITE, SEEK, READ, WRITE, CLOSE, KINDS };
static const char *const names[KINDS] = {"memory", "open-to-read", "open-to-write", "seek", "read", "write", "close"};

static long counts[KINDS], from, to;
static int failing = -1, is_short, is_counting;

extern void *__libc_malloc(size_t), *__libc_realloc(void *, size_t), *__libc_calloc(size_t, size_t);

static long number(const char *name) {
    const char *text = getenv(name);
    return text ? atol(text) : 0;
}

__attribute__((constructor)) static void begin(void) {
    const char *name = getenv("FAILING"), *mode = getenv("MODE");
    for (int kind = 0; kind < KINDS; kind++)
        if (name && !strcmp(name, names[kind])) failing = kind;
    from = number("FROM"), to = number("TO");
    is_short = mode && !strcmp(mode, "short");
    is_counting = 1;
}

__attribute__((destructor)) static void end(void) {
    char line[256];
    int length = 0;
    is_counting = 0;
    for (int kind = 0; kind < KINDS; kind++) length += snprintf(line + length, sizeof line - length, "%s %ld\n", names[kind], counts[kind]);
    if (getenv("COUNTS")) syscall(SYS_write, number("COUNTS"), line, length);
}

/* Counts a call, and tells whether it is one of those that fail. */
static int fails(enum kind kind) {
    if (!is_counting) return 0;
    long count = ++counts[kind];
    return (int)kind == failing && from && from <= count && count <= to;
}

static long failed(int why) {
    errno = why;
    return -1;
}

void *malloc(size_t size) { return fails(MEMORY) ? NULL : __libc_malloc(size); }
void *realloc(void *old, size_t size) { return fails(MEMORY) ? NULL : __libc_realloc(old, size); }
void *calloc(size_t count, size_t size) { return fails(MEMORY) ? NULL : __libc_calloc(count, size); }

int open(const char *path, int flags, ...) {
    va_list rest;
    va_start(rest, flags);
    int mode = va_arg(rest, int);
    va_end(rest);
    enum kind kind = (flags & O_ACCMODE) == O_RDONLY ? OPEN_TO_READ : OPEN_TO_WRITE;
    return fails(kind) ? failed(EACCES) : syscall(SYS_openat, AT_FDCWD, path, flags, mode);
}

off_t lseek(int file, off_t place, int whence) { return fails(SEEK) ? failed(ESPIPE) : syscall(SYS_lseek, file, place, whence); }

ssize_t read(int file, void *into, size_t size) {
    if (!fails(READ)) return syscall(SYS_read, file, into, size);
    return is_short ? syscall(SYS_read, file, into, size > 1 ? 1 : size) : failed(EIO);
}

ssize_t write(int file, const void *bytes, size_t size) {
    if (!fails(WRITE)) return syscall(SYS_write, file, bytes, size);
    return is_short ? syscall(SYS_write, file, bytes, size > 1 ? 1 : size) : failed(ENOSPC);
}

int close(int file) {
    int fails_now = fails(CLOSE), done = syscall(SYS_close, file);
    return fails_now ? failed(EIO) : done;
}
