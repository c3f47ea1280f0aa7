/* Makes calls of the C library fail, in a program that this is loaded into by LD_PRELOAD.

   FAULT names a call (alloc, open, read, write, thread), the number of the first that fails, how many fail (0: all from there on), and the
   error; or, with the error 0, that reads and writes move one byte. FAULT_COUNTS names a file of five counters, which are the calls so far. */
#define _GNU_SOURCE
#include <dlfcn.h>
#include <errno.h>
#include <fcntl.h>
#include <pthread.h>
#include <stdarg.h>
#include <stdio.h>
#include <stdlib.h>
#include <string.h>
#include <sys/mman.h>
#include <sys/syscall.h>
#include <unistd.h>

enum call { ALLOC, OPEN, READ, WRITE, THREAD, CALLS };

static const char *const names[CALLS] = {"alloc", "open", "read", "write", "thread"};
static long unread[CALLS], *counts = unread;
static int failing = CALLS, error;
static long first, many;
static int (*start_thread)(pthread_t *, const pthread_attr_t *, void *(*)(void *), void *);

__attribute__((constructor)) static void begin(void) {
    const char *file = getenv("FAULT_COUNTS"), *fault = getenv("FAULT");
    char name[16];
    *(void **)&start_thread = dlsym(RTLD_NEXT, "pthread_create");
    long fd = file ? syscall(SYS_open, file, O_RDWR) : -1;
    if (fd >= 0) {
        void *place = mmap(NULL, sizeof unread, PROT_READ | PROT_WRITE, MAP_SHARED, (int)fd, 0);
        if (place != MAP_FAILED) counts = place;
        syscall(SYS_close, fd);
    }
    memset(counts, 0, sizeof unread);
    if (fault && sscanf(fault, "%15s %ld %ld %d", name, &first, &many, &error) == 4)
        for (failing = 0; failing < CALLS && strcmp(names[failing], name); failing++) {}
}

/* Whether this call, the next of its kind, is one that fails. */
static int fails(enum call call) {
    long number = __atomic_add_fetch(&counts[call], 1, __ATOMIC_RELAXED);
    return failing == (int)call && number >= first && (!many || number < first + many);
}

static int refuse(void) {
    errno = error;
    return -1;
}

void *malloc(size_t size) {
    extern void *__libc_malloc(size_t);
    if (!fails(ALLOC)) return __libc_malloc(size);
    errno = ENOMEM;
    return NULL;
}

void *realloc(void *place, size_t size) {
    extern void *__libc_realloc(void *, size_t);
    if (!fails(ALLOC)) return __libc_realloc(place, size);
    errno = ENOMEM;
    return NULL;
}

int open(const char *path, int flags, ...) {
    va_list rest;
    va_start(rest, flags);
    int mode = flags & O_CREAT ? va_arg(rest, int) : 0;
    va_end(rest);
    return fails(OPEN) ? refuse() : (int)syscall(SYS_openat, AT_FDCWD, path, flags, mode);
}

ssize_t read(int fd, void *bytes, size_t size) {
    if (!fails(READ)) return syscall(SYS_read, fd, bytes, size);
    return error ? refuse() : syscall(SYS_read, fd, bytes, size > 1 ? 1 : size);
}

ssize_t write(int fd, const void *bytes, size_t size) {
    if (!fails(WRITE)) return syscall(SYS_write, fd, bytes, size);
    return error ? refuse() : syscall(SYS_write, fd, bytes, size > 1 ? 1 : size);
}

ssize_t __write(int fd, const void *bytes, size_t size) { return write(fd, bytes, size); }

int pthread_create(pthread_t *thread, const pthread_attr_t *with, void *(*body)(void *), void *given) {
    return fails(THREAD) ? error : start_thread(thread, with, body, given);
}
