/* Refuses one call of the program that this library is loaded into, for tools/refuse.py.

   REFUSE_WHICH names the kind of call, and REFUSE_AT the number of the one that is refused, from 1; with REFUSE_ON=1
   all behind it are refused too. As a call is refused its file's number, or 255, is written to the file REFUSE_FD. */
#define _GNU_SOURCE
#include <dlfcn.h>
#include <errno.h>
#include <fcntl.h>
#include <pthread.h>
#include <stdarg.h>
#include <stdatomic.h>
#include <stdlib.h>
#include <string.h>
#include <sys/syscall.h>
#include <unistd.h>

extern void *__libc_malloc(size_t);
extern void *__libc_realloc(void *, size_t);

static const char *which = "";
static long at, on, told;
static atomic_long count;

/* What the loader does before the program begins isn't counted. */
__attribute__((constructor)) static void begin(void) {
    const char *kind = getenv("REFUSE_WHICH");
    at = atol(getenv("REFUSE_AT"));
    on = atol(getenv("REFUSE_ON"));
    told = atol(getenv("REFUSE_FD"));
    if (kind) which = kind;
}

static int is_refused(const char *kind, int file) {
    if (strcmp(which, kind) != 0) return 0;
    long number = atomic_fetch_add(&count, 1) + 1;
    if (number != at && !(on && number > at)) return 0;
    unsigned char byte = (unsigned char)file;
    syscall(SYS_write, told, &byte, 1);
    return 1;
}

static int fails(int error) {
    errno = error;
    return -1;
}

void *malloc(size_t size) {
    if (is_refused("allocation", -1)) return errno = ENOMEM, NULL;
    return __libc_malloc(size);
}

void *realloc(void *place, size_t size) {
    if (is_refused("allocation", -1)) return errno = ENOMEM, NULL;
    return __libc_realloc(place, size);
}

ssize_t read(int file, void *room, size_t size) {
    if (is_refused("read", file)) return fails(EIO);
    if (is_refused("interrupted read", file)) return fails(EINTR);
    if (size > 1 && is_refused("short read", file)) size = 1;
    return syscall(SYS_read, file, room, size);
}

ssize_t write(int file, const void *bytes, size_t size) {
    if (is_refused("write", file)) return fails(EIO);
    if (is_refused("interrupted write", file)) return fails(EINTR);
    if (size > 1 && is_refused("short write", file)) size = 1;
    return syscall(SYS_write, file, bytes, size);
}

ssize_t __write(int file, const void *bytes, size_t size) { return write(file, bytes, size); }

int open(const char *name, int flags, ...) {
    va_list more;
    va_start(more, flags);
    int mode = flags & O_CREAT ? va_arg(more, int) : 0;
    va_end(more);
    if (is_refused("open", -1)) return fails(EIO);
    if (is_refused("interrupted open", -1)) return fails(EINTR);
    return (int)syscall(SYS_openat, AT_FDCWD, name, flags, mode);
}

typedef int create(pthread_t *, const pthread_attr_t *, void *(*)(void *), void *);

int pthread_create(pthread_t *thread, const pthread_attr_t *how, void *(*run)(void *), void *with) {
    if (is_refused("thread", -1)) return EAGAIN;
    return ((create *)dlsym(RTLD_NEXT, "pthread_create"))(thread, how, run, with);
}
