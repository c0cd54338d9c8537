/* Put before the C library (LD_PRELOAD), it refuses one growth of memory: the one whose number is in the variable GROWTH, or none where
 * it is 0, counted from the first connection that is accepted, or from the program's start where the variable FROM is `start`. As the
 * program ends, the count goes to the file in the variable COUNT. */
#define _GNU_SOURCE
#include <dlfcn.h>
#include <errno.h>
#include <fcntl.h>
#include <stdio.h>
#include <stdlib.h>
#include <string.h>
#include <sys/socket.h>
#include <unistd.h>

extern void *__libc_malloc(size_t);
extern void *__libc_calloc(size_t, size_t);
extern void *__libc_realloc(void *, size_t);
extern void *__libc_memalign(size_t, size_t);

static int counts;
static long count, refused = -1;

static int refuse(void) {
    if (!counts)
        return 0;
    if (++count != refused)
        return 0;
    errno = ENOMEM;
    return 1;
}

void *malloc(size_t size) { return refuse() ? NULL : __libc_malloc(size); }
void *calloc(size_t many, size_t size) { return refuse() ? NULL : __libc_calloc(many, size); }
void *realloc(void *old, size_t size) { return refuse() ? NULL : __libc_realloc(old, size); }
void *aligned_alloc(size_t line, size_t size) { return refuse() ? NULL : __libc_memalign(line, size); }

int posix_memalign(void **out, size_t line, size_t size) {
    if (refuse())
        return ENOMEM;
    *out = __libc_memalign(line, size);
    return *out ? 0 : ENOMEM;
}

static void start(void) {
    if (counts)
        return;
    const char *number = getenv("GROWTH");
    refused = number ? atol(number) : 0;
    counts = 1;
}

int accept(int at, struct sockaddr *from, socklen_t *size) {
    static int (*next)(int, struct sockaddr *, socklen_t *);
    if (!next)
        next = dlsym(RTLD_NEXT, "accept");
    int got = next(at, from, size);
    start();
    return got;
}

int accept4(int at, struct sockaddr *from, socklen_t *size, int flags) {
    static int (*next)(int, struct sockaddr *, socklen_t *, int);
    if (!next)
        next = dlsym(RTLD_NEXT, "accept4");
    int got = next(at, from, size, flags);
    start();
    return got;
}

__attribute__((constructor)) static void begin(void) {
    const char *from = getenv("FROM");
    if (from && !strcmp(from, "start"))
        start();
}

__attribute__((destructor)) static void tell(void) {
    counts = 0;
    const char *path = getenv("COUNT");
    if (!path)
        return;
    char text[32];
    int size = snprintf(text, sizeof text, "%ld\n", count);
    int file = open(path, O_WRONLY | O_CREAT | O_TRUNC, 0600);
    if (file < 0 || write(file, text, size) != size)
        _exit(3);
    close(file);
}
