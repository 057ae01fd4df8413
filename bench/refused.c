// Refuses one call of a program's, by LD_PRELOAD: REFUSED_CALL is alloc, read, write, short-read or short-write, and
// REFUSED_NUMBER says which of these, from 1 on. An allocation finds no memory, a read or write fails, and a short one
// moves one byte. Writes to standard error are counted apart, by REFUSED_CALL=line. The file REFUSED_MARK is made where
// the call came. Calls before the program's `main` are none of these.
#define _GNU_SOURCE
#include <dlfcn.h>
#include <errno.h>
#include <fcntl.h>
#include <stdlib.h>
#include <string.h>
#include <sys/syscall.h>
#include <unistd.h>

static const char *call;
static long number, seen;

// Whether this call is the one.
static int is_refused(const char *name) {
    if (!call || strcmp(call, name) || ++seen != number)
        return 0;
    const char *mark = getenv("REFUSED_MARK");
    if (mark)
        close(syscall(SYS_openat, AT_FDCWD, mark, O_CREAT | O_WRONLY, 0600));
    return 1;
}

static void begin(void) {
    const char *text = getenv("REFUSED_NUMBER");
    number = text ? atol(text) : 0;
    call = getenv("REFUSED_CALL");
}

// The program's own `main` begins after this.
int __libc_start_main(int (*main)(int, char **, char **), int count, char **words, void (*init)(void),
                      void (*fini)(void), void (*rtld_fini)(void), void *stack) {
    int (*start)(int (*)(int, char **, char **), int, char **, void (*)(void), void (*)(void), void (*)(void), void *) =
        dlsym(RTLD_NEXT, "__libc_start_main");
    begin();
    return start(main, count, words, init, fini, rtld_fini, stack);
}

extern void *__libc_malloc(size_t), *__libc_calloc(size_t, size_t), *__libc_realloc(void *, size_t);

void *malloc(size_t size) {
    if (is_refused("alloc"))
        return errno = ENOMEM, NULL;
    return __libc_malloc(size);
}

void *calloc(size_t count, size_t size) {
    if (is_refused("alloc"))
        return errno = ENOMEM, NULL;
    return __libc_calloc(count, size);
}

void *realloc(void *old, size_t size) {
    if (is_refused("alloc"))
        return errno = ENOMEM, NULL;
    return __libc_realloc(old, size);
}

ssize_t read(int file, void *bytes, size_t size) {
    if (is_refused("read"))
        return errno = EIO, -1;
    return syscall(SYS_read, file, bytes, size > 1 && is_refused("short-read") ? 1 : size);
}

ssize_t write(int file, const void *bytes, size_t size) {
    if (is_refused(file == 2 ? "line" : "write"))
        return errno = EIO, -1;
    return syscall(SYS_write, file, bytes, size > 1 && is_refused("short-write") ? 1 : size);
}
