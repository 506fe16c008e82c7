/* Lets one call of the C library fail, for tools/hostile: loaded before that library (LD_PRELOAD). It is no part of the program.

   FAIL names the kind of call (alloc, open, read or write), and AT is the number of the one that fails, from 1; with ON all behind it
   fail too. With SHORT each read and write moves one byte. COUNTS names a file to which the number of calls of each kind is written as the program ends. */
#include <dlfcn.h>
#include <errno.h>
#include <fcntl.h>
#include <stdarg.h>
#include <stdio.h>
#include <stdlib.h>
#include <string.h>
#include <sys/types.h>
#include <sys/syscall.h>
#include <unistd.h>

extern void *__libc_malloc(size_t size);
extern void *__libc_realloc(void *old, size_t size);

enum kind { ALLOC, OPEN, READ, WRITE, KINDS };

static const char *const names[KINDS] = {"alloc", "open", "read", "write"};
static unsigned long made[KINDS];
static unsigned long at[KINDS];
static int counting, is_short, go_on;

__attribute__((constructor)) static void begin(void) {
    const char *fail = getenv("FAIL"), *number = getenv("AT");
    for (int kind = 0; fail && number && kind < KINDS; kind++)
        if (!strcmp(fail, names[kind])) at[kind] = strtoul(number, NULL, 10);
    is_short = getenv("SHORT") != NULL;
    go_on = getenv("ON") != NULL;
    counting = 1;
}

__attribute__((destructor)) static void end(void) {
    const char *path = getenv("COUNTS");
    char line[128];
    counting = 0;
    if (!path) return;
    int length = snprintf(line, sizeof line, "%lu %lu %lu %lu\n", made[ALLOC], made[OPEN], made[READ], made[WRITE]);
    long file = syscall(SYS_openat, AT_FDCWD, path, O_WRONLY | O_CREAT | O_TRUNC, 0600);
    if (file >= 0) syscall(SYS_write, file, line, (size_t)length);
}

static int fails(enum kind kind) {
    if (!counting) return 0;
    unsigned long number = ++made[kind];
    return number == at[kind] || (go_on && at[kind] && number > at[kind]);
}

void *malloc(size_t size) {
    if (fails(ALLOC)) return errno = ENOMEM, NULL;
    return __libc_malloc(size);
}

void *realloc(void *old, size_t size) {
    if (fails(ALLOC)) return errno = ENOMEM, NULL;
    return __libc_realloc(old, size);
}

int open(const char *path, int flags, ...) {
    mode_t mode = 0;
    if (flags & O_CREAT) {
        va_list more;
        va_start(more, flags);
        mode = va_arg(more, mode_t);
        va_end(more);
    }
    if (fails(OPEN)) return errno = EACCES, -1;
    return (int)syscall(SYS_openat, AT_FDCWD, path, flags, mode);
}

ssize_t read(int file, void *to, size_t size) {
    if (fails(READ)) return errno = EIO, -1;
    return syscall(SYS_read, file, to, is_short && size > 1 ? 1 : size);
}

ssize_t write(int file, const void *from, size_t size) {
    if (fails(WRITE)) return errno = ENOSPC, -1;
    return syscall(SYS_write, file, from, is_short && size > 1 ? 1 : size);
}
