/* Refuses one request of a program, or notes them all; tools/refused_memory loads it before the C library.
 *
 * REFUSED_KIND  m: memory, i: what is read or written, s: the same, but the call moves one byte and doesn't fail
 * REFUSED       the number of the request that is refused, from 1; 0: none
 * REFUSED_NOTES a file that takes a letter for each call: m memory, o open, r read, w write
 *
 * Of the calls for memory malloc and realloc are refused: the program makes no others. An open moves no bytes, so it is
 * none of those that move one.
 */
#define _GNU_SOURCE
#include <errno.h>
#include <fcntl.h>
#include <stdarg.h>
#include <stdlib.h>
#include <sys/syscall.h>
#include <unistd.h>

extern void *__libc_malloc(size_t);
extern void *__libc_realloc(void *, size_t);

static char kind;
static long refused, counted;
static int notes = -1;

__attribute__((constructor)) static void begin(void) {
    const char *text = getenv("REFUSED_KIND");
    const char *number = getenv("REFUSED");
    const char *file = getenv("REFUSED_NOTES");
    if (file) notes = syscall(SYS_openat, AT_FDCWD, file, O_WRONLY | O_CREAT | O_TRUNC, 0600);
    refused = number ? atol(number) : 0;
    counted = 0;
    kind = text ? *text : 0;
}

/* Whether this call, of the kind of a letter, is the one that is refused. */
static int is_refused(char wanted, char letter) {
    if (!kind) return 0;
    if (notes >= 0) syscall(SYS_write, notes, &letter, 1);
    return kind == wanted && ++counted == refused;
}

static int is_moved(char letter, char *how) {
    if (kind == 's' || kind == 'i') *how = kind;
    return is_refused(kind == 's' ? 's' : 'i', letter);
}

void *malloc(size_t size) {
    if (is_refused('m', 'm')) { errno = ENOMEM; return NULL; }
    return __libc_malloc(size);
}

void *realloc(void *old, size_t size) {
    if (is_refused('m', 'm')) { errno = ENOMEM; return NULL; }
    return __libc_realloc(old, size);
}

/* Whether a file is not to be opened. */
static int is_shut(void) {
    if (!is_refused('i', 'o')) return 0;
    errno = EIO;
    return 1;
}

static int mode_of(int flags, va_list more) { return flags & O_CREAT ? va_arg(more, int) : 0; }

#define OPENS_AT(name) \
    int name(int folder, const char *path, int flags, ...) { \
        va_list more; \
        va_start(more, flags); \
        int mode = mode_of(flags, more); \
        va_end(more); \
        return is_shut() ? -1 : (int) syscall(SYS_openat, folder, path, flags, mode); \
    }
#define OPENS(name) \
    int name(const char *path, int flags, ...) { \
        va_list more; \
        va_start(more, flags); \
        int mode = mode_of(flags, more); \
        va_end(more); \
        return is_shut() ? -1 : (int) syscall(SYS_openat, AT_FDCWD, path, flags, mode); \
    }
OPENS_AT(openat)
OPENS_AT(openat64)
OPENS(open)
OPENS(open64)

ssize_t read(int file, void *into, size_t size) {
    char how = 0;
    if (is_moved('r', &how)) {
        if (how == 'i') { errno = EIO; return -1; }
        size = size > 0;
    }
    return syscall(SYS_read, file, into, size);
}

ssize_t write(int file, const void *from, size_t size) {
    char how = 0;
    if (is_moved('w', &how)) {
        if (how == 'i') { errno = EIO; return -1; }
        size = size > 0;
    }
    return syscall(SYS_write, file, from, size);
}
