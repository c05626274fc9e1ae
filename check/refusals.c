/* Loaded before the C library: refuses one call of the program, an allocation, a read of standard input or a write to
   standard output, as KIND tells by its first letter, whose number REFUSED tells, from 1 on; with a LAST also those behind
   it, up to that number. Writes to the file COUNTED how many there were when the program ends. A read or a write moves at
   most PIECE bytes, where that is given. Memory that is given back isn't refused. */
#define _GNU_SOURCE
#include <errno.h>
#include <fcntl.h>
#include <stdio.h>
#include <stdlib.h>
#include <sys/syscall.h>
#include <unistd.h>

static unsigned long refused, last, count, piece;
static char kind;

void *__libc_malloc(size_t);
void *__libc_calloc(size_t, size_t);
void *__libc_realloc(void *, size_t);
void *__libc_memalign(size_t, size_t);

static unsigned long number(const char *name) {
    const char *text = getenv(name);
    return text ? strtoul(text, NULL, 10) : 0;
}

__attribute__((constructor)) static void begin(void) {
    const char *text = getenv("KIND");
    refused = number("REFUSED");
    last = number("LAST");
    piece = number("PIECE");
    count = 0;
    kind = text ? *text : 0;
}

__attribute__((destructor)) static void end(void) {
    const char *path = getenv("COUNTED");
    int file = path ? open(path, O_WRONLY | O_CREAT | O_TRUNC, 0600) : -1;
    if (file >= 0) {
        dprintf(file, "%lu\n", count);
        close(file);
    }
}

static int is_refused(char of, int error) {
    if (kind != of)
        return 0;
    count++;
    if (refused == 0 || count < refused || (count > refused && count > last))
        return 0;
    errno = error;
    return 1;
}

void *malloc(size_t size) { return is_refused('a', ENOMEM) ? NULL : __libc_malloc(size); }

void *calloc(size_t items, size_t size) { return is_refused('a', ENOMEM) ? NULL : __libc_calloc(items, size); }

void *realloc(void *old, size_t size) { return is_refused('a', ENOMEM) ? NULL : __libc_realloc(old, size); }

void *memalign(size_t align, size_t size) { return is_refused('a', ENOMEM) ? NULL : __libc_memalign(align, size); }

void *aligned_alloc(size_t align, size_t size) { return memalign(align, size); }

int posix_memalign(void **out, size_t align, size_t size) {
    *out = memalign(align, size);
    return *out ? 0 : ENOMEM;
}

ssize_t read(int file, void *into, size_t size) {
    if (file == 0 && is_refused('r', EIO))
        return -1;
    return syscall(SYS_read, file, into, file == 0 && piece && piece < size ? piece : size);
}

ssize_t write(int file, const void *from, size_t size) {
    if (file == 1 && is_refused('w', EIO))
        return -1;
    return syscall(SYS_write, file, from, file == 1 && piece && piece < size ? piece : size);
}
