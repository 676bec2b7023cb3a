/* Counts the calls for memory and refuses some, and counts the bytes that are held. The loader puts this before the C
   library; refusals.py runs it. */
#include <errno.h>
#include <malloc.h>
#include <stddef.h>
#include <stdio.h>
#include <stdlib.h>
#include <sys/syscall.h>
#include <unistd.h>

/* the C library's own, by its other names */
void *__libc_malloc(size_t size);
void *__libc_calloc(size_t count, size_t size);
void *__libc_realloc(void *old, size_t size);
void __libc_free(void *block);

/* the calls from `first` to `last` are refused, counted from 1; the first one that is writes a byte to `told` */
static unsigned long first, last, calls;
static int told;

/* the bytes of the blocks that are held, and the most of them since standard input was read last; that is written to `counted`
   when it is read again, where this is no number below zero */
static size_t held, most;
static int counted = -1;

__attribute__((constructor)) static void start(void)
{
    told = atoi(getenv("REFUSAL_TOLD"));
    counted = atoi(getenv("REFUSAL_COUNTED"));
    first = strtoul(getenv("REFUSAL_FIRST"), NULL, 10);
    last = strtoul(getenv("REFUSAL_LAST"), NULL, 10);
    calls = 0;
}

static int is_refused(void)
{
    calls += 1;
    if (calls < first || calls > last)
        return 0;
    if (calls == first && write(told, "x", 1) != 1)
        abort();
    errno = ENOMEM;
    return 1;
}

static void *taken(void *block)
{
    held += malloc_usable_size(block);
    if (held > most)
        most = held;
    return block;
}

void *malloc(size_t size) { return is_refused() ? NULL : taken(__libc_malloc(size)); }
void *calloc(size_t count, size_t size) { return is_refused() ? NULL : taken(__libc_calloc(count, size)); }

void *realloc(void *old, size_t size)
{
    size_t before = malloc_usable_size(old);
    void *block = is_refused() ? NULL : __libc_realloc(old, size);
    if (block)
        held -= before;
    return taken(block);
}

void free(void *block)
{
    held -= malloc_usable_size(block);
    __libc_free(block);
}

ssize_t read(int file, void *room, size_t size)
{
    char line[32];
    if (file == 0 && counted >= 0) {
        int length = snprintf(line, sizeof line, "%zu\n", most);
        if (write(counted, line, length) != length)
            abort();
        most = held;
    }
    return syscall(SYS_read, file, room, size);
}
