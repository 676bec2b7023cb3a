/* Standard input and output, each a byte at a time, that fail at a call. The loader puts this before the C library.
   FAILS_READ and FAILS_WRITE are the call, counted from 1, or 0. FAILS_HOW is `o` where it alone fails, `f` where all later ones
   fail, too, and `n` where it takes no byte. */
#define _GNU_SOURCE
#include <errno.h>
#include <stdlib.h>
#include <sys/syscall.h>
#include <sys/uio.h>
#include <unistd.h>

static unsigned long fails[2], calls[2];
static char way;

__attribute__((constructor)) static void start(void)
{
    fails[0] = strtoul(getenv("FAILS_READ"), NULL, 10);
    fails[1] = strtoul(getenv("FAILS_WRITE"), NULL, 10);
    way = getenv("FAILS_HOW")[0];
}

static ssize_t made(int file, long call, void *bytes, size_t size)
{
    calls[file] += 1;
    if (calls[file] == fails[file] || (way == 'f' && fails[file] && calls[file] > fails[file])) {
        errno = EIO;
        return way == 'n' ? 0 : -1;
    }
    return syscall(call, file, bytes, size < 1 ? size : 1);
}

ssize_t read(int file, void *room, size_t size)
{
    return file == 0 ? made(0, SYS_read, room, size) : syscall(SYS_read, file, room, size);
}

ssize_t write(int file, const void *bytes, size_t size)
{
    return file == 1 ? made(1, SYS_write, (void *)bytes, size) : syscall(SYS_write, file, bytes, size);
}

ssize_t writev(int file, const struct iovec *parts, int count)
{
    while (file == 1 && count > 1 && parts->iov_len == 0)
        parts += 1, count -= 1;
    return file == 1 ? made(1, SYS_write, parts->iov_base, parts->iov_len) : syscall(SYS_writev, file, parts, count);
}
