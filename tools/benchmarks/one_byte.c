/* A read of standard input gives one byte at most. The loader puts this before the C library; posts runs it. */
#include <unistd.h>
#include <sys/syscall.h>
ssize_t read(int file, void *room, size_t size)
{
    return syscall(SYS_read, file, room, file == 0 && size > 1 ? 1 : size);
}
