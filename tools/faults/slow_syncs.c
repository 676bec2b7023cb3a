/* Each sync of a file takes a fiftieth of a second more, or as many microseconds as are defined, as on a slow disk. The loader puts
   this before the C library. */
#include <sys/syscall.h>
#include <unistd.h>

#ifndef MICROSECONDS
#define MICROSECONDS 20000
#endif

static int synced(int file, int call)
{
    usleep(MICROSECONDS);
    return syscall(call, file);
}

int fsync(int file) { return synced(file, SYS_fsync); }

int fdatasync(int file) { return synced(file, SYS_fdatasync); }
