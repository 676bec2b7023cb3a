/* Each sync of a file fails while the file that FAILING names is there. The loader puts this before the C library. */
#include <errno.h>
#include <stdlib.h>
#include <sys/syscall.h>
#include <unistd.h>

static int synced(int file, int call)
{
    const char *failing = getenv("FAILING");
    if (failing && access(failing, F_OK) == 0) {
        errno = EIO;
        return -1;
    }
    return syscall(call, file);
}

int fsync(int file) { return synced(file, SYS_fsync); }

int fdatasync(int file) { return synced(file, SYS_fdatasync); }
