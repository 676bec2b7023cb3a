/* What two libraries share that the loader puts before the C library, so that a program's calls on files are counted, or fail:
   faults/disk_calls.c and simulation/machine.c. Each of them has the calls that are declared here. */
#define _GNU_SOURCE
#include <dlfcn.h>
#include <errno.h>
#include <fcntl.h>
#include <signal.h>
#include <stdarg.h>
#include <stdio.h>
#include <stdlib.h>
#include <string.h>
#include <sys/stat.h>
#include <sys/syscall.h>
#include <unistd.h>

static int synced(int file, int call);
static int opened(int folder, const char *path, int flags, unsigned mode);

/* Each call that is made is written here, if this is no number below zero: a line with its kind, the file, where, and how many bytes
   follow. */
static int told = -1;

static void tell(char kind, int file, long long where, const void *bytes, size_t size)
{
    char line[80];
    int length = snprintf(line, sizeof line, "%c %d %lld %zu\n", kind, file, where, size);
    if (told < 0)
        return;
    if (syscall(SYS_write, told, line, length) != length || (size && syscall(SYS_write, told, bytes, size) != (long)size))
        abort();
}

static int is_file(int file)
{
    struct stat found;
    return fstat(file, &found) == 0 && S_ISREG(found.st_mode);
}

static void die(void) { kill(getpid(), SIGKILL); }

ssize_t pread(int file, void *room, size_t size, off_t where) { return pread64(file, room, size, where); }
ssize_t pwrite(int file, const void *bytes, size_t size, off_t where) { return pwrite64(file, bytes, size, where); }
int ftruncate(int file, off_t size) { return ftruncate64(file, size); }
int fsync(int file) { return synced(file, SYS_fsync); }
int fdatasync(int file) { return synced(file, SYS_fdatasync); }
int unlink(const char *path) { return unlinkat(AT_FDCWD, path, 0); }

/* writes to a file where it stands, by pwrite64 */
static ssize_t written(int file, const void *bytes, size_t size)
{
    long long where = lseek(file, 0, SEEK_CUR);
    ssize_t done = pwrite64(file, bytes, size, where);
    if (done > 0)
        lseek(file, done, SEEK_CUR);
    return done;
}

static unsigned mode_of(int flags, va_list more) { return flags & (O_CREAT | O_TMPFILE) ? va_arg(more, unsigned) : 0; }

#define OPENING(name, head, folder) \
    int name head \
    { \
        va_list more; \
        va_start(more, flags); \
        unsigned mode = mode_of(flags, more); \
        va_end(more); \
        return opened(folder, path, flags, mode); \
    }
OPENING(open, (const char *path, int flags, ...), AT_FDCWD)
OPENING(open64, (const char *path, int flags, ...), AT_FDCWD)
OPENING(openat, (int folder, const char *path, int flags, ...), folder)
OPENING(openat64, (int folder, const char *path, int flags, ...), folder)
