/* Counts the calls that change files, and has one of them end the program, fail or do half of what it is asked; all are those
   of the C library, before which the loader puts this. disk_calls.py runs it. */
#include "../file_calls.h"
#include <limits.h>

/* the call `at`, counted from 1, is not made as it is asked for: `way` says how */
static unsigned long at, calls;
static char way;

/* where `only` is not empty, it is the path of a file: its calls alone are counted, and those that open it, read it and ask for
   its size, too; their number is reported as the program ends */
static const char *only = "";
static char chosen[1024];

__attribute__((constructor)) static void start(void)
{
    at = strtoul(getenv("DISK_CALL"), NULL, 10);
    way = getenv("DISK_WAY")[0];
    told = atoi(getenv("DISK_TOLD"));
    only = getenv("DISK_ONLY");
}

static int is_counted(int file) { return !*only || (file >= 0 && file < (int)sizeof chosen && chosen[file]); }

/* what becomes of the next call */
enum { MADE, FAILED, HALVED, TORN };
static int fate(void)
{
    calls += 1;
    if (calls < at || at == 0 || (calls > at && way != 'f'))
        return MADE;
    if (way == 'k')
        die();
    if (way == 'f' || way == 'o') {
        errno = EIO;
        return FAILED;
    }
    return way == 'h' ? HALVED : TORN;
}

/* what becomes of the next call that can't be halved, if it is counted; half of it is as much as none */
static int whole_fate(int may_fail)
{
    int next = may_fail ? fate() : MADE;
    if (next == TORN)
        die();
    return next;
}

__attribute__((destructor)) static void end(void)
{
    if (*only)
        tell('n', 0, calls, NULL, 0);
}

ssize_t pread64(int file, void *room, size_t size, off64_t where)
{
    return *only && is_counted(file) && fate() == FAILED ? -1 : syscall(SYS_pread64, file, room, size, where);
}

int statx(int file, const char *path, int flags, unsigned mask, struct statx *found)
{
    return *only && !*path && is_counted(file) && fate() == FAILED ? -1 : syscall(SYS_statx, file, path, flags, mask, found);
}

ssize_t pwrite64(int file, const void *bytes, size_t size, off64_t where)
{
    int next = is_file(file) && is_counted(file) ? fate() : MADE;
    ssize_t done;
    if (next == FAILED)
        return -1;
    if (next && size > 1)
        size /= 2;
    done = syscall(SYS_pwrite64, file, bytes, size, where);
    if (next == TORN)
        die();
    if (done > 0 && is_file(file))
        tell('w', file, where, bytes, done);
    return done;
}

ssize_t write(int file, const void *bytes, size_t size)
{
    return is_file(file) ? written(file, bytes, size) : syscall(SYS_write, file, bytes, size);
}

int ftruncate64(int file, off64_t size)
{
    if (whole_fate(is_counted(file)) == FAILED)
        return -1;
    int done = syscall(SYS_ftruncate, file, size);
    if (done == 0)
        tell('t', file, size, NULL, 0);
    return done;
}

static int synced(int file, int call)
{
    if (whole_fate(is_counted(file)) == FAILED)
        return -1;
    int done = syscall(call, file);
    if (done == 0)
        tell('s', file, 0, NULL, 0);
    return done;
}

static int opened(int folder, const char *path, int flags, unsigned mode)
{
    int is_change = flags & (O_CREAT | O_TRUNC);
    if (whole_fate(*only ? !strcmp(path, only) : is_change) == FAILED)
        return -1;
    int file = syscall(SYS_openat, folder, path, flags, mode);
    if (file >= 0 && file < (int)sizeof chosen)
        chosen[file] = *only && !strcmp(path, only);
    if (file < 0)
        tell('m', 0, 0, path, strlen(path));
    else if (is_file(file))
        tell(is_change ? 'c' : 'o', file, flags & O_TRUNC ? 1 : 0, path, strlen(path));
    return file;
}

int unlinkat(int folder, const char *path, int flags)
{
    if (whole_fate(!*only || !strcmp(path, only)) == FAILED)
        return -1;
    int done = syscall(SYS_unlinkat, folder, path, flags);
    if (done == 0)
        tell('u', 0, 0, path, strlen(path));
    return done;
}

int rename(const char *from, const char *to)
{
    char both[2 * PATH_MAX];
    size_t size = strlen(from) + 1 + strlen(to);
    if (whole_fate(!*only || !strcmp(from, only) || !strcmp(to, only)) == FAILED)
        return -1;
    int done = syscall(SYS_renameat, AT_FDCWD, from, AT_FDCWD, to);
    if (done == 0 && size < sizeof both) {
        strcpy(both, from);
        strcpy(both + strlen(from) + 1, to);
        tell('r', 0, 0, both, size);
    }
    return done;
}

/* the owner and the rights of a file */
int fchown(int file, uid_t owner, gid_t group)
{
    if (whole_fate(is_counted(file)) == FAILED)
        return -1;
    tell('p', file, 0, NULL, 0);
    return syscall(SYS_fchown, file, owner, group);
}

int fchmod(int file, mode_t mode)
{
    if (whole_fate(is_counted(file)) == FAILED)
        return -1;
    tell('p', file, 0, NULL, 0);
    return syscall(SYS_fchmod, file, mode);
}
