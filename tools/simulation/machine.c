/* A machine whose clock, disk and memory do as a block of numbers says, which the simulation shares with the program.
   The loader puts this before the C library; machine.py compiles and runs it. */
#include "../file_calls.h"
#include <malloc.h>
#include <sys/mman.h>
#include <sys/socket.h>
#include <sys/time.h>
#include <sys/uio.h>
#include <time.h>

/* the block; machine.py has the same names in the same order */
struct block {
    long moment;         /* what the clock reads, in seconds since 1970 */
    long stands;         /* whether the clock stands at what it read first */
    long disk_after;     /* which call to the disk, counted from now on, is the one below; 0 for none */
    long disk_way;       /* what becomes of it */
    long disk_kinds;     /* which calls are counted */
    long disk_error;     /* the error of a call that fails */
    long disk_fired;     /* how many were not made as they were asked for */
    long memory_after;   /* which call for memory is refused, counted from now on; 0 for none */
    long memory_count;   /* how many are */
    long memory_fired;   /* how many were */
    long drops_syncs;    /* whether a sync does nothing */
    long waits_part;     /* by how many times a wait for a client is shorter */
    long disk_calls;     /* how many calls to the disk were made */
    long memory_calls;   /* how many calls for memory were made */
    long clock_reads;    /* how often the clock was read */
    long skipped;        /* by how many seconds the running clock is ahead */
    long stopped;        /* what the running clock reads, in seconds, where it stands; 0 where it goes on */
};
static struct block own, *block = &own;
static long standing;

enum { READS = 1, WRITES = 2, SYNCS = 4, SIZES = 8, OPENS = 16, REMOVES = 32, SENDS = 64 };
enum { FAILS_ONCE = 1, FAILS_ON = 2, KILLED = 3, HALF_AND_KILLED = 4, HALF = 5, KILLED_AFTER = 6 };
enum { MADE, FAILED, HALVED, TORN, LAST };

void *__libc_malloc(size_t size);
void *__libc_calloc(size_t count, size_t size);
void *__libc_realloc(void *old, size_t size);

__attribute__((constructor)) static void start(void)
{
    const char *path = getenv("MACHINE_BLOCK"), *trace = getenv("MACHINE_TRACE");
    int file = path ? syscall(SYS_openat, AT_FDCWD, path, O_RDWR, 0) : -1;
    if (trace)
        told = atoi(trace);
    if (file < 0)
        return;
    void *found = mmap(NULL, sizeof own, PROT_READ | PROT_WRITE, MAP_SHARED, file, 0);
    syscall(SYS_close, file);
    if (found != MAP_FAILED)
        block = found;
}

/* what becomes of the next call of this kind */
static int fate(int kind)
{
    block->disk_calls += 1;
    if (block->disk_after == 0 || !(block->disk_kinds & kind))
        return MADE;
    if (block->disk_after > 1) {
        block->disk_after -= 1;
        return MADE;
    }
    int way = block->disk_way;
    block->disk_fired += 1;
    if (way != FAILS_ON)
        block->disk_after = 0;
    if (way == KILLED)
        die();
    if (way == FAILS_ONCE || way == FAILS_ON) {
        errno = block->disk_error;
        return FAILED;
    }
    return way == HALF ? HALVED : way == HALF_AND_KILLED ? TORN : LAST;
}

static ssize_t after(int next, ssize_t done)
{
    if (next == TORN || next == LAST)
        die();
    return done;
}

/* the clock */

int clock_gettime(clockid_t clock, struct timespec *now)
{
    int done = syscall(SYS_clock_gettime, clock, now);
    if (done == 0 && clock == CLOCK_REALTIME && block->moment) {
        block->clock_reads += 1;
        if (!standing)
            standing = block->moment;
        now->tv_sec = block->stands ? standing : block->moment;
    }
    if (done == 0 && (clock == CLOCK_MONOTONIC || clock == CLOCK_MONOTONIC_COARSE || clock == CLOCK_BOOTTIME))
        now->tv_sec += block->skipped;
    if (done == 0 && block->stopped && clock == CLOCK_MONOTONIC) {
        now->tv_sec = block->stopped;
        now->tv_nsec = 0;
    }
    return done;
}

int gettimeofday(struct timeval *now, void *zone)
{
    struct timespec found;
    (void)zone;
    clock_gettime(CLOCK_REALTIME, &found);
    now->tv_sec = found.tv_sec;
    now->tv_usec = found.tv_nsec / 1000;
    return 0;
}

time_t time(time_t *now)
{
    struct timespec found;
    clock_gettime(CLOCK_REALTIME, &found);
    if (now)
        *now = found.tv_sec;
    return found.tv_sec;
}

/* clients */

int setsockopt(int file, int level, int name, const void *value, socklen_t size)
{
    struct timeval wait;
    if (level == SOL_SOCKET && (name == SO_RCVTIMEO || name == SO_SNDTIMEO) && size == sizeof wait && block->waits_part > 1) {
        memcpy(&wait, value, sizeof wait);
        long micros = (wait.tv_sec * 1000000L + wait.tv_usec) / block->waits_part;
        wait.tv_sec = micros / 1000000;
        wait.tv_usec = micros % 1000000;
        return syscall(SYS_setsockopt, file, level, name, &wait, sizeof wait);
    }
    return syscall(SYS_setsockopt, file, level, name, value, size);
}

static int sent(int file) { return is_file(file) ? MADE : fate(SENDS); }

ssize_t send(int file, const void *bytes, size_t size, int flags)
{
    int next = fate(SENDS);
    if (next == FAILED)
        return -1;
    return after(next, syscall(SYS_sendto, file, bytes, next == TORN || next == HALVED ? (size + 1) / 2 : size, flags, NULL, 0));
}

/* memory */

static int is_refused(void)
{
    block->memory_calls += 1;
    if (block->memory_after == 0)
        return 0;
    if (block->memory_after > 1) {
        block->memory_after -= 1;
        return 0;
    }
    block->memory_fired += 1;
    block->memory_count -= 1;
    if (block->memory_count <= 0)
        block->memory_after = 0;
    errno = ENOMEM;
    return 1;
}

void *malloc(size_t size) { return is_refused() ? NULL : __libc_malloc(size); }
void *calloc(size_t count, size_t size) { return is_refused() ? NULL : __libc_calloc(count, size); }
void *realloc(void *old, size_t size) { return is_refused() ? NULL : __libc_realloc(old, size); }

/* the disk */

ssize_t pread64(int file, void *room, size_t size, off64_t where)
{
    int next = fate(READS);
    if (next == FAILED)
        return -1;
    return after(next, syscall(SYS_pread64, file, room, size, where));
}

ssize_t pwrite64(int file, const void *bytes, size_t size, off64_t where)
{
    int next = is_file(file) ? fate(WRITES) : MADE;
    ssize_t done;
    if (next == FAILED)
        return -1;
    if ((next == HALVED || next == TORN) && size > 1)
        size /= 2;
    done = syscall(SYS_pwrite64, file, bytes, size, where);
    if (done > 0 && is_file(file))
        tell('w', file, where, bytes, done);
    return after(next, done);
}

ssize_t write(int file, const void *bytes, size_t size)
{
    if (!is_file(file)) {
        int next = sent(file);
        if (next == FAILED)
            return -1;
        return after(next, syscall(SYS_write, file, bytes, next == TORN || next == HALVED ? (size + 1) / 2 : size));
    }
    return written(file, bytes, size);
}

ssize_t writev(int file, const struct iovec *parts, int count)
{
    int next = sent(file);
    if (next == FAILED)
        return -1;
    return after(next, syscall(SYS_writev, file, parts, count));
}

int ftruncate64(int file, off64_t size)
{
    int next = fate(SIZES), done;
    if (next == FAILED)
        return -1;
    done = syscall(SYS_ftruncate, file, size);
    if (done == 0)
        tell('t', file, size, NULL, 0);
    return after(next, done);
}

static int synced(int file, int call)
{
    int next = fate(SYNCS), done;
    if (next == FAILED)
        return -1;
    if (block->drops_syncs)
        return after(next, 0);
    done = syscall(call, file);
    if (done == 0)
        tell('s', file, 0, NULL, 0);
    return after(next, done);
}

static int opened(int folder, const char *path, int flags, unsigned mode)
{
    int is_change = flags & (O_CREAT | O_TRUNC);
    int next = fate(OPENS), file;
    if (next == FAILED)
        return -1;
    file = syscall(SYS_openat, folder, path, flags, mode);
    if (file >= 0 && is_file(file))
        tell(is_change ? 'c' : 'o', file, flags & O_TRUNC ? 1 : 0, path, strlen(path));
    return after(next, file);
}

int unlinkat(int folder, const char *path, int flags)
{
    int next = fate(REMOVES), done;
    if (next == FAILED)
        return -1;
    done = syscall(SYS_unlinkat, folder, path, flags);
    if (done == 0)
        tell('u', 0, 0, path, strlen(path));
    return after(next, done);
}
