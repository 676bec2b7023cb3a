/* The loader puts this before linux.uml, which keeps the first 2,696 bytes of what a process has in registers. Where the processor has
   more, as one with AMX, a host takes nothing less than all back; so the rest is added, as the zeros that are there of what is not
   used. */
#define _GNU_SOURCE
#include <dlfcn.h>
#include <elf.h>
#include <stdarg.h>
#include <string.h>
#include <sys/ptrace.h>
#include <sys/types.h>
#include <sys/uio.h>

typedef long call(int, pid_t, void *, void *);

static call *next;
static char all[1 << 16];
static size_t size;

__attribute__((constructor)) static void begin(void) { next = (call *)dlsym(RTLD_NEXT, "ptrace"); }

long ptrace(enum __ptrace_request request, ...)
{
    va_list given;
    va_start(given, request);
    pid_t process = va_arg(given, pid_t);
    void *address = va_arg(given, void *), *data = va_arg(given, void *);
    va_end(given);
    if ((int)request != PTRACE_SETREGSET || (long)address != NT_X86_XSTATE)
        return next(request, process, address, data);
    struct iovec *part = data, whole = {all, sizeof all};
    if (!size) {
        if (next(PTRACE_GETREGSET, process, address, &whole) < 0)
            return -1;
        size = whole.iov_len;
        memset(all, 0, sizeof all);
    }
    if (part->iov_len >= size)
        return next(request, process, address, data);
    memcpy(all, part->iov_base, part->iov_len);
    whole.iov_len = size;
    return next(request, process, address, &whole);
}
