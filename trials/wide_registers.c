/* A library to be preloaded into user-mode Linux, for processors whose registers take more room than that kernel knows of. It has 2,696
 * bytes for those of a process, and gives as many back; the kernel below it takes all or none (EFAULT), and a processor with AMX has
 * 11,008. So what it gives is made as long as it has to be: the registers behind it are those of AMX, which nothing there uses. No part of
 * the product; trials/ceph_gateways.py builds it.
 */
#define _GNU_SOURCE
#include <dlfcn.h>
#include <elf.h>
#include <stdarg.h>
#include <string.h>
#include <sys/ptrace.h>
#include <sys/uio.h>

/* Not on the stack, which is a small one there; that kernel has one processor. */
static char whole[1 << 16];
static size_t length;
static long (*real)(int, ...);

__attribute__((constructor)) static void begin(void)
{
    real = (long (*)(int, ...))dlsym(RTLD_NEXT, "ptrace");
}

long ptrace(enum __ptrace_request request, ...)
{
    va_list more;
    va_start(more, request);
    long process = va_arg(more, int);
    void *address = va_arg(more, void *), *data = va_arg(more, void *);
    va_end(more);
    if (request != PTRACE_SETREGSET || (long)address != NT_X86_XSTATE)
        return real(request, process, address, data);
    struct iovec *given = data, all = {whole, sizeof whole};
    if (length == 0 && real(PTRACE_GETREGSET, process, address, &all) == 0)
        length = all.iov_len;
    if (given->iov_len >= length)
        return real(request, process, address, data);
    memset(whole + given->iov_len, 0, length - given->iov_len);
    memcpy(whole, given->iov_base, given->iov_len);
    all.iov_len = length;
    return real(request, process, address, &all);
}
