/* A library that counts the calls of arrayd, without a tool that would slow it: bench/window_cost.py lays it under the program. At
 * the end the file that COUNTED names gets how often the program read the clock, and how often it called recv, send, pread, pwrite,
 * sched_yield and syscall, by which it sleeps and wakes.
 *
 * Build: cc -O2 -shared -fPIC -o count_calls.so count_calls.c -ldl */

#define _GNU_SOURCE
#include <dlfcn.h>
#include <stdarg.h>
#include <stdio.h>
#include <stdlib.h>
#include <sys/socket.h>
#include <sys/syscall.h>
#include <time.h>
#include <unistd.h>

enum { CLOCK, RECV, SEND, PREAD, PWRITE, YIELD, OTHER, KINDS };
static unsigned long counted[KINDS];

#define COUNTS(kind, name, result, given, passed)                       \
    result name given {                                                 \
        static result(*next) given;                                     \
        if (!next) next = (result(*) given)dlsym(RTLD_NEXT, #name);     \
        __atomic_fetch_add(&counted[kind], 1, __ATOMIC_RELAXED);        \
        return next passed;                                             \
    }

COUNTS(CLOCK, clock_gettime, int, (clockid_t which, struct timespec *now), (which, now))
COUNTS(RECV, recv, ssize_t, (int socket, void *to, size_t size, int flags), (socket, to, size, flags))
COUNTS(SEND, send, ssize_t, (int socket, const void *from, size_t size, int flags), (socket, from, size, flags))
COUNTS(PREAD, pread, ssize_t, (int file, void *to, size_t size, off_t at), (file, to, size, at))
COUNTS(PWRITE, pwrite, ssize_t, (int file, const void *from, size_t size, off_t at), (file, from, size, at))
COUNTS(YIELD, sched_yield, int, (void), ())

static long (*system_call(void))(long, ...) {
    static long (*next)(long, ...);
    if (!next) next = (long (*)(long, ...))dlsym(RTLD_NEXT, "syscall");
    return next;
}

long syscall(long number, ...) {
    long word[6];
    va_list words;
    va_start(words, number);
    for (int i = 0; i < 6; i++) word[i] = va_arg(words, long);
    va_end(words);
    __atomic_fetch_add(&counted[OTHER], 1, __ATOMIC_RELAXED);
    return system_call()(number, word[0], word[1], word[2], word[3], word[4], word[5]);
}

void _exit(int status) {
    FILE *file = getenv("COUNTED") ? fopen(getenv("COUNTED"), "w") : NULL;
    for (int i = 0; file && i < KINDS; i++) fprintf(file, "%lu ", counted[i]);
    if (file) fclose(file);
    system_call()(SYS_exit_group, status);
    __builtin_unreachable();
}
