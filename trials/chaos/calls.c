/* The calls of the system that a thread makes, and what is planted in them: see threads.c. */
#define _GNU_SOURCE
#include <errno.h>
#include <fcntl.h>
#include <pthread.h>
#include <stdarg.h>
#include <stdlib.h>
#include <string.h>
#include <sys/socket.h>
#include <sys/syscall.h>
#include <time.h>
#include <unistd.h>

#include "chaos.h"

enum { WAIT = 0, WAKE = 1, COMMANDS_OF_FUTEX = 127, HANDLES = 4096, OLDS = 64, MOST_KEPT = 8192, LATE = 4000 };
enum kind { NO_FILE, DISK, OTHER_DISK, REGISTRATIONS };

static _Atomic int kinds[HANDLES];

static enum kind kind_of(int handle)
{
    return shared && 0 <= handle && handle < HANDLES ? atomic_load(&kinds[handle]) : NO_FILE;
}

/* ---- futexes, and what a thread waits for without a call */

long syscall(long n, ...)
{
    long given[6];
    va_list more;
    va_start(more, n);
    for (int at = 0; at < 6; at++)
        given[at] = va_arg(more, long);
    va_end(more);
    if (!shared || n != SYS_futex || !own)
        return answered(call(n, given[0], given[1], given[2], given[3], given[4], given[5]));
    stand();
    int command = given[1] & COMMANDS_OF_FUTEX;
    if (command == WAKE && comes(LOST_WAKE))
        return 0;
    if (command == WAIT || command == 9)
        own->futex = given[0];
    long answer = waiting_call(n, given[0], given[1], given[2], given[3], given[4], given[5]);
    own->futex = 0;
    stand();
    return answered(answer);
}

int sched_yield(void)
{
    stand();
    return answered(call(SYS_sched_yield, 0, 0, 0, 0, 0, 0));
}

int nanosleep(const struct timespec *asked, struct timespec *left)
{
    return answered(waiting_call(SYS_nanosleep, (long)asked, (long)left, 0, 0, 0, 0));
}

/* ---- connections */

/* A call with a stand before and behind it. */
#define BETWEEN_STANDS(CALL)             \
    do {                                 \
        if (shared)                      \
            stand();                     \
        long answer_ = answered(CALL);   \
        int kept_ = errno;               \
        if (shared)                      \
            stand();                     \
        errno = kept_;                   \
        return answer_;                  \
    } while (0)

ssize_t read(int handle, void *bytes, size_t size)
{
    BETWEEN_STANDS(waiting_call(SYS_read, handle, (long)bytes, size, 0, 0, 0));
}

ssize_t write(int handle, const void *bytes, size_t size)
{
    BETWEEN_STANDS(waiting_call(SYS_write, handle, (long)bytes, size, 0, 0, 0));
}

ssize_t recv(int socket, void *bytes, size_t size, int flags)
{
    BETWEEN_STANDS(waiting_call(SYS_recvfrom, socket, (long)bytes, size, flags, 0, 0));
}

ssize_t send(int socket, const void *bytes, size_t size, int flags)
{
    BETWEEN_STANDS(waiting_call(SYS_sendto, socket, (long)bytes, size, flags, 0, 0));
}

int accept4(int listener, struct sockaddr *peer, socklen_t *length, int flags)
{
    BETWEEN_STANDS(waiting_call(SYS_accept4, listener, (long)peer, (long)length, flags, 0, 0));
}

int shutdown(int socket, int how)
{
    BETWEEN_STANDS(call(SYS_shutdown, socket, how, 0, 0, 0, 0));
}

/* ---- files */

int open(const char *path, int flags, ...)
{
    mode_t mode = 0;
    if (flags & (O_CREAT | __O_TMPFILE)) {
        va_list more;
        va_start(more, flags);
        mode = va_arg(more, mode_t);
        va_end(more);
    }
    int handle = answered(call(SYS_openat, AT_FDCWD, (long)path, flags, mode, 0, 0));
    if (shared && 0 <= handle && handle < HANDLES) {
        /* disk0, disk1 .. and disk0.reg .. */
        const char *name = strstr(path, "/disk"), *end = name ? strchr(name, '.') : NULL;
        int is_registrations = end && !strncmp(end, ".reg", 4), is_first = !strcmp(path, shared->disk);
        atomic_store(&kinds[handle], is_registrations ? REGISTRATIONS : is_first ? DISK : name && !end ? OTHER_DISK : NO_FILE);
    }
    return handle;
}

int close(int handle)
{
    if (0 <= handle && handle < HANDLES)
        atomic_store(&kinds[handle], NO_FILE);
    return answered(call(SYS_close, handle, 0, 0, 0, 0, 0));
}

/* A call on the first disk waits for as long as that hangs. */
static void hang(enum kind kind)
{
    if (kind != DISK || !atomic_load(&shared->hangs))
        return;
    atomic_fetch_add(&shared->hung, 1);
    if (own)
        own->called = -2, own->since = now();
    while (atomic_load(&shared->hangs))
        sleep_for(1000);
    if (own)
        own->called = -1;
}

/* What lay in a place before the last write there: for a read that is stale. */
static struct old {
    int handle_kind;
    off_t at;
    size_t length;
    char bytes[MOST_KEPT];
} olds[OLDS];
static _Atomic uint64_t count_of_olds;
static pthread_mutex_t olds_lock = PTHREAD_MUTEX_INITIALIZER;

static void keep_old(int handle, size_t size, off_t at)
{
    if (!(shared->faults & STALE_READ) || size > MOST_KEPT)
        return;
    pthread_mutex_lock(&olds_lock);
    struct old *old = &olds[count_of_olds++ % OLDS];
    old->handle_kind = kind_of(handle), old->at = at, old->length = size;
    if (call(SYS_pread64, handle, (long)old->bytes, size, at, 0, 0) != (long)size)
        old->length = 0;
    pthread_mutex_unlock(&olds_lock);
}

static void lay_old(int handle, char *bytes, size_t size, off_t at)
{
    pthread_mutex_lock(&olds_lock);
    for (uint64_t n = count_of_olds; n > 0 && n + OLDS > count_of_olds; n--) {
        struct old *old = &olds[(n - 1) % OLDS];
        off_t from = old->at > at ? old->at : at, to = old->at + old->length < at + size ? old->at + old->length : at + size;
        if (old->handle_kind != (int)kind_of(handle) || from >= to)
            continue;
        memcpy(bytes + (from - at), old->bytes + (from - old->at), to - from);
        break;
    }
    pthread_mutex_unlock(&olds_lock);
}

ssize_t pread(int handle, void *bytes, size_t size, off_t at)
{
    enum kind kind = kind_of(handle);
    if (kind == NO_FILE)
        return answered(call(SYS_pread64, handle, (long)bytes, size, at, 0, 0));
    stand();
    hang(kind);
    long answer = answered(call(SYS_pread64, handle, (long)bytes, size, at, 0, 0));
    int kept = errno;
    if (answer == (long)size && kind != REGISTRATIONS && comes(STALE_READ))
        lay_old(handle, bytes, size, at);
    stand();
    errno = kept;
    return answer;
}

struct late {
    int handle;
    size_t size;
    off_t at;
    char bytes[];
};

static void *write_late(void *given)
{
    struct late *late = given;
    sleep_for(LATE);
    call(SYS_pwrite64, late->handle, (long)late->bytes, late->size, late->at, 0, 0);
    free(late);
    return NULL;
}

/* Whether a write is put off until its reply was told. */
static int is_late(int handle, const void *bytes, size_t size, off_t at)
{
    struct late *late = malloc(sizeof *late + size);
    pthread_t made;
    if (!late)
        return 0;
    late->handle = handle, late->size = size, late->at = at;
    memcpy(late->bytes, bytes, size);
    if (pthread_create(&made, NULL, write_late, late))
        return 0;
    pthread_detach(made);
    return 1;
}

ssize_t pwrite(int handle, const void *bytes, size_t size, off_t at)
{
    enum kind kind = kind_of(handle);
    if (kind == NO_FILE)
        return answered(call(SYS_pwrite64, handle, (long)bytes, size, at, 0, 0));
    stand();
    hang(kind);
    /* the root, which names what was saved; not as the file is made, which the first thread does */
    if (kind == REGISTRATIONS && at == 0 && own && own->place && comes(LOST_SAVE))
        return size;
    if (kind != REGISTRATIONS) {
        keep_old(handle, size, at);
        if (comes(EARLY_REPLY) && is_late(handle, bytes, size, at))
            return size;
    }
    long answer = answered(call(SYS_pwrite64, handle, (long)bytes, size, at, 0, 0));
    int kept = errno;
    stand();
    errno = kept;
    return answer;
}

int fdatasync(int handle)
{
    enum kind kind = kind_of(handle);
    if (kind != NO_FILE)
        hang(kind);
    BETWEEN_STANDS(call(SYS_fdatasync, handle, 0, 0, 0, 0, 0));
}
