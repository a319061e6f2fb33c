/* A library to be preloaded into a program: calls of the system fail in it, and allocations, reads and calls on files are told.
 * No part of the product; trials/failing.py and trials/life.py build it and ask.
 *
 * Calls of a kind, as another process asks while the program runs:
 *   FAILING=F          F, a file of `struct asked`, is looked at before each of them, and has what was counted
 *
 * One call on a unit's files, as is asked at the start:
 *   CALLS_FILES=LIST   the names of the files that concern it, each on a line of its own; the others it leaves alone
 *   CALLS_LIST=F       F, a file of `struct list`, has what was called so far
 *   CALLS_AT=N         the N-th of these calls fails with EIO, counted from 1; 0: none does
 *   CALLS_IN_PLACE=1   a preparer gets no handle to flush by: each flush is the device's
 *   CALLS_HOW=         how it fails:
 *     none             nothing was done
 *     half             a write of two blocks or more: the first half of its blocks is written and that many bytes are answered;
 *                      the next write of that file then fails, with nothing done
 *     whole            a write: all is written, and it fails all the same
 *     dead             as none, and so does each later call on the same file
 *
 * Without FAILING and CALLS_LIST it does nothing. What it passes on it asks of the system directly, and memory of the GNU C
 * library's own heap.
 */
#define _GNU_SOURCE
#include <errno.h>
#include <fcntl.h>
#include <stdarg.h>
#include <stdatomic.h>
#include <stddef.h>
#include <stdint.h>
#include <stdlib.h>
#include <string.h>
#include <sys/mman.h>
#include <sys/socket.h>
#include <sys/stat.h>
#include <sys/syscall.h>
#include <unistd.h>

enum { BLOCK = 512, READS = 512, PLACES = 16384, HANDLES = 4096, NAMES = 64, NAMES_OF_UNIT = 4 };

/* A disk is opened for its device, for its lock, and then for its preparer: once to read by, which gets no handle here, so that
 * each read is the device's; and four times to flush by. Of these handles only the flushes are in the list, and nothing of how
 * they are compared with the device's. */
enum { TO_READ_BY = 3, LAST_TO_FLUSH_BY = 7 };

/* The numbers of both, and the structures, are known to trials/failing.py and trials/life.py too. */
enum kind { MEMORY, OPEN, STATX, FLOCK, LSEEK, PREAD, PWRITE, FDATASYNC, FSYNC, FTRUNCATE, RENAME, ACCEPT, SEND, KINDS };
enum end { DONE = 1, REFUSED_BY_SYSTEM, FAILED, SHORT, WRITTEN_AND_FAILED };

/* An error of so many and more is none: the call takes that many microseconds longer. */
enum { SECOND = 1000000 };

/* So many calls of a kind pass, then so many fail with this error. */
struct row {
    _Atomic int64_t passes, failures;
    uint64_t error;
};

struct asked {
    struct row rows[KINDS];
    /* Whether allocations count, and fail, only behind the first connection that was accepted, and reads are those of
     * connections; else all do, and reads are those of standard input. */
    uint64_t from_accept;
    /* Allocations so far, those that failed too; reads so far; the allocations before each of the first of these. */
    _Atomic uint64_t allocations, reads, before[READS];
};

struct entry {
    uint32_t kind, file, end, unused;
    uint64_t offset, length;
};

struct list {
    _Atomic uint64_t count;
    struct entry entries[PLACES];
};

extern void *__libc_malloc(size_t);
extern void *__libc_calloc(size_t, size_t);
extern void *__libc_realloc(void *, size_t);
extern void *__libc_memalign(size_t, size_t);

static struct asked *asked;
static _Atomic int is_counting;
static _Atomic uint64_t reads;
static struct list *list;
static uint64_t at;
static enum { NONE, HALF, WHOLE, DEAD } how;
static char *names[NAMES];
static int count_of_names;
/* By handle: the number of its file and one more, or 0; less than 0 where only its flushes count. */
static _Atomic int files[HANDLES];
static int in_place;
/* How often each file was opened. */
static _Atomic int opens[NAMES];
/* The number of the file whose calls fail from now on, or whose next write does, and one more, or 0. */
static _Atomic int dead, wants_rest;

static void *shared(const char *path, size_t size)
{
    int file = syscall(SYS_openat, AT_FDCWD, path, O_RDWR | O_CLOEXEC);
    void *map = file < 0 ? MAP_FAILED : mmap(NULL, size, PROT_READ | PROT_WRITE, MAP_SHARED, file, 0);
    if (map == MAP_FAILED)
        _exit(99);
    syscall(SYS_close, file);
    return map;
}

static void read_names(char *text)
{
    for (char *name = strtok(text, "\n"); name && count_of_names < NAMES; name = strtok(NULL, "\n"))
        names[count_of_names++] = name;
}

static void begin_list(const char *path)
{
    const char *word = getenv("CALLS_HOW");
    at = strtoull(getenv("CALLS_AT"), NULL, 10);
    how = !strcmp(word, "half") ? HALF : !strcmp(word, "whole") ? WHOLE : !strcmp(word, "dead") ? DEAD : NONE;
    read_names(strdup(getenv("CALLS_FILES")));
    in_place = getenv("CALLS_IN_PLACE") != NULL;
    list = shared(path, sizeof(struct list));
}

__attribute__((constructor)) static void begin(void)
{
    const char *path;
    if ((path = getenv("CALLS_LIST")))
        begin_list(path);
    if (!(path = getenv("FAILING")))
        return;
    struct asked *map = shared(path, sizeof(struct asked));
    atomic_store(&is_counting, !map->from_accept);
    asked = map;
}

/* ---- calls of a kind */

/* Whether this call fails; its error is set then. */
static int fails(enum kind kind)
{
    if (!asked || atomic_load(&asked->rows[kind].failures) <= 0)
        return 0;
    if (atomic_fetch_sub(&asked->rows[kind].passes, 1) > 0)
        return 0;
    if (atomic_fetch_sub(&asked->rows[kind].failures, 1) <= 0)
        return 0;
    if (asked->rows[kind].error >= SECOND) {
        usleep(asked->rows[kind].error);
        return 0;
    }
    errno = asked->rows[kind].error;
    return 1;
}

static int is_refused(void)
{
    if (!asked || !atomic_load(&is_counting))
        return 0;
    atomic_fetch_add(&asked->allocations, 1);
    return fails(MEMORY);
}

void *malloc(size_t size)
{
    return is_refused() ? NULL : __libc_malloc(size);
}

void *calloc(size_t count, size_t size)
{
    return is_refused() ? NULL : __libc_calloc(count, size);
}

void *realloc(void *old, size_t size)
{
    return is_refused() ? NULL : __libc_realloc(old, size);
}

void *memalign(size_t alignment, size_t size)
{
    return is_refused() ? NULL : __libc_memalign(alignment, size);
}

void *aligned_alloc(size_t alignment, size_t size)
{
    return memalign(alignment, size);
}

int posix_memalign(void **place, size_t alignment, size_t size)
{
    void *memory = memalign(alignment, size);
    if (!memory)
        return ENOMEM;
    *place = memory;
    return 0;
}

static void count_read(int is_of_connection)
{
    if (!asked || is_of_connection != (asked->from_accept != 0))
        return;
    uint64_t read = atomic_fetch_add(&reads, 1);
    if (read < READS)
        atomic_store(&asked->before[read], atomic_load(&asked->allocations));
    atomic_store(&asked->reads, read + 1);
}

ssize_t read(int handle, void *bytes, size_t size)
{
    if (handle == 0)
        count_read(0);
    return syscall(SYS_read, handle, bytes, size);
}

ssize_t recv(int socket, void *bytes, size_t size, int flags)
{
    /* a look whether somebody is there takes nothing */
    if (!(flags & MSG_PEEK))
        count_read(1);
    return syscall(SYS_recvfrom, socket, bytes, size, flags, NULL, NULL);
}

int accept4(int listener, struct sockaddr *peer, socklen_t *length, int flags)
{
    int socket = fails(ACCEPT) ? -1 : syscall(SYS_accept4, listener, peer, length, flags);
    if (socket >= 0)
        atomic_store(&is_counting, 1);
    return socket;
}

ssize_t send(int socket, const void *bytes, size_t size, int flags)
{
    return fails(SEND) ? -1 : syscall(SYS_sendto, socket, bytes, size, flags, NULL, 0);
}

/* ---- calls on files */

/* The number of the file that has this name, or -1. */
static int named(const char *path)
{
    for (int file = 0; list && path && file < count_of_names; file++)
        if (!strcmp(names[file], path))
            return file;
    return -1;
}

/* What is known of a handle, where it is one of a file. */
static _Atomic int *place_of(int handle)
{
    return list && 0 <= handle && handle < HANDLES ? &files[handle] : NULL;
}

/* The number of the file of this handle, or -1. */
static int held(int handle)
{
    _Atomic int *place = place_of(handle);
    return place ? atomic_load(place) - 1 : -1;
}

/* That, also where only its flushes count. */
static int flushed_by(int handle)
{
    _Atomic int *place = place_of(handle);
    return place ? abs(atomic_load(place)) - 1 : -1;
}

/* Keeps what a handle is from now on. */
static void keep(int handle, int what)
{
    _Atomic int *place = place_of(handle);
    if (place)
        atomic_store(place, what);
}

/* Enters a call in the list. Its end says whether it is to be passed on. */
static struct entry *enter(enum kind kind, int file, uint64_t offset, uint64_t length)
{
    uint64_t n = atomic_fetch_add(&list->count, 1) + 1;
    if (n > PLACES)
        _exit(98);
    struct entry *entry = &list->entries[n - 1];
    *entry = (struct entry){kind, file, DONE, 0, offset, length};
    if (atomic_load(&dead) == file + 1)
        entry->end = FAILED;
    if (kind == PWRITE && atomic_load(&wants_rest) == file + 1) {
        atomic_store(&wants_rest, 0);
        entry->end = FAILED;
    }
    if (n == at) {
        if (how == HALF && kind == PWRITE && length >= 2 * BLOCK)
            entry->end = SHORT;
        else if (how == WHOLE && kind == PWRITE)
            entry->end = WRITTEN_AND_FAILED;
        else if (how == NONE || how == DEAD)
            entry->end = FAILED;
        if (how == DEAD)
            atomic_store(&dead, file + 1);
    }
    return entry;
}

static int has_failed(struct entry *entry)
{
    if (entry->end != FAILED)
        return 0;
    errno = EIO;
    return 1;
}

/* What the system answered to a call that was passed on. */
static long answered(struct entry *entry, long answer)
{
    if (answer < 0 && entry->end == DONE)
        entry->end = REFUSED_BY_SYSTEM;
    return answer;
}

/* A call on a file with so much to tell, where ASK is what is asked of the system. */
#define ON_FILE(FILE, KIND, OFFSET, LENGTH, ASK)                                  \
    do {                                                                          \
        int file_ = (FILE);                                                       \
        if (fails(KIND))                                                          \
            return -1;                                                            \
        if (file_ < 0)                                                            \
            return ASK;                                                           \
        struct entry *entry_ = enter(KIND, file_, OFFSET, LENGTH);                \
        return has_failed(entry_) ? -1 : answered(entry_, ASK);                   \
    } while (0)

#define ON_HANDLE(KIND, OFFSET, LENGTH, ASK) ON_FILE(held(handle), KIND, OFFSET, LENGTH, ASK)

/* The other name of a function: an offset has 64 bits in both. */
#define ALSO(NAME, FUNCTION) extern __typeof__(FUNCTION) NAME __attribute__((alias(#FUNCTION)))

/* An open for a preparer: to read by, or to flush by. */
static int open_to_prepare(int n, int file, int folder, const char *path, int flags, mode_t mode)
{
    int handle = -1;
    errno = EMFILE;
    if (n > TO_READ_BY && !in_place)
        handle = syscall(SYS_openat, folder, path, flags, mode);
    keep(handle, -(file + 1));
    return handle;
}

static int open_at(int folder, const char *path, int flags, mode_t mode)
{
    int file = named(path);
    int n = file >= 0 && file % NAMES_OF_UNIT == 0 ? atomic_fetch_add(&opens[file], 1) + 1 : 0;
    if (fails(OPEN))
        return -1;
    if (TO_READ_BY <= n && n <= LAST_TO_FLUSH_BY)
        return open_to_prepare(n, file, folder, path, flags, mode);
    struct entry *entry = file < 0 ? NULL : enter(OPEN, file, 0, 0);
    if (entry && has_failed(entry))
        return -1;
    int handle = syscall(SYS_openat, folder, path, flags, mode);
    if (entry)
        answered(entry, handle);
    keep(handle, file + 1);
    return handle;
}

#define MODE(FLAGS)                                       \
    mode_t mode = 0;                                      \
    if ((FLAGS) & (O_CREAT | __O_TMPFILE)) {              \
        va_list more;                                     \
        va_start(more, FLAGS);                            \
        mode = va_arg(more, mode_t);                      \
        va_end(more);                                     \
    }

int open64(const char *path, int flags, ...)
{
    MODE(flags)
    return open_at(AT_FDCWD, path, flags, mode);
}
ALSO(open, open64);

int openat64(int folder, const char *path, int flags, ...)
{
    MODE(flags)
    return open_at(folder, path, flags, mode);
}
ALSO(openat, openat64);

int close(int handle)
{
    keep(handle, 0);
    return syscall(SYS_close, handle);
}

ssize_t pread64(int handle, void *bytes, size_t size, off64_t offset)
{
    ON_HANDLE(PREAD, offset, size, syscall(SYS_pread64, handle, bytes, size, offset));
}
ALSO(pread, pread64);

ssize_t pwrite64(int handle, const void *bytes, size_t size, off64_t offset)
{
    int file = held(handle);
    if (fails(PWRITE))
        return -1;
    if (file < 0)
        return syscall(SYS_pwrite64, handle, bytes, size, offset);
    struct entry *entry = enter(PWRITE, file, offset, size);
    if (has_failed(entry))
        return -1;
    if (entry->end == SHORT) {
        atomic_store(&wants_rest, file + 1);
        return syscall(SYS_pwrite64, handle, bytes, size / BLOCK / 2 * BLOCK, offset);
    }
    ssize_t written = answered(entry, syscall(SYS_pwrite64, handle, bytes, size, offset));
    if (entry->end == WRITTEN_AND_FAILED) {
        errno = EIO;
        return -1;
    }
    return written;
}
ALSO(pwrite, pwrite64);

int fdatasync(int handle)
{
    ON_FILE(flushed_by(handle), FDATASYNC, 0, 0, syscall(SYS_fdatasync, handle));
}

int fsync(int handle)
{
    ON_HANDLE(FSYNC, 0, 0, syscall(SYS_fsync, handle));
}

off64_t lseek64(int handle, off64_t offset, int whence)
{
    ON_HANDLE(LSEEK, offset, 0, syscall(SYS_lseek, handle, offset, whence));
}
ALSO(lseek, lseek64);

int ftruncate64(int handle, off64_t length)
{
    ON_HANDLE(FTRUNCATE, 0, length, syscall(SYS_ftruncate, handle, length));
}
ALSO(ftruncate, ftruncate64);

int flock(int handle, int operation)
{
    ON_HANDLE(FLOCK, 0, 0, syscall(SYS_flock, handle, operation));
}

int statx(int handle, const char *restrict path, int flags, unsigned mask, struct statx *restrict out)
{
    int file = held(handle);
    int n = file < 0 ? 0 : atomic_load(&opens[file]);
    ON_FILE(TO_READ_BY <= n && n <= LAST_TO_FLUSH_BY ? -1 : file, STATX, 0, 0, syscall(SYS_statx, handle, path, flags, mask, out));
}

int rename(const char *old, const char *new)
{
    ON_FILE(named(old), RENAME, 0, 0, syscall(SYS_renameat2, AT_FDCWD, old, AT_FDCWD, new, 0));
}
