/* A disk that takes time, under the files of a program that is started with this library preloaded: the regular files below
 * the folder that SLOW_DISK names. A read of pages that are not in memory waits until they have arrived, all of one call side
 * by side, SLOW_PAGE microseconds after they were asked for; so does a write of a part of such a page. POSIX_FADV_WILLNEED asks
 * for pages and does not wait, POSIX_FADV_DONTNEED forgets them. A flush takes SLOW_FLUSH microseconds, whatever else runs;
 * where SLOW_PACE is set, it also takes a microsecond for each so many bytes that were written behind the flush before.
 * While the file SLOW_STANDS is there, no call comes back. At the start of the program no page is in memory.
 *
 * cc -O2 -shared -fPIC -o slow_disk.so bench/slow_disk.c */
#define _GNU_SOURCE
#include <dlfcn.h>
#include <fcntl.h>
#include <limits.h>
#include <pthread.h>
#include <stdatomic.h>
#include <stdint.h>
#include <stdio.h>
#include <stdlib.h>
#include <string.h>
#include <sys/prctl.h>
#include <sys/stat.h>
#include <sys/uio.h>
#include <time.h>
#include <unistd.h>

enum { PAGE = 4096, FILES = 16, DESCRIPTORS = 4096 };

/* A file: when each page arrived or is going to, in nanoseconds; 0 where it was not asked for. */
struct file {
    dev_t device;
    ino_t number;
    size_t pages;
    _Atomic uint64_t *arrival;
    /* How many bytes were written and not flushed, and when the disk has written them that were to be. */
    _Atomic uint64_t left, done;
};

static struct file files[FILES];
static int known;
static pthread_mutex_t knowing = PTHREAD_MUTEX_INITIALIZER;
/* What a descriptor is: 0 where nobody has looked, 1 where it is no such file, else a file's number and 2. */
static _Atomic int descriptors[DESCRIPTORS];
static uint64_t of_page = 100000, of_flush = 2000000, pace;
static char folder[PATH_MAX];
static const char *stands;

static ssize_t (*real_pread)(int, void *, size_t, off64_t);
static ssize_t (*real_preadv)(int, const struct iovec *, int, off64_t);
static ssize_t (*real_pwrite)(int, const void *, size_t, off64_t);
static ssize_t (*real_pwritev)(int, const struct iovec *, int, off64_t);
static int (*real_fadvise)(int, off64_t, off64_t, int);
static int (*real_fdatasync)(int);
static int (*real_fsync)(int);
static int (*real_close)(int);

__attribute__((constructor)) static void begin(void)
{
    real_pread = dlsym(RTLD_NEXT, "pread64");
    real_preadv = dlsym(RTLD_NEXT, "preadv64");
    real_pwrite = dlsym(RTLD_NEXT, "pwrite64");
    real_pwritev = dlsym(RTLD_NEXT, "pwritev64");
    real_fadvise = dlsym(RTLD_NEXT, "posix_fadvise64");
    real_fdatasync = dlsym(RTLD_NEXT, "fdatasync");
    real_fsync = dlsym(RTLD_NEXT, "fsync");
    real_close = dlsym(RTLD_NEXT, "close");
    const char *word = getenv("SLOW_DISK");
    if (word == NULL || realpath(word, folder) == NULL) {
        fprintf(stderr, "SLOW_DISK names no folder\n");
        exit(1);
    }
    if ((word = getenv("SLOW_PAGE")) != NULL)
        of_page = strtoull(word, NULL, 10) * 1000;
    if ((word = getenv("SLOW_FLUSH")) != NULL)
        of_flush = strtoull(word, NULL, 10) * 1000;
    if ((word = getenv("SLOW_PACE")) != NULL)
        pace = strtoull(word, NULL, 10);
    stands = getenv("SLOW_STANDS");
}

static uint64_t now(void)
{
    struct timespec time;
    clock_gettime(CLOCK_MONOTONIC, &time);
    return time.tv_sec * 1000000000ull + time.tv_nsec;
}

static void wait_until(uint64_t when)
{
    static _Thread_local int is_exact;
    if (when <= now())
        return;
    if (!is_exact) {
        /* a thread that sleeps is woken up to 50 microseconds later otherwise */
        prctl(PR_SET_TIMERSLACK, 1);
        is_exact = 1;
    }
    struct timespec time = { when / 1000000000ull, when % 1000000000ull };
    while (clock_nanosleep(CLOCK_MONOTONIC, TIMER_ABSTIME, &time, NULL) != 0)
        ;
}

/* Waits while the disk stands still. */
static void stand(void)
{
    struct timespec time = { 0, 5000000 };
    while (stands != NULL && access(stands, F_OK) == 0)
        nanosleep(&time, NULL);
}

/* Looks what a descriptor is: a file's number and 2, or 1. */
static int look(int fd)
{
    char link[64], path[PATH_MAX];
    struct stat found;
    snprintf(link, sizeof link, "/proc/self/fd/%d", fd);
    ssize_t length = readlink(link, path, sizeof path - 1);
    if (length < 0 || fstat(fd, &found) != 0 || !S_ISREG(found.st_mode))
        return 1;
    path[length] = 0;
    if (strncmp(path, folder, strlen(folder)) != 0 || path[strlen(folder)] != '/')
        return 1;
    pthread_mutex_lock(&knowing);
    int at = 0;
    while (at < known && (files[at].device != found.st_dev || files[at].number != found.st_ino))
        at++;
    if (at == known && known < FILES) {
        size_t pages = (found.st_size + PAGE - 1) / PAGE;
        _Atomic uint64_t *arrival = calloc(pages + 1, sizeof *arrival);
        if (arrival != NULL)
            files[known++] = (struct file){ found.st_dev, found.st_ino, pages, arrival, 0, 0 };
    }
    int is = at < known ? at + 2 : 1;
    pthread_mutex_unlock(&knowing);
    return is;
}

static struct file *file_of(int fd)
{
    if (fd < 0 || fd >= DESCRIPTORS)
        return NULL;
    int is = descriptors[fd];
    if (is == 0) {
        is = look(fd);
        descriptors[fd] = is;
    }
    return is == 1 ? NULL : &files[is - 2];
}

/* Asks for the pages from one to another that are not in memory: when the last of them is there. */
static uint64_t ask(struct file *file, size_t first, size_t behind)
{
    uint64_t last = 0, then = 0;
    for (size_t at = first; at < behind && at < file->pages; at++) {
        uint64_t arrival = file->arrival[at];
        if (arrival == 0) {
            if (then == 0)
                then = now() + of_page;
            if (atomic_compare_exchange_strong(&file->arrival[at], &arrival, then))
                arrival = then;
        }
        if (arrival > last)
            last = arrival;
    }
    return last;
}

static void before_read(int fd, size_t length, off64_t at)
{
    struct file *file = file_of(fd);
    if (file != NULL && length > 0) {
        wait_until(ask(file, at / PAGE, (at + length - 1) / PAGE + 1));
        stand();
    }
}

static void before_write(int fd, size_t length, off64_t at)
{
    struct file *file = file_of(fd);
    if (file == NULL || length == 0)
        return;
    size_t first = at / PAGE, behind = (at + length + PAGE - 1) / PAGE;
    uint64_t last = 0;
    if (at % PAGE != 0)
        last = ask(file, first, first + 1);
    if ((at + length) % PAGE != 0) {
        uint64_t other = ask(file, behind - 1, behind);
        last = other > last ? other : last;
    }
    for (size_t page = first; page < behind && page < file->pages; page++) {
        uint64_t none = 0;
        atomic_compare_exchange_strong(&file->arrival[page], &none, 1);
    }
    wait_until(last);
    file->left += length;
    stand();
}

/* What was written behind the flush before is on the disk when this is over, and what flushes before it have begun. */
static void before_flush(int fd)
{
    struct file *file = file_of(fd);
    if (file == NULL)
        return;
    uint64_t begun = now(), took = pace == 0 ? 0 : atomic_exchange(&file->left, 0) / pace * 1000;
    uint64_t done = file->done, next;
    do
        next = (done > begun ? done : begun) + took;
    while (!atomic_compare_exchange_weak(&file->done, &done, next));
    wait_until((pace == 0 ? begun : next) + of_flush);
    stand();
}

static size_t length_of(const struct iovec *parts, int count)
{
    size_t length = 0;
    for (int at = 0; at < count; at++)
        length += parts[at].iov_len;
    return length;
}

/* The other name of a function: an offset has 64 bits in both. */
#define ALSO(NAME, FUNCTION) extern __typeof__(FUNCTION) NAME __attribute__((alias(#FUNCTION)))

ssize_t pread64(int fd, void *bytes, size_t length, off64_t at)
{
    before_read(fd, length, at);
    return real_pread(fd, bytes, length, at);
}
ALSO(pread, pread64);

ssize_t pwrite64(int fd, const void *bytes, size_t length, off64_t at)
{
    before_write(fd, length, at);
    return real_pwrite(fd, bytes, length, at);
}
ALSO(pwrite, pwrite64);

ssize_t preadv64(int fd, const struct iovec *parts, int count, off64_t at)
{
    before_read(fd, length_of(parts, count), at);
    return real_preadv(fd, parts, count, at);
}
ALSO(preadv, preadv64);

ssize_t pwritev64(int fd, const struct iovec *parts, int count, off64_t at)
{
    before_write(fd, length_of(parts, count), at);
    return real_pwritev(fd, parts, count, at);
}
ALSO(pwritev, pwritev64);

int posix_fadvise64(int fd, off64_t at, off64_t length, int advice)
{
    struct file *file = file_of(fd);
    if (file != NULL && at >= 0 && length >= 0) {
        size_t first = at / PAGE, behind = length == 0 ? file->pages : (size_t)(at + length + PAGE - 1) / PAGE;
        if (advice == POSIX_FADV_WILLNEED)
            ask(file, first, behind);
        if (advice == POSIX_FADV_DONTNEED)
            for (size_t page = first; page < behind && page < file->pages; page++)
                file->arrival[page] = 0;
    }
    return real_fadvise(fd, at, length, advice);
}
ALSO(posix_fadvise, posix_fadvise64);

int fdatasync(int fd)
{
    before_flush(fd);
    return real_fdatasync(fd);
}

int fsync(int fd)
{
    before_flush(fd);
    return real_fsync(fd);
}

int close(int fd)
{
    if (fd >= 0 && fd < DESCRIPTORS)
        descriptors[fd] = 0;
    return real_close(fd);
}
