/* A disk behind a page cache, under the files of a program that is started with this library preloaded: the regular files below
 * the folder that PAGE_CACHE names, which are one disk together. A write goes into memory. The disk writes CACHE_PACE bytes a
 * second, while a flush waits or more than CACHE_BACKGROUND bytes are not written; a flush waits until the disk has written what
 * was there when it began. Where more than the middle between CACHE_BACKGROUND and CACHE_LIMIT is not written, a write waits until
 * the disk has taken as much, as the kernel has it (balance_dirty_pages). Reads never wait: their pages are in memory. The program
 * finds these limits where the kernel says its own, in /proc/sys/vm.
 *
 * cc -O2 -shared -fPIC -o page_cache.so bench/page_cache.c */
#define _GNU_SOURCE
#include <dlfcn.h>
#include <fcntl.h>
#include <limits.h>
#include <pthread.h>
#include <stdarg.h>
#include <stdatomic.h>
#include <stdio.h>
#include <stdlib.h>
#include <string.h>
#include <sys/mman.h>
#include <sys/stat.h>
#include <sys/uio.h>
#include <time.h>
#include <unistd.h>

enum { DESCRIPTORS = 4096 };

/* What a descriptor is: 0 where nobody has looked, 1 where it is no such file, else 2. */
static _Atomic int descriptors[DESCRIPTORS];
static char folder[PATH_MAX];
static double pace = 50e6, background = 128 << 20, limit = 256 << 20;

/* What was written to memory, what of it the disk has, until when that was looked at, and up to where flushes want it. */
static pthread_mutex_t looking = PTHREAD_MUTEX_INITIALIZER;
static double written, taken, looked, wanted;

static ssize_t (*real_pwrite)(int, const void *, size_t, off64_t);
static ssize_t (*real_pwritev)(int, const struct iovec *, int, off64_t);
static int (*real_fdatasync)(int);
static int (*real_fsync)(int);
static int (*real_close)(int);
static int (*real_open)(const char *, int, ...);
static int (*real_openat)(int, const char *, int, ...);

static double number(const char *name, double otherwise)
{
    const char *word = getenv(name);
    return word == NULL ? otherwise : strtod(word, NULL);
}

__attribute__((constructor)) static void begin(void)
{
    real_pwrite = dlsym(RTLD_NEXT, "pwrite64");
    real_pwritev = dlsym(RTLD_NEXT, "pwritev64");
    real_fdatasync = dlsym(RTLD_NEXT, "fdatasync");
    real_fsync = dlsym(RTLD_NEXT, "fsync");
    real_close = dlsym(RTLD_NEXT, "close");
    real_open = dlsym(RTLD_NEXT, "open64");
    real_openat = dlsym(RTLD_NEXT, "openat64");
    const char *word = getenv("PAGE_CACHE");
    if (word == NULL || realpath(word, folder) == NULL) {
        fprintf(stderr, "PAGE_CACHE names no folder\n");
        exit(1);
    }
    pace = number("CACHE_PACE", pace);
    background = number("CACHE_BACKGROUND", background);
    limit = number("CACHE_LIMIT", limit);
}

static double now(void)
{
    struct timespec time;
    clock_gettime(CLOCK_MONOTONIC, &time);
    return time.tv_sec + time.tv_nsec / 1e9;
}

static void nap(double seconds)
{
    struct timespec time = { (time_t)seconds, (long)((seconds - (time_t)seconds) * 1e9) };
    nanosleep(&time, NULL);
}

static int is_ours(int fd)
{
    if (fd < 0 || fd >= DESCRIPTORS)
        return 0;
    if (descriptors[fd] == 0) {
        char link[64], path[PATH_MAX];
        struct stat found;
        snprintf(link, sizeof link, "/proc/self/fd/%d", fd);
        ssize_t length = readlink(link, path, sizeof path - 1);
        int is = 1;
        if (length > 0 && fstat(fd, &found) == 0 && S_ISREG(found.st_mode)) {
            path[length] = 0;
            if (strncmp(path, folder, strlen(folder)) == 0 && path[strlen(folder)] == '/')
                is = 2;
        }
        descriptors[fd] = is;
    }
    return descriptors[fd] == 2;
}

/* What the disk has by now; the mutex is held. */
static void look(void)
{
    double then = now(), goal = written - background > wanted ? written - background : wanted;
    if (goal > taken) {
        double most = taken + (then - looked) * pace;
        taken = most < goal ? most : goal;
    }
    looked = then;
}

static void before_write(int fd, size_t length)
{
    if (!is_ours(fd))
        return;
    double throttled = (background + limit) / 2;
    pthread_mutex_lock(&looking);
    look();
    written += length;
    double mine = written;
    while (mine - taken > throttled) {
        double wait = (mine - taken - throttled) / pace;
        pthread_mutex_unlock(&looking);
        nap(wait);
        pthread_mutex_lock(&looking);
        look();
    }
    pthread_mutex_unlock(&looking);
}

static void before_flush(int fd)
{
    if (!is_ours(fd))
        return;
    pthread_mutex_lock(&looking);
    look();
    double mine = written;
    if (wanted < mine)
        wanted = mine;
    while (taken < mine) {
        double wait = (mine - taken) / pace;
        pthread_mutex_unlock(&looking);
        nap(wait);
        pthread_mutex_lock(&looking);
        look();
    }
    pthread_mutex_unlock(&looking);
}

/* The other name of a function: an offset has 64 bits in both. */
#define ALSO(NAME, FUNCTION) extern __typeof__(FUNCTION) NAME __attribute__((alias(#FUNCTION)))

ssize_t pwrite64(int fd, const void *bytes, size_t length, off64_t at)
{
    before_write(fd, length);
    return real_pwrite(fd, bytes, length, at);
}
ALSO(pwrite, pwrite64);

ssize_t pwritev64(int fd, const struct iovec *parts, int count, off64_t at)
{
    size_t length = 0;
    for (int part = 0; part < count; part++)
        length += parts[part].iov_len;
    before_write(fd, length);
    return real_pwritev(fd, parts, count, at);
}
ALSO(pwritev, pwritev64);

int fdatasync(int fd)
{
    before_flush(fd);
    return real_fdatasync(fd);
}

int fsync(int fd)
{
    before_flush(fd);
    return real_fsync(fd);
}

int close(int fd)
{
    if (fd >= 0 && fd < DESCRIPTORS)
        descriptors[fd] = 0;
    return real_close(fd);
}

/* A file that says a limit as the kernel's does; -1 where the path is not of one. */
static int limit_of(const char *path)
{
    static const char folder_of_limits[] = "/proc/sys/vm/dirty_";
    if (strncmp(path, folder_of_limits, sizeof folder_of_limits - 1) != 0)
        return -1;
    const char *name = path + sizeof folder_of_limits - 1;
    double says = strcmp(name, "bytes") == 0 ? limit : strcmp(name, "background_bytes") == 0 ? background : 0;
    int fd = memfd_create(name, 0);
    if (fd >= 0)
        dprintf(fd, "%.0f\n", says);
    return fd;
}

int open64(const char *path, int flags, ...)
{
    va_list more;
    va_start(more, flags);
    int mode = flags & (O_CREAT | O_TMPFILE) ? va_arg(more, int) : 0;
    va_end(more);
    int fd = limit_of(path);
    return fd >= 0 ? fd : real_open(path, flags, mode);
}
ALSO(open, open64);

int openat64(int at, const char *path, int flags, ...)
{
    va_list more;
    va_start(more, flags);
    int mode = flags & (O_CREAT | O_TMPFILE) ? va_arg(more, int) : 0;
    va_end(more);
    int fd = limit_of(path);
    return fd >= 0 ? fd : real_openat(at, path, flags, mode);
}
ALSO(openat, openat64);
