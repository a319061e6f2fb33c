/* A loss of power, under the files of a program that is started with this library preloaded: the regular files in the folder that
 * POWER names, which lies on no disk of its own. Beside each of them, in the folder POWER_DISK, lies what a disk would have of it,
 * under the number of its inode; trials/power.py makes files of that once the program was killed.
 *   A write goes into memory, which is the file itself. Of its sectors some go to the disk at once, in no order; the others go
 * when the file is flushed, one by one and from a place of their own, so that a kill leaves some of them. A flush takes what was
 * written when it began, and the file's length. A name, new or moved or gone, is there when its folder was flushed, or at once.
 * POWER_SEED is the number by which is picked what goes at once. No part of the product.
 *
 * cc -O2 -shared -fPIC -o power.so trials/power.c */
#define _GNU_SOURCE
#include <dirent.h>
#include <dlfcn.h>
#include <fcntl.h>
#include <limits.h>
#include <pthread.h>
#include <stdint.h>
#include <stdio.h>
#include <stdlib.h>
#include <string.h>
#include <sys/stat.h>
#include <sys/uio.h>
#include <time.h>
#include <unistd.h>

enum { SECTOR = 512, FILES = 64, SECTORS = 1 << 16, AT_ONCE = 3, OF = 10 };

/* A file: the number of its inode, what of it the disk has, and which sectors it lacks. */
struct file {
    ino_t node;
    int disk;
    unsigned char lacks[SECTORS];
};

static struct file files[FILES];
static pthread_mutex_t looking = PTHREAD_MUTEX_INITIALIZER;
static char folder[PATH_MAX], disk[PATH_MAX];
static uint64_t seed;

static ssize_t (*real_pwrite)(int, const void *, size_t, off64_t);
static ssize_t (*real_write)(int, const void *, size_t);
static ssize_t (*real_pread)(int, void *, size_t, off64_t);
static int (*real_fdatasync)(int);
static int (*real_fsync)(int);
static int (*real_rename)(const char *, const char *);
static int (*real_unlink)(const char *);

static uint64_t any(uint64_t below)
{
    seed ^= seed << 13, seed ^= seed >> 7, seed ^= seed << 17;
    return seed % below;
}

static void fail(const char *what)
{
    perror(what);
    _exit(99);
}

/* The file behind a descriptor, or NULL where it is none of the folder's. The mutex is held. */
static struct file *of(int fd, struct stat *found)
{
    char link[64], path[PATH_MAX];
    if (fstat(fd, found) != 0 || !S_ISREG(found->st_mode))
        return NULL;
    snprintf(link, sizeof link, "/proc/self/fd/%d", fd);
    ssize_t length = readlink(link, path, sizeof path - 1);
    size_t prefix = strlen(folder);
    if (length < 0 || strncmp(path, folder, prefix) != 0 || path[prefix] != '/')
        return NULL;
    for (struct file *file = files; file < files + FILES; file++) {
        if (file->node == found->st_ino)
            return file;
        if (file->node != 0)
            continue;
        snprintf(path, sizeof path, "%s/%ju", disk, (uintmax_t)found->st_ino);
        file->node = found->st_ino;
        file->disk = open(path, O_RDWR | O_CREAT | O_CLOEXEC, 0600);
        if (file->disk < 0)
            fail(path);
        return file;
    }
    fail("too many files");
    return NULL;
}

/* A sector as the file has it now goes to the disk; the mutex is held. */
static void take(int fd, struct file *file, size_t sector)
{
    char bytes[SECTOR];
    ssize_t length = real_pread(fd, bytes, SECTOR, (off64_t)sector * SECTOR);
    if (length > 0 && real_pwrite(file->disk, bytes, length, (off64_t)sector * SECTOR) != length)
        fail("the disk");
    file->lacks[sector] = 0;
}

/* The names that the folder has, and the disk from now on. The mutex is held, but at the start. */
static void take_names(void)
{
    char path[PATH_MAX], next[PATH_MAX];
    snprintf(path, sizeof path, "%s/names", disk);
    snprintf(next, sizeof next, "%s/names.next", disk);
    FILE *names = fopen(next, "we");
    DIR *open = opendir(folder);
    if (names == NULL || open == NULL)
        fail(folder);
    for (struct dirent *entry; (entry = readdir(open)) != NULL;)
        if (entry->d_type == DT_REG)
            fprintf(names, "%ju %s\n", (uintmax_t)entry->d_ino, entry->d_name);
    closedir(open);
    if (fclose(names) != 0 || real_rename(next, path) != 0)
        fail(path);
}

static void names_changed(void)
{
    pthread_mutex_lock(&looking);
    if (any(2) == 0)
        take_names();
    pthread_mutex_unlock(&looking);
}

__attribute__((constructor)) static void begin(void)
{
    const char *where = getenv("POWER"), *to = getenv("POWER_DISK"), *number = getenv("POWER_SEED");
    real_pwrite = dlsym(RTLD_NEXT, "pwrite64");
    real_write = dlsym(RTLD_NEXT, "write");
    real_pread = dlsym(RTLD_NEXT, "pread64");
    real_fdatasync = dlsym(RTLD_NEXT, "fdatasync");
    real_fsync = dlsym(RTLD_NEXT, "fsync");
    real_rename = dlsym(RTLD_NEXT, "rename");
    real_unlink = dlsym(RTLD_NEXT, "unlink");
    if (where == NULL || to == NULL || number == NULL || realpath(where, folder) == NULL || realpath(to, disk) == NULL)
        fail("POWER, POWER_DISK, POWER_SEED");
    seed = strtoull(number, NULL, 10) * 2654435761u + 88172645463325252u;
}

/* So many bytes of a file were written there; the mutex is held. */
static void written(int fd, struct file *file, off64_t offset, ssize_t length)
{
    size_t end = (offset + length + SECTOR - 1) / SECTOR;
    if (end > SECTORS)
        fail("a file is too long");
    for (size_t sector = offset / SECTOR; sector < end; sector++) {
        file->lacks[sector] = 1;
        if (any(OF) < AT_ONCE)
            take(fd, file, sector);
    }
}

ssize_t pwrite64(int fd, const void *bytes, size_t length, off64_t offset)
{
    struct stat found;
    pthread_mutex_lock(&looking);
    struct file *file = of(fd, &found);
    ssize_t done = real_pwrite(fd, bytes, length, offset);
    if (file != NULL && done > 0)
        written(fd, file, offset, done);
    pthread_mutex_unlock(&looking);
    return done;
}

ssize_t write(int fd, const void *bytes, size_t length)
{
    struct stat found;
    pthread_mutex_lock(&looking);
    struct file *file = of(fd, &found);
    pthread_mutex_unlock(&looking);
    if (file == NULL)
        return real_write(fd, bytes, length);
    off64_t offset = lseek(fd, 0, SEEK_CUR);
    ssize_t done = pwrite64(fd, bytes, length, offset);
    if (done > 0)
        lseek(fd, done, SEEK_CUR);
    return done;
}

ssize_t pwrite(int fd, const void *bytes, size_t length, off_t offset)
{
    return pwrite64(fd, bytes, length, offset);
}

/* All that a file's disk lacks when the flush begins, from some sector on. Others may write meanwhile. */
static void flush(int fd)
{
    struct stat found = { 0 };
    pthread_mutex_lock(&looking);
    struct file *file = of(fd, &found);
    if (file == NULL) {
        if (S_ISDIR(found.st_mode))
            take_names();
        pthread_mutex_unlock(&looking);
        return;
    }
    size_t sectors = (found.st_size + SECTOR - 1) / SECTOR, from = any(sectors + 1);
    if (ftruncate(file->disk, found.st_size) != 0)
        fail("the disk");
    for (size_t count = 0; count < sectors; count++) {
        size_t sector = (from + count) % sectors;
        if (!file->lacks[sector])
            continue;
        take(fd, file, sector);
        pthread_mutex_unlock(&looking);
        nanosleep(&(struct timespec){ 0, 20000 }, NULL);
        pthread_mutex_lock(&looking);
    }
    pthread_mutex_unlock(&looking);
}

int fdatasync(int fd)
{
    flush(fd);
    return real_fdatasync(fd);
}

int fsync(int fd)
{
    flush(fd);
    return real_fsync(fd);
}

int rename(const char *from, const char *to)
{
    int end = real_rename(from, to);
    names_changed();
    return end;
}

int unlink(const char *path)
{
    int end = real_unlink(path);
    names_changed();
    return end;
}
