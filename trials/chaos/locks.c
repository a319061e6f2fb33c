/* Locks as they are taken and let go, in a program whose functions for that can be found by name: see threads.c. */
#define _GNU_SOURCE
#include <elf.h>
#include <fcntl.h>
#include <link.h>
#include <stdio.h>
#include <string.h>
#include <sys/mman.h>
#include <sys/stat.h>
#include <sys/syscall.h>
#include <unistd.h>

#include "chaos.h"

static uintptr_t base;
static struct range core[MOST_RANGES];
static int count_of_core;

/* ---- where a lock is taken */

static const struct range *core_at(uintptr_t address)
{
    for (int at = 0; at < count_of_core; at++)
        if (core[at].from <= address && address < core[at].to)
            return &core[at];
    return NULL;
}

/* The frames above a function of the library that are none of the lock's own; whether one of those waits. */
static int frames_above(uintptr_t *frame, uint64_t *found, int *waits)
{
    int count = 0;
    for (int depth = 0; depth < 24 && count < FRAMES && frame; depth++) {
        uintptr_t back = frame[1], *next = (uintptr_t *)frame[0];
        const struct range *range = core_at(back);
        if (range)
            *waits |= range->waits;
        else
            found[count++] = back - base;
        if (next <= frame || (char *)next - (char *)frame > 1 << 18)
            break;
        frame = next;
    }
    return count;
}

static uint64_t site_of(uintptr_t *frame, int *waits)
{
    uint64_t found[FRAMES] = {0}, key = 1469598103934665603ull;
    frames_above(frame, found, waits);
    for (int at = 0; at < FRAMES; at++)
        key = (key ^ found[at]) * 1099511628211ull;
    key |= 1;
    for (uint64_t probe = 0; probe < MOST_SITES; probe++) {
        struct site *site = &shared->sites[(key / 2 + probe) % MOST_SITES];
        uint64_t there = 0;
        if (atomic_compare_exchange_strong(&site->key, &there, key)) {
            memcpy(site->frames, found, sizeof found);
            there = key;
        }
        if (there == key)
            return site - shared->sites;
    }
    return MOST_SITES - 1;
}

static void count_edge(uint64_t held, uint64_t taken, int is_awaited)
{
    uint64_t key = (held * MOST_SITES + taken) * 4 + 2 * is_awaited + 1;
    for (uint64_t probe = 0; probe < MOST_EDGES; probe++) {
        struct edge *edge = &shared->edges[(key * 31 + probe) % MOST_EDGES];
        uint64_t there = 0;
        if (atomic_compare_exchange_strong(&edge->key, &there, key)) {
            edge->held = held, edge->taken = taken, edge->is_awaited = is_awaited;
            there = key;
        }
        if (there == key) {
            atomic_fetch_add(&edge->count, 1);
            return;
        }
    }
}

static void took(uint64_t lock, uint64_t site, int waits)
{
    struct thread *thread = own;
    for (uint64_t at = 0; at < thread->holds_count; at++)
        count_edge(thread->holds[at].site, site, waits);
    if (thread->holds_count < MOST_HELD)
        thread->holds[thread->holds_count++] = (struct held){lock, site, now()};
    atomic_fetch_add(&shared->sites[site].takes, 1);
}

static void let_go(uint64_t lock)
{
    struct thread *thread = own;
    for (uint64_t at = thread->holds_count; at-- > 0;) {
        if (thread->holds[at].lock != lock)
            continue;
        struct site *site = &shared->sites[thread->holds[at].site];
        uint64_t long_ = now() - thread->holds[at].since, longest = atomic_load(&site->longest);
        while (long_ > longest && !atomic_compare_exchange_weak(&site->longest, &longest, long_))
            ;
        memmove(&thread->holds[at], &thread->holds[at + 1], (thread->holds_count - at - 1) * sizeof(struct held));
        thread->holds_count--;
        return;
    }
    atomic_fetch_add(&shared->unknown_releases, 1);
}

/* ---- the three functions of a Mutex that stand in place of the program's own: its word is 1 or 4 where it is free */

static uint64_t try_acquire(_Atomic uint64_t *lock, uint64_t current, uint64_t new)
{
    struct thread *thread = own;
    if (!thread) {
        atomic_compare_exchange_strong(lock, &current, new);
        return current;
    }
    int waits = 0;
    uint64_t site = site_of(__builtin_frame_address(0), &waits), found = current;
    thread->wanted_site = site;
    thread->wanted = waits ? (uint64_t)lock : 0;
    stand();
    if (atomic_compare_exchange_strong(lock, &found, new)) {
        thread->wanted = 0;
        took((uint64_t)lock, site, waits);
        stand();
    }
    return found;
}

static uint64_t offer(_Atomic uint64_t *lock, uint64_t current, uint64_t new)
{
    uint64_t found = current;
    if (own && current == 0)
        stand();
    if (atomic_compare_exchange_strong(lock, &found, new) && own)
        let_go((uint64_t)lock);
    return found;
}

static uint64_t clear(_Atomic uint64_t *lock, uint64_t four)
{
    if (own)
        let_go((uint64_t)lock);
    return atomic_exchange(lock, four);
}

/* ---- how they come to stand there */

static void put_jump(unsigned char *from, void *to)
{
    unsigned char jump[14] = {0xff, 0x25, 0, 0, 0, 0};
    memcpy(jump + 6, &to, 8);
    memcpy(from, jump, sizeof jump);
}

static unsigned char *stubs, *stubs_end;

/* How a function begins that was compiled with nothing optimized: it makes its frame. */
static const unsigned char frame[] = {0x55, 0x48, 0x89, 0xe5, 0x48, 0x83, 0xec};

/* Such a function goes on behind `stand`. */
static int put_stand(unsigned char *from)
{
    static const unsigned char save[] = {0x50, 0x57, 0x56, 0x52, 0x51, 0x41, 0x50, 0x41, 0x51, 0x41, 0x52, 0x41, 0x53, 0x55,
                                         0x48, 0x89, 0xe5, 0x48, 0x83, 0xe4, 0xf0, 0x48, 0xb8};
    static const unsigned char load[] = {0xff, 0xd0, 0x48, 0x89, 0xec, 0x5d, 0x41, 0x5b, 0x41, 0x5a, 0x41, 0x59, 0x41, 0x58, 0x59, 0x5a, 0x5e, 0x5f, 0x58};
    if (memcmp(from, frame, sizeof frame) || stubs_end - stubs < 128)
        return 0;
    unsigned char *stub = stubs, *at = stub;
    void *function = stand;
    at = (unsigned char *)memcpy(at, save, sizeof save) + sizeof save;
    at = (unsigned char *)memcpy(at, &function, 8) + 8;
    at = (unsigned char *)memcpy(at, load, sizeof load) + sizeof load;
    at = (unsigned char *)memcpy(at, from, 8) + 8;
    put_jump(at, from + 8);
    int32_t far = stub - (from + 5);
    from[0] = 0xe9;
    memcpy(from + 1, &far, 4);
    stubs += 128;
    return 1;
}

static void look_at(const char *name, uintptr_t address, uint64_t size)
{
    int is_lock = !strncmp(name, "core::sync::", 12), is_condition = !strncmp(name, "core::chan::Condvar::", 21);
    if ((is_lock || is_condition) && count_of_core < MOST_RANGES)
        core[count_of_core++] = (struct range){address, address + size, !strncmp(name, "core::sync::Mutex::lock::", 25)};
    void *instead = !strncmp(name, "core::sync::try_acquire::", 25) ? (void *)try_acquire
                  : !strncmp(name, "core::sync::offer::", 19)       ? (void *)offer
                  : !strncmp(name, "core::sync::clear::", 19)       ? (void *)clear : NULL;
    static const char *const steps[] = {"core::atomic::cas", "core::atomic::swap", "core::atomic::add", "core::atomic::sub", "core::atomic::store",
                                        "core::raw_atomic::cas", "core::raw_atomic::store"};
    /* where much is optimized, a part of the calls may have become a part of who calls */
    if (instead && size >= 14 && !memcmp((void *)address, frame, sizeof frame)) {
        put_jump((unsigned char *)address, instead);
        atomic_fetch_add(&shared->hooked, 1);
    }
    for (unsigned at = 0; at < sizeof steps / sizeof *steps; at++)
        if (!strncmp(name, steps[at], strlen(steps[at])) && put_stand((unsigned char *)address))
            atomic_fetch_add(&shared->hooked, 1);
}

static int of_program(struct dl_phdr_info *info, size_t size, void *text)
{
    (void)size;
    base = info->dlpi_addr;
    for (int at = 0; at < info->dlpi_phnum; at++)
        if (info->dlpi_phdr[at].p_type == PT_LOAD && info->dlpi_phdr[at].p_flags & PF_X) {
            ((uintptr_t *)text)[0] = (base + info->dlpi_phdr[at].p_vaddr) & ~4095ul;
            ((uintptr_t *)text)[1] = base + info->dlpi_phdr[at].p_vaddr + info->dlpi_phdr[at].p_memsz;
        }
    return 1;
}

static void look_at_all(const unsigned char *file)
{
    const Elf64_Ehdr *head = (const Elf64_Ehdr *)file;
    const Elf64_Shdr *sections = (const Elf64_Shdr *)(file + head->e_shoff);
    for (int at = 0; at < head->e_shnum; at++) {
        if (sections[at].sh_type != SHT_SYMTAB)
            continue;
        const Elf64_Sym *symbols = (const Elf64_Sym *)(file + sections[at].sh_offset);
        const char *names = (const char *)file + sections[sections[at].sh_link].sh_offset;
        for (uint64_t n = 0; n < sections[at].sh_size / sizeof *symbols; n++)
            if (ELF64_ST_TYPE(symbols[n].st_info) == STT_FUNC && symbols[n].st_size)
                look_at(names + symbols[n].st_name, base + symbols[n].st_value, symbols[n].st_size);
    }
}

void hook_locks(void)
{
    uintptr_t text[2] = {0, 0};
    dl_iterate_phdr(of_program, text);
    int file = call(SYS_openat, AT_FDCWD, (long)"/proc/self/exe", O_RDONLY | O_CLOEXEC, 0, 0, 0);
    struct stat known;
    if (!text[0] || file < 0 || fstat(file, &known))
        return;
    void *map = mmap(NULL, known.st_size, PROT_READ, MAP_PRIVATE, file, 0);
    for (uintptr_t at = text[0] - (1 << 20), tries = 0; tries < 64 && !stubs; at -= 1 << 20, tries++) {
        void *near = mmap((void *)at, 1 << 16, PROT_READ | PROT_WRITE | PROT_EXEC, MAP_PRIVATE | MAP_ANONYMOUS | MAP_FIXED_NOREPLACE, -1, 0);
        if (near != MAP_FAILED)
            stubs = near, stubs_end = stubs + (1 << 16);
    }
    if (map != MAP_FAILED && stubs && !mprotect((void *)text[0], text[1] - text[0], PROT_READ | PROT_WRITE | PROT_EXEC)) {
        look_at_all(map);
        mprotect((void *)text[0], text[1] - text[0], PROT_READ | PROT_EXEC);
    }
    call(SYS_close, file, 0, 0, 0, 0, 0);
}
