/* A library to be preloaded into arrayd: its threads go on in an order that a seed says. No part of the product; trials/chaos_run.py
 * builds it and asks.
 *
 *   CHAOS=F   F, a file of `struct shared`, has the seed and what is asked, and gets what was seen
 *
 * A thread that calls the system stands for a while first and behind it: it goes on at once, lets others go first, or sleeps some
 * microseconds to milliseconds. Which of these it does, its own numbers say, which come of the seed and of the place at which it was
 * started. A timer of each thread stops it at moments between its calls too.
 *
 * A lock that is free is taken without a call. In a program that was compiled with nothing optimized and that has its symbols, as
 * tools/unproved.py leaves it, the three functions that take a Mutex and let it go are replaced by those below, and a thread stands
 * before and behind each, and before each step on an atomic word. So here each lock is seen: who holds it, who waits for it, where it was
 * taken, and what was held then. In another program only calls of the system are seen, and `hooked` is 0.
 *
 * It does not see the lock of the allocator, nor what the kernel's calls do among themselves; it stands at no plain load or store.
 */
#define _GNU_SOURCE
#include <dlfcn.h>
#include <errno.h>
#include <fcntl.h>
#include <pthread.h>
#include <signal.h>
#include <stdlib.h>
#include <string.h>
#include <sys/mman.h>
#include <sys/syscall.h>
#include <time.h>
#include <unistd.h>

#include "chaos.h"

struct shared *shared;
__thread struct thread *own;

/* ---- calls of the system, made here directly: those of the C library are the ones that stand below */

long call(long n, long a, long b, long c, long d, long e, long f)
{
    register long r10 __asm__("r10") = d, r8 __asm__("r8") = e, r9 __asm__("r9") = f;
    long answer;
    __asm__ volatile("syscall" : "=a"(answer) : "a"(n), "D"(a), "S"(b), "d"(c), "r"(r10), "r"(r8), "r"(r9) : "rcx", "r11", "memory");
    return answer;
}

long answered(long answer)
{
    if (answer < 0 && answer > -4096) {
        errno = -answer;
        return -1;
    }
    return answer;
}

uint64_t now(void)
{
    struct timespec time;
    clock_gettime(CLOCK_MONOTONIC, &time);
    return time.tv_sec * 1000000000ull + time.tv_nsec;
}

/* ---- what a thread does next */

uint64_t drawn(uint64_t *state)
{
    uint64_t mixed = (*state += 0x9e3779b97f4a7c15ull);
    mixed = (mixed ^ (mixed >> 30)) * 0xbf58476d1ce4e5b9ull;
    mixed = (mixed ^ (mixed >> 27)) * 0x94d049bb133111ebull;
    return mixed ^ (mixed >> 31);
}

void sleep_for(uint64_t microseconds)
{
    struct timespec time = {microseconds / 1000000, microseconds % 1000000 * 1000};
    call(SYS_nanosleep, (long)&time, 0, 0, 0, 0, 0);
}

/* A thread has a mood for some dozen points: it goes on, or it lags, so that others go first again and again. */
void stand(void)
{
    struct thread *thread = own;
    if (!thread || atomic_load_explicit(&shared->is_quiet, memory_order_relaxed) || thread->stands)
        return;
    thread->stands = 1;
    thread->points++;
    if (thread->mood_left == 0) {
        uint64_t number = drawn(&thread->dice);
        thread->mood_left = 8 + number % 120;
        thread->mood = (number >> 20) % 8;
    }
    thread->mood_left--;
    uint64_t number = drawn(&thread->dice), chance = number % 1000, size = number >> 16;
    uint64_t lags = thread->mood < 2 ? 0 : thread->mood < 7 ? shared->permille : shared->permille * 6;
    if (chance < lags / 32)
        sleep_for(size % 4000);
    else if (chance < lags)
        sleep_for(size % 250);
    else if (chance < lags * 3)
        call(SYS_sched_yield, 0, 0, 0, 0, 0, 0);
    thread->stands = 0;
}

/* ---- stops between calls */

static void arm(struct thread *thread)
{
    uint64_t next = 300000 + drawn(&thread->alarm_dice) % 12000000;
    struct itimerspec when = {{0, 0}, {0, next}};
    call(SYS_timer_settime, thread->timer, 0, (long)&when, 0, 0, 0);
}

static void stop_here(int signal)
{
    (void)signal;
    struct thread *thread = own;
    if (!thread)
        return;
    if (thread->is_calling) {
        thread->is_to_arm = 1;
        return;
    }
    int kept = errno;
    if (!thread->stands && !atomic_load(&shared->is_quiet)) {
        thread->stops++;
        sleep_for(drawn(&thread->alarm_dice) % 1500);
    }
    arm(thread);
    errno = kept;
}

/* A call that may wait: a stop in it is none, and interrupts nothing that the program would see. */
long waiting_call(long n, long a, long b, long c, long d, long e, long f)
{
    struct thread *thread = own;
    if (!thread)
        return call(n, a, b, c, d, e, f);
    long answer;
    do {
        thread->is_to_arm = 0;
        thread->is_calling = 1;
        thread->called = n;
        thread->since = now();
        answer = call(n, a, b, c, d, e, f);
        thread->is_calling = 0;
        thread->called = -1;
        if (thread->is_to_arm)
            arm(thread);
    } while (answer == -EINTR && thread->is_to_arm);
    return answer;
}

/* ---- threads */

struct start {
    void *(*body)(void *);
    void *given;
    struct thread *thread;
};

static struct thread *new_thread(void)
{
    uint64_t place = atomic_fetch_add(&shared->threads_started, 1);
    for (int at = 0; at < MOST_THREADS; at++) {
        int is_free = 0;
        if (!atomic_compare_exchange_strong(&shared->threads[at].is_there, &is_free, 1))
            continue;
        struct thread *thread = &shared->threads[at];
        memset((char *)thread + sizeof thread->is_there, 0, sizeof *thread - sizeof thread->is_there);
        thread->place = place;
        thread->dice = shared->seed * 1000003 + place * 7919;
        thread->alarm_dice = ~thread->dice;
        thread->called = -1;
        return thread;
    }
    return NULL;
}

static void begin_thread(struct thread *thread)
{
    if (!thread)
        return;
    thread->id = call(SYS_gettid, 0, 0, 0, 0, 0, 0);
    struct sigevent event = {.sigev_notify = SIGEV_THREAD_ID, .sigev_signo = SIGRTMIN + 3};
    event._sigev_un._tid = thread->id;
    int timer = 0;
    call(SYS_timer_create, CLOCK_MONOTONIC, (long)&event, (long)&timer, 0, 0, 0);
    thread->timer = timer;
    own = thread;
    if (shared->has_stops)
        arm(thread);
}

static void *started(void *given)
{
    struct start start = *(struct start *)given;
    free(given);
    begin_thread(start.thread);
    void *end = start.body(start.given);
    own = NULL;
    if (start.thread) {
        call(SYS_timer_delete, start.thread->timer, 0, 0, 0, 0, 0);
        if (start.thread->holds_count)
            atomic_fetch_add(&shared->ended_with_locks, 1);
        atomic_store(&start.thread->is_there, 0);
    }
    return end;
}

int pthread_create(pthread_t *made, const pthread_attr_t *attributes, void *(*body)(void *), void *given)
{
    static int (*real)(pthread_t *, const pthread_attr_t *, void *(*)(void *), void *);
    if (!real)
        real = (int (*)(pthread_t *, const pthread_attr_t *, void *(*)(void *), void *))dlsym(RTLD_NEXT, "pthread_create");
    if (!shared)
        return real(made, attributes, body, given);
    struct start *start = malloc(sizeof *start);
    if (!start)
        return EAGAIN;
    *start = (struct start){body, given, new_thread()};
    stand();
    int fault = real(made, attributes, started, start);
    if (fault) {
        if (start->thread)
            atomic_store(&start->thread->is_there, 0);
        free(start);
    }
    return fault;
}

/* ---- the start */

int comes(enum fault fault)
{
    if (!shared || !(shared->faults & fault) || !own || atomic_load(&shared->is_quiet))
        return 0;
    if (drawn(&own->dice) % shared->fault_in)
        return 0;
    atomic_fetch_add(&shared->faults_made, 1);
    return 1;
}

__attribute__((constructor)) static void begin(void)
{
    const char *path = getenv("CHAOS");
    if (!path)
        return;
    int file = call(SYS_openat, AT_FDCWD, (long)path, O_RDWR | O_CLOEXEC, 0, 0, 0);
    void *map = file < 0 ? MAP_FAILED : mmap(NULL, sizeof(struct shared), PROT_READ | PROT_WRITE, MAP_SHARED, file, 0);
    if (map == MAP_FAILED)
        _exit(99);
    call(SYS_close, file, 0, 0, 0, 0, 0);
    shared = map;
    unsetenv("LD_PRELOAD");
    struct sigaction action = {.sa_handler = stop_here, .sa_flags = SA_RESTART};
    sigaction(SIGRTMIN + 3, &action, NULL);
    hook_locks();
    begin_thread(new_thread());
}
