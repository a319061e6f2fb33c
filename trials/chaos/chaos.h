/* What the parts of the library share, and what trials/chaos_run.py reads: it knows the places of `struct shared`. */
#include <stdatomic.h>
#include <stdint.h>

enum { MOST_THREADS = 256, MOST_HELD = 12, MOST_SITES = 512, MOST_EDGES = 1024, FRAMES = 4, MOST_RANGES = 1024 };

/* What is planted, to see that it is found. */
enum fault { LOST_WAKE = 1, STALE_READ = 2, EARLY_REPLY = 4, LOST_SAVE = 8 };

/* A lock that a thread holds, where it was taken, and since when. */
struct held {
    uint64_t lock, site, since;
};

struct thread {
    _Atomic int32_t is_there;
    int32_t id;
    uint64_t place;
    /* The call of the system in which it waits, or -1; the word of a futex that it waits for; since when. */
    int64_t called;
    uint64_t futex, since;
    /* The lock that it tries to take, and where. */
    uint64_t wanted, wanted_site;
    uint64_t holds_count;
    struct held holds[MOST_HELD];
    uint64_t points, stops;
    /* From here on only the library reads. */
    uint64_t dice, alarm_dice, mood, mood_left;
    volatile int32_t stands, is_calling, is_to_arm, timer;
};

/* Where locks are taken: the first frames that are not of the lock itself, as addresses in the program. */
struct site {
    _Atomic uint64_t key;
    uint64_t frames[FRAMES];
    _Atomic uint64_t takes, longest;
};

/* A lock of one site was taken while one of another was held; `is_awaited`: the thread would have waited for it. */
struct edge {
    _Atomic uint64_t key;
    uint64_t held, taken, is_awaited;
    _Atomic uint64_t count;
};

struct shared {
    /* Asked. */
    uint64_t seed, permille, has_stops, faults, fault_in;
    _Atomic uint64_t is_quiet, hangs;
    char disk[128];
    /* Seen. */
    _Atomic uint64_t hooked, threads_started, ended_with_locks, faults_made, hung, unknown_releases;
    struct thread threads[MOST_THREADS];
    struct site sites[MOST_SITES];
    struct edge edges[MOST_EDGES];
};

struct range {
    uint64_t from, to;
    int waits;
};

extern struct shared *shared;
extern __thread struct thread *own;

/* A call of the system, made directly: negative where it failed. */
long call(long n, long a, long b, long c, long d, long e, long f);
/* The same of a call that may wait: no stop interrupts it. */
long waiting_call(long n, long a, long b, long c, long d, long e, long f);
long answered(long answer);
uint64_t now(void);
uint64_t drawn(uint64_t *state);
void sleep_for(uint64_t microseconds);
/* The thread goes on, lets others go first, or sleeps. */
void stand(void);
/* Whether a fault that is planted comes now. */
int comes(enum fault fault);
void hook_locks(void);
