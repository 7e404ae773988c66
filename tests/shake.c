// Yields or sleeps, at random, where the threads of the program that it is preloaded into ask the C library for memory, to
// wait for one another or to wake one another, to yield, and to start. SHAKE is the seed. So schedules come about that a
// machine with nothing else on it hardly ever has.
typedef unsigned long size_t;
typedef struct {
    long seconds, nanoseconds;
} span;

char *getenv(const char *name);
long atol(const char *text);
int nanosleep(const span *time, span *left);
void *__libc_malloc(size_t size);
void *__libc_realloc(void *old, size_t size);
void *dlsym(void *from, const char *name);

typedef long system_call(long number, long a, long b, long c, long d, long e, long f);
typedef int yield(void);
typedef int start_thread(unsigned long *thread, const void *attributes, void *(*body)(void *), void *with);

static unsigned long seed, threads;
static __thread unsigned long state __attribute__((tls_model("initial-exec")));

// What the C library, which is the next after this one, has under a name.
static void *next(const char *name) { return dlsym((void *)-1L, name); }

static unsigned long drawn(void) {
    if (!state) {
        const char *text = seed ? 0 : getenv("SHAKE");
        seed = text ? (unsigned long)atol(text) + 1 : seed ? seed : 1;
        state = (seed * 0x9e3779b97f4a7c15UL) ^ (__sync_add_and_fetch(&threads, 1) * 0xd1342543de82ef95UL);
    }
    state ^= state << 13;
    state ^= state >> 7;
    state ^= state << 17;
    return state ? state : (state = 1);
}

static void give_way(void) {
    static yield *real;
    real = real ? real : (yield *)next("sched_yield");
    if (real) {
        real();
    }
}

// Goes on at once three times of four, mostly yields else, and sleeps for up to 60 microseconds one time of 64.
static void shake(void) {
    unsigned long it = drawn();
    if ((it >> 20) % 64 == 0) {
        span time = {0, (long)((it >> 32) % 60000)};
        nanosleep(&time, 0);
    } else if ((it >> 20) % 4 == 0) {
        give_way();
    }
}

void *malloc(size_t size) {
    shake();
    return __libc_malloc(size);
}

void *realloc(void *old, size_t size) {
    shake();
    return __libc_realloc(old, size);
}

// Of futexes, above all. What it answers, and its error, are those of the call.
long syscall(long number, long a, long b, long c, long d, long e, long f) {
    static system_call *real;
    real = real ? real : (system_call *)next("syscall");
    shake();
    return real ? real(number, a, b, c, d, e, f) : -1;
}

int sched_yield(void) {
    shake();
    give_way();
    return 0;
}

int pthread_create(unsigned long *thread, const void *attributes, void *(*body)(void *), void *with) {
    start_thread *start = (start_thread *)next("pthread_create");
    int failed = start ? start(thread, attributes, body, with) : 11;
    shake();
    return failed;
}
