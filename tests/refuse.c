// Refuses one allocation or start of a thread of the program that it is preloaded into, the one with the number REFUSE,
// both counted from 1, and with REFUSE_ON=1 also each later one. At the first it writes a byte to the descriptor
// REFUSE_TELLS, so that the test knows that the run got that far: m for memory, t for a thread. Where REFUSE is 0 it
// refuses nothing, and writes an s there for each start of a thread.
typedef unsigned long size_t;

char *getenv(const char *name);
long atol(const char *text);
long write(int file, const void *bytes, size_t count);
int *__errno_location(void);
void *__libc_malloc(size_t size);
void *__libc_calloc(size_t count, size_t size);
void *__libc_realloc(void *old, size_t size);
void *__libc_memalign(size_t align, size_t size);
void *dlsym(void *from, const char *name);

enum { try_again = 11, out_of_memory = 12 };

static long seen, refused = -1, goes_on, tells;

static long number_in(const char *name) {
    const char *text = getenv(name);
    return text ? atol(text) : 0;
}

static int refuses(char what) {
    if (refused < 0) {
        goes_on = number_in("REFUSE_ON");
        tells = number_in("REFUSE_TELLS");
        refused = number_in("REFUSE");
    }
    long number = __sync_add_and_fetch(&seen, 1);
    if (number != refused && !(goes_on && number > refused)) {
        return 0;
    }
    int told = number > refused || write(tells, &what, 1) == 1;
    *__errno_location() = out_of_memory;
    return told;
}

void *malloc(size_t size) { return refuses('m') ? 0 : __libc_malloc(size); }
void *calloc(size_t count, size_t size) { return refuses('m') ? 0 : __libc_calloc(count, size); }
void *realloc(void *old, size_t size) { return refuses('m') ? 0 : __libc_realloc(old, size); }
void *aligned_alloc(size_t align, size_t size) { return refuses('m') ? 0 : __libc_memalign(align, size); }
int posix_memalign(void **made, size_t align, size_t size) {
    void *found = refuses('m') ? 0 : __libc_memalign(align, size);
    if (found) {
        *made = found;
    }
    return found ? 0 : out_of_memory;
}

typedef int start_thread(unsigned long *thread, const void *attributes, void *(*body)(void *), void *with);

int pthread_create(unsigned long *thread, const void *attributes, void *(*body)(void *), void *with) {
    if (refuses('t')) {
        return try_again;
    }
    if (refused == 0 && tells > 0 && write(tells, "s", 1) != 1) {
        return try_again;
    }
    // That of the C library, which is the next after this one.
    start_thread *start = (start_thread *)dlsym((void *)-1L, "pthread_create");
    return start ? start(thread, attributes, body, with) : try_again;
}
