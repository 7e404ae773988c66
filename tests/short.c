// Makes each read and each write of the program that it is preloaded into take SHORT bytes at most. Where SHORT_INTERRUPTS
// is 1 each other call is interrupted first. Of those that are not, the read with the number SHORT_READ and the write to
// standard output with the number SHORT_WRITE, each from 1, fail, where there are such numbers; where SHORT_TAKES is 1 that
// write fails as it takes nothing. SHORT_WHY is the error of the one that fails, where it is not that of a broken device or
// of a full one.
typedef unsigned long size_t;

char *getenv(const char *name);
long atol(const char *text);
long syscall(long number, ...);
int *__errno_location(void);

enum { input = 0, output = 1, of_read = 0, of_write = 1, interrupted = 4, failed = 5, no_space = 28 };

static long most = -1, interrupts, read_fails, write_fails, takes_nothing, why, calls, reads, writes;

static long number_in(const char *name) {
    const char *text = getenv(name);
    return text ? atol(text) : 0;
}

static long fails(int error) {
    *__errno_location() = error;
    return -1;
}

static int is_interrupted(void) {
    if (most < 0) {
        most = number_in("SHORT");
        interrupts = number_in("SHORT_INTERRUPTS");
        read_fails = number_in("SHORT_READ");
        write_fails = number_in("SHORT_WRITE");
        takes_nothing = number_in("SHORT_TAKES");
        why = number_in("SHORT_WHY");
    }
    return interrupts && ++calls % 2;
}

static size_t some(size_t count) { return most && count > (size_t)most ? (size_t)most : count; }

long read(int file, void *bytes, size_t count) {
    if (is_interrupted()) {
        return fails(interrupted);
    }
    if (file == input && ++reads == read_fails) {
        return fails(why ? (int)why : failed);
    }
    return syscall(of_read, file, bytes, some(count));
}

long write(int file, const void *bytes, size_t count) {
    if (is_interrupted()) {
        return fails(interrupted);
    }
    if (file == output && ++writes == write_fails) {
        return takes_nothing ? 0 : fails(why ? (int)why : no_space);
    }
    return syscall(of_write, file, bytes, some(count));
}
