// The system of the module: the calls of Linux that compiled code names, by those of the host (worker.js). One program runs,
// with three standard streams, its words, at most one file to read, and no thread beside its own.
typedef __SIZE_TYPE__ size_t;
typedef __INTPTR_TYPE__ ssize_t;

// The host's functions. Each answers a number from 0 on, or one below it: of `word` those that `rattle_arg` has, and of the
// others Linux's number of an error, negated.
#define HOST(name) __attribute__((import_module("host"), import_name(#name)))
HOST(read) ssize_t host_read(int fd, void *to, size_t n);
HOST(write) ssize_t host_write(int fd, const void *from, size_t n);
HOST(open) int host_open(const char *path, int flags);
HOST(size) ssize_t host_size(const char *path);
HOST(word) ssize_t host_word(size_t i, void *to, size_t n);
HOST(exit) [[noreturn]] void host_exit(int status);

// Linux's numbers of errors.
enum { NO_SUCH_THREAD = 3, TRY_AGAIN = 11 };

static int last_error;

int rattle_errno(void) { return last_error; }
void rattle_set_errno(int error) { last_error = error; }

static ssize_t answered(ssize_t answer) {
    if (answer >= 0) return answer;
    last_error = -answer;
    return -1;
}

ssize_t read(int fd, void *to, size_t n) { return answered(host_read(fd, to, n)); }
ssize_t write(int fd, const void *from, size_t n) { return answered(host_write(fd, from, n)); }
ssize_t __write(int fd, const void *from, size_t n) { return write(fd, from, n); }
int open(const char *path, int flags, ...) { return answered(host_open(path, flags)); }
int close(int) { return 0; }

// Linux's, as far as it is asked: the size of a regular file that may be read.
struct statx {
    unsigned mask, block_size;
    unsigned long attributes;
    unsigned links, user, group;
    unsigned short mode, spare;
    unsigned long number, size, rest[26];
};

int statx(int, const char *path, int, unsigned mask, struct statx *to) {
    ssize_t size = answered(host_size(path));
    if (size < 0) return -1;
    *to = (struct statx){.mask = mask, .block_size = 4096, .links = 1, .mode = 0100444, .number = 1, .size = size};
    return 0;
}

ssize_t rattle_arg(size_t i, void *to, size_t n) { return host_word(i, to, n); }

// There is no environment.
ssize_t rattle_env(const void *, void *, size_t) { return -1; }
ssize_t rattle_env_at(size_t, void *, size_t) { return -1; }

[[noreturn]] void _exit(int status) { host_exit(status); }
[[noreturn]] void abort(void) { __builtin_trap(); }

// No signal comes.
long __sysv_signal(int, long) { return 0; }

// The program asks before it begins whether the processor has what it was compiled for: each feature is there.
void *__x86_get_cpuid_feature_leaf(unsigned) {
    static unsigned char all[64] = {[0 ... 63] = 255};
    return all;
}

// No thread can be made, and then the program does all in its own.
int pthread_create(void *, void *, void *, void *) { return TRY_AGAIN; }
int pthread_attr_init(void *) { return 0; }
int pthread_attr_setguardsize(void *, size_t) { return 0; }
int pthread_attr_setstacksize(void *, size_t) { return 0; }
int pthread_attr_destroy(void *) { return 0; }
size_t pthread_self(void) { return 1; }
int sched_yield(void) { return 0; }
int pthread_detach(size_t) { return 0; }
int pthread_join(size_t, void *) { return NO_SUCH_THREAD; }

// The program, whose status is what it answers unless it ends by `_exit`.
int main(void);
__attribute__((export_name("run"))) int run(void) { return main(); }
