/* faults.c: a preloaded library that makes the calls of a program fail, one after the other.
 *
 * It stands before the C library's malloc, calloc, realloc, aligned_alloc, posix_memalign, read, write and
 * pthread_create. The program is started once for many runs: before its main the library waits for jobs on the
 * descriptor JOBS, forks for each, and lets the child go on into main with the faults that the job names; the parent
 * writes how it ended, what was called and what came on standard output and error to the descriptor ANSWERS.
 * Without the variable HOSTILE_DOCUMENT it does nothing.
 *
 * It needs Linux, a program that is linked dynamically with glibc, and gcc (apt-get install gcc libc6-dev):
 *     gcc -O1 -shared -fPIC -o faults.so faults.c
 */
#define _GNU_SOURCE
#include <dlfcn.h>
#include <errno.h>
#include <fcntl.h>
#include <pthread.h>
#include <sched.h>
#include <signal.h>
#include <stdint.h>
#include <stdlib.h>
#include <string.h>
#include <sys/mman.h>
#include <sys/resource.h>
#include <sys/syscall.h>
#include <sys/wait.h>
#include <unistd.h>

enum { JOBS = 198, ANSWERS = 199 };
enum { ALWAYS = 1 };                                  /* `on`: the call fails once, or from there on */
enum { HALF = -1, ANY = -2 };                         /* `most`: half of what is asked for, or a part by chance */

/* All numbers of calls count from 1; 0 means none. */
struct job {
    int64_t allocation_at, allocation_on, allocation_chance; /* one in so many fails */
    int64_t read_at, read_on, read_errno, read_most;         /* errno 0: the end of the file */
    int64_t write_at, write_on, write_errno, write_most;     /* errno 0: nothing was taken */
    int64_t error_at, error_on, error_errno, error_most;     /* writes to standard error */
    int64_t thread_at, thread_on;
    int64_t delay, delay_every;                              /* one allocation in so many sleeps up to `delay` us */
    int64_t change_at, change_to;                            /* the byte of the document at this place, from 1 */
    int64_t seed, seconds;
};

struct counts { int64_t allocations, reads, writes, errors, threads, faults, shortened; };

struct answer { int64_t status; struct counts counts; int64_t out_length, err_length; };

static struct job job;
static struct counts *counts;
static int running;

extern void *__libc_malloc(size_t);
extern void *__libc_calloc(size_t, size_t);
extern void *__libc_realloc(void *, size_t);
extern void *__libc_memalign(size_t, size_t);

static uint64_t drawn(uint64_t number) {
    uint64_t x = (uint64_t)job.seed * 0x9e3779b97f4a7c15u + number * 0xbf58476d1ce4e5b9u + 1;
    x ^= x >> 30; x *= 0xbf58476d1ce4e5b9u; x ^= x >> 27; x *= 0x94d049bb133111ebu;
    return x ^ (x >> 31);
}

static int64_t next(int64_t *count) { return __atomic_add_fetch(count, 1, __ATOMIC_SEQ_CST); }

static int strikes(int64_t number, int64_t at, int64_t on) {
    int64_t last = on == ALWAYS ? INT64_MAX : on > ALWAYS ? at + on - 1 : at;
    int hit = at && number >= at && number <= last;
    if (hit) next(&counts->faults);
    return hit;
}

static int refused(void) {
    if (!running) return 0;
    int64_t number = next(&counts->allocations);
    if (job.delay) {
        uint64_t x = drawn(number);
        if (x % job.delay_every == 0) usleep((x >> 8) % job.delay + 1);
        else if (x % 4 == 0) sched_yield();
    }
    int unlucky = job.allocation_chance && drawn(number) % job.allocation_chance == 0;
    if (unlucky) next(&counts->faults);
    if (!unlucky && !strikes(number, job.allocation_at, job.allocation_on)) return 0;
    errno = ENOMEM;
    return 1;
}

void *malloc(size_t size) { return refused() ? NULL : __libc_malloc(size); }
void *calloc(size_t count, size_t size) { return refused() ? NULL : __libc_calloc(count, size); }
void *realloc(void *old, size_t size) { return refused() ? NULL : __libc_realloc(old, size); }
void *memalign(size_t align, size_t size) { return refused() ? NULL : __libc_memalign(align, size); }
void *aligned_alloc(size_t align, size_t size) { return refused() ? NULL : __libc_memalign(align, size); }
int posix_memalign(void **place, size_t align, size_t size) {
    if (refused()) return ENOMEM;
    void *made = __libc_memalign(align, size);
    if (!made) return ENOMEM;
    *place = made;
    return 0;
}

static size_t fewer(size_t size, int64_t most, int64_t number) {
    size_t kept = size;
    if (most == HALF) kept = (size + 1) / 2;
    else if (most == ANY && size) kept = 1 + drawn(number) % size;
    else if (most > 0 && (size_t)most < size) kept = most;
    if (kept < size) next(&counts->shortened);
    return kept;
}

ssize_t read(int from, void *bytes, size_t size) {
    static int64_t place;
    if (!running || from != 0) return syscall(SYS_read, from, bytes, size);
    int64_t number = next(&counts->reads);
    if (strikes(number, job.read_at, job.read_on)) {
        errno = job.read_errno;
        return job.read_errno ? -1 : 0;
    }
    ssize_t got = syscall(SYS_read, from, bytes, fewer(size, job.read_most, number));
    if (job.change_at > place && job.change_at <= place + got)
        ((char *)bytes)[job.change_at - place - 1] = job.change_to;
    if (got > 0) place += got;
    return got;
}

ssize_t write(int to, const void *bytes, size_t size) {
    if (!running || (to != 1 && to != 2)) return syscall(SYS_write, to, bytes, size);
    int64_t number = next(to == 1 ? &counts->writes : &counts->errors);
    int hit = to == 1 ? strikes(number, job.write_at, job.write_on) : strikes(number, job.error_at, job.error_on);
    int64_t how = to == 1 ? job.write_errno : job.error_errno;
    if (hit) {
        errno = how;
        return how ? -1 : 0;
    }
    return syscall(SYS_write, to, bytes, fewer(size, to == 1 ? job.write_most : job.error_most, number));
}

int pthread_create(pthread_t *thread, const pthread_attr_t *how, void *(*body)(void *), void *with) {
    int (*real)(pthread_t *, const pthread_attr_t *, void *(*)(void *), void *);
    *(void **)&real = dlsym(RTLD_NEXT, "pthread_create");
    if (running && strikes(next(&counts->threads), job.thread_at, job.thread_on)) return EAGAIN;
    return real(thread, how, body, with);
}

static int all(ssize_t (*call)(int, void *, size_t), int file, void *bytes, size_t size) {
    for (size_t done = 0; done < size;) {
        ssize_t now = call(file, (char *)bytes + done, size - done);
        if (now <= 0) return 0;
        done += now;
    }
    return 1;
}

static ssize_t give(int file, void *bytes, size_t size) { return syscall(SYS_write, file, bytes, size); }
static ssize_t take(int file, void *bytes, size_t size) { return syscall(SYS_read, file, bytes, size); }

static void start(const char *document, int out, int err) {
    int in = open(document, O_RDONLY);
    dup2(in, 0); dup2(out, 1); dup2(err, 2);
    close(in); close(out); close(err); close(JOBS); close(ANSWERS);
    if (job.seconds) alarm(job.seconds);
    running = 1;
}

static void send_file(int file, int64_t length) {
    if (!length) return;
    char *bytes = mmap(NULL, length, PROT_READ, MAP_PRIVATE, file, 0);
    if (bytes == MAP_FAILED || !all(give, ANSWERS, bytes, length)) _exit(1);
    munmap(bytes, length);
}

__attribute__((constructor)) static void serve(void) {
    const char *document = getenv("HOSTILE_DOCUMENT");
    if (!document) return;
    struct rlimit none = {0, 0};
    setrlimit(RLIMIT_CORE, &none);
    counts = mmap(NULL, sizeof *counts, PROT_READ | PROT_WRITE, MAP_SHARED | MAP_ANONYMOUS, -1, 0);
    int out = memfd_create("out", 0), err = memfd_create("err", 0);
    while (all(take, JOBS, &job, sizeof job)) {
        memset(counts, 0, sizeof *counts);
        if (ftruncate(out, 0) || ftruncate(err, 0)) _exit(1);
        lseek(out, 0, SEEK_SET);
        lseek(err, 0, SEEK_SET);
        pid_t child = fork();
        if (!child) {
            start(document, out, err);
            return;
        }
        int status = 0;
        if (child < 0 || waitpid(child, &status, 0) != child) _exit(1);
        struct answer answer = {status, *counts, lseek(out, 0, SEEK_END), lseek(err, 0, SEEK_END)};
        if (!all(give, ANSWERS, &answer, sizeof answer)) _exit(1);
        send_file(out, answer.out_length);
        send_file(err, answer.err_length);
    }
    _exit(0);
}
