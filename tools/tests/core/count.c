/* Counts what a program asks of its system, for counting.py: LD_PRELOAD names this library, and COUNTS a file of zeros,
 * in which the counts stand in the order of `struct counts`, even where the program is killed.
 *
 * KEY, a number, gives the random bytes, and an empty one refuses them; without it the system gives them. READ_MOST is
 * how many bytes a read gives at most; MOST_STACK and MOST_MEMORY limit the process, in bytes. With SETTLE each read
 * waits until all threads that were started have ended, so that what threads do beside reads is divided in the same way
 * in each run; and there are four processors. Compiled with KEY_ALONE it does what KEY asks for and nothing else, so
 * that it adds nothing to instructions that are counted.
 */
#define _GNU_SOURCE
#include <dlfcn.h>
#include <errno.h>
#include <fcntl.h>
#include <malloc.h>
#include <pthread.h>
#include <sched.h>
#include <stdatomic.h>
#include <stdint.h>
#include <stdlib.h>
#include <string.h>
#include <sys/mman.h>
#include <sys/resource.h>
#include <unistd.h>

#define REAL(name) ((__typeof__(&name))dlsym(RTLD_NEXT, #name))

#ifdef KEY_ALONE
#define ADD(count, more)
#else
#define ADD(count, more) atomic_fetch_add(&counts->count, more)

struct counts {
    atomic_long alive;   /* bytes that are allocated now */
    atomic_long peak;    /* the most of them at once */
    atomic_long largest; /* the most bytes that one call asked for */
    atomic_long grown;   /* calls of malloc, calloc and realloc */
    atomic_long started; /* threads */
    atomic_long joined;  /* threads that were waited for */
    atomic_long drawn;   /* calls for random bytes */
    atomic_long reads;
    atomic_long writes;
};

static struct counts nowhere, *counts = &nowhere;
static atomic_long running;
static int settles;
static size_t read_most = SIZE_MAX;

static void *(*real_malloc)(size_t);
static void *(*real_calloc)(size_t, size_t);
static void *(*real_realloc)(void *, size_t);
static void (*real_free)(void *);

static void find_real(void) {
    if (real_free)
        return;
    real_malloc = REAL(malloc);
    real_calloc = REAL(calloc);
    real_realloc = REAL(realloc);
    real_free = REAL(free);
}

static void limit(__rlimit_resource_t which, const char *bytes) {
    if (bytes) {
        rlim_t most = strtoul(bytes, NULL, 10);
        setrlimit(which, &(struct rlimit){most, most});
    }
}

__attribute__((constructor)) static void begin(void) {
    const char *path = getenv("COUNTS"), *most = getenv("READ_MOST");
    int file = path ? open(path, O_RDWR) : -1;
    struct counts *shared = mmap(NULL, sizeof *shared, PROT_READ | PROT_WRITE, MAP_SHARED, file, 0);
    if (shared != MAP_FAILED)
        counts = shared;
    if (file >= 0)
        close(file);
    limit(RLIMIT_STACK, getenv("MOST_STACK"));
    limit(RLIMIT_AS, getenv("MOST_MEMORY"));
    settles = getenv("SETTLE") != NULL;
    if (most)
        read_most = strtoul(most, NULL, 10);
}

static void raise_to(atomic_long *most, long value) {
    long before = atomic_load(most);
    while (before < value && !atomic_compare_exchange_weak(most, &before, value))
        ;
}

/* Enters a block that a call gave, which asked for so many bytes. */
static void *take(void *block, size_t asked) {
    long size = malloc_usable_size(block);
    ADD(grown, 1);
    raise_to(&counts->largest, asked);
    raise_to(&counts->peak, ADD(alive, size) + size);
    return block;
}

void *malloc(size_t size) {
    find_real();
    return take(real_malloc(size), size);
}

void *calloc(size_t count, size_t size) {
    find_real();
    return take(real_calloc(count, size), count * size);
}

void *realloc(void *old, size_t size) {
    find_real();
    long before = malloc_usable_size(old);
    void *block = real_realloc(old, size);
    if (block)
        ADD(alive, -before);
    return take(block, size);
}

void free(void *block) {
    find_real();
    ADD(alive, -(long)malloc_usable_size(block));
    real_free(block);
}

struct start {
    void *(*body)(void *);
    void *data;
};

static void *run(void *given) {
    struct start start = *(struct start *)given;
    real_free(given);
    void *answer = start.body(start.data);
    atomic_fetch_sub(&running, 1);
    return answer;
}

int pthread_create(pthread_t *thread, const pthread_attr_t *attributes, void *(*body)(void *), void *data) {
    find_real();
    struct start *start = real_malloc(sizeof *start);
    if (!start)
        abort();
    *start = (struct start){body, data};
    atomic_fetch_add(&running, 1);
    int failed = REAL(pthread_create)(thread, attributes, run, start);
    if (failed) {
        atomic_fetch_sub(&running, 1);
        real_free(start);
        return failed;
    }
    ADD(started, 1);
    return 0;
}

int pthread_join(pthread_t thread, void **answer) {
    int failed = REAL(pthread_join)(thread, answer);
    if (!failed)
        ADD(joined, 1);
    return failed;
}

ssize_t read(int file, void *to, size_t count) {
    while (settles && atomic_load(&running) > 0)
        usleep(20);
    ADD(reads, 1);
    return REAL(read)(file, to, count < read_most ? count : read_most);
}

ssize_t write(int file, const void *from, size_t count) {
    ADD(writes, 1);
    return REAL(write)(file, from, count);
}

int sched_getaffinity(pid_t process, size_t size, cpu_set_t *processors) {
    int answer = REAL(sched_getaffinity)(process, size, processors);
    if (settles && answer == 0) {
        CPU_ZERO_S(size, processors);
        for (int one = 0; one < 4; one++)
            CPU_SET_S(one, size, processors);
    }
    return answer;
}
#endif

int getentropy(void *to, size_t count) {
    const char *key = getenv("KEY");
    ADD(drawn, 1);
    if (!key)
        return REAL(getentropy)(to, count);
    if (!*key)
        return errno = ENOSYS, -1;
    memset(to, atoi(key), count);
    return 0;
}
