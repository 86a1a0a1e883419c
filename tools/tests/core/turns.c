/* Has the threads of a program take turns, for counting.py, so that what valgrind counts of each hardly depends on the
 * machine: LD_PRELOAD names this library, and TURNS a file of zeros, in which a `struct thread` tells of each thread
 * that is started, in the order of their starts.
 *
 * Valgrind runs one thread at a time and gives each a place, the least one that is free. Here a thread that has ended
 * keeps its place, so that each is counted apart. A thread begins when the one that started it waits, for a thread or
 * in a read, and when all that it started are ready too: else the first of several would draw most of their jobs, and
 * more of them on a busier machine. None is counted while it waits for that. From then on a thread lets the next one
 * run at each fourth block of memory that it asks for, and else when valgrind ends its turn (--fair-sched=yes).
 *
 * So nothing here runs beside the thread that started it, and a program that needed that would never end.
 */
#define _GNU_SOURCE
#include <dlfcn.h>
#include <fcntl.h>
#include <poll.h>
#include <pthread.h>
#include <stdatomic.h>
#include <stdlib.h>
#include <sys/mman.h>
#include <unistd.h>
#include <valgrind/callgrind.h>

#define REAL(name) ((__typeof__(&name))dlsym(RTLD_NEXT, #name))

/* As many as valgrind has places for, and some to spare. */
enum { MOST_THREADS = 450, BLOCKS_OF_A_TURN = 4 };

struct thread {
    int starter; /* the number of the thread that started it: 0 is the first one's */
    int started; /* when it was started, and when it was waited for: starts and waits are counted from 1 */
    int joined;
};

struct place {
    void *(*body)(void *);
    void *data, *answer;
    pthread_t thread;
    int starter, has_ended;
    atomic_int may_run;
};

static struct thread nowhere[MOST_THREADS], *threads = nowhere;
static struct place places[MOST_THREADS];
/* By the thread that started them: how many threads there are, and how many of them are ready. */
static atomic_int starts[MOST_THREADS], ready[MOST_THREADS];
static pthread_mutex_t lock = PTHREAD_MUTEX_INITIALIZER;
static pthread_cond_t ended = PTHREAD_COND_INITIALIZER;
static int last, moment, running;
static _Thread_local int self, blocks;
static void *(*real_malloc)(size_t);

__attribute__((constructor)) static void begin(void) {
    const char *path = getenv("TURNS");
    int file = path ? open(path, O_RDWR) : -1;
    void *shared = mmap(NULL, sizeof nowhere, PROT_READ | PROT_WRITE, MAP_SHARED, file, 0);
    if (shared != MAP_FAILED)
        threads = shared;
    if (file >= 0)
        close(file);
}

/* Valgrind ends a thread's turn at a call of the system that may wait. This one does not, so the thread is next in line
 * at once; sched_yield might keep it away for long while one other thread runs.
 */
static void let_others_run(void) {
    poll(NULL, 0, 0);
}

void *malloc(size_t size) {
    if (!real_malloc)
        real_malloc = REAL(malloc);
    if (self && ++blocks % BLOCKS_OF_A_TURN == 0)
        let_others_run();
    return real_malloc(size);
}

/* Lets those begin that this thread started. */
static void let_begin(void) {
    for (int number = 1; number <= last; number++)
        if (places[number].starter == self)
            atomic_store(&places[number].may_run, 1);
}

static void *run(void *given) {
    struct place *place = given;
    self = place - places;
    CALLGRIND_TOGGLE_COLLECT;
    atomic_fetch_add(&ready[place->starter], 1);
    while (!atomic_load(&place->may_run) || atomic_load(&ready[place->starter]) < atomic_load(&starts[place->starter]))
        let_others_run();
    CALLGRIND_TOGGLE_COLLECT;
    void *answer = place->body(place->data);
    pthread_mutex_lock(&lock);
    let_begin();
    place->answer = answer;
    place->has_ended = 1;
    running--;
    pthread_cond_broadcast(&ended);
    pthread_mutex_unlock(&lock);
    for (;;)
        pause();
}

int pthread_create(pthread_t *thread, const pthread_attr_t *attributes, void *(*body)(void *), void *data) {
    pthread_mutex_lock(&lock);
    if (last + 1 == MOST_THREADS)
        abort();
    struct place *place = &places[last + 1];
    *place = (struct place){.body = body, .data = data, .starter = self};
    int failed = REAL(pthread_create)(thread, attributes, run, place);
    if (!failed) {
        place->thread = *thread;
        threads[++last] = (struct thread){self, ++moment, 0};
        atomic_fetch_add(&starts[self], 1);
        running++;
    }
    pthread_mutex_unlock(&lock);
    return failed;
}

int pthread_join(pthread_t thread, void **answer) {
    pthread_mutex_lock(&lock);
    let_begin();
    int number = last;
    while (!pthread_equal(places[number].thread, thread))
        number--;
    while (!places[number].has_ended)
        pthread_cond_wait(&ended, &lock);
    if (answer)
        *answer = places[number].answer;
    threads[number].joined = ++moment;
    pthread_mutex_unlock(&lock);
    return 0;
}

ssize_t read(int file, void *to, size_t count) {
    pthread_mutex_lock(&lock);
    let_begin();
    while (running > 0)
        pthread_cond_wait(&ended, &lock);
    pthread_mutex_unlock(&lock);
    return REAL(read)(file, to, count);
}
