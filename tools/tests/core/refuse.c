/* Refuses one call of a program, for refusals_test.py: LD_PRELOAD names this library, REFUSE says "KIND N".
 *
 * The Nth call of KIND fails: growth (malloc, realloc), thread (pthread_create), read, write. With read-one and
 * write-one the Nth call moves one byte, and with write-none it takes none. With drip each write takes 3 bytes, and the
 * Nth fails. With late-growth each growth fails that comes after N writes on standard output. Where the call is met, the
 * file MET is made.
 */
#define _GNU_SOURCE
#include <dlfcn.h>
#include <errno.h>
#include <fcntl.h>
#include <pthread.h>
#include <stdatomic.h>
#include <stdio.h>
#include <stdlib.h>
#include <string.h>
#include <unistd.h>

static const char *kind = "";
static long wanted = -1;
static atomic_long calls, writes;

static int is_kind(const char *name) { return wanted >= 0 && strcmp(kind, name) == 0; }

__attribute__((constructor)) static void begin(void) {
    char *said = getenv("REFUSE");
    char *space = said ? strchr(said, ' ') : NULL;
    if (space) {
        wanted = atol(space + 1);
        *space = '\0';
        kind = said;
    }
}

static int tell_met(void) {
    close(open(getenv("MET"), O_CREAT | O_WRONLY, 0600));
    return 1;
}

/* Whether this call of the kind is the one to refuse. */
static int is_met(const char *name) {
    return is_kind(name) && atomic_fetch_add(&calls, 1) + 1 == wanted && tell_met();
}

static int is_growth_met(void) {
    return is_met("growth") || (is_kind("late-growth") && atomic_load(&writes) >= wanted && tell_met());
}

#define REAL(name) ((__typeof__(&name))dlsym(RTLD_NEXT, #name))

static void *(*real_malloc)(size_t);
static void *(*real_realloc)(void *, size_t);

void *malloc(size_t size) {
    if (!real_malloc)
        real_malloc = REAL(malloc);
    return is_growth_met() ? (errno = ENOMEM, NULL) : real_malloc(size);
}

void *realloc(void *old, size_t size) {
    if (!real_realloc)
        real_realloc = REAL(realloc);
    return is_growth_met() ? (errno = ENOMEM, NULL) : real_realloc(old, size);
}

int pthread_create(pthread_t *thread, const pthread_attr_t *attributes, void *(*body)(void *), void *data) {
    return is_met("thread") ? EAGAIN : REAL(pthread_create)(thread, attributes, body, data);
}

ssize_t read(int file, void *to, size_t count) {
    if (is_met("read"))
        return errno = EIO, -1;
    return REAL(read)(file, to, count > 1 && is_met("read-one") ? 1 : count);
}

ssize_t write(int file, const void *from, size_t count) {
    if (file != STDOUT_FILENO)
        return REAL(write)(file, from, count);
    atomic_fetch_add(&writes, 1);
    if (is_met("write") || is_met("drip"))
        return errno = ENOSPC, -1;
    if (is_met("write-none"))
        return 0;
    if (is_kind("drip") && count > 3)
        count = 3;
    return REAL(write)(file, from, count > 1 && is_met("write-one") ? 1 : count);
}
