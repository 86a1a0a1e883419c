/* Stands between a program and its files, for splitter_test.py: LD_PRELOAD names this library.
 *
 * Zeros that are written to a file become a hole, so that a file of 2 GiB takes no room. A write to a file whose path ends with
 * FULL fails, as on a disk that is full.
 */
#define _GNU_SOURCE
#include <dlfcn.h>
#include <errno.h>
#include <stdio.h>
#include <stdlib.h>
#include <string.h>
#include <sys/types.h>
#include <unistd.h>

static int is_full(int file) {
    const char *end = getenv("FULL");
    char link[40], path[4096];
    if (!end)
        return 0;
    snprintf(link, sizeof link, "/proc/self/fd/%d", file);
    ssize_t length = readlink(link, path, sizeof path);
    ssize_t wanted = (ssize_t)strlen(end);
    return length >= wanted && memcmp(path + length - wanted, end, (size_t)wanted) == 0;
}

static int is_zero(const char *bytes, size_t count) {
    return count > 0 && bytes[0] == 0 && memcmp(bytes, bytes + 1, count - 1) == 0;
}

ssize_t write(int file, const void *from, size_t count) {
    if (is_full(file))
        return errno = ENOSPC, -1;
    if (file > STDERR_FILENO && is_zero(from, count)) {
        off_t end = lseek(file, (off_t)count, SEEK_CUR);
        if (end >= 0 && ftruncate(file, end) == 0)
            return (ssize_t)count;
    }
    return ((__typeof__(&write))dlsym(RTLD_NEXT, "write"))(file, from, count);
}
