/*
 * Loaded before a program (LD_PRELOAD), makes its reads of standard input, its writes to standard output and
 * its accepts fail as FAIL_READ, FAIL_WRITE and FAIL_ACCEPT say, which are five numbers each:
 *
 *     MOST BEHIND TIMES ERRNO EACH
 *
 * A call moves at most MOST bytes, or as many as it may where that is 0. Once BEHIND bytes were moved, TIMES calls
 * in succession fail with ERRNO, or move nothing where that is 0; where TIMES is -1, all calls do. Where EACH
 * is 1, as many fail again after each call that has moved some. An accept moves one. Where the program ends, how many
 * reads, writes and accepts there were is written to the file CALLS_TO.
 */
#define _GNU_SOURCE
#include <errno.h>
#include <stdio.h>
#include <stdlib.h>
#include <sys/socket.h>
#include <unistd.h>

#include "at_end.h"

struct calls {
    long most, behind, times, number, each;
    long moved, failed, count;
};

static struct calls reads, writes, accepts;

static void set(struct calls *calls, const char *name) {
    const char *text = getenv(name);
    if (text && sscanf(text, "%ld %ld %ld %ld %ld", &calls->most, &calls->behind, &calls->times, &calls->number, &calls->each) != 5)
        abort();
}

__attribute__((constructor)) static void start(void) {
    set(&reads, "FAIL_READ");
    set(&writes, "FAIL_WRITE");
    set(&accepts, "FAIL_ACCEPT");
}

static void tell(void) {
    const char *name = getenv("CALLS_TO");
    FILE *file = name ? fopen(name, "w") : NULL;
    if (file) {
        fprintf(file, "%ld %ld %ld\n", reads.count, writes.count, accepts.count);
        fclose(file);
    }
}

/* Whether a call fails, with its errno where it has one. */
static int fails(struct calls *calls) {
    calls->count++;
    if (calls->moved < calls->behind || (calls->times >= 0 && calls->failed >= calls->times))
        return 0;
    calls->failed++;
    errno = (int)calls->number;
    return 1;
}

/* How many of so many bytes a call may move. */
static size_t part(const struct calls *calls, size_t size) {
    if (calls->most > 0 && size > (size_t)calls->most)
        size = (size_t)calls->most;
    if (calls->moved < calls->behind && size > (size_t)(calls->behind - calls->moved))
        size = (size_t)(calls->behind - calls->moved);
    return size;
}

static ssize_t move(struct calls *calls, ssize_t count) {
    if (count > 0) {
        calls->moved += count;
        if (calls->each)
            calls->failed = 0;
    }
    return count;
}

ssize_t read(int descriptor, void *bytes, size_t size) {
    static ssize_t (*real)(int, void *, size_t);
    if (!real)
        real = (ssize_t(*)(int, void *, size_t))dlsym(RTLD_NEXT, "read");
    if (descriptor != STDIN_FILENO)
        return real(descriptor, bytes, size);
    if (fails(&reads))
        return reads.number ? -1 : 0;
    return move(&reads, real(descriptor, bytes, part(&reads, size)));
}

ssize_t write(int descriptor, const void *bytes, size_t size) {
    static ssize_t (*real)(int, const void *, size_t);
    if (!real)
        real = (ssize_t(*)(int, const void *, size_t))dlsym(RTLD_NEXT, "write");
    if (descriptor != STDOUT_FILENO)
        return real(descriptor, bytes, size);
    if (fails(&writes))
        return writes.number ? -1 : 0;
    return move(&writes, real(descriptor, bytes, part(&writes, size)));
}

int accept4(int descriptor, struct sockaddr *address, socklen_t *length, int flags) {
    static int (*real)(int, struct sockaddr *, socklen_t *, int);
    if (!real)
        real = (int (*)(int, struct sockaddr *, socklen_t *, int))dlsym(RTLD_NEXT, "accept4");
    if (fails(&accepts))
        return -1;
    int stream = real(descriptor, address, length, flags);
    move(&accepts, stream >= 0);
    return stream;
}

int accept(int descriptor, struct sockaddr *address, socklen_t *length) {
    return accept4(descriptor, address, length, 0);
}
