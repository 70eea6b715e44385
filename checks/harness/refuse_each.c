/*
 * Loaded before a program (LD_PRELOAD), forks it at each of its allocations, and refuses that of the child. The child goes
 * on by itself: it reads on in standard input, and writes what it has still to say into the files N.out and N.err of the
 * folder REFUSE_EACH, N being the allocation's number from 1. The program waits for it, and adds a line to the file `ends`
 * there: how many bytes of standard output and of standard error were out before, and how the child ended, as waitpid(2)
 * says it. For a program of one thread whose standard streams are files.
 */
#define _GNU_SOURCE
#include <dlfcn.h>
#include <fcntl.h>
#include <stddef.h>
#include <stdio.h>
#include <stdlib.h>
#include <sys/types.h>
#include <sys/wait.h>
#include <unistd.h>

/* The folder and its file `ends`; none in a child. */
static int folder = -1, ends = -1;
static long asked;

__attribute__((constructor)) static void start(void) {
    const char *name = getenv("REFUSE_EACH");
    if (!name)
        return;
    folder = open(name, O_DIRECTORY | O_CLOEXEC);
    ends = openat(folder, "ends", O_CREAT | O_WRONLY | O_APPEND | O_CLOEXEC, 0600);
    if (folder < 0 || ends < 0)
        _exit(99);
}

/* Where a child is to find its own file, or the end of the child. */
static void take(int found, int stream) {
    if (found < 0 || dup2(found, stream) < 0)
        _exit(98);
    close(found);
}

static void write_to(const char *kind, int stream) {
    char name[32];
    snprintf(name, sizeof name, "%ld.%s", asked, kind);
    take(openat(folder, name, O_CREAT | O_WRONLY, 0600), stream);
}

/* Has a child read on where its parent is, and write into files of its own. */
static void part(off_t read) {
    take(open("/proc/self/fd/0", O_RDONLY), 0);
    if (lseek(0, read, SEEK_SET) < 0)
        _exit(97);
    write_to("out", 1);
    write_to("err", 2);
    close(folder);
    close(ends);
    folder = -1;
}

static void tell(off_t out, off_t err, int status) {
    char line[80];
    int length = snprintf(line, sizeof line, "%ld %ld %d\n", (long)out, (long)err, status);
    if (write(ends, line, length) != length)
        _exit(96);
}

static int is_refused(void) {
    int status = 0;
    if (folder < 0)
        return 0;
    asked++;
    off_t read = lseek(0, 0, SEEK_CUR), out = lseek(1, 0, SEEK_CUR), err = lseek(2, 0, SEEK_CUR);
    pid_t child = fork();
    if (child == 0) {
        part(read);
        return 1;
    }
    if (child < 0 || waitpid(child, &status, 0) != child)
        _exit(95);
    tell(out, err, status);
    return 0;
}

#include "refusing.h"
