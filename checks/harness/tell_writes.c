/*
 * Loaded before a program (LD_PRELOAD), appends to the file WRITES_TO how many bytes each of its writes to a socket took, a line
 * each.
 */
#define _GNU_SOURCE
#include <dlfcn.h>
#include <stdio.h>
#include <stdlib.h>
#include <sys/socket.h>
#include <unistd.h>

static ssize_t told(ssize_t taken) {
    const char *name = getenv("WRITES_TO");
    FILE *file = name ? fopen(name, "a") : NULL;
    if (file) {
        fprintf(file, "%zd\n", taken);
        fclose(file);
    }
    return taken;
}

ssize_t send(int descriptor, const void *bytes, size_t size, int flags) {
    static ssize_t (*real)(int, const void *, size_t, int);
    if (!real)
        real = (ssize_t(*)(int, const void *, size_t, int))dlsym(RTLD_NEXT, "send");
    return told(real(descriptor, bytes, size, flags));
}
