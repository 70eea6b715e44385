/*
 * Loaded before a program (LD_PRELOAD), holds it where it makes the call that HELD_CALL names, which is bind, flock, listen
 * or unlink: it makes the file `held` in the folder that HELD_FOLDER names, and goes on once there is a file `go`, or after a
 * minute. Once there is, no call is held any more.
 */
#define _GNU_SOURCE
#include <dlfcn.h>
#include <fcntl.h>
#include <stdio.h>
#include <stdlib.h>
#include <string.h>
#include <sys/file.h>
#include <sys/socket.h>
#include <unistd.h>

#define MILLISECOND 1000
#define MOST_LOOKS 60000

static const char *file_of(char *name, size_t size, const char *last) {
    snprintf(name, size, "%s/%s", getenv("HELD_FOLDER"), last);
    return name;
}

static void hold(const char *call) {
    char name[4096];
    if (strcmp(getenv("HELD_CALL"), call) != 0)
        return;
    close(open(file_of(name, sizeof name, "held"), O_CREAT | O_WRONLY, 0600));
    file_of(name, sizeof name, "go");
    for (int looks = 0; looks < MOST_LOOKS && access(name, F_OK) != 0; looks++)
        usleep(MILLISECOND);
}

int bind(int descriptor, const struct sockaddr *address, socklen_t length) {
    int (*real)(int, const struct sockaddr *, socklen_t) =
        (int (*)(int, const struct sockaddr *, socklen_t))dlsym(RTLD_NEXT, "bind");
    hold("bind");
    return real(descriptor, address, length);
}

int flock(int descriptor, int operation) {
    int (*real)(int, int) = (int (*)(int, int))dlsym(RTLD_NEXT, "flock");
    hold("flock");
    return real(descriptor, operation);
}

int listen(int descriptor, int backlog) {
    int (*real)(int, int) = (int (*)(int, int))dlsym(RTLD_NEXT, "listen");
    hold("listen");
    return real(descriptor, backlog);
}

int unlink(const char *path) {
    int (*real)(const char *) = (int (*)(const char *))dlsym(RTLD_NEXT, "unlink");
    hold("unlink");
    return real(path);
}
