/* What a library that is loaded before a program tells at its end: `tell`, which each defines. */
#include <dlfcn.h>

static void tell(void);

__attribute__((destructor)) static void end(void) {
    tell();
}

/* A program with threads ends so, and no destructor is called. */
void _exit(int status) {
    void (*real)(int) = (void (*)(int))dlsym(RTLD_NEXT, "_exit");
    tell();
    real(status);
    __builtin_unreachable();
}
