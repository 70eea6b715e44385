/*
 * Loaded before a program (LD_PRELOAD), refuses its allocation number REFUSE_NTH, counted from 1 over all
 * threads; and writes the number of its allocations to the file COUNT_TO as it ends.
 */
#define _GNU_SOURCE
#include <stdatomic.h>
#include <stddef.h>
#include <stdio.h>
#include <stdlib.h>
#include <unistd.h>

#include "at_end.h"

static long refused;
static atomic_long asked;

__attribute__((constructor)) static void start(void) {
    const char *text = getenv("REFUSE_NTH");
    refused = text ? atol(text) : 0;
}

static void tell(void) {
    const char *name = getenv("COUNT_TO");
    long count = atomic_load(&asked);
    /* What fopen asks for is none of the program's. */
    refused = 0;
    FILE *file = name ? fopen(name, "w") : NULL;
    if (file) {
        fprintf(file, "%ld\n", count);
        fclose(file);
    }
}

static int is_refused(void) {
    return atomic_fetch_add(&asked, 1) + 1 == refused;
}

#include "refusing.h"
