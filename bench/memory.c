// Refuses one allocation of the program that it is loaded into: that whose number REFUSE gives, from 1.
// With no REFUSE it refuses none; with COUNT it writes how many there were to the file of that name.
#define _GNU_SOURCE
#include <dlfcn.h>
#include <stddef.h>
#include <stdio.h>
#include <stdlib.h>
#include <sys/syscall.h>
#include <unistd.h>

static long made;

void *malloc(size_t size) {
    static void *(*real)(size_t);
    static long refused = -1;
    if (!real) {
        real = (void *(*)(size_t))dlsym(RTLD_NEXT, "malloc");
        const char *text = getenv("REFUSE");
        refused = text ? atol(text) : 0;
    }
    return ++made == refused ? NULL : real(size);
}

__attribute__((destructor)) static void tell(void) {
    const char *name = getenv("COUNT");
    FILE *file = name ? fopen(name, "w") : NULL;
    if (file) {
        fprintf(file, "%ld\n", made);
        fclose(file);
    }
}

// As the C library's, which runs no destructor: a program with threads ends by it.
__attribute__((noreturn)) void _exit(int status) {
    tell();
    for (;;) {
        syscall(SYS_exit_group, status);
    }
}
