// Preloaded into a run of a program, refuses one growth of its memory or one start of a thread. Growths are counted from 1, and so are starts of
// threads; those of the numbers in the environment's REFUSED and REFUSED_START fail. At the end both counts go to the file in COUNTED.
#define _GNU_SOURCE
#include <dlfcn.h>
#include <errno.h>
#include <pthread.h>
#include <stdio.h>
#include <stdlib.h>
#include <unistd.h>

static unsigned long made, refused, started, refused_start;

static unsigned long number_in(const char *name) {
    const char *number = getenv(name);
    return number ? strtoul(number, 0, 10) : 0;
}

static unsigned long count(unsigned long *counter) {
    return __atomic_add_fetch(counter, 1, __ATOMIC_SEQ_CST);
}

__attribute__((constructor)) static void start(void) {
    refused = number_in("REFUSED");
    refused_start = number_in("REFUSED_START");
    made = 0;
}

__attribute__((destructor)) static void end(void) {
    unsigned long growths = made;
    const char *path = getenv("COUNTED");
    FILE *file = path ? fopen(path, "w") : 0;
    refused = 0;
    if (file) {
        fprintf(file, "%lu %lu\n", growths, started);
        fclose(file);
    }
}

// A program may end without its destructors.
void _exit(int status) {
    void (*next)(int) = (void (*)(int))dlsym(RTLD_NEXT, "_exit");
    end();
    next(status);
    __builtin_unreachable();
}

void *malloc(size_t size) {
    static void *(*next)(size_t);
    if (!next) next = (void *(*)(size_t))dlsym(RTLD_NEXT, "malloc");
    return count(&made) == refused ? 0 : next(size);
}

void *realloc(void *old, size_t size) {
    static void *(*next)(void *, size_t);
    if (!next) next = (void *(*)(void *, size_t))dlsym(RTLD_NEXT, "realloc");
    return count(&made) == refused ? 0 : next(old, size);
}

int pthread_create(pthread_t *thread, const pthread_attr_t *form, void *(*body)(void *), void *given) {
    static int (*next)(pthread_t *, const pthread_attr_t *, void *(*)(void *), void *);
    if (!next) next = (int (*)(pthread_t *, const pthread_attr_t *, void *(*)(void *), void *))dlsym(RTLD_NEXT, "pthread_create");
    return count(&started) == refused_start ? EAGAIN : next(thread, form, body, given);
}
