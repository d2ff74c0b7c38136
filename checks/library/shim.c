/* In place of the allocator: counts the calls, and fails the chosen allocation. */
#define _GNU_SOURCE
#include <dlfcn.h>
#include <stddef.h>

static unsigned long calls, made, frees, chosen;

unsigned long shim_calls(void) { return calls; }

unsigned long shim_frees(void) { return frees; }

/* Fails the allocation with this number from now on, counted from 1; 0 for none. */
void shim_fail(unsigned long number) {
    chosen = number;
    made = 0;
}

/* Whether the chosen allocation was made. */
int shim_failed(void) { return chosen && made >= chosen; }

static void *next(const char *name) { return dlsym(RTLD_NEXT, name); }

void *malloc(size_t size) {
    static void *(*real)(size_t);
    if (!real) *(void **)&real = next("malloc");
    calls++;
    return ++made == chosen ? NULL : real(size);
}

void *realloc(void *block, size_t size) {
    static void *(*real)(void *, size_t);
    if (!real) *(void **)&real = next("realloc");
    calls++;
    return ++made == chosen ? NULL : real(block, size);
}

void free(void *block) {
    static void (*real)(void *);
    if (!real) *(void **)&real = next("free");
    calls++, frees++;
    real(block);
}
