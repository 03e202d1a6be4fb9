/* Stands before the C library, so that it can refuse a growth of a program's memory. tools/growths.py builds it and sets the
   variables: REFUSE_FROM and REFUSE_TO are the numbers of the first growth that is refused and of the last, counted from 1;
   REFUSE_COUNT is a file that gets the number of growths when the program ends. A growth is a call of malloc or realloc. */
#define _GNU_SOURCE
#include <dlfcn.h>
#include <stdio.h>
#include <stdlib.h>

static unsigned long growths, from, to;

static unsigned long number(const char *name) {
    const char *text = getenv(name);
    return text ? strtoul(text, NULL, 10) : 0;
}

__attribute__((constructor)) static void begin(void) {
    from = number("REFUSE_FROM");
    to = number("REFUSE_TO");
    growths = 0;
}

static int is_refused(void) {
    growths++;
    return from <= growths && growths <= to;
}

void *malloc(size_t size) {
    static void *(*next)(size_t);
    if (!next)
        next = (void *(*)(size_t))dlsym(RTLD_NEXT, "malloc");
    return is_refused() ? NULL : next(size);
}

void *realloc(void *block, size_t size) {
    static void *(*next)(void *, size_t);
    if (!next)
        next = (void *(*)(void *, size_t))dlsym(RTLD_NEXT, "realloc");
    return is_refused() ? NULL : next(block, size);
}

__attribute__((destructor)) static void end(void) {
    unsigned long count = growths;
    const char *name = getenv("REFUSE_COUNT");
    from = 1, to = 0;
    FILE *file = name ? fopen(name, "w") : NULL;
    if (file) {
        fprintf(file, "%lu\n", count);
        fclose(file);
    }
}
