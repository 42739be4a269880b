// A malloc that refuses one call, for tests/system/allocations.sh. Build: cc -O2 -shared -fPIC -o refuse.so refuse.c -ldl
//
// REFUSE is the number of the call that is refused, counted from 1 over malloc, calloc and realloc; 0 refuses none. With
// LASTING set, all calls after it are refused too. With COUNT set, the number of calls so far is kept in that file, since a
// program need not end by the C library's exit.
#define _GNU_SOURCE
#include <dlfcn.h>
#include <errno.h>
#include <fcntl.h>
#include <stdio.h>
#include <stdlib.h>
#include <unistd.h>

static unsigned long calls, refused;
static int lasting;
static int count_file = -1;
static void *(*real_malloc)(size_t);
static void *(*real_realloc)(void *, size_t);
static void *(*real_calloc)(size_t, size_t);

static void set_up(void) {
    if (real_malloc) return;
    real_malloc = dlsym(RTLD_NEXT, "malloc");
    real_realloc = dlsym(RTLD_NEXT, "realloc");
    real_calloc = dlsym(RTLD_NEXT, "calloc");
    const char *number = getenv("REFUSE");
    refused = number ? strtoul(number, 0, 10) : 0;
    lasting = getenv("LASTING") != 0;
    const char *name = getenv("COUNT");
    if (name) count_file = open(name, O_WRONLY | O_CREAT | O_TRUNC, 0666);
}

static int is_refused(void) {
    unsigned long number = __atomic_add_fetch(&calls, 1, __ATOMIC_SEQ_CST);
    if (count_file >= 0) {
        char text[24];
        int length = snprintf(text, sizeof text, "%lu\n", number);
        if (pwrite(count_file, text, length, 0) != length) _exit(99);
    }
    if (number != refused && !(lasting && refused && number > refused)) return 0;
    errno = ENOMEM;
    return 1;
}

void *malloc(size_t size) {
    set_up();
    return is_refused() ? 0 : real_malloc(size);
}

void *realloc(void *old, size_t size) {
    set_up();
    return is_refused() ? 0 : real_realloc(old, size);
}

void *calloc(size_t count, size_t size) {
    set_up();
    return is_refused() ? 0 : real_calloc(count, size);
}
