// Threads of the least stack, for tests/test_stack.py. Build: cc -shared -fPIC -DKILOBYTES=16 -o small.so small.c -ldl
#define _GNU_SOURCE
#include <dlfcn.h>
#include <pthread.h>
#include <unistd.h>

typedef int Create(pthread_t *, const pthread_attr_t *, void *(*)(void *), void *);

int pthread_create(pthread_t *thread, const pthread_attr_t *given, void *(*work)(void *), void *word) {
    Create *real = (Create *)dlsym(RTLD_NEXT, "pthread_create");
    pthread_attr_t small;
    (void)given;
    pthread_attr_init(&small);
    if (pthread_attr_setstacksize(&small, KILOBYTES * 1024)) _exit(99);
    return real(thread, &small, work, word);
}
