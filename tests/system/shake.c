// Threads that are held up at random, for tests/system/races.sh. Build: cc -O2 -shared -fPIC -o shake.so shake.c -ldl -lpthread -lrt
//
// SHAKE is a number from which the waits are drawn. The program's first thread, and each that it starts, gets a timer of its own.
// It interrupts the thread at any instruction, some 5 to 200 microseconds after the last time, and there the thread sleeps for up
// to 300 microseconds, turns round for a while, or lets others run. Each thread waits before it begins, too.
#define _GNU_SOURCE
#include <dlfcn.h>
#include <errno.h>
#include <pthread.h>
#include <sched.h>
#include <signal.h>
#include <stdlib.h>
#include <time.h>
#include <unistd.h>

static unsigned long long seed;
static unsigned long threads;
static int signal_used;
static __thread unsigned long long state __attribute__((tls_model("initial-exec")));
static __thread timer_t timer __attribute__((tls_model("initial-exec")));
static __thread int has_timer __attribute__((tls_model("initial-exec")));

static unsigned drawn(unsigned below) {
    state ^= state << 13;
    state ^= state >> 7;
    state ^= state << 17;
    return (unsigned)((state >> 20) % below);
}

static void sleep_for(unsigned microseconds) {
    struct timespec time = {0, microseconds * 1000L};
    nanosleep(&time, 0);
}

static void hold_up(void) {
    switch (drawn(4)) {
        case 0: sched_yield(); break;
        case 1: sleep_for(1 + drawn(300)); break;
        case 2: sleep_for(1 + drawn(20)); break;
        default:
            for (volatile unsigned left = drawn(5000); left; left--) {
            }
    }
}

static void arm(void) {
    struct itimerspec next = {{0, 0}, {0, 1000L * (5 + drawn(195))}};
    if (has_timer) timer_settime(timer, 0, &next, 0);
}

static void interrupted(int number) {
    (void)number;
    int kept = errno;
    hold_up();
    arm();
    errno = kept;
}

static void begin(void) {
    unsigned long number = __atomic_add_fetch(&threads, 1, __ATOMIC_SEQ_CST);
    state = (seed + 1) * 0x9e3779b97f4a7c15ull + number * 0xbf58476d1ce4e5b9ull;
    if (!state) state = 1;
    struct sigevent event = {0};
    event.sigev_notify = SIGEV_THREAD_ID;
    event.sigev_signo = signal_used;
    event._sigev_un._tid = gettid();
    has_timer = timer_create(CLOCK_MONOTONIC, &event, &timer) == 0;
    arm();
}

__attribute__((constructor)) static void set_up(void) {
    const char *number = getenv("SHAKE");
    if (!number) return;
    seed = strtoull(number, 0, 10);
    signal_used = SIGRTMIN + 3;
    struct sigaction action = {0};
    action.sa_handler = interrupted;
    action.sa_flags = SA_RESTART;
    sigaction(signal_used, &action, 0);
    begin();
}

struct work {
    void *(*call)(void *);
    void *argument;
};

static void *held_up(void *given) {
    struct work work = *(struct work *)given;
    free(given);
    begin();
    hold_up();
    void *answer = work.call(work.argument);
    if (has_timer) timer_delete(timer);
    has_timer = 0;
    return answer;
}

int pthread_create(pthread_t *thread, const pthread_attr_t *attributes, void *(*call)(void *), void *argument) {
    static int (*real)(pthread_t *, const pthread_attr_t *, void *(*)(void *), void *);
    if (!real) real = dlsym(RTLD_NEXT, "pthread_create");
    if (!signal_used) return real(thread, attributes, call, argument);
    struct work *work = malloc(sizeof *work);
    if (!work) return EAGAIN;
    *work = (struct work){call, argument};
    int failed = real(thread, attributes, held_up, work);
    if (failed) free(work);
    return failed;
}
