/* Lets threads of the program that this library is preloaded to stall by chance, some for so long that others overtake
   them: before and behind each call that lets a thread sleep or wakes one, and at some of the allocations.

   The number CHANCE says which. A run with the same number need not stall at the same places. */
#define _GNU_SOURCE
#include <dlfcn.h>
#include <stdatomic.h>
#include <stdlib.h>
#include <sys/syscall.h>
#include <time.h>

void *__libc_malloc(size_t size);

static long (*call)(long, ...);
static unsigned long chance;
static _Atomic unsigned long threads;
static __thread unsigned long next;

__attribute__((constructor)) static void begin(void) {
    char *word = getenv("CHANCE");
    chance = word ? strtoul(word, NULL, 10) : 0;
    call = (long (*)(long, ...))dlsym(RTLD_NEXT, "syscall");
}

/* One time in so many it lets other threads run, and each eighth of these times it sleeps for up to a millisecond. */
static void stall(unsigned long seldom) {
    if (call == NULL)
        return;
    if (next == 0)
        next = (chance + atomic_fetch_add(&threads, 1) + 1) * 0x9E3779B97F4A7C15;
    next ^= next << 13;
    next ^= next >> 7;
    next ^= next << 17;
    if ((next >> 8) % seldom != 0)
        return;
    if ((next >> 40) % 8 != 0) {
        call(SYS_sched_yield);
        return;
    }
    struct timespec time = {.tv_sec = 0, .tv_nsec = (long)((next >> 20) % 1000000)};
    nanosleep(&time, NULL);
}

long syscall(long number, long a, long b, long c, long d, long e, long f) {
    stall(2);
    long found = call(number, a, b, c, d, e, f);
    stall(2);
    return found;
}

void *malloc(size_t size) {
    stall(16);
    return __libc_malloc(size);
}
