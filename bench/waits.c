/* How long the threads of a program sleep at locks and in waits. `bench/threads` loads this before the C library: it adds up the time
   that futex calls take, of all threads, and writes the sum in nanoseconds as the program ends. */
#define _GNU_SOURCE
#include <dlfcn.h>
#include <stdarg.h>
#include <stdatomic.h>
#include <stdio.h>
#include <sys/syscall.h>
#include <time.h>
#include <unistd.h>

typedef long call(long, ...);

static call *below;
static atomic_llong waited;

static long long now(void)
{
    struct timespec t;
    clock_gettime(CLOCK_MONOTONIC, &t);
    return t.tv_sec * 1000000000LL + t.tv_nsec;
}

__attribute__((constructor)) static void begin(void)
{
    below = (call *)dlsym(RTLD_NEXT, "syscall");
}

long syscall(long number, ...)
{
    long word[6];
    va_list words;
    va_start(words, number);
    for (int i = 0; i < 6; i++)
        word[i] = va_arg(words, long);
    va_end(words);
    long long begun = number == SYS_futex ? now() : 0;
    long result = below(number, word[0], word[1], word[2], word[3], word[4], word[5]);
    if (number == SYS_futex)
        atomic_fetch_add(&waited, now() - begun);
    return result;
}

__attribute__((destructor)) static void tell(void)
{
    fprintf(stderr, "%lld\n", atomic_load(&waited));
}

/* A program that ends so runs no destructor. */
void _exit(int status)
{
    tell();
    below(SYS_exit_group, (long)status, 0L, 0L, 0L, 0L, 0L);
    __builtin_unreachable();
}
