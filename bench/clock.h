/* How the benchmarks in C measure: the time, the processor's time stamp, and callgrind's counts. */
#ifndef CLOCK_H
#define CLOCK_H

#include <stdint.h>
#include <time.h>
#include <x86intrin.h>

static inline double seconds(void)
{
    struct timespec now;
    clock_gettime(CLOCK_MONOTONIC, &now);
    return (double)now.tv_sec + (double)now.tv_nsec * 1e-9;
}

/* What is before it is done, what is after it not yet begun. */
static inline uint64_t ticks(void)
{
    _mm_lfence();
    uint64_t now = __rdtsc();
    _mm_lfence();
    return now;
}

/* CALLGRIND_DUMP_STATS, _START_INSTRUMENTATION and _STOP_ of valgrind/callgrind.h, by the instructions that valgrind knows them by */
enum { DUMP = 0x43540000, START = 0x43540004, STOP = 0x43540005 };

static inline void callgrind(uint64_t request)
{
    uint64_t values[6] = {request}, result = 0;
    __asm__ volatile("rolq $3, %%rdi; rolq $13, %%rdi; rolq $61, %%rdi; rolq $51, %%rdi; xchgq %%rbx, %%rbx"
                     : "+d"(result) : "a"(values) : "cc", "memory");
}

#endif
