/* Shared by all benchmarks in C: pseudorandom octets, sums and times. */
#include <stdint.h>
#include <stdio.h>
#include <stdlib.h>
#include <string.h>
#include <time.h>

/* How many values, and elements of SEQUENCE OF and SET OF, are written and read, and how many octets; a hundredth of
 * them if instructions are counted. */
#ifdef FEW
#define COUNT 10000u
#define OCTETS ((size_t)64 * 1024 * 1024 / 100)
#else
#define COUNT 1000000u
#define OCTETS ((size_t)64 * 1024 * 1024)
#endif

static uint64_t next(uint64_t state)
{
    return state * 6364136223846793005u + 1442695040888963407u;
}

static uint64_t sum_of(const uint8_t *octets, size_t count)
{
    uint64_t sum = 0;
    size_t i;
    for (i = 0; i < count; i++)
        sum = sum * 31 + octets[i];
    return sum;
}

/* Has a value be in memory as a whole, as one that a program keeps. */
static void keep(const void *value)
{
    __asm__ volatile("" : : "r"(value) : "memory");
}

static double now(void)
{
    struct timespec t;
    clock_gettime(CLOCK_MONOTONIC, &t);
    return t.tv_sec * 1e6 + t.tv_nsec / 1e3;
}

static void tell(const char *name, double time, uint64_t sum)
{
    printf("%s %.0f %llu\n", name, time, (unsigned long long)sum);
}

/* Fills octets, each from the next number after a state, and returns the last number. */
static uint64_t fill_octets(uint8_t *octets, size_t count, uint64_t state)
{
    size_t i;
    for (i = 0; i < count; i++) {
        state = next(state);
        octets[i] = (uint8_t)(state >> 56);
    }
    return state;
}

static uint8_t *make_octets(size_t count)
{
    uint8_t *octets = malloc(count);
    if (octets)
        fill_octets(octets, count, 1);
    return octets;
}
