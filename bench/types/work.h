/* Shared by the benchmarks of sequences, lists and strings in C: pseudorandom values. A set of rules defines
 * put_sample, get_sample, put_list, get_list, put_string and get_string, and includes this file first. */
#include "../buffer.h"

struct sample {
    uint32_t a;
    uint64_t b;
    uint8_t c[32];
    int d;
    int has_e;
    uint16_t e;
};

static uint64_t sum_with(uint64_t sum, const struct sample *s)
{
    return sum * 31 + (s->a ^ s->b ^ s->c[31] ^ (uint64_t)s->d) + (s->has_e ? s->e : 65536u);
}

static void make_sample(struct sample *s, uint64_t state)
{
    state = fill_octets(s->c, 32, state);
    s->a = (uint32_t)(state >> 32);
    s->b = state << 31 | state >> 33;
    s->d = state >> 63;
    s->has_e = state >> 62 & 1;
    s->e = (uint16_t)(state >> 40);
}

static struct sample *make_samples(void)
{
    struct sample *samples = malloc(COUNT * sizeof *samples);
    uint64_t state = 1;
    unsigned i;
    if (samples)
        for (i = 0; i < COUNT; i++) {
            state = next(state);
            make_sample(&samples[i], state);
        }
    return samples;
}
