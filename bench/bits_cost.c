/* The works of bits_cost.in in plain C, each in a function of its own: bits and octets by the unaligned code of bits.h,
 * in reserved memory. */
#include "buffer.h"
#include "bits.h"

#define TURNS 100000u
#define RUN_OCTETS 32u
#define APART __attribute__((noinline))

APART static int append_bits(struct bits *o)
{
    unsigned i;
    for (i = 0; i < TURNS; i++)
        if (!put_bits(o, i % 3 == 0, 1))
            return 0;
    return 1;
}

static inline int append_numbers(struct bits *o, unsigned width)
{
    unsigned i;
    for (i = 0; i < TURNS; i++)
        if (!put_bits(o, width < 32 ? i & ((1u << width) - 1) : i, width))
            return 0;
    return 1;
}

APART static int append_11(struct bits *o) { return append_numbers(o, 11); }
APART static int append_16(struct bits *o) { return append_numbers(o, 16); }
APART static int append_64(struct bits *o) { return append_numbers(o, 64); }

APART static int append_runs(struct bits *o, const uint8_t *octets)
{
    unsigned i;
    for (i = 0; i < TURNS; i++)
        if (!put_bits(o, 1, 1) || !put_run(o, octets, RUN_OCTETS))
            return 0;
    return 1;
}

APART static int append_octets(struct bits *o, const uint8_t *octets)
{
    return put_bits(o, 5, 3) && put_run(o, octets, TURNS);
}

APART static int read_bits(struct input *in, uint64_t *sum)
{
    uint32_t bit;
    unsigned i;
    for (i = 0; i < TURNS; i++) {
        if (!get_bits(in, 1, &bit))
            return 0;
        *sum = *sum * 31 + bit;
    }
    return 1;
}

static inline int read_numbers(struct input *in, unsigned width, uint64_t *sum)
{
    uint64_t number;
    unsigned i;
    for (i = 0; i < TURNS; i++) {
        if (!get_wide(in, width, &number))
            return 0;
        *sum = *sum * 31 + number;
    }
    return 1;
}

APART static int read_11(struct input *in, uint64_t *sum) { return read_numbers(in, 11, sum); }
APART static int read_16(struct input *in, uint64_t *sum) { return read_numbers(in, 16, sum); }
APART static int read_64(struct input *in, uint64_t *sum) { return read_numbers(in, 64, sum); }

APART static int read_runs(struct input *in, uint8_t *run)
{
    uint32_t bit;
    unsigned i;
    for (i = 0; i < TURNS; i++)
        if (!get_bits(in, 1, &bit) || !get_run(in, run, RUN_OCTETS))
            return 0;
    return 1;
}

APART static uint8_t *read_octets(struct input *in)
{
    uint32_t bits;
    uint8_t *octets = malloc(TURNS);
    if (!octets || !get_bits(in, 3, &bits) || !get_run(in, octets, TURNS))
        return NULL;
    return octets;
}

static struct input all_of(const struct buffer *b)
{
    struct input in = { b->octets, b->count, 0 };
    return in;
}

static int appended(struct buffer *b)
{
    struct bits o = { b, 0 };
    return reserve(b, TURNS * 16) && append_bits(&o) && append_11(&o) && append_16(&o) && append_64(&o);
}

/* Sums of the bits and numbers of each width, and of the octets. */
static int numbers(uint64_t *read, uint64_t *octets)
{
    struct buffer b = { 0 };
    struct input in;
    uint64_t bits = 0, elevens = 0, sixteens = 0, wide = 0;
    if (!appended(&b))
        return 0;
    in = all_of(&b);
    if (!read_bits(&in, &bits) || !read_11(&in, &elevens) || !read_16(&in, &sixteens) || !read_64(&in, &wide))
        return 0;
    *read = bits ^ elevens ^ sixteens ^ wide;
    *octets = sum_of(b.octets, b.count);
    return 1;
}

static int octets(uint64_t *sum)
{
    uint8_t *made = make_octets(TURNS), *run = make_octets(RUN_OCTETS), *read, last[RUN_OCTETS];
    struct buffer b = { 0 }, wide = { 0 };
    struct bits o = { &b, 0 }, p = { &wide, 0 };
    struct input in;
    if (!made || !run || !reserve(&b, TURNS * (RUN_OCTETS + 1)) || !append_runs(&o, run))
        return 0;
    in = all_of(&b);
    if (!read_runs(&in, last) || !append_octets(&p, made))
        return 0;
    in = all_of(&wide);
    read = read_octets(&in);
    if (!read)
        return 0;
    *sum = sum_of(b.octets, b.count) ^ TURNS ^ sum_of(wide.octets, wide.count) ^ sum_of(last, RUN_OCTETS);
    return 1;
}

int main(void)
{
    uint64_t read, appended, run;
    if (!numbers(&read, &appended) || !octets(&run))
        return 1;
    printf("%llu %llu %llu\n", (unsigned long long)read, (unsigned long long)appended, (unsigned long long)run);
    return 0;
}
