/* The work of bits_bench in plain C: octets at an octet boundary are copied, all others are shifted one octet at a
 * time. */
#include "buffer.h"

#define FIELDS 10000000u

typedef unsigned __int128 u128;

/* Bits from the first on; the bits after the last one are zero. */
struct bits {
    struct buffer buffer;
    size_t count;
};

/* Reserves room for more bits. */
static int make_room(struct bits *b, size_t bits)
{
    return reserve(&b->buffer, (b->count + bits + 7) / 8);
}

static int push_bits(struct bits *b, u128 value, unsigned width)
{
    uint8_t *octets;
    size_t at = b->count;
    if (!make_room(b, width))
        return 0;
    octets = b->buffer.octets;
    while (width > 0) {
        unsigned used = at % 8;
        unsigned few = width < 8 - used ? width : 8 - used;
        unsigned part;
        width -= few;
        part = (unsigned)(value >> width) & ((1u << few) - 1);
        if (used == 0)
            octets[at / 8] = 0;
        octets[at / 8] |= (uint8_t)(part << (8 - used - few));
        at += few;
    }
    b->count = at;
    return 1;
}

static int push_octets(struct bits *b, const uint8_t *octets, size_t count)
{
    unsigned used = b->count % 8;
    uint8_t *to;
    size_t i;
    if (!make_room(b, count * 8))
        return 0;
    to = b->buffer.octets + b->count / 8;
    if (used == 0) {
        memcpy(to, octets, count);
    } else {
        for (i = 0; i < count; i++) {
            to[i] |= (uint8_t)(octets[i] >> used);
            to[i + 1] = (uint8_t)(octets[i] << (8 - used));
        }
    }
    b->count += count * 8;
    return 1;
}

static u128 bits_at(const uint8_t *octets, size_t at, unsigned width)
{
    u128 value = 0;
    while (width > 0) {
        unsigned used = at % 8;
        unsigned few = width < 8 - used ? width : 8 - used;
        unsigned part = (octets[at / 8] >> (8 - used - few)) & ((1u << few) - 1);
        value = value << few | part;
        at += few;
        width -= few;
    }
    return value;
}

static uint8_t *octets_at(const uint8_t *octets, size_t at, size_t count)
{
    unsigned used = at % 8;
    uint8_t *copy = malloc(count);
    size_t i;
    if (!copy)
        return NULL;
    octets += at / 8;
    if (used == 0) {
        memcpy(copy, octets, count);
    } else {
        for (i = 0; i < count; i++)
            copy[i] = (uint8_t)(octets[i] << used | octets[i + 1] >> (8 - used));
    }
    return copy;
}

static unsigned field(uint64_t state, u128 *value)
{
    *value = (u128)state << 64 | (state << 31 | state >> 33);
    return (unsigned)(state >> 57) + 1;
}

static int time_fields(void)
{
    struct bits fields = {0};
    uint64_t state = 1, sum = 0;
    double start = now(), time;
    size_t at = 0;
    unsigned i, width;
    u128 value;
    for (i = 0; i < FIELDS; i++) {
        state = next(state);
        width = field(state, &value);
        if (!push_bits(&fields, value, width))
            return 0;
    }
    time = now() - start;
    tell("append_fields", time, sum_of(fields.buffer.octets, (fields.count + 7) / 8));

    start = now();
    state = 1;
    for (i = 0; i < FIELDS; i++) {
        state = next(state);
        width = field(state, &value);
        sum = sum * 31 + (uint64_t)bits_at(fields.buffer.octets, at, width);
        at += width;
    }
    tell("read_fields", now() - start, sum);
    free(fields.buffer.octets);
    return 1;
}

static int time_octets(const char *to_append, const char *to_read, unsigned alignment)
{
    uint8_t *octets = make_octets(OCTETS), *copy;
    struct bits b = {0};
    double start, time;
    if (!octets)
        return 0;
    start = now();
    if (!push_bits(&b, 5, alignment) || !push_octets(&b, octets, OCTETS))
        return 0;
    time = now() - start;
    tell(to_append, time, sum_of(b.buffer.octets, (b.count + 7) / 8));

    start = now();
    copy = octets_at(b.buffer.octets, alignment, OCTETS);
    if (!copy)
        return 0;
    time = now() - start;
    tell(to_read, time, sum_of(copy, OCTETS));
    free(octets);
    free(copy);
    free(b.buffer.octets);
    return 1;
}

int main(void)
{
    return time_fields()
        && time_octets("append_octets_0", "read_octets_0", 0)
        && time_octets("append_octets_3", "read_octets_3", 3)
        ? 0 : 1;
}
