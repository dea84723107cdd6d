/* PER in plain C, unaligned or, with ALIGNED, aligned: writers and readers of a CHOICE, a SEQUENCE with additions and a
 * SET OF. */
#include "../bits.h"

static int per_put_pick(struct buffer *b, const void *value)
{
    const struct pick *p = value;
    struct bits o = {b, 0};
    if (!put_bits(&o, p->tag, 5))
        return 0;
    switch (p->tag % 3) {
    case 0:
        return put_constrained(&o, p->number, 2);
    case 1:
        if (!put_length(&o, p->count))
            return 0;
        push_padding(&o);
        return put_run(&o, p->octets, p->count);
    default:
        return put_bits(&o, (uint32_t)p->truth, 1);
    }
}

static int per_put_grown(struct buffer *b, const void *value)
{
    const struct grown *g = value;
    struct bits o = {b, 0};
    uint32_t bitmap = 0;
    unsigned i;
    if (!put_bits(&o, g->there != 0, 1) || !put_bits(&o, (uint32_t)g->a, 1))
        return 0;
    if (!g->there)
        return 1;
    for (i = 0; i < ADDITIONS; i++)
        bitmap |= (uint32_t)(g->there >> i & 1) << (7 - i);
    if (!put_bits(&o, ADDITIONS - 1, 7) || !put_bits(&o, bitmap, ADDITIONS))
        return 0;
    for (i = 0; i < ADDITIONS; i++)
        if (g->there >> i & 1 && (!put_length(&o, 1) || !put_constrained(&o, g->added[i], 1)))
            return 0;
    return 1;
}

static int per_put_members(struct bits *o, const uint8_t *octets, size_t count)
{
    for (;;) {
        size_t units = fragment_of(count), i;
        if (!put_count(o, units))
            return 0;
        for (i = 0; i < units; i++)
            if (!put_constrained(o, (uint64_t)octets[2 * i] << 8 | octets[2 * i + 1], 2))
                return 0;
        if (units < 16384)
            return 1;
        octets += 2 * units;
        count -= units;
    }
}

static int per_put_bag(struct buffer *b, const void *value)
{
    const struct bag *g = value;
    struct bits o = {b, 0};
    uint8_t *octets = sorted_members(g);
    int done = octets && per_put_members(&o, octets, g->count);
    free(octets);
    return done;
}

static int per_get_pick(struct input *in, void *value)
{
    struct pick *p = value;
    uint32_t bits;
    uint64_t number;
    int more;
    p->octets = NULL;
    in->bits = 0;
    if (!get_bits(in, 5, &bits) || bits >= TAGS)
        return 0;
    p->tag = bits;
    switch (p->tag % 3) {
    case 0:
        if (!get_constrained(in, 2, &number))
            return 0;
        p->number = (uint16_t)number;
        break;
    case 1:
        if (!get_count(in, &p->count, &more) || more)
            return 0;
        read_padding(in);
        if (!(p->octets = malloc(p->count + 1)) || !get_run(in, p->octets, p->count))
            return 0;
        break;
    default:
        if (!get_bits(in, 1, &bits))
            return 0;
        p->truth = (int)bits;
    }
    return skip_padding(in);
}

/* Skips the octets of an open type that the type does not know. */
static int per_pass(struct input *in, size_t count)
{
    if (in->count < count + (in->bits > 0))
        return 0;
    in->octets += count;
    in->count -= count;
    return 1;
}

/* Up to 64 presence bits. */
static int per_get_presence(struct input *in, unsigned *count, uint64_t *presence)
{
    uint32_t number;
    if (!get_bits(in, 7, &number) || number >= 64)
        return 0;
    *count = number + 1;
    if (!get_wide(in, *count, presence))
        return 0;
    *presence <<= 64 - *count;
    return 1;
}

/* Skips additions that the type does not know. */
static int per_get_additions(struct input *in, struct grown *g)
{
    uint64_t presence, number;
    unsigned count, i;
    size_t octets;
    int more;
    if (!per_get_presence(in, &count, &presence))
        return 0;
    for (i = 0; i < count; i++) {
        if (!(presence >> (63 - i) & 1))
            continue;
        if (!get_count(in, &octets, &more) || more)
            return 0;
        if (i >= ADDITIONS) {
            if (!per_pass(in, octets))
                return 0;
            continue;
        }
        if (octets != 1 || !get_constrained(in, 1, &number))
            return 0;
        g->there |= (uint8_t)(1u << i);
        g->added[i] = (uint8_t)number;
    }
    return 1;
}

static int per_get_grown(struct input *in, void *value)
{
    struct grown *g = value;
    uint32_t is_grown, a;
    in->bits = 0;
    if (!get_bits(in, 1, &is_grown) || !get_bits(in, 1, &a))
        return 0;
    g->a = (int)a;
    g->there = 0;
    if (is_grown && !per_get_additions(in, g))
        return 0;
    return skip_padding(in);
}

static int per_get_bag(struct input *in, void *value)
{
    struct bag *g = value;
    size_t count, i, room = 0;
    uint64_t number;
    int more;
    g->members = NULL;
    g->count = 0;
    in->bits = 0;
    do {
        if (!get_count(in, &count, &more))
            return 0;
        for (i = 0; i < count; i++)
            if (!get_constrained(in, 2, &number) || !put_member(g, &room, (uint16_t)number))
                return 0;
    } while (more);
    return skip_padding(in);
}

static const struct codec PER_PICK = {per_put_pick, per_get_pick, sum_pick, free_pick};
static const struct codec PER_GROWN = {per_put_grown, per_get_grown, sum_grown, free_grown};
static const struct codec PER_BAG = {per_put_bag, per_get_bag, sum_bag, free_bag};
