/* OER in plain C: writers and readers of a CHOICE, a SEQUENCE with additions and a SET OF. */
#include "../oer.h"

static int oer_put_pick(struct buffer *b, const void *value)
{
    const struct pick *p = value;
    if (!put_octet(b, (uint8_t)(0x80 | p->tag)))
        return 0;
    switch (p->tag % 3) {
    case 0:
        return oer_put_number(b, p->number, 2);
    case 1:
        return oer_put_string(b, p->octets, p->count);
    default:
        return oer_put_truth(b, p->truth);
    }
}

static int oer_put_grown(struct buffer *b, const void *value)
{
    const struct grown *g = value;
    uint8_t bitmap = 0;
    unsigned i;
    if (!put_octet(b, g->there ? 0x80 : 0x00) || !oer_put_truth(b, g->a))
        return 0;
    if (!g->there)
        return 1;
    for (i = 0; i < ADDITIONS; i++)
        bitmap |= (uint8_t)((g->there >> i & 1) << (7 - i));
    if (!oer_put_length(b, 2) || !put_octet(b, 0) || !put_octet(b, bitmap))
        return 0;
    for (i = 0; i < ADDITIONS; i++)
        if (g->there >> i & 1 && (!oer_put_length(b, 1) || !oer_put_number(b, g->added[i], 1)))
            return 0;
    return 1;
}

static int oer_put_bag(struct buffer *b, const void *value)
{
    const struct bag *g = value;
    uint8_t *octets = sorted_members(g);
    int done = octets && oer_put_quantity(b, g->count) && put_octets(b, octets, 2 * g->count);
    free(octets);
    return done;
}

static int oer_get_tag(struct input *in, unsigned *tag)
{
    uint64_t number;
    if (!oer_get_number(in, 1, &number) || (number & 0xC0) != 0x80)
        return 0;
    if (IS_BASIC && (number & 0x3F) == 0x3F && !oer_get_number(in, 1, &number))
        return 0;
    *tag = (unsigned)(number & 0x3F);
    return *tag < TAGS;
}

static int oer_get_pick(struct input *in, void *value)
{
    struct pick *p = value;
    const uint8_t *octets;
    uint64_t number;
    p->octets = NULL;
    if (!oer_get_tag(in, &p->tag))
        return 0;
    switch (p->tag % 3) {
    case 0:
        if (!oer_get_number(in, 2, &number))
            return 0;
        p->number = (uint16_t)number;
        return 1;
    case 1:
        if (!(octets = oer_get_string(in, &number)) || !(p->octets = malloc(number + 1)))
            return 0;
        memcpy(p->octets, octets, number);
        p->count = number;
        return 1;
    default:
        return oer_get_truth(in, &p->truth);
    }
}

/* Skips additions that the type does not know. */
static int oer_get_additions(struct input *in, struct grown *g)
{
    const uint8_t *bitmap;
    uint64_t length, bits, i, count, number;
    if (!(bitmap = oer_get_string(in, &length)) || length < 2)
        return 0;
    if (bitmap[0] > 7 || (!IS_BASIC && bitmap[length - 1] & ((1u << bitmap[0]) - 1)))
        return 0;
    bits = 8 * (length - 1) - bitmap[0];
    for (i = 0; i < bits; i++) {
        if (!(bitmap[1 + i / 8] >> (7 - i % 8) & 1))
            continue;
        if (!oer_get_length(in, &count))
            return 0;
        if (i >= ADDITIONS) {
            if (!oer_take(in, count))
                return 0;
            continue;
        }
        if (count != 1 || !oer_get_number(in, 1, &number))
            return 0;
        g->there |= (uint8_t)(1u << i);
        g->added[i] = (uint8_t)number;
    }
    return 1;
}

static int oer_get_grown(struct input *in, void *value)
{
    struct grown *g = value;
    uint64_t preamble;
    if (!oer_get_number(in, 1, &preamble) || (!IS_BASIC && preamble & 0x7F) || !oer_get_truth(in, &g->a))
        return 0;
    g->there = 0;
    return !(preamble & 0x80) || oer_get_additions(in, g);
}

static int oer_get_bag(struct input *in, void *value)
{
    struct bag *g = value;
    uint64_t count, i, number;
    size_t room = 0;
    g->members = NULL;
    g->count = 0;
    if (!oer_get_quantity(in, &count))
        return 0;
    for (i = 0; i < count; i++)
        if (!oer_get_number(in, 2, &number) || !put_member(g, &room, (uint16_t)number))
            return 0;
    return 1;
}

static const struct codec OER_PICK = {oer_put_pick, oer_get_pick, sum_pick, free_pick};
static const struct codec OER_GROWN = {oer_put_grown, oer_get_grown, sum_grown, free_grown};
static const struct codec OER_BAG = {oer_put_bag, oer_get_bag, sum_bag, free_bag};
