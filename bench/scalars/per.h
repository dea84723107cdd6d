/* PER in plain C, unaligned or, with ALIGNED, aligned: writers and readers of scalar types. */
#include "../bits.h"

#define STATE struct bits
#define BEGIN(b) {b, 0}

static int put_count_of(struct bits *o, size_t count)
{
    return put_count(o, count);
}

static int get_count_of(struct input *in, uint64_t *count, int *more)
{
    return get_count(in, count, more);
}

static int put_truth(struct bits *o, const struct scalar *s)
{
    return put_bits(o, s->number, 1);
}

AT_ONCE int get_number_of(struct input *in, unsigned width, struct scalar *s)
{
    uint32_t number;
    if (!get_bits(in, width, &number))
        return 0;
    s->number = number;
    return 1;
}

static int get_truth(struct input *in, struct scalar *s)
{
    return get_number_of(in, 1, s);
}

static int put_number_16(struct bits *o, const struct scalar *s)
{
    return put_constrained(o, s->number, 2);
}

static int get_number_16(struct input *in, struct scalar *s)
{
    return get_constrained(in, 2, &s->number);
}

static int put_number_64(struct bits *o, const struct scalar *s)
{
    return put_constrained(o, s->number, 8);
}

static int get_number_64(struct input *in, struct scalar *s)
{
    return get_constrained(in, 8, &s->number);
}

static int put_integer(struct bits *o, const struct scalar *s)
{
    unsigned width = signed_octets_of(s->number);
    return put_length(o, width) && put_bits(o, s->number, 8 * width);
}

static int get_integer(struct input *in, struct scalar *s)
{
    size_t width;
    int more;
    if (!get_count(in, &width, &more) || more || width < 1 || width > 8)
        return 0;
    return get_wide(in, 8 * (unsigned)width, &s->number) && signed_octets_of(s->number) == width;
}

/* Two items of the root, and one extension addition. */
static int put_item(struct bits *o, const struct scalar *s)
{
    return s->number < 2 ? put_bits(o, s->number, 2) : put_bits(o, 0x80 | (s->number - 2), 8);
}

static int get_item(struct input *in, struct scalar *s)
{
    uint32_t bits;
    if (!get_bits(in, 2, &bits))
        return 0;
    s->number = bits;
    if (bits < 2)
        return 1;
    if (bits == 3 || !get_bits(in, 6, &bits) || bits != 0)
        return 0;
    s->number = 2;
    return 1;
}

static int put_bits_of(struct bits *o, const struct scalar *s)
{
    size_t whole = s->number / 8;
    unsigned last = s->number % 8;
    if (!put_length(o, s->number))
        return 0;
    push_padding(o);
    return put_run(o, s->octets, whole) && (last == 0 || put_bits(o, s->octets[whole] >> (8 - last), last));
}

static int get_bits_of(struct input *in, struct scalar *s)
{
    size_t bits, whole;
    uint32_t rest;
    int more;
    if (!get_count(in, &bits, &more) || more)
        return 0;
    read_padding(in);
    whole = bits / 8;
    s->number = bits;
    s->count = whole + (bits % 8 > 0);
    if (8 * in->count < in->bits + bits || !(s->octets = malloc(s->count + 1)) || !get_run(in, s->octets, whole))
        return 0;
    if (bits % 8 == 0)
        return 1;
    if (!get_bits(in, bits % 8, &rest))
        return 0;
    s->octets[whole] = (uint8_t)(rest << (8 - bits % 8));
    return 1;
}

static int put_run_of(struct bits *o, const struct scalar *s)
{
    if (!put_length(o, s->count))
        return 0;
    push_padding(o);
    return put_run(o, s->octets, s->count);
}

static int get_run_of(struct input *in, struct scalar *s)
{
    int more;
    if (!get_count(in, &s->count, &more) || more)
        return 0;
    read_padding(in);
    return in->count >= s->count && (s->octets = malloc(s->count + 1)) && get_run(in, s->octets, s->count);
}

/* Characters of seven bits each, or of eight in the aligned variant. */
static int put_visible(struct bits *o, const struct scalar *s)
{
    size_t i;
    if (IS_ALIGNED)
        return put_run_of(o, s);
    if (!put_length(o, s->count))
        return 0;
    for (i = 0; i < s->count; i++)
        if (!put_bits(o, s->octets[i], 7))
            return 0;
    return 1;
}

static int get_visible(struct input *in, struct scalar *s)
{
    uint32_t bits;
    size_t i;
    int more;
    if (IS_ALIGNED)
        return get_run_of(in, s) && are_visible(s->octets, s->count);
    if (!get_count(in, &s->count, &more) || more || 8 * in->count < in->bits + 7 * s->count)
        return 0;
    if (!(s->octets = malloc(s->count + 1)))
        return 0;
    for (i = 0; i < s->count; i++) {
        if (!get_bits(in, 7, &bits))
            return 0;
        s->octets[i] = (uint8_t)bits;
    }
    return are_visible(s->octets, s->count);
}

/* Characters of four bits each, after their count in five bits. */
static int put_digits(struct bits *o, const struct scalar *s)
{
    size_t i;
    if (s->count > DIGITS || !put_bits(o, s->count, width_of(DIGITS)))
        return 0;
    if (s->count > 0)
        push_padding(o);
    for (i = 0; i < s->count; i++)
        if (s->octets[i] < '0' || s->octets[i] > '9' || !put_bits(o, s->octets[i] - '0', 4))
            return 0;
    return 1;
}

static int get_digits(struct input *in, struct scalar *s)
{
    uint32_t bits;
    size_t i;
    if (!get_bits(in, width_of(DIGITS), &bits) || bits > DIGITS)
        return 0;
    s->count = bits;
    if (s->count > 0)
        read_padding(in);
    if (8 * in->count < in->bits + 4 * s->count || !(s->octets = malloc(s->count + 1)))
        return 0;
    for (i = 0; i < s->count; i++) {
        if (!get_bits(in, 4, &bits) || bits > 9)
            return 0;
        s->octets[i] = (uint8_t)('0' + bits);
    }
    return 1;
}

static int put_utf8(struct bits *o, const struct scalar *s)
{
    return put_run_of(o, s);
}

static int get_utf8(struct input *in, struct scalar *s)
{
    return get_run_of(in, s) && are_utf8(s->octets, s->count);
}

static int put_arcs(struct bits *o, const struct scalar *s)
{
    uint8_t octets[5 * ARCS];
    size_t count = octets_of_arcs(s->arcs, s->count, octets);
    if (!put_length(o, count))
        return 0;
    push_padding(o);
    return put_run(o, octets, count);
}

static int get_arcs(struct input *in, struct scalar *s)
{
    uint8_t octets[64];
    size_t count;
    int more;
    if (!get_count(in, &count, &more) || more || count > sizeof octets)
        return 0;
    read_padding(in);
    return get_run(in, octets, count) && own_arcs(s, octets, count);
}
