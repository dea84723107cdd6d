/* OER in plain C: writers and readers of scalar types. */
#include "../oer.h"

#define STATE struct buffer
#define BEGIN(b) (*(b))

static int put_count_of(struct buffer *b, size_t count)
{
    return oer_put_quantity(b, count);
}

static int get_count_of(struct input *in, uint64_t *count, int *more)
{
    *more = 0;
    return oer_get_quantity(in, count);
}

static int put_truth(struct buffer *b, const struct scalar *s)
{
    return oer_put_truth(b, (int)s->number);
}

static int get_truth(struct input *in, struct scalar *s)
{
    int truth;
    if (!oer_get_truth(in, &truth))
        return 0;
    s->number = (uint64_t)truth;
    return 1;
}

static int put_number_16(struct buffer *b, const struct scalar *s)
{
    return oer_put_number(b, s->number, 2);
}

static int get_number_16(struct input *in, struct scalar *s)
{
    return oer_get_number(in, 2, &s->number);
}

static int put_number_64(struct buffer *b, const struct scalar *s)
{
    return oer_put_number(b, s->number, 8);
}

static int get_number_64(struct input *in, struct scalar *s)
{
    return oer_get_number(in, 8, &s->number);
}

static int put_integer(struct buffer *b, const struct scalar *s)
{
    unsigned width = signed_octets_of(s->number);
    return oer_put_length(b, width) && oer_put_number(b, s->number, width);
}

static int get_integer(struct input *in, struct scalar *s)
{
    uint64_t width;
    if (!oer_get_length(in, &width) || width < 1 || width > 8 || !oer_get_number(in, (unsigned)width, &s->number))
        return 0;
    return IS_BASIC || signed_octets_of(s->number) == width;
}

static int put_item(struct buffer *b, const struct scalar *s)
{
    return put_octet(b, (uint8_t)s->number);
}

static int get_item(struct input *in, struct scalar *s)
{
    return oer_get_number(in, 1, &s->number) && s->number < 3;
}

static int put_bits_of(struct buffer *b, const struct scalar *s)
{
    return oer_put_length(b, s->count + 1)
        && put_octet(b, (uint8_t)(8 * s->count - s->number))
        && put_octets(b, s->octets, s->count);
}

static int get_bits_of(struct input *in, struct scalar *s)
{
    uint64_t count;
    const uint8_t *octets = oer_get_string(in, &count);
    if (!octets || count < 1 || octets[0] > 7 || (count == 1 && octets[0]) || !own(s, octets + 1, count - 1))
        return 0;
    s->number = 8 * (count - 1) - octets[0];
    return IS_BASIC || count == 1 || !(octets[count - 1] & ((1u << octets[0]) - 1));
}

static int put_run_of(struct buffer *b, const struct scalar *s)
{
    return oer_put_string(b, s->octets, s->count);
}

static int get_run_of(struct input *in, struct scalar *s)
{
    uint64_t count;
    const uint8_t *octets = oer_get_string(in, &count);
    return own(s, octets, count);
}

static int put_visible(struct buffer *b, const struct scalar *s)
{
    return put_run_of(b, s);
}

static int get_visible(struct input *in, struct scalar *s)
{
    return get_run_of(in, s) && are_visible(s->octets, s->count);
}

/* A permitted alphabet has no effect. */
static int put_digits(struct buffer *b, const struct scalar *s)
{
    return s->count <= DIGITS && put_run_of(b, s);
}

static int get_digits(struct input *in, struct scalar *s)
{
    return get_visible(in, s) && s->count <= DIGITS;
}

static int put_utf8(struct buffer *b, const struct scalar *s)
{
    return put_run_of(b, s);
}

static int get_utf8(struct input *in, struct scalar *s)
{
    return get_run_of(in, s) && are_utf8(s->octets, s->count);
}

static int put_arcs(struct buffer *b, const struct scalar *s)
{
    uint8_t octets[5 * ARCS];
    return oer_put_string(b, octets, octets_of_arcs(s->arcs, s->count, octets));
}

static int get_arcs(struct input *in, struct scalar *s)
{
    uint64_t count;
    const uint8_t *octets = oer_get_string(in, &count);
    return own_arcs(s, octets, count);
}
