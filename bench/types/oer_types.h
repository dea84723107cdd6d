/* OER in plain C, canonical or, with BASIC, basic: a writer and a reader of the types of the benchmark. Include work.h
 * first. */
#include "../oer.h"

static int put_sample(struct buffer *b, const struct sample *s)
{
    return put_octet(b, s->has_e ? 0x80 : 0x00)
        && oer_put_number(b, s->a, 4)
        && oer_put_number(b, s->b, 8)
        && oer_put_string(b, s->c, 32)
        && oer_put_truth(b, s->d)
        && (!s->has_e || oer_put_number(b, s->e, 2));
}

static int put_list(struct buffer *b, const uint8_t *members, size_t count)
{
    size_t i;
    if (!oer_put_quantity(b, count))
        return 0;
    for (i = 0; i < count; i++)
        if (!oer_put_number(b, members[i], 1))
            return 0;
    return 1;
}

static int put_string(struct buffer *b, const uint8_t *octets, size_t count)
{
    return oer_put_string(b, octets, count);
}

static int get_sample(struct input *in, struct sample *s)
{
    const uint8_t *octets;
    uint64_t preamble, number, length;
    if (!oer_get_number(in, 1, &preamble) || (!IS_BASIC && preamble & 0x7F))
        return 0;
    if (!oer_get_number(in, 4, &number))
        return 0;
    s->a = (uint32_t)number;
    if (!oer_get_number(in, 8, &s->b))
        return 0;
    if (!(octets = oer_get_string(in, &length)) || length != 32)
        return 0;
    memcpy(s->c, octets, 32);
    if (!oer_get_truth(in, &s->d))
        return 0;
    s->has_e = preamble >> 7 != 0;
    if (s->has_e) {
        if (!oer_get_number(in, 2, &number))
            return 0;
        s->e = (uint16_t)number;
    }
    return 1;
}

static int get_list(struct input *in, struct buffer *members)
{
    uint64_t count, i, number;
    if (!oer_get_quantity(in, &count))
        return 0;
    for (i = 0; i < count; i++)
        if (!oer_get_number(in, 1, &number) || !put_octet(members, (uint8_t)number))
            return 0;
    return 1;
}

static int get_string(struct input *in, struct buffer *copy)
{
    uint64_t length;
    const uint8_t *octets = oer_get_string(in, &length);
    return octets && put_octets(copy, octets, length);
}
