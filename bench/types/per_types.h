/* PER in plain C, unaligned or, with ALIGNED, aligned: a writer and a reader of the types of the benchmark. Include
 * work.h first. */
#include "../bits.h"

static int put_sample(struct buffer *b, const struct sample *s)
{
    struct bits o = {b, 0};
    if (!put_bits(&o, s->has_e, 1) || !put_constrained(&o, s->a, 4) || !put_constrained(&o, s->b, 8))
        return 0;
    if (!put_length(&o, 32))
        return 0;
    push_padding(&o);
    if (!put_run(&o, s->c, 32) || !put_bits(&o, s->d, 1))
        return 0;
    return !s->has_e || put_constrained(&o, s->e, 2);
}

static int put_list(struct buffer *b, const uint8_t *members, size_t count)
{
    struct bits o = {b, 0};
    for (;;) {
        size_t units = fragment_of(count), i;
        if (!put_count(&o, units))
            return 0;
        for (i = 0; i < units; i++)
            if (!put_constrained(&o, members[i], 1))
                return 0;
        if (units < 16384)
            return 1;
        members += units;
        count -= units;
    }
}

static int put_string(struct buffer *b, const uint8_t *octets, size_t count)
{
    struct bits o = {b, 0};
    for (;;) {
        size_t units = fragment_of(count);
        if (!put_count(&o, units))
            return 0;
        push_padding(&o);
        if (!put_run(&o, octets, units))
            return 0;
        if (units < 16384)
            return 1;
        octets += units;
        count -= units;
    }
}

static int get_sample(struct input *in, struct sample *s)
{
    uint32_t flag;
    uint64_t number;
    size_t count;
    int more;
    in->bits = 0;
    if (!get_bits(in, 1, &flag))
        return 0;
    s->has_e = (int)flag;
    if (!get_constrained(in, 4, &number))
        return 0;
    s->a = (uint32_t)number;
    if (!get_constrained(in, 8, &s->b))
        return 0;
    if (!get_count(in, &count, &more) || more || count != 32)
        return 0;
    read_padding(in);
    if (!get_run(in, s->c, 32) || !get_bits(in, 1, &flag))
        return 0;
    s->d = (int)flag;
    if (s->has_e) {
        if (!get_constrained(in, 2, &number))
            return 0;
        s->e = (uint16_t)number;
    }
    return skip_padding(in);
}

static int get_list(struct input *in, struct buffer *members)
{
    size_t count, i;
    uint64_t number;
    int more;
    in->bits = 0;
    do {
        if (!get_count(in, &count, &more))
            return 0;
        for (i = 0; i < count; i++)
            if (!get_constrained(in, 1, &number) || !put_octet(members, (uint8_t)number))
                return 0;
    } while (more);
    return 1;
}

static int get_string(struct input *in, struct buffer *copy)
{
    size_t count;
    int more;
    in->bits = 0;
    do {
        if (!get_count(in, &count, &more))
            return 0;
        read_padding(in);
        if (!grow(copy, count) || !get_run(in, copy->octets + copy->count, count))
            return 0;
        copy->count += count;
    } while (more);
    return 1;
}
