/* Lists of values of each scalar type written and read by one set of rules in plain C: OER, or with PACKED those of
 * PER. */
#include "scalars.h"

#ifdef PACKED
#include "per.h"
#else
#include "oer.h"
#endif

#define INLINED static inline __attribute__((always_inline))

struct kind {
    int (*make)(struct scalar *s, uint64_t state);
    int (*put)(STATE *o, const struct scalar *s);
    int (*get)(struct input *in, struct scalar *s);
    uint64_t (*sum)(uint64_t sum, const struct scalar *s);
};

/* The elements, in fragments if the rules have them. */
INLINED int put_list(struct buffer *b, const struct kind *kind, const struct scalar *list, size_t count)
{
#ifdef PACKED
    STATE state = BEGIN(b), *o = &state;
    for (;;) {
        size_t units = fragment_of(count), i;
        if (!put_count_of(o, units))
            return 0;
        for (i = 0; i < units; i++)
            if (!kind->put(o, list + i))
                return 0;
        if (units < 16384)
            return 1;
        list += units;
        count -= units;
    }
#else
    size_t i;
    if (!put_count_of(b, count))
        return 0;
    for (i = 0; i < count; i++)
        if (!kind->put(b, list + i))
            return 0;
    return 1;
#endif
}

INLINED int get_list(struct input *in, const struct kind *kind, struct scalar *list, size_t *held)
{
    uint64_t count, i;
    int more;
    in->bits = 0;
    *held = 0;
    do {
        if (!get_count_of(in, &count, &more) || count > ELEMENTS - *held)
            return 0;
        for (i = 0; i < count; i++)
            if (!kind->get(in, &list[(*held)++]))
                return 0;
    } while (more);
    return 1;
}

INLINED int time_list(const char *to_write, const char *to_read, const struct kind *kind)
{
    struct scalar *list = calloc(ELEMENTS, sizeof *list);
    struct buffer b = {0};
    struct input in;
    uint64_t state = 1, sum = 0;
    double start, time;
    size_t i, held;
    if (!list)
        return 0;
    for (i = 0; i < ELEMENTS; i++) {
        state = next(state);
        if (!kind->make(&list[i], state))
            return 0;
    }
    start = now();
    if (!put_list(&b, kind, list, ELEMENTS))
        return 0;
    time = now() - start;
    tell(to_write, time, sum_of(b.octets, b.count));
    for (i = 0; i < ELEMENTS; i++)
        release(&list[i]);
    free(list);

    in.octets = b.octets;
    in.count = b.count;
    start = now();
    if (!(list = calloc(ELEMENTS, sizeof *list)) || !get_list(&in, kind, list, &held))
        return 0;
    time = now() - start;
    for (i = 0; i < held; i++) {
        sum = kind->sum(sum, &list[i]);
        release(&list[i]);
    }
    tell(to_read, time, sum);
    free(list);
    free(b.octets);
    return 1;
}

int main(void)
{
    static const struct kind truth = {make_truth, put_truth, get_truth, sum_number};
    static const struct kind number_16 = {make_number_16, put_number_16, get_number_16, sum_number};
    static const struct kind number_64 = {make_number_64, put_number_64, get_number_64, sum_number};
    static const struct kind integer = {make_integer, put_integer, get_integer, sum_number};
    static const struct kind item = {make_item, put_item, get_item, sum_number};
    static const struct kind bits = {make_bits, put_bits_of, get_bits_of, sum_octets};
    static const struct kind run = {make_run, put_run_of, get_run_of, sum_octets};
    static const struct kind visible = {make_text, put_visible, get_visible, sum_octets};
    static const struct kind digits = {make_digits, put_digits, get_digits, sum_octets};
    static const struct kind utf8 = {make_text, put_utf8, get_utf8, sum_octets};
    static const struct kind arcs = {make_arcs, put_arcs, get_arcs, sum_arcs};
    return time_list("write_booleans", "read_booleans", &truth)
        && time_list("write_numbers_16", "read_numbers_16", &number_16)
        && time_list("write_numbers_64", "read_numbers_64", &number_64)
        && time_list("write_integers", "read_integers", &integer)
        && time_list("write_items", "read_items", &item)
        && time_list("write_bit_strings", "read_bit_strings", &bits)
        && time_list("write_octet_strings", "read_octet_strings", &run)
        && time_list("write_visible_strings", "read_visible_strings", &visible)
        && time_list("write_digits", "read_digits", &digits)
        && time_list("write_utf8_strings", "read_utf8_strings", &utf8)
        && time_list("write_identifiers", "read_identifiers", &arcs)
        ? 0 : 1;
}
