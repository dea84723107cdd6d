/* The messages of vehicles in plain C, read in UPER and written in COER, and back; then signed records, an OCTET STRING
 * and a list of INTEGER (0..255) from COER to UPER and back. Each line has the name of the work, its time in
 * microseconds and a sum of the octets that it wrote. */
#include "vehicle.h"
#include "record.h"

#ifdef FEW
#define LONG ((size_t)8 * 1024 * 1024 / 100)
#else
#define LONG ((size_t)8 * 1024 * 1024)
#endif

/* Translates all messages by a reader and a writer. */
INLINED int time_way(
    const char *name,
    const struct buffer *messages,
    struct buffer *b,
    int (*get)(struct input *in, struct vehicle *v),
    int (*put)(struct buffer *b, const struct vehicle *v))
{
    struct input in = {messages->octets, messages->count, 0};
    struct vehicle v;
    double start = now(), time;
    unsigned i;
    for (i = 0; i < COUNT; i++) {
        if (!get(&in, &v))
            return 0;
        keep(&v);
        if (!put(b, &v))
            return 0;
    }
    time = now() - start;
    tell(name, time, sum_of(b->octets, b->count));
    return 1;
}

static int make_records(struct buffer *b)
{
    uint64_t state = 1;
    unsigned i;
    for (i = 0; i < COUNT; i++)
        if (!make_record(b, &state))
            return 0;
    return 1;
}

/* Translates all records by a reader and a writer. */
INLINED int time_records(
    const char *name,
    const struct buffer *records,
    struct buffer *b,
    int (*get)(struct input *in, struct record *r),
    int (*put)(struct buffer *b, const struct record *r))
{
    struct input in = {records->octets, records->count, 0};
    double start = now(), time;
    unsigned i;
    for (i = 0; i < COUNT; i++) {
        struct record r = {0};
        if (!get(&in, &r))
            return 0;
        keep(&r);
        if (!put(b, &r))
            return 0;
        drop_record(&r);
    }
    time = now() - start;
    tell(name, time, sum_of(b->octets, b->count));
    return 1;
}

/* What is written and read of octets, or of elements one by one. */
INLINED int put_units(struct bits *o, const uint8_t *units, size_t count, int is_list)
{
    size_t i;
    if (!is_list)
        return put_run(o, units, count);
    for (i = 0; i < count; i++)
        if (!put_bits(o, units[i], 8))
            return 0;
    return 1;
}

INLINED int get_units(struct input *in, struct buffer *units, size_t count, int is_list)
{
    uint32_t number;
    size_t i;
    if (in->count < count || !grow(units, count))
        return 0;
    if (!is_list) {
        units->count += count;
        return get_run(in, units->octets + units->count - count, count);
    }
    for (i = 0; i < count; i++) {
        if (!get_bits(in, 8, &number))
            return 0;
        units->octets[units->count++] = (uint8_t)number;
    }
    return 1;
}

INLINED int long_to_uper(struct input *in, struct buffer *b, int is_list)
{
    struct bits o = {b, 0};
    struct buffer held = {0};
    uint64_t count;
    size_t done = 0, units;
    if (!(is_list ? oer_get_quantity(in, &count) : oer_get_length(in, &count)) || !get_units(in, &held, count, is_list))
        return 0;
    keep(held.octets);
    do {
        units = fragment_of(count - done);
        if (!put_count(&o, units) || !put_units(&o, held.octets + done, units, is_list))
            return 0;
        done += units;
    } while (units >= 16384);
    free(held.octets);
    return 1;
}

INLINED int long_to_coer(struct input *in, struct buffer *b, int is_list)
{
    struct bits o = {b, 0};
    struct buffer held = {0};
    size_t count;
    int more;
    do {
        if (!get_count(in, &count, &more) || !get_units(in, &held, count, is_list))
            return 0;
    } while (more);
    keep(held.octets);
    if (!(is_list ? oer_put_quantity(b, held.count) : oer_put_length(b, held.count)))
        return 0;
    if (!put_units(&o, held.octets, held.count, is_list))
        return 0;
    free(held.octets);
    return 1;
}

INLINED int time_long(const char *to_uper, const char *to_coer, int is_list)
{
    uint8_t *octets = make_octets(LONG);
    struct buffer message = {0}, packed = {0}, again = {0};
    struct input in = {0};
    double start, time;
    if (!octets || !(is_list ? oer_put_quantity(&message, LONG) : oer_put_length(&message, LONG)) || !put_octets(&message, octets, LONG))
        return 0;
    in.octets = message.octets;
    in.count = message.count;
    start = now();
    if (!long_to_uper(&in, &packed, is_list))
        return 0;
    time = now() - start;
    tell(to_uper, time, sum_of(packed.octets, packed.count));
    in.octets = packed.octets;
    in.count = packed.count;
    start = now();
    if (!long_to_coer(&in, &again, is_list))
        return 0;
    time = now() - start;
    tell(to_coer, time, sum_of(again.octets, again.count));
    free(octets);
    free(message.octets);
    free(packed.octets);
    free(again.octets);
    return 1;
}

int main(void)
{
    struct buffer packed = {0}, octets = {0}, again = {0}, records = {0}, packed_records = {0}, records_again = {0};
    return make_messages(&packed, COUNT, SIZE_MAX)
        && time_way("recode_messages_to_coer", &packed, &octets, get_uper, put_coer)
        && time_way("recode_messages_to_uper", &octets, &again, get_coer, put_uper)
        && make_records(&records)
        && time_records("recode_records_to_uper", &records, &packed_records, get_coer_record, put_uper_record)
        && time_records("recode_records_to_coer", &packed_records, &records_again, get_uper_record, put_coer_record)
        && time_long("recode_string_to_uper", "recode_string_to_coer", 0)
        && time_long("recode_list_to_uper", "recode_list_to_coer", 1)
        ? 0 : 1;
}
