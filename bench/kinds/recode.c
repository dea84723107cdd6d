/* Messages of a CHOICE, of a SEQUENCE with additions and of SET OF, translated in plain C between COER and UPER, or
 * between OER and APER with BASIC and ALIGNED: each is read, and what was read is written. */
#include "kinds.h"
#include "oer.h"
#include "per.h"

#ifdef ALIGNED
#define TO_PACKED "_to_aper"
#define TO_OCTETS "_to_oer"
#else
#define TO_PACKED "_to_uper"
#define TO_OCTETS "_to_coer"
#endif

/* The messages of a number of values, one after another. */
INLINED int make_messages(struct buffer *b, const struct kind *kind, const struct codec *codec, size_t count, size_t members)
{
    union value value;
    uint64_t state = 1;
    size_t i;
    for (i = 0; i < count; i++) {
        state = next(state);
        if (!kind->make(&value, state, members) || !codec->put(b, &value))
            return 0;
        kind->release(&value);
    }
    return 1;
}

/* Translates the messages of a number of values from one set of rules to another. */
INLINED int time_recode(const char *name, const struct kind *kind, const struct codec *from, const struct codec *to, size_t count, size_t members)
{
    struct buffer messages = {0}, b = {0};
    struct input in = {0};
    union value value;
    double start, time;
    size_t i;
    if (!make_messages(&messages, kind, from, count, members))
        return 0;
    in.octets = messages.octets;
    in.count = messages.count;
    start = now();
    for (i = 0; i < count; i++) {
        if (!from->get(&in, &value) || !to->put(&b, &value))
            return 0;
        from->release(&value);
    }
    time = now() - start;
    tell(name, time, sum_of(b.octets, b.count));
    free(messages.octets);
    free(b.octets);
    return 1;
}

int main(void)
{
    return time_recode("recode_choices" TO_PACKED, &PICK, &OER_PICK, &PER_PICK, COUNT, 0)
        && time_recode("recode_choices" TO_OCTETS, &PICK, &PER_PICK, &OER_PICK, COUNT, 0)
        && time_recode("recode_additions" TO_PACKED, &GROWN, &OER_GROWN, &PER_GROWN, COUNT, 0)
        && time_recode("recode_additions" TO_OCTETS, &GROWN, &PER_GROWN, &OER_GROWN, COUNT, 0)
        && time_recode("recode_bags_10000" TO_PACKED, &BAG, &OER_BAG, &PER_BAG, COUNT / 10000, 10000)
        && time_recode("recode_bags_10000" TO_OCTETS, &BAG, &PER_BAG, &OER_BAG, COUNT / 10000, 10000)
        ? 0 : 1;
}
