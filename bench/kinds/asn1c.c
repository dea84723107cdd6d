/* The types of the benchmark in UPER, written and read by the code that asn1c generates from kinds.asn1. It has no
 * writer of SET OF, so SET OF values are only read. */
#include "kinds.h"
#include "times.h"
#include "per.h"
#include "../asn1c.h"
#include <Bag.h>
#include <Grown.h>
#include <Pick.h>

/* Generated code calls this to write a SET OF, and asn1c lacks it. */
asn_enc_rval_t SET_OF_encode_uper(asn_TYPE_descriptor_t *type, asn_per_constraints_t *constraints, void *value, asn_per_outp_t *output)
{
    asn_enc_rval_t none = {-1, type, value};
    (void)constraints;
    (void)output;
    return none;
}

/* Alternatives of one type have the same address. */
static int put_pick(struct buffer *b, const void *value)
{
    const struct pick *p = value;
    Pick_t t = {0};
    t.present = Pick_PR_number0 + p->tag;
    switch (p->tag % 3) {
    case 0:
        t.choice.number0 = p->number;
        break;
    case 1:
        t.choice.octets1.buf = p->octets;
        t.choice.octets1.size = (int)p->count;
        break;
    default:
        t.choice.truth2 = p->truth;
    }
    return put_value(b, &asn_DEF_Pick, &t);
}

static int get_pick(struct input *in, void *value)
{
    return get_value(in, &asn_DEF_Pick, value);
}

static uint64_t sum_generated_pick(uint64_t sum, const void *value)
{
    const Pick_t *t = *(Pick_t *const *)value;
    struct pick p = {0};
    p.tag = t->present - Pick_PR_number0;
    switch (p.tag % 3) {
    case 0:
        p.number = (uint16_t)t->choice.number0;
        break;
    case 1:
        p.octets = t->choice.octets1.buf;
        p.count = (size_t)t->choice.octets1.size;
        break;
    default:
        p.truth = t->choice.truth2;
    }
    return sum_pick(sum, &p);
}

static void release_pick(void *value)
{
    ASN_STRUCT_FREE(asn_DEF_Pick, *(Pick_t **)value);
}

static int put_grown(struct buffer *b, const void *value)
{
    const struct grown *g = value;
    Grown_t t = {0};
    long *added[ADDITIONS], numbers[ADDITIONS];
    unsigned i;
    for (i = 0; i < ADDITIONS; i++) {
        numbers[i] = g->added[i];
        added[i] = g->there >> i & 1 ? &numbers[i] : NULL;
    }
    t.a = g->a;
    t.b = added[0];
    t.c = added[1];
    t.d = added[2];
    t.e = added[3];
    t.f = added[4];
    t.g = added[5];
    t.h = added[6];
    t.i = added[7];
    return put_value(b, &asn_DEF_Grown, &t);
}

static int get_grown(struct input *in, void *value)
{
    return get_value(in, &asn_DEF_Grown, value);
}

static uint64_t sum_generated_grown(uint64_t sum, const void *value)
{
    const Grown_t *t = *(Grown_t *const *)value;
    const long *added[ADDITIONS] = {t->b, t->c, t->d, t->e, t->f, t->g, t->h, t->i};
    struct grown g = {0};
    unsigned i;
    g.a = t->a != 0;
    for (i = 0; i < ADDITIONS; i++)
        if (added[i]) {
            g.there |= (uint8_t)(1u << i);
            g.added[i] = (uint8_t)*added[i];
        }
    return sum_grown(sum, &g);
}

static void release_grown(void *value)
{
    ASN_STRUCT_FREE(asn_DEF_Grown, *(Grown_t **)value);
}

static int get_bag(struct input *in, void *value)
{
    return get_value(in, &asn_DEF_Bag, value);
}

static uint64_t sum_generated_bag(uint64_t sum, const void *value)
{
    const Bag_t *t = *(Bag_t *const *)value;
    int i;
    for (i = 0; i < t->list.count; i++)
        sum = sum * 31 + (uint64_t)*t->list.array[i];
    return sum;
}

static void release_bag(void *value)
{
    ASN_STRUCT_FREE(asn_DEF_Bag, *(Bag_t **)value);
}

static const struct codec GENERATED_PICK = {put_pick, get_pick, sum_generated_pick, release_pick};
static const struct codec GENERATED_GROWN = {put_grown, get_grown, sum_generated_grown, release_grown};
static const struct codec GENERATED_BAG = {per_put_bag, get_bag, sum_generated_bag, release_bag};

int main(void)
{
    return time_values("write_choices", "read_choices", &PICK, &GENERATED_PICK, COUNT, 0)
        && time_values("write_additions", "read_additions", &GROWN, &GENERATED_GROWN, COUNT, 0)
        && time_values(NULL, "read_bags_1000", &BAG, &GENERATED_BAG, COUNT / 1000, 1000)
        && time_values(NULL, "read_bags_10000", &BAG, &GENERATED_BAG, COUNT / 10000, 10000)
        && time_values(NULL, "read_bags_100000", &BAG, &GENERATED_BAG, COUNT / 100000, 100000)
        ? 0 : 1;
}
