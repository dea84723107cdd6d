/* The sequences of the benchmark in UPER, written and read by the code that asn1c generates from sample.asn1. */
#include "work.h"
#include "../asn1c.h"
#include <Sample.h>

static int put_sample(struct buffer *b, const struct sample *s)
{
    Sample_t t = {0};
    long e = s->e;
    t.a = s->a;
    t.high = (uint32_t)(s->b >> 32);
    t.low = (uint32_t)s->b;
    t.c.buf = (uint8_t *)s->c;
    t.c.size = 32;
    t.d = s->d;
    t.e = s->has_e ? &e : NULL;
    return put_value(b, &asn_DEF_Sample, &t);
}

static int get_sample(struct input *in, struct sample *s)
{
    void *value;
    Sample_t *t;
    if (!get_value(in, &asn_DEF_Sample, &value))
        return 0;
    t = value;
    s->a = (uint32_t)t->a;
    s->b = (uint64_t)t->high << 32 | (uint32_t)t->low;
    memcpy(s->c, t->c.buf, 32);
    s->d = t->d;
    s->has_e = t->e != NULL;
    s->e = t->e ? (uint16_t)*t->e : 0;
    ASN_STRUCT_FREE(asn_DEF_Sample, t);
    return 1;
}

#include "samples.h"

int main(void)
{
    return time_samples() ? 0 : 1;
}
