/* A signed record in C: its values, and writers and readers of them in UPER and in COER. A record owns its list, and
 * its strings without a fixed size. Include vehicle.h first. */

struct string {
    uint8_t *octets;
    size_t count;
};

struct permission {
    uint64_t application;
    struct string ssp; /* its octets are NULL if it is absent */
};

struct record {
    uint8_t version, digest[8], key[32], signature[64];
    uint32_t issued;
    struct string payload, name; /* the name's octets are NULL if there is a key */
    struct permission *permissions;
    size_t count;
};

static void drop_record(struct record *r)
{
    size_t i;
    for (i = 0; i < r->count; i++)
        free(r->permissions[i].ssp.octets);
    free(r->permissions);
    free(r->payload.octets);
    free(r->name.octets);
}

/* Appends pseudorandom octets from low to high. */
static int make_some(struct buffer *b, int64_t count, int64_t low, int64_t high, uint64_t *state)
{
    while (count-- > 0)
        if (!put_octet(b, (uint8_t)some(state, low, high)))
            return 0;
    return 1;
}

/* The same after their length. */
static int make_string(struct buffer *b, int64_t count, int64_t low, int64_t high, uint64_t *state)
{
    return put_octet(b, (uint8_t)count) && make_some(b, count, low, high, state);
}

static int make_permission(struct buffer *b, uint64_t *state)
{
    int has_ssp = (int)some(state, 0, 1);
    int64_t more = some(state, 0, 3), first = some(state, 1, 255);
    return put_octet(b, has_ssp ? 0x80 : 0x00)
        && put_octet(b, (uint8_t)(more + 1))
        && put_octet(b, (uint8_t)first)
        && make_some(b, more, 0, 255, state)
        && (!has_ssp || make_string(b, some(state, 0, 8), 0, 255, state));
}

/* Appends a record in COER, with a payload of 40 to 80 octets, a key or a name of 8 to 24 characters, and one to four
 * permissions. */
static int make_record(struct buffer *b, uint64_t *state)
{
    int64_t i, count;
    if (!make_some(b, 13, 0, 255, state) || !make_string(b, some(state, 40, 80), 0, 255, state))
        return 0;
    if (some(state, 0, 1) == 0) {
        if (!put_octet(b, 0x80) || !make_some(b, 32, 0, 255, state))
            return 0;
    } else if (!put_octet(b, 0x81) || !make_string(b, some(state, 8, 24), 32, 126, state)) {
        return 0;
    }
    count = some(state, 1, 4);
    if (!put_octet(b, 1) || !put_octet(b, (uint8_t)count))
        return 0;
    for (i = 0; i < count; i++)
        if (!make_permission(b, state))
            return 0;
    return make_some(b, 64, 0, 255, state);
}

static int reserve_string(struct string *s, size_t count)
{
    s->octets = malloc(count + (count == 0));
    s->count = count;
    return s->octets != NULL;
}

static int reserve_permissions(struct record *r, size_t count)
{
    r->permissions = calloc(count + 1, sizeof *r->permissions);
    return r->permissions != NULL;
}

/* UPER: a string after its length, which is below 16384, in characters of a width. */
INLINED int put_string(struct bits *o, const struct string *s, unsigned width)
{
    size_t i;
    if (s->count >= 16384 || !put_length(o, s->count))
        return 0;
    if (width == 8)
        return put_run(o, s->octets, s->count);
    for (i = 0; i < s->count; i++)
        if (!put_bits(o, s->octets[i], width))
            return 0;
    return 1;
}

INLINED int get_string(struct input *in, struct string *s, unsigned width)
{
    uint32_t character;
    size_t count, i;
    int more;
    if (!get_count(in, &count, &more) || more || in->count < count * width / 8 || !reserve_string(s, count))
        return 0;
    if (width == 8)
        return get_run(in, s->octets, count);
    for (i = 0; i < count; i++) {
        if (!get_bits(in, width, &character) || character < 32 || character > 126)
            return 0;
        s->octets[i] = (uint8_t)character;
    }
    return 1;
}

static int put_permission(struct bits *o, const struct permission *p)
{
    unsigned width = octets_of(p->application);
    return put_bits(o, p->ssp.octets != NULL, 1)
        && put_length(o, width)
        && put_bits(o, p->application, 8 * width)
        && (!p->ssp.octets || put_string(o, &p->ssp, 8));
}

static int put_uper_record(struct buffer *b, const struct record *r)
{
    struct bits state = {b, 0}, *o = &state;
    size_t i;
    if (!put_bits(o, r->version, 8) || !put_run(o, r->digest, 8) || !put_bits(o, r->issued, 32))
        return 0;
    if (!put_string(o, &r->payload, 8) || !put_bits(o, r->name.octets != NULL, 1))
        return 0;
    if (!(r->name.octets ? put_string(o, &r->name, 7) : put_run(o, r->key, 32)))
        return 0;
    if (r->count >= 16384 || !put_length(o, r->count))
        return 0;
    for (i = 0; i < r->count; i++)
        if (!put_permission(o, &r->permissions[i]))
            return 0;
    return put_run(o, r->signature, 64);
}

static int get_permission(struct input *in, struct permission *p)
{
    size_t width;
    int has_ssp, more;
    GET(has_ssp, 0, 1, 1);
    if (!get_count(in, &width, &more) || width < 1 || width > 8 || !get_wide(in, 8 * (unsigned)width, &p->application))
        return 0;
    return !has_ssp || get_string(in, &p->ssp, 8);
}

static int get_uper_record(struct input *in, struct record *r)
{
    size_t count;
    int has_name, more;
    in->bits = 0;
    GET(r->version, 0, 255, 8);
    if (!get_run(in, r->digest, 8))
        return 0;
    GET(r->issued, 0, UINT32_MAX, 32);
    if (!get_string(in, &r->payload, 8))
        return 0;
    GET(has_name, 0, 1, 1);
    if (!(has_name ? get_string(in, &r->name, 7) : get_run(in, r->key, 32)))
        return 0;
    if (!get_count(in, &count, &more) || more || in->count < count || !reserve_permissions(r, count))
        return 0;
    for (; r->count < count; r->count++)
        if (!get_permission(in, &r->permissions[r->count]))
            return 0;
    return get_run(in, r->signature, 64) && skip_padding(in);
}

/* COER. */
static int oer_put_permission(struct buffer *b, const struct permission *p)
{
    return put_octet(b, p->ssp.octets ? 0x80 : 0x00)
        && oer_put_quantity(b, p->application)
        && (!p->ssp.octets || oer_put_string(b, p->ssp.octets, p->ssp.count));
}

static int put_coer_record(struct buffer *b, const struct record *r)
{
    size_t i;
    if (!put_octet(b, r->version) || !put_octets(b, r->digest, 8) || !OER_PUT(r->issued, 4))
        return 0;
    if (!oer_put_string(b, r->payload.octets, r->payload.count) || !put_octet(b, r->name.octets ? 0x81 : 0x80))
        return 0;
    if (!(r->name.octets ? oer_put_string(b, r->name.octets, r->name.count) : put_octets(b, r->key, 32)))
        return 0;
    if (!oer_put_quantity(b, r->count))
        return 0;
    for (i = 0; i < r->count; i++)
        if (!oer_put_permission(b, &r->permissions[i]))
            return 0;
    return put_octets(b, r->signature, 64);
}

static int oer_get_owned(struct input *in, struct string *s)
{
    uint64_t count;
    const uint8_t *octets = oer_get_string(in, &count);
    if (!octets || !reserve_string(s, count))
        return 0;
    memcpy(s->octets, octets, count);
    return 1;
}

static int oer_get_name(struct input *in, struct string *name)
{
    size_t i;
    if (!oer_get_owned(in, name))
        return 0;
    for (i = 0; i < name->count; i++)
        if (name->octets[i] < 32 || name->octets[i] > 126)
            return 0;
    return 1;
}

static int oer_get_octets(struct input *in, uint8_t *octets, size_t count)
{
    const uint8_t *from = oer_take(in, count);
    if (!from)
        return 0;
    memcpy(octets, from, count);
    return 1;
}

static int oer_get_permission(struct input *in, struct permission *p)
{
    uint8_t preamble;
    OER_GET(preamble, 0, 0x80, 1, uint8_t);
    if (preamble & 0x7F || !oer_get_quantity(in, &p->application))
        return 0;
    return !preamble || oer_get_owned(in, &p->ssp);
}

static int get_coer_record(struct input *in, struct record *r)
{
    uint64_t count;
    uint8_t tag;
    OER_GET(r->version, 0, 255, 1, uint8_t);
    if (!oer_get_octets(in, r->digest, 8))
        return 0;
    OER_GET(r->issued, 0, UINT32_MAX, 4, uint32_t);
    if (!oer_get_owned(in, &r->payload))
        return 0;
    OER_GET(tag, 0x80, 0x81, 1, uint8_t);
    if (!(tag == 0x81 ? oer_get_name(in, &r->name) : oer_get_octets(in, r->key, 32)))
        return 0;
    if (!oer_get_quantity(in, &count) || in->count < count || !reserve_permissions(r, count))
        return 0;
    for (; r->count < count; r->count++)
        if (!oer_get_permission(in, &r->permissions[r->count]))
            return 0;
    return oer_get_octets(in, r->signature, 64);
}
