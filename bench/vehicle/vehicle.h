/* A vehicle's message in C: its values, and writers and readers of them in UPER and in COER. */
#include "../buffer.h"
#include "../bits.h"
#include "../oer.h"

#define POINTS 23u
#define INLINED static inline __attribute__((always_inline))

struct point {
    int32_t north, east;
    int16_t up;
    uint16_t since; /* 0 if it is absent */
};

struct acceleration {
    int16_t length;
    uint8_t trust;
};

struct vehicle {
    uint32_t station;
    uint16_t time;
    uint8_t version, kind, lights;
    int32_t latitude, longitude, height;
    uint16_t major, minor, direction;
    uint8_t height_trust, heading_trust, speed_trust, turning_trust;
    uint16_t angle, speed;
    int backward, has_across, is_bent, trailer, has_load;
    struct acceleration along, across;
    int16_t rate, radius;
    uint16_t length, load;
    uint8_t width, points;
    struct point path[POINTS];
};

/* The next pseudorandom number from low to high. */
static int64_t some(uint64_t *state, int64_t low, int64_t high)
{
    *state = next(*state);
    return low + (int64_t)((*state >> 16) % (uint64_t)(high - low + 1));
}

static void make_point(struct point *p, uint64_t *state)
{
    p->north = (int32_t)some(state, -131071, 131072);
    p->east = (int32_t)some(state, -131071, 131072);
    p->up = (int16_t)some(state, -12800, 12800);
    p->since = some(state, 0, 1) ? (uint16_t)some(state, 1, 65535) : 0;
}

static void make_acceleration(struct acceleration *a, uint64_t *state)
{
    a->length = (int16_t)some(state, -160, 161);
    a->trust = (uint8_t)some(state, 0, 102);
}

static void make_vehicle(struct vehicle *v, uint64_t *state)
{
    unsigned i;
    memset(v, 0, sizeof *v);
    v->version = (uint8_t)some(state, 0, 255);
    v->station = (uint32_t)some(state, 0, 4294967295);
    v->time = (uint16_t)some(state, 0, 65535);
    v->kind = (uint8_t)some(state, 0, 3);
    v->latitude = (int32_t)some(state, -900000000, 900000001);
    v->longitude = (int32_t)some(state, -1800000000, 1800000001);
    v->major = (uint16_t)some(state, 0, 4095);
    v->minor = (uint16_t)some(state, 0, 4095);
    v->direction = (uint16_t)some(state, 0, 3601);
    v->height = (int32_t)some(state, -100000, 800001);
    v->height_trust = (uint8_t)some(state, 0, 15);
    v->has_across = (int)some(state, 0, 1);
    v->angle = (uint16_t)some(state, 0, 3601);
    v->heading_trust = (uint8_t)some(state, 1, 127);
    v->speed = (uint16_t)some(state, 0, 16383);
    v->speed_trust = (uint8_t)some(state, 1, 127);
    v->backward = (int)some(state, 0, 1);
    make_acceleration(&v->along, state);
    if (v->has_across)
        make_acceleration(&v->across, state);
    v->rate = (int16_t)some(state, -32766, 32767);
    v->turning_trust = (uint8_t)some(state, 0, 8);
    v->is_bent = (int)some(state, 0, 1);
    if (v->is_bent)
        v->radius = (int16_t)some(state, -32767, 32767);
    v->length = (uint16_t)some(state, 1, 1023);
    v->width = (uint8_t)some(state, 1, 62);
    v->trailer = (int)some(state, 0, 1);
    v->lights = (uint8_t)some(state, 0, 255);
    v->points = (uint8_t)some(state, 0, 5);
    for (i = 0; i < v->points; i++)
        make_point(&v->path[i], state);
    v->has_load = some(state, 0, 3) == 0;
    if (v->has_load)
        v->load = (uint16_t)some(state, 0, 1000);
}

/* UPER: a number from low on in a number of bits. */
INLINED int put_from(struct bits *o, int64_t number, int64_t low, unsigned width)
{
    return put_bits(o, (uint64_t)(number - low), width);
}

INLINED int get_from(struct input *in, int64_t low, int64_t high, unsigned width, int64_t *number)
{
    uint64_t wide;
    if (!get_wide(in, width, &wide) || wide > (uint64_t)(high - low))
        return 0;
    *number = low + (int64_t)wide;
    return 1;
}

#define GET(field, low, high, width) \
    do { \
        int64_t number; \
        if (!get_from(in, low, high, width, &number)) \
            return 0; \
        field = (__typeof__(field))number; \
    } while (0)

static int put_point(struct bits *o, const struct point *p)
{
    return put_bits(o, p->since > 0, 1)
        && put_from(o, p->north, -131071, 18)
        && put_from(o, p->east, -131071, 18)
        && put_from(o, p->up, -12800, 15)
        && (p->since == 0 || put_from(o, p->since, 1, 16));
}

static int put_acceleration(struct bits *o, const struct acceleration *a)
{
    return put_from(o, a->length, -160, 9) && put_bits(o, a->trust, 7);
}

static int put_position(struct bits *o, const struct vehicle *v)
{
    return put_from(o, v->latitude, -900000000, 31)
        && put_from(o, v->longitude, -1800000000, 32)
        && put_bits(o, v->major, 12)
        && put_bits(o, v->minor, 12)
        && put_bits(o, v->direction, 12)
        && put_from(o, v->height, -100000, 20)
        && put_bits(o, v->height_trust, 4);
}

static int put_motion(struct bits *o, const struct vehicle *v)
{
    return put_bits(o, 0, 1)
        && put_bits(o, (uint64_t)v->has_across, 1)
        && put_bits(o, v->angle, 12)
        && put_from(o, v->heading_trust, 1, 7)
        && put_bits(o, v->speed, 14)
        && put_from(o, v->speed_trust, 1, 7)
        && put_bits(o, (uint64_t)v->backward, 1)
        && put_acceleration(o, &v->along)
        && (!v->has_across || put_acceleration(o, &v->across))
        && put_from(o, v->rate, -32766, 16)
        && put_bits(o, v->turning_trust, 4)
        && put_bits(o, (uint64_t)v->is_bent, 1)
        && (!v->is_bent || put_from(o, v->radius, -32767, 16));
}

static int put_uper(struct buffer *b, const struct vehicle *v)
{
    struct bits state = {b, 0}, *o = &state;
    unsigned i;
    if (!put_bits(o, (uint64_t)v->has_load, 1) || !put_bits(o, v->version, 8) || !put_bits(o, v->station, 32))
        return 0;
    if (!put_bits(o, v->time, 16) || !put_bits(o, v->kind, 3) || !put_position(o, v) || !put_motion(o, v))
        return 0;
    if (!put_from(o, v->length, 1, 10) || !put_from(o, v->width, 1, 6) || !put_bits(o, (uint64_t)v->trailer, 1))
        return 0;
    if (!put_bits(o, v->lights, 8) || !put_bits(o, v->points, 5))
        return 0;
    for (i = 0; i < v->points; i++)
        if (!put_point(o, &v->path[i]))
            return 0;
    /* One addition: how many there are, that it is present, its length, and what fills its last octet. */
    return !v->has_load || (put_bits(o, 0, 7) && put_bits(o, 1, 1) && put_bits(o, 2, 8) && put_bits(o, (uint64_t)v->load << 6, 16));
}

static int get_point(struct input *in, struct point *p)
{
    int has_since;
    GET(has_since, 0, 1, 1);
    GET(p->north, -131071, 131072, 18);
    GET(p->east, -131071, 131072, 18);
    GET(p->up, -12800, 12800, 15);
    p->since = 0;
    if (has_since)
        GET(p->since, 1, 65535, 16);
    return 1;
}

static int get_acceleration(struct input *in, struct acceleration *a)
{
    GET(a->length, -160, 161, 9);
    GET(a->trust, 0, 102, 7);
    return 1;
}

static int get_position(struct input *in, struct vehicle *v)
{
    GET(v->latitude, -900000000, 900000001, 31);
    GET(v->longitude, -1800000000, 1800000001, 32);
    GET(v->major, 0, 4095, 12);
    GET(v->minor, 0, 4095, 12);
    GET(v->direction, 0, 3601, 12);
    GET(v->height, -100000, 800001, 20);
    GET(v->height_trust, 0, 15, 4);
    return 1;
}

/* Messages with additions that this program does not know are refused. */
static int get_motion(struct input *in, struct vehicle *v)
{
    int is_extended;
    GET(is_extended, 0, 0, 1);
    GET(v->has_across, 0, 1, 1);
    GET(v->angle, 0, 3601, 12);
    GET(v->heading_trust, 1, 127, 7);
    GET(v->speed, 0, 16383, 14);
    GET(v->speed_trust, 1, 127, 7);
    GET(v->backward, 0, 1, 1);
    if (!get_acceleration(in, &v->along) || (v->has_across && !get_acceleration(in, &v->across)))
        return 0;
    GET(v->rate, -32766, 32767, 16);
    GET(v->turning_trust, 0, 8, 4);
    GET(v->is_bent, 0, 1, 1);
    if (v->is_bent)
        GET(v->radius, -32767, 32767, 16);
    return 1;
}

static int get_load(struct input *in, struct vehicle *v)
{
    unsigned count, present, length, padding;
    GET(count, 0, 0, 7);
    GET(present, 0, 1, 1);
    GET(length, 0, 2, 8);
    GET(v->load, 0, 1000, 10);
    GET(padding, 0, 0, 6);
    return present && length == 2;
}

static int get_uper(struct input *in, struct vehicle *v)
{
    unsigned i;
    in->bits = 0;
    GET(v->has_load, 0, 1, 1);
    GET(v->version, 0, 255, 8);
    GET(v->station, 0, 4294967295, 32);
    GET(v->time, 0, 65535, 16);
    GET(v->kind, 0, 3, 3);
    if (!get_position(in, v) || !get_motion(in, v))
        return 0;
    GET(v->length, 1, 1023, 10);
    GET(v->width, 1, 62, 6);
    GET(v->trailer, 0, 1, 1);
    GET(v->lights, 0, 255, 8);
    GET(v->points, 0, POINTS, 5);
    for (i = 0; i < v->points; i++)
        if (!get_point(in, &v->path[i]))
            return 0;
    return (!v->has_load || get_load(in, v)) && skip_padding(in);
}

/* COER: a number in a number of octets. */
#define OER_PUT(number, width) oer_put_number(b, (uint64_t)(int64_t)(number), width)
#define OER_GET(field, low, high, width, type) \
    do { \
        uint64_t number; \
        if (!oer_get_number(in, width, &number) || (type)number < (low) || (type)number > (high)) \
            return 0; \
        field = (__typeof__(field))(type)number; \
    } while (0)

static int oer_put_point(struct buffer *b, const struct point *p)
{
    return put_octet(b, p->since > 0 ? 0x80 : 0x00)
        && OER_PUT(p->north, 4)
        && OER_PUT(p->east, 4)
        && OER_PUT(p->up, 2)
        && (p->since == 0 || OER_PUT(p->since, 2));
}

static int oer_put_acceleration(struct buffer *b, const struct acceleration *a)
{
    return OER_PUT(a->length, 2) && put_octet(b, a->trust);
}

static int oer_put_position(struct buffer *b, const struct vehicle *v)
{
    return OER_PUT(v->latitude, 4)
        && OER_PUT(v->longitude, 4)
        && OER_PUT(v->major, 2)
        && OER_PUT(v->minor, 2)
        && OER_PUT(v->direction, 2)
        && OER_PUT(v->height, 4)
        && put_octet(b, v->height_trust);
}

static int oer_put_motion(struct buffer *b, const struct vehicle *v)
{
    return put_octet(b, v->has_across ? 0x40 : 0x00)
        && OER_PUT(v->angle, 2)
        && put_octet(b, v->heading_trust)
        && OER_PUT(v->speed, 2)
        && put_octet(b, v->speed_trust)
        && oer_put_truth(b, v->backward)
        && oer_put_acceleration(b, &v->along)
        && (!v->has_across || oer_put_acceleration(b, &v->across))
        && OER_PUT(v->rate, 2)
        && put_octet(b, v->turning_trust)
        && put_octet(b, v->is_bent ? 0x81 : 0x80)
        && (!v->is_bent || OER_PUT(v->radius, 2));
}

static int put_coer(struct buffer *b, const struct vehicle *v)
{
    unsigned i;
    if (!put_octet(b, v->has_load ? 0x80 : 0x00) || !put_octet(b, v->version) || !OER_PUT(v->station, 4))
        return 0;
    if (!OER_PUT(v->time, 2) || !put_octet(b, v->kind) || !oer_put_position(b, v) || !oer_put_motion(b, v))
        return 0;
    if (!OER_PUT(v->length, 2) || !put_octet(b, v->width) || !oer_put_truth(b, v->trailer) || !put_octet(b, v->lights))
        return 0;
    if (!oer_put_quantity(b, v->points))
        return 0;
    for (i = 0; i < v->points; i++)
        if (!oer_put_point(b, &v->path[i]))
            return 0;
    /* The bitmap of the additions in two octets, and the length of the one. */
    return !v->has_load || (OER_PUT(0x020780, 3) && put_octet(b, 2) && OER_PUT(v->load, 2));
}

static int oer_get_point(struct input *in, struct point *p)
{
    uint8_t preamble;
    OER_GET(preamble, 0, 0x80, 1, uint8_t);
    OER_GET(p->north, -131071, 131072, 4, int32_t);
    OER_GET(p->east, -131071, 131072, 4, int32_t);
    OER_GET(p->up, -12800, 12800, 2, int16_t);
    p->since = 0;
    if (preamble)
        OER_GET(p->since, 1, 65535, 2, uint16_t);
    return preamble == 0x00 || preamble == 0x80;
}

static int oer_get_acceleration(struct input *in, struct acceleration *a)
{
    OER_GET(a->length, -160, 161, 2, int16_t);
    OER_GET(a->trust, 0, 102, 1, uint8_t);
    return 1;
}

static int oer_get_position(struct input *in, struct vehicle *v)
{
    OER_GET(v->latitude, -900000000, 900000001, 4, int32_t);
    OER_GET(v->longitude, -1800000000, 1800000001, 4, int32_t);
    OER_GET(v->major, 0, 4095, 2, uint16_t);
    OER_GET(v->minor, 0, 4095, 2, uint16_t);
    OER_GET(v->direction, 0, 3601, 2, uint16_t);
    OER_GET(v->height, -100000, 800001, 4, int32_t);
    OER_GET(v->height_trust, 0, 15, 1, uint8_t);
    return 1;
}

static int oer_get_motion(struct input *in, struct vehicle *v)
{
    uint8_t preamble, tag;
    OER_GET(preamble, 0, 0x40, 1, uint8_t);
    if (preamble & 0x3F)
        return 0;
    v->has_across = preamble != 0;
    OER_GET(v->angle, 0, 3601, 2, uint16_t);
    OER_GET(v->heading_trust, 1, 127, 1, uint8_t);
    OER_GET(v->speed, 0, 16383, 2, uint16_t);
    OER_GET(v->speed_trust, 1, 127, 1, uint8_t);
    if (!oer_get_truth(in, &v->backward))
        return 0;
    if (!oer_get_acceleration(in, &v->along) || (v->has_across && !oer_get_acceleration(in, &v->across)))
        return 0;
    OER_GET(v->rate, -32766, 32767, 2, int16_t);
    OER_GET(v->turning_trust, 0, 8, 1, uint8_t);
    OER_GET(tag, 0x80, 0x81, 1, uint8_t);
    v->is_bent = tag & 1;
    if (v->is_bent)
        OER_GET(v->radius, -32767, 32767, 2, int16_t);
    return 1;
}

static int oer_get_load(struct input *in, struct vehicle *v)
{
    uint32_t bitmap, length;
    OER_GET(bitmap, 0x020780, 0x020780, 3, uint32_t);
    OER_GET(length, 2, 2, 1, uint32_t);
    OER_GET(v->load, 0, 1000, 2, uint16_t);
    return 1;
}

static int get_coer(struct input *in, struct vehicle *v)
{
    uint64_t count, i;
    uint8_t preamble;
    OER_GET(preamble, 0, 0x80, 1, uint8_t);
    OER_GET(v->version, 0, 255, 1, uint8_t);
    OER_GET(v->station, 0, UINT32_MAX, 4, uint32_t);
    OER_GET(v->time, 0, 65535, 2, uint16_t);
    OER_GET(v->kind, 0, 3, 1, uint8_t);
    if (preamble & 0x7F || !oer_get_position(in, v) || !oer_get_motion(in, v))
        return 0;
    v->has_load = preamble != 0;
    OER_GET(v->length, 1, 1023, 2, uint16_t);
    OER_GET(v->width, 1, 62, 1, uint8_t);
    if (!oer_get_truth(in, &v->trailer))
        return 0;
    OER_GET(v->lights, 0, 255, 1, uint8_t);
    if (!oer_get_quantity(in, &count) || count > POINTS)
        return 0;
    v->points = (uint8_t)count;
    for (i = 0; i < count; i++)
        if (!oer_get_point(in, &v->path[i]))
            return 0;
    return !v->has_load || oer_get_load(in, v);
}

/* Messages in UPER, one after another, until there are a number of them or of octets. */
static int make_messages(struct buffer *b, size_t count, size_t octets)
{
    struct vehicle v;
    uint64_t state = 1;
    while (count-- > 0 && b->count < octets) {
        make_vehicle(&v, &state);
        if (!put_uper(b, &v))
            return 0;
    }
    return 1;
}
