/* Shared by the benchmarks of lists of scalar types in C: pseudorandom values, and sums of what they hold. A set of
 * rules defines put_count_of, get_count_of and put_* and get_* of each kind. */
#include "../buffer.h"

/* The number of elements of a list: no list, and in the other program no vector that doubles, comes near the 32 MiB
 * from which glibc maps memory anew for each. */
#define ELEMENTS (COUNT < 250000u ? COUNT : 250000u)
#define ARCS 5u
#define DIGITS 16u

/* A value of any kind: a BOOLEAN, a number or an enumeration item, or octets with a number of bits, or the arcs of an
 * OBJECT IDENTIFIER. */
struct scalar {
    uint64_t number;
    uint8_t *octets;
    size_t count;
    uint32_t *arcs;
};

static void release(struct scalar *s)
{
    free(s->octets);
    free(s->arcs);
}

static int make_truth(struct scalar *s, uint64_t state)
{
    s->number = state >> 63;
    return 1;
}

static int make_number_16(struct scalar *s, uint64_t state)
{
    s->number = state >> 48;
    return 1;
}

static int make_number_64(struct scalar *s, uint64_t state)
{
    s->number = state << 31 | state >> 33;
    return 1;
}

/* 1 to 7 octets, not negative. */
static int make_integer(struct scalar *s, uint64_t state)
{
    unsigned shift = 9 + 8 * (unsigned)(state >> 32 & 7);
    s->number = (state << 31 | state >> 33) >> (shift < 63 ? shift : 63);
    return 1;
}

static int make_item(struct scalar *s, uint64_t state)
{
    s->number = (state >> 40) % 3;
    return 1;
}

static int make_masked(struct scalar *s, uint64_t state, uint8_t mask, uint8_t base)
{
    size_t i;
    s->count = (state >> 32 & 15) + 1;
    s->octets = malloc(s->count);
    if (!s->octets)
        return 0;
    fill_octets(s->octets, s->count, state);
    for (i = 0; i < s->count; i++)
        s->octets[i] = (uint8_t)((s->octets[i] & mask) + base);
    return 1;
}

static int make_run(struct scalar *s, uint64_t state)
{
    return make_masked(s, state, 0xFF, 0);
}

static int make_text(struct scalar *s, uint64_t state)
{
    return make_masked(s, state, 0x3F, 0x20);
}

static int make_digits(struct scalar *s, uint64_t state)
{
    return make_masked(s, state, 0x07, 0x30);
}

/* 1 to 16 octets without their last three bits. */
static int make_bits(struct scalar *s, uint64_t state)
{
    if (!make_run(s, state))
        return 0;
    s->octets[s->count - 1] &= 0xF8;
    s->number = 8 * s->count - 3;
    return 1;
}

static int make_arcs(struct scalar *s, uint64_t state)
{
    s->arcs = malloc(ARCS * sizeof *s->arcs);
    s->count = ARCS;
    if (!s->arcs)
        return 0;
    s->arcs[0] = 1;
    s->arcs[1] = 2;
    s->arcs[2] = 840;
    s->arcs[3] = (uint32_t)(state >> 48);
    s->arcs[4] = (uint32_t)(state >> 40 & 0x7F);
    return 1;
}

static uint64_t sum_number(uint64_t sum, const struct scalar *s)
{
    return sum * 31 + s->number;
}

static uint64_t sum_octets(uint64_t sum, const struct scalar *s)
{
    return sum * 31 + ((uint64_t)s->count << 8 | (s->count ? s->octets[s->count - 1] : 0));
}

static uint64_t sum_arcs(uint64_t sum, const struct scalar *s)
{
    size_t i;
    for (i = 0; i < s->count; i++)
        sum = sum * 31 + s->arcs[i];
    return sum;
}

/* Copies octets into memory of the value. */
static int own(struct scalar *s, const uint8_t *octets, uint64_t count)
{
    if (!octets || !(s->octets = malloc(count + 1)))
        return 0;
    memcpy(s->octets, octets, count);
    s->count = count;
    return 1;
}

/* Whether octets are printing characters or the space. */
static int are_visible(const uint8_t *octets, size_t count)
{
    size_t i;
    for (i = 0; i < count; i++)
        if (octets[i] < 0x20 || octets[i] > 0x7E)
            return 0;
    return 1;
}

/* How many octets of a UTF-8 character follow its first octet; 4 if no character begins with it. */
static unsigned octets_behind(uint8_t first)
{
    if (first < 0x80)
        return 0;
    if (first < 0xC2 || first >= 0xF5)
        return 4;
    return first < 0xE0 ? 1 : first < 0xF0 ? 2 : 3;
}

/* Whether octets are UTF-8. */
static int are_utf8(const uint8_t *octets, size_t count)
{
    size_t i = 0;
    while (i < count) {
        uint8_t first = octets[i++];
        unsigned more = octets_behind(first);
        uint8_t low = first == 0xE0 ? 0xA0 : first == 0xF0 ? 0x90 : 0x80;
        uint8_t high = first == 0xED ? 0x9F : first == 0xF4 ? 0x8F : 0xBF;
        if (more == 4 || more > count - i)
            return 0;
        for (; more > 0; more--, i++) {
            if (octets[i] < low || octets[i] > high)
                return 0;
            low = 0x80;
            high = 0xBF;
        }
    }
    return 1;
}

/* The length in octets of the shortest two's complement of a non-negative number. */
static unsigned signed_octets_of(uint64_t number)
{
    unsigned width = octets_of(number);
    return width < 8 && number >> (8 * width - 1) ? width + 1 : width;
}

/* Writes the octets of an identifier's arcs, and returns their number. */
static size_t octets_of_arcs(const uint32_t *arcs, size_t count, uint8_t *octets)
{
    size_t i, n = 0;
    for (i = 1; i < count; i++) {
        uint64_t number = i == 1 ? (uint64_t)arcs[0] * 40 + arcs[1] : arcs[i];
        unsigned groups = 1;
        while (number >> (7 * groups))
            groups++;
        for (; groups > 1; groups--)
            octets[n++] = (uint8_t)(0x80 | (number >> (7 * (groups - 1)) & 0x7F));
        octets[n++] = (uint8_t)(number & 0x7F);
    }
    return n;
}

static int own_arcs(struct scalar *s, const uint8_t *octets, size_t count)
{
    size_t i = 0, n = 0;
    if (!octets || count == 0 || octets[count - 1] & 0x80 || !(s->arcs = malloc((count + 1) * sizeof *s->arcs)))
        return 0;
    while (i < count) {
        uint64_t number = 0;
        if (octets[i] == 0x80)
            return 0;
        do
            number = number << 7 | (octets[i] & 0x7F);
        while (number < (uint64_t)1 << 33 && octets[i++] & 0x80);
        if (n == 0) {
            uint64_t first = number < 40 ? 0 : number < 80 ? 1 : 2;
            s->arcs[n++] = (uint32_t)first;
            number -= 40 * first;
        }
        if (number > UINT32_MAX)
            return 0;
        s->arcs[n++] = (uint32_t)number;
    }
    s->count = n;
    return 1;
}
