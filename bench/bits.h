/* The bits, lengths and numbers of PER in plain C, unaligned or, with ALIGNED, aligned: octets that do not begin at an
 * octet boundary are moved eight at once. Include buffer.h first. */
#include <endian.h>

/* A width that is constant where it is called is one in the code. */
#define AT_ONCE static inline __attribute__((always_inline))

#ifdef ALIGNED
#define IS_ALIGNED 1
#else
#define IS_ALIGNED 0
#endif

/* Bits after those of a buffer. Its last octet is not full if some bits are free. */
struct bits {
    struct buffer *buffer;
    unsigned free;
};

/* Eight octets as a number, the first the most significant. */
static uint64_t load(const uint8_t *octets)
{
    uint64_t word;
    memcpy(&word, octets, 8);
    return be64toh(word);
}

static void store(uint8_t *octets, uint64_t word)
{
    word = htobe64(word);
    memcpy(octets, &word, 8);
}

/* A number of at most 64 bits, which has no bit above them. */
AT_ONCE int put_bits(struct bits *o, uint64_t number, unsigned width)
{
    struct buffer *b = o->buffer;
    unsigned used = -o->free % 8, end = used + width;
    uint64_t before;
    uint8_t *at;
    if (width == 0)
        return 1;
    if (!grow(b, 9))
        return 0;
    at = b->octets + b->count - (used > 0);
    before = used > 0 ? (uint64_t)*at << 56 : 0;
    if (end <= 64) {
        store(at, before | number << (64 - end));
    } else {
        store(at, before | number >> (end - 64));
        at[8] = (uint8_t)(number << (72 - end));
    }
    b->count += (end + 7) / 8 - (used > 0);
    o->free = -end % 8;
    return 1;
}

static int put_run(struct bits *o, const uint8_t *octets, size_t count)
{
    struct buffer *b = o->buffer;
    unsigned shift = o->free;
    uint64_t before;
    uint8_t *at;
    size_t i;
    if (shift == 0 || count == 0)
        return put_octets(b, octets, count);
    if (!grow(b, count))
        return 0;
    at = b->octets + b->count - 1;
    before = (uint64_t)*at << 56;
    for (i = 0; count - i >= 8; i += 8) {
        uint64_t word = load(octets + i);
        store(at + i, before | word >> (8 - shift));
        before = word << (56 + shift);
    }
    at[i] = (uint8_t)(before >> 56);
    for (; i < count; i++) {
        at[i] |= (uint8_t)(octets[i] >> (8 - shift));
        at[i + 1] = (uint8_t)(octets[i] << shift);
    }
    b->count += count;
    return 1;
}

static void push_padding(struct bits *o)
{
    if (IS_ALIGNED)
        o->free = 0;
}

/* The width of a number in bits. */
static unsigned width_of(unsigned number)
{
    unsigned width = 0;
    while (number >> width)
        width++;
    return width;
}

/* A constrained number; its range less one is the largest number of 1, 2, 4 or 8 octets. */
AT_ONCE int put_constrained(struct bits *o, uint64_t number, unsigned octets)
{
    if (IS_ALIGNED && octets > 2) {
        unsigned count = octets_of(number);
        if (!put_bits(o, count - 1, width_of(octets - 1)))
            return 0;
        octets = count;
    }
    push_padding(o);
    return put_bits(o, number, 8 * octets);
}

AT_ONCE int put_length(struct bits *o, size_t length)
{
    push_padding(o);
    if (length < 128)
        return put_bits(o, length, 8);
    return put_bits(o, 0x8000 | length, 16);
}

static int put_header(struct bits *o, size_t multiple)
{
    push_padding(o);
    return put_bits(o, 0xC0 | multiple, 8);
}

/* The number of units in the next fragment, or all of them. */
static size_t fragment_of(size_t count)
{
    size_t multiple = count / 16384;
    return multiple == 0 ? count : 16384 * (multiple < 4 ? multiple : 4);
}

static int put_count(struct bits *o, size_t count)
{
    return count < 16384 ? put_length(o, count) : put_header(o, count / 16384);
}

/* At most eight octets as the first of eight. */
__attribute__((noinline)) static uint64_t load_last(const uint8_t *octets, size_t count)
{
    uint64_t word = 0;
    unsigned i;
    for (i = 0; i < 8; i++)
        word = word << 8 | (i < count ? octets[i] : 0);
    return word;
}

/* 1 to 64 bits. */
AT_ONCE int get_wide(struct input *in, unsigned width, uint64_t *number)
{
    unsigned end = in->bits + width;
    uint64_t word;
    if (in->count > 8) {
        word = load(in->octets) << in->bits;
        if (width > 57)
            word |= in->octets[8] >> (8 - in->bits);
    } else {
        if (end > 8 * in->count)
            return 0;
        word = load_last(in->octets, in->count) << in->bits;
    }
    *number = word >> (64 - width);
    in->octets += end / 8;
    in->count -= end / 8;
    in->bits = end % 8;
    return 1;
}

/* 1 to 32 bits. */
AT_ONCE int get_bits(struct input *in, unsigned width, uint32_t *number)
{
    uint64_t wide;
    if (!get_wide(in, width, &wide))
        return 0;
    *number = (uint32_t)wide;
    return 1;
}

static int skip_padding(struct input *in)
{
    if (in->bits > 0) {
        in->octets++;
        in->count--;
        in->bits = 0;
    }
    return 1;
}

static int read_padding(struct input *in)
{
    return !IS_ALIGNED || skip_padding(in);
}

static int get_run(struct input *in, uint8_t *octets, size_t count)
{
    unsigned shift = in->bits;
    size_t i = 0;
    if (in->count < count + (shift > 0))
        return 0;
    if (shift == 0) {
        memcpy(octets, in->octets, count);
    } else {
        for (; count - i >= 8; i += 8)
            store(octets + i, load(in->octets + i) << shift | in->octets[i + 8] >> (8 - shift));
        for (; i < count; i++)
            octets[i] = (uint8_t)(in->octets[i] << shift | in->octets[i + 1] >> (8 - shift));
    }
    in->octets += count;
    in->count -= count;
    return 1;
}

AT_ONCE int get_constrained(struct input *in, unsigned octets, uint64_t *number)
{
    uint32_t count;
    if (IS_ALIGNED && octets > 2) {
        if (!get_bits(in, width_of(octets - 1), &count) || count >= octets)
            return 0;
        octets = count + 1;
    }
    read_padding(in);
    return get_wide(in, 8 * octets, number);
}

/* The number of units that come next, and whether more follow them. */
AT_ONCE int get_count(struct input *in, size_t *count, int *more)
{
    uint32_t first, second;
    read_padding(in);
    if (!get_bits(in, 8, &first))
        return 0;
    *more = first >= 0xC0;
    *count = first;
    if (first < 0x80)
        return 1;
    if (first < 0xC0) {
        if (!get_bits(in, 8, &second))
            return 0;
        *count = (first & 0x3F) << 8 | second;
        return 1;
    }
    *count = (size_t)(first & 0x3F) * 16384;
    return first >= 0xC1 && first <= 0xC4;
}
