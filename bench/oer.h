/* The lengths, numbers and BOOLEAN of OER in plain C. Include buffer.h first. The readers accept canonical encodings
 * only, or with BASIC also those of basic OER. */
#ifdef BASIC
#define IS_BASIC 1
#else
#define IS_BASIC 0
#endif

static int oer_put_number(struct buffer *b, uint64_t number, unsigned width)
{
    uint8_t octets[8];
    unsigned i;
    for (i = 0; i < width; i++)
        octets[i] = (uint8_t)(number >> (8 * (width - 1 - i)));
    return put_octets(b, octets, width);
}

static int oer_put_length(struct buffer *b, uint64_t length)
{
    unsigned width = octets_of(length);
    if (length < 0x80)
        return put_octet(b, (uint8_t)length);
    return put_octet(b, (uint8_t)(0x80 + width)) && oer_put_number(b, length, width);
}

/* Writes the number of elements of a SEQUENCE OF. */
static int oer_put_quantity(struct buffer *b, uint64_t quantity)
{
    unsigned width = octets_of(quantity);
    return put_octet(b, (uint8_t)width) && oer_put_number(b, quantity, width);
}

static int oer_put_truth(struct buffer *b, int truth)
{
    return put_octet(b, truth ? 0xFF : 0x00);
}

static int oer_put_string(struct buffer *b, const uint8_t *octets, size_t count)
{
    return oer_put_length(b, count) && put_octets(b, octets, count);
}

static const uint8_t *oer_take(struct input *in, size_t count)
{
    const uint8_t *octets = in->octets;
    if (in->count < count)
        return NULL;
    in->octets += count;
    in->count -= count;
    return octets;
}

static int oer_get_number(struct input *in, unsigned width, uint64_t *number)
{
    const uint8_t *octets = oer_take(in, width);
    unsigned i;
    if (!octets)
        return 0;
    *number = 0;
    for (i = 0; i < width; i++)
        *number = *number << 8 | octets[i];
    return 1;
}

/* A number of a given width in octets, in canonical OER the smallest width. */
static int oer_get_wide(struct input *in, unsigned width, uint64_t *number)
{
    while (IS_BASIC && width > 8 && in->count > 0 && in->octets[0] == 0) {
        oer_take(in, 1);
        width--;
    }
    return width >= 1 && width <= 8 && oer_get_number(in, width, number) && (IS_BASIC || octets_of(*number) == width);
}

static int oer_get_length(struct input *in, uint64_t *length)
{
    if (!oer_get_number(in, 1, length))
        return 0;
    if (*length < 0x80)
        return 1;
    return oer_get_wide(in, (unsigned)(*length - 0x80), length) && (IS_BASIC || *length >= 0x80);
}

static int oer_get_quantity(struct input *in, uint64_t *quantity)
{
    uint64_t width;
    return oer_get_number(in, 1, &width) && oer_get_wide(in, (unsigned)width, quantity);
}

static int oer_get_truth(struct input *in, int *truth)
{
    uint64_t number;
    if (!oer_get_number(in, 1, &number) || (!IS_BASIC && number != 0x00 && number != 0xFF))
        return 0;
    *truth = number != 0;
    return 1;
}

/* Octets after their length determinant, borrowed from the input. */
static const uint8_t *oer_get_string(struct input *in, uint64_t *length)
{
    return oer_get_length(in, length) ? oer_take(in, *length) : NULL;
}
