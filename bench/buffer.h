/* Shared by the works in C: octets that grow, and octets that are read. */
#include "common.h"

/* Octets; their capacity doubles if it is too small. */
struct buffer {
    uint8_t *octets;
    size_t room;
    size_t count;
};

/* Reserves room for a number of octets in all. */
static int reserve(struct buffer *b, size_t octets)
{
    size_t room = b->room * 2 > octets ? b->room * 2 : octets;
    uint8_t *larger;
    if (octets <= b->room)
        return 1;
    larger = realloc(b->octets, room);
    if (!larger)
        return 0;
    b->octets = larger;
    b->room = room;
    return 1;
}

/* Reserves room for more octets. */
static int grow(struct buffer *b, size_t count)
{
    return b->room - b->count >= count || reserve(b, b->count + count);
}

static int put_octet(struct buffer *b, uint8_t octet)
{
    if (!grow(b, 1))
        return 0;
    b->octets[b->count++] = octet;
    return 1;
}

static int put_octets(struct buffer *b, const uint8_t *octets, size_t count)
{
    if (!grow(b, count))
        return 0;
    memcpy(b->octets + b->count, octets, count);
    b->count += count;
    return 1;
}

/* Octets that are still unread, and in PER how many bits of the first of them were read. */
struct input {
    const uint8_t *octets;
    size_t count;
    unsigned bits;
};

/* The length of a number in octets, at least one. */
static unsigned octets_of(uint64_t number)
{
    unsigned width = 1;
    while (width < 8 && number >> (8 * width))
        width++;
    return width;
}
