/* Shared by the benchmarks of a CHOICE, a SEQUENCE with additions and SET OF in C: the types, pseudorandom values, and
 * sums of what these hold. */
#include "../buffer.h"

#define TAGS 20u
#define ADDITIONS 8u

/* A function whose kind and codec are constants is inlined, so that their functions are called directly. */
#define INLINED static inline __attribute__((always_inline))

/* A number with tag 0, octets with tag 1, a BOOLEAN with tag 2, and so on in turn. */
struct pick {
    unsigned tag;
    uint16_t number;
    int truth;
    uint8_t *octets;
    size_t count;
};

struct grown {
    int a;
    uint8_t there; /* the last bit is that of the first addition */
    uint8_t added[ADDITIONS];
};

struct bag {
    uint16_t *members;
    size_t count;
};

/* A value of any kind, or one of generated code. */
union value {
    struct pick pick;
    struct grown grown;
    struct bag bag;
    void *generated;
};

/* How values of one kind are made, from a number and with a number of elements if they have elements, and how they are
 * freed. */
struct kind {
    size_t size;
    int (*make)(void *value, uint64_t state, size_t members);
    void (*release)(void *value);
};

/* How values of one kind are written and read by one set of rules, and what is done with those that were read. */
struct codec {
    int (*put)(struct buffer *b, const void *value);
    int (*get)(struct input *in, void *value);
    uint64_t (*sum)(uint64_t sum, const void *value);
    void (*release)(void *value);
};

static int make_pick(void *value, uint64_t state, size_t members)
{
    struct pick *p = value;
    (void)members;
    memset(p, 0, sizeof *p);
    p->tag = (unsigned)(state >> 40) % TAGS;
    p->number = (uint16_t)(state >> 48);
    p->truth = state >> 63;
    if (p->tag % 3 != 1)
        return 1;
    p->count = (state >> 32 & 15) + 1;
    p->octets = malloc(p->count);
    if (p->octets)
        fill_octets(p->octets, p->count, state);
    return p->octets != NULL;
}

static uint64_t sum_pick(uint64_t sum, const void *value)
{
    const struct pick *p = value;
    uint64_t held = p->tag % 3 == 0 ? p->number : p->tag % 3 == 2 ? (uint64_t)p->truth : p->count << 8 | p->octets[p->count - 1];
    return sum * 31 + ((uint64_t)p->tag << 32 | held);
}

static void free_pick(void *value)
{
    free(((struct pick *)value)->octets);
}

/* Three of the eight additions are present. */
static int make_grown(void *value, uint64_t state, size_t members)
{
    struct grown *g = value;
    unsigned first = state >> 40 & 7, i;
    (void)members;
    g->a = state >> 63;
    g->there = (uint8_t)(1u << first | 1u << (first + 2) % 8 | 1u << (first + 5) % 8);
    for (i = 0; i < ADDITIONS; i++)
        g->added[i] = (uint8_t)(state >> 7 * i);
    return 1;
}

static uint64_t sum_grown(uint64_t sum, const void *value)
{
    const struct grown *g = value;
    unsigned i;
    sum = sum * 31 + (uint64_t)g->a;
    for (i = 0; i < ADDITIONS; i++)
        sum = sum * 31 + (g->there >> i & 1 ? g->added[i] : 256u);
    return sum;
}

/* Such a SEQUENCE takes no memory of its own. */
static void free_grown(void *value)
{
    (void)value;
}

static int make_bag(void *value, uint64_t state, size_t members)
{
    struct bag *b = value;
    size_t i;
    state = state << 31 | state >> 33;
    b->members = malloc(members * sizeof *b->members);
    b->count = members;
    if (!b->members)
        return 0;
    for (i = 0; i < members; i++) {
        state = next(state);
        b->members[i] = (uint16_t)(state >> 48);
    }
    return 1;
}

static uint64_t sum_bag(uint64_t sum, const void *value)
{
    const struct bag *b = value;
    size_t i;
    for (i = 0; i < b->count; i++)
        sum = sum * 31 + b->members[i];
    return sum;
}

static void free_bag(void *value)
{
    free(((struct bag *)value)->members);
}

/* Appends an element to a SET OF; room is its capacity in elements. */
static int put_member(struct bag *b, size_t *room, uint16_t member)
{
    if (b->count == *room) {
        size_t larger = *room * 2 > 8 ? *room * 2 : 8;
        uint16_t *members = realloc(b->members, larger * sizeof *members);
        if (!members)
            return 0;
        b->members = members;
        *room = larger;
    }
    b->members[b->count++] = member;
    return 1;
}

/* The encoding of an element has two octets in all rules. */
static int compare_members(const void *a, const void *b)
{
    return memcmp(a, b, 2);
}

/* The encodings of the elements in ascending order; to be freed. */
static uint8_t *sorted_members(const struct bag *b)
{
    uint8_t *octets = malloc(2 * b->count + 1);
    size_t i;
    if (!octets)
        return NULL;
    for (i = 0; i < b->count; i++) {
        octets[2 * i] = (uint8_t)(b->members[i] >> 8);
        octets[2 * i + 1] = (uint8_t)b->members[i];
    }
    qsort(octets, b->count, 2, compare_members);
    return octets;
}

static const struct kind PICK = {sizeof(struct pick), make_pick, free_pick};
static const struct kind GROWN = {sizeof(struct grown), make_grown, free_grown};
static const struct kind BAG = {sizeof(struct bag), make_bag, free_bag};
