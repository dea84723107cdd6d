/* The messages of vehicles in plain C, read alone and written alone in UPER and in COER. It is a program of its own, so
 * that readers and writers have one caller each in plain.c. Each line has the name of the work, its
 * time in microseconds and a sum: of the octets that it wrote, or how many messages it read. */
#include "vehicle.h"

/* How many values are held at a time, to be written. */
#define HELD 10000u

/* Reads all messages by a reader, and then writes them by a writer. */
INLINED int time_alone(
    const char *read_name,
    const char *write_name,
    const struct buffer *messages,
    struct buffer *b,
    int (*get)(struct input *in, struct vehicle *v),
    int (*put)(struct buffer *b, const struct vehicle *v))
{
    struct input in = {messages->octets, messages->count, 0}, again = in;
    struct vehicle v, *held = malloc(HELD * sizeof *held);
    double start = now(), time = 0;
    unsigned i, j;
    for (i = 0; i < COUNT; i++) {
        if (!get(&in, &v))
            return 0;
        keep(&v);
    }
    tell(read_name, now() - start, COUNT);
    for (i = 0; held && i < COUNT; i += HELD) {
        for (j = 0; j < HELD; j++)
            if (!get(&again, &held[j]))
                return 0;
        start = now();
        for (j = 0; j < HELD; j++)
            if (!put(b, &held[j]))
                return 0;
        time += now() - start;
    }
    tell(write_name, time, sum_of(b->octets, b->count));
    free(held);
    return held != 0;
}

/* Translates all messages to COER, untimed. */
static int put_all(struct buffer *octets, const struct buffer *messages)
{
    struct input in = {messages->octets, messages->count, 0};
    struct vehicle v;
    unsigned i;
    for (i = 0; i < COUNT; i++)
        if (!get_uper(&in, &v) || !put_coer(octets, &v))
            return 0;
    return 1;
}

int main(void)
{
    struct buffer packed = {0}, octets = {0}, packed_again = {0}, octets_again = {0};
    return make_messages(&packed, COUNT, SIZE_MAX)
        && put_all(&octets, &packed)
        && time_alone("read_messages_in_uper", "write_messages_in_uper", &packed, &packed_again, get_uper, put_uper)
        && time_alone("read_messages_in_coer", "write_messages_in_coer", &octets, &octets_again, get_coer, put_coer)
        ? 0 : 1;
}
