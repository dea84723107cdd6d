/* Times the work of a set of rules: put_* append to a buffer, get_* take the octets from the beginning of an input. */
#include "samples.h"

static int time_list(void)
{
    uint8_t *members = make_octets(COUNT);
    struct buffer b = {0}, copy = {0};
    struct input in;
    double start, time;
    if (!members)
        return 0;
    start = now();
    if (!put_list(&b, members, COUNT))
        return 0;
    time = now() - start;
    tell("write_list", time, sum_of(b.octets, b.count));

    in.octets = b.octets;
    in.count = b.count;
    start = now();
    if (!get_list(&in, &copy))
        return 0;
    time = now() - start;
    tell("read_list", time, sum_of(copy.octets, copy.count));
    free(members);
    free(b.octets);
    free(copy.octets);
    return 1;
}

static int time_octets(void)
{
    uint8_t *octets = make_octets(OCTETS);
    struct buffer b = {0}, copy = {0};
    struct input in;
    double start, time;
    if (!octets)
        return 0;
    start = now();
    if (!put_string(&b, octets, OCTETS))
        return 0;
    time = now() - start;
    tell("write_octets", time, sum_of(b.octets, b.count));

    in.octets = b.octets;
    in.count = b.count;
    start = now();
    if (!get_string(&in, &copy))
        return 0;
    time = now() - start;
    tell("read_octets", time, sum_of(copy.octets, copy.count));
    free(octets);
    free(copy.octets);
    free(b.octets);
    return 1;
}

int main(void)
{
    return time_samples() && time_list() && time_octets() ? 0 : 1;
}
