/* The messages of vehicles in UPER, read and written again by the code that asn1c generates from vehicle.asn1. */
#include "vehicle.h"
#include "../asn1c.h"
#include <Awareness.h>

int main(void)
{
    struct buffer messages = {0}, again = {0};
    struct input in;
    void **values = malloc(COUNT * sizeof *values);
    double start, time;
    unsigned i;
    if (!values || !make_messages(&messages, COUNT, SIZE_MAX))
        return 1;
    in.octets = messages.octets;
    in.count = messages.count;
    start = now();
    for (i = 0; i < COUNT; i++)
        if (!get_value(&in, &asn_DEF_Awareness, &values[i]))
            return 1;
    tell("read_messages_in_uper", now() - start, COUNT);
    start = now();
    for (i = 0; i < COUNT; i++)
        if (!put_value(&again, &asn_DEF_Awareness, values[i]))
            return 1;
    time = now() - start;
    tell("write_messages_in_uper", time, sum_of(again.octets, again.count));
    for (i = 0; i < COUNT; i++)
        ASN_STRUCT_FREE(asn_DEF_Awareness, values[i]);
    return 0;
}
