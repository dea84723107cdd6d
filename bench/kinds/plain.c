/* A CHOICE, a SEQUENCE with additions and SET OF values written and read by one set of rules in plain C: OER, or with
 * PACKED those of PER. */
#include "kinds.h"
#include "times.h"

#ifdef PACKED
#include "per.h"
#define CODEC(kind) &PER_##kind
#else
#include "oer.h"
#define CODEC(kind) &OER_##kind
#endif

int main(void)
{
    return time_values("write_choices", "read_choices", &PICK, CODEC(PICK), COUNT, 0)
        && time_values("write_additions", "read_additions", &GROWN, CODEC(GROWN), COUNT, 0)
        && time_values("write_bags_1000", "read_bags_1000", &BAG, CODEC(BAG), COUNT / 1000, 1000)
        && time_values("write_bags_10000", "read_bags_10000", &BAG, CODEC(BAG), COUNT / 10000, 10000)
        && time_values("write_bags_100000", "read_bags_100000", &BAG, CODEC(BAG), COUNT / 100000, 100000)
        ? 0 : 1;
}
