/* Times the sequences by a set of rules: put_sample appends one to a buffer, get_sample takes one from the beginning of
 * an input. */
static int time_samples(void)
{
    struct sample *samples = make_samples(), s;
    struct buffer b = {0};
    struct input in;
    uint64_t sum = 0;
    double start, time;
    unsigned i;
    if (!samples)
        return 0;
    start = now();
    for (i = 0; i < COUNT; i++)
        if (!put_sample(&b, &samples[i]))
            return 0;
    time = now() - start;
    tell("write_sequences", time, sum_of(b.octets, b.count));

    in.octets = b.octets;
    in.count = b.count;
    start = now();
    for (i = 0; i < COUNT; i++) {
        if (!get_sample(&in, &s))
            return 0;
        keep(&s);
        sum = sum_with(sum, &s);
    }
    tell("read_sequences", now() - start, sum);
    free(samples);
    free(b.octets);
    return 1;
}
