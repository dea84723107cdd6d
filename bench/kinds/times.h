/* Times values of one kind: they are written one after another, and then read. */

INLINED int write_values(struct buffer *b, const struct kind *kind, const struct codec *codec, const char *values, size_t count)
{
    size_t i;
    for (i = 0; i < count; i++)
        if (!codec->put(b, values + i * kind->size))
            return 0;
    return 1;
}

INLINED int read_values(const struct buffer *b, const struct codec *codec, size_t count, uint64_t *sum)
{
    struct input in = {b->octets, b->count, 0};
    union value value;
    size_t i;
    *sum = 0;
    for (i = 0; i < count; i++) {
        if (!codec->get(&in, &value))
            return 0;
        *sum = codec->sum(*sum, &value);
        codec->release(&value);
    }
    return 1;
}

/* The work of a kind: a number of values, with a number of elements each. The time of writing is not printed if it has
 * no name. */
INLINED int time_values(const char *to_write, const char *to_read, const struct kind *kind, const struct codec *codec, size_t count, size_t members)
{
    char *values = malloc(count * kind->size);
    struct buffer b = {0};
    uint64_t state = 1, sum;
    double start, time;
    size_t i;
    if (!values)
        return 0;
    for (i = 0; i < count; i++) {
        state = next(state);
        if (!kind->make(values + i * kind->size, state, members))
            return 0;
    }
    start = now();
    if (!write_values(&b, kind, codec, values, count))
        return 0;
    time = now() - start;
    if (to_write)
        tell(to_write, time, sum_of(b.octets, b.count));
    start = now();
    if (!read_values(&b, codec, count, &sum))
        return 0;
    tell(to_read, now() - start, sum);
    for (i = 0; i < count; i++)
        kind->release(values + i * kind->size);
    free(values);
    free(b.octets);
    return 1;
}
