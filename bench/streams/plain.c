/* Messages of the benchmark's SEQUENCE, one after another, translated in plain C between COER and UPER: 10^6 of them in
 * memory, or, with the words `run FROM TO`, those of standard input, in blocks of 4096 octets, to standard output. With
 * `make RULES COUNT`, that many messages are written to standard output. */
#include "../types/work.h"

#define put_sample octets_put_sample
#define put_list octets_put_list
#define put_string octets_put_string
#define get_sample octets_get_sample
#define get_list octets_get_list
#define get_string octets_get_string
#include "../types/oer_types.h"
#undef put_sample
#undef put_list
#undef put_string
#undef get_sample
#undef get_list
#undef get_string
#include "../types/per_types.h"

#define BLOCK 4096
#define LIMIT 64

struct codec {
    int (*put)(struct buffer *, const struct sample *);
    int (*get)(struct input *, struct sample *);
};

static const struct codec COER = {octets_put_sample, octets_get_sample};
static const struct codec UPER = {put_sample, get_sample};

static const struct codec *named(const char *name)
{
    return strcmp(name, "coer") == 0 ? &COER : &UPER;
}

static int make_messages(struct buffer *b, const struct codec *codec, size_t count)
{
    struct sample s;
    uint64_t state = 1;
    size_t i;
    for (i = 0; i < count; i++) {
        state = next(state);
        make_sample(&s, state);
        if (!codec->put(b, &s))
            return 0;
    }
    return 1;
}

static int time_translation(const char *name, const struct codec *from, const struct codec *to)
{
    struct buffer messages = {0}, b = {0};
    struct input in = {0};
    struct sample s;
    double start, time;
    unsigned i;
    if (!make_messages(&messages, from, COUNT))
        return 0;
    in.octets = messages.octets;
    in.count = messages.count;
    start = now();
    for (i = 0; i < COUNT; i++)
        if (!from->get(&in, &s) || !to->put(&b, &s))
            return 0;
    time = now() - start;
    tell(name, time, sum_of(b.octets, b.count));
    free(messages.octets);
    free(b.octets);
    return 1;
}

/* Reads blocks, and writes the translation of each whole message. */
static int run(const struct codec *from, const struct codec *to)
{
    static uint8_t window[BLOCK + LIMIT];
    struct buffer b = {0};
    size_t unread = 0, count;
    while ((count = fread(window + unread, 1, BLOCK, stdin)) > 0) {
        struct input in = {window, unread + count, 0}, before;
        struct sample s;
        b.count = 0;
        for (before = in; in.count > 0 && from->get(&in, &s); before = in)
            if (!to->put(&b, &s))
                return 0;
        unread = before.count;
        if (unread > LIMIT || fwrite(b.octets, 1, b.count, stdout) != b.count)
            return 0;
        memmove(window, before.octets, unread);
    }
    free(b.octets);
    return unread == 0 && !ferror(stdin) && fflush(stdout) == 0;
}

int main(int count, char **words)
{
    struct buffer b = {0};
    if (count == 4 && strcmp(words[1], "run") == 0)
        return run(named(words[2]), named(words[3])) ? 0 : 1;
    if (count == 4 && strcmp(words[1], "make") == 0)
        return make_messages(&b, named(words[2]), strtoul(words[3], NULL, 10)) && fwrite(b.octets, 1, b.count, stdout) == b.count ? 0 : 1;
    return time_translation("c_to_uper", &COER, &UPER) && time_translation("c_to_coer", &UPER, &COER) ? 0 : 1;
}
