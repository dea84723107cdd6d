/* The messages of vehicles, one after another, translated in plain C between UPER and COER: with the words
 * `run FROM TO` those of standard input, in blocks of 64 KiB, to standard output. With `make`, 64 MiB of them in UPER
 * are written to standard output. With `watch FILE COMMAND..` a command runs, and what it took is appended to FILE. */
#include "vehicle.h"
#include <sys/resource.h>
#include <sys/wait.h>
#include <unistd.h>

#define BLOCK 65536
#define LIMIT 1000

/* Reads blocks, and writes the translation of each whole message. */
INLINED int run(int (*get)(struct input *in, struct vehicle *v), int (*put)(struct buffer *b, const struct vehicle *v))
{
    static uint8_t window[BLOCK + LIMIT];
    struct buffer b = {0};
    size_t unread = 0, count;
    while ((count = fread(window + unread, 1, BLOCK, stdin)) > 0) {
        struct input in = {window, unread + count, 0}, before;
        struct vehicle v;
        b.count = 0;
        for (before = in; in.count > 0 && get(&in, &v); before = in)
            if (!put(&b, &v))
                return 0;
        unread = before.count;
        if (unread > LIMIT || fwrite(b.octets, 1, b.count, stdout) != b.count)
            return 0;
        memmove(window, before.octets, unread);
    }
    free(b.octets);
    return unread == 0 && !ferror(stdin) && fflush(stdout) == 0;
}

static double seconds(struct timeval t)
{
    return (double)t.tv_sec + (double)t.tv_usec / 1e6;
}

/* Passes on what a command writes. It took these seconds of processor, KiB of memory at most, and milliseconds until
 * the first octet. */
static int watch(const char *name, char **command)
{
    static uint8_t block[BLOCK];
    FILE *file = fopen(name, "a");
    double start = now(), first = 0;
    struct rusage used;
    ssize_t count;
    int ends[2], status;
    pid_t child;
    if (!file || pipe(ends) != 0 || (child = fork()) < 0)
        return 0;
    if (child == 0) {
        dup2(ends[1], 1);
        close(ends[0]);
        close(ends[1]);
        execvp(command[0], command);
        _exit(127);
    }
    close(ends[1]);
    while ((count = read(ends[0], block, BLOCK)) > 0) {
        if (first == 0)
            first = now() - start;
        if (fwrite(block, 1, (size_t)count, stdout) != (size_t)count)
            return 0;
    }
    if (wait4(child, &status, 0, &used) != child || status != 0)
        return 0;
    fprintf(file, "%.2f %ld %.1f\n", seconds(used.ru_utime) + seconds(used.ru_stime), used.ru_maxrss, first / 1e3);
    return fclose(file) == 0 && fflush(stdout) == 0;
}

int main(int count, char **words)
{
    struct buffer b = {0};
    if (count == 4 && strcmp(words[1], "run") == 0)
        return (strcmp(words[2], "uper") == 0 ? run(get_uper, put_coer) : run(get_coer, put_uper)) ? 0 : 1;
    if (count > 3 && strcmp(words[1], "watch") == 0)
        return watch(words[2], words + 3) ? 0 : 1;
    return make_messages(&b, SIZE_MAX, OCTETS) && fwrite(b.octets, 1, b.count, stdout) == b.count ? 0 : 1;
}
