/* Calls two archives of the engine in turn, each entry on the jobs of standard input or on their bodies, and prints how the time of the new one
 * relates to that of the old one. A job stands after its length as two bytes. tools/ratio builds it: names of the former archive begin with
 * `old_`. A job with a line that the former archive does not know, which it refuses with 10, is left out. */
#include "agree.h"
#include <stdio.h>
#include <stdlib.h>
#include <string.h>
#include <time.h>

struct agree_result old_agree_job(const uint8_t *, size_t, uint8_t *, size_t);
struct agree_result old_agree_largest(const uint8_t *, size_t, const uint8_t *, size_t, const uint8_t *, size_t, uint8_t *, size_t);
struct agree_result old_agree_largest_with(size_t, const uint8_t *, size_t, const uint8_t *, size_t, const uint8_t *, size_t, uint8_t *,
                                           size_t);
struct agree_result old_agree_claim(size_t, const uint8_t *, size_t, const uint8_t *, size_t, const uint8_t *, size_t, const uint8_t *, size_t);

/* A job, its bodies S, T, K and C, and its options. A body that it does not have is null. */
struct bodies {
    const uint8_t *at[4];
    size_t length[4];
    size_t options;
};

enum { JOB, LARGEST, LARGEST_WITH, CLAIM, ENTRIES };

static const char letters[] = "STKC";

static const char *const names[ENTRIES] = {"agree_job", "agree_largest", "agree_largest_with", "agree_claim"};

/* What the calls of one entry took, all together. */
struct sums {
    double ratios, most, old, new;
    size_t calls, slowest;
};

static uint8_t job[65536], out[2][AGREE_LINES_ROOM];

static double microseconds(void)
{
    struct timespec now;
    clock_gettime(CLOCK_MONOTONIC, &now);
    return (double)now.tv_sec * 1e6 + (double)now.tv_nsec / 1e3;
}

/* The bodies of a job with good contents; the contents of others are not looked at closely, and they give no bodies. */
static int split(size_t bytes, struct bodies *b)
{
    const char *line = (const char *)job, *end = line + bytes;
    memset(b, 0, sizeof *b);
    while (line < end && *line != '\n') {
        const char *stop = memchr(line, '\n', (size_t)(end - line));
        const char *letter = stop ? memchr(letters, *line, 4) : NULL;
        if (stop == NULL)
            return 0;
        if (strncmp(line, "strict\n", 7) == 0)
            b->options |= AGREE_STRICT;
        else if (strncmp(line, "E 2\n", 4) == 0)
            b->options |= AGREE_EDITION_2;
        else if (letter != NULL && line[1] == ' ')
            b->length[letter - letters] = strtoul(line + 2, NULL, 10) + 1;
        line = stop + 1;
    }
    line++;
    for (int i = 0; i < 4; i++) {
        if (b->length[i] == 0)
            continue;
        b->at[i] = (const uint8_t *)line;
        line += --b->length[i];
    }
    return line == end && b->at[0] && b->at[1] && b->at[2];
}

static struct agree_result call(int entry, int is_new, size_t bytes, const struct bodies *b)
{
    uint8_t *to = out[is_new];
    switch (entry) {
    case JOB:
        return (is_new ? agree_job : old_agree_job)(job, bytes, to, sizeof out[0]);
    case LARGEST:
        return (is_new ? agree_largest : old_agree_largest)(b->at[0], b->length[0], b->at[1], b->length[1], b->at[2], b->length[2], to,
                                                            sizeof out[0]);
    case LARGEST_WITH:
        return (is_new ? agree_largest_with : old_agree_largest_with)(b->options, b->at[0], b->length[0], b->at[1], b->length[1], b->at[2],
                                                                      b->length[2], to, sizeof out[0]);
    default:
        return (is_new ? agree_claim : old_agree_claim)(b->options, b->at[0], b->length[0], b->at[1], b->length[1], b->at[2], b->length[2],
                                                        b->at[3], b->length[3]);
    }
}

/* Adds the least time of a call among `rounds`, the two archives in turn; not if it is short, since the clock tells little of it then. */
static void measure(int entry, size_t bytes, const struct bodies *b, int rounds, double cut, size_t which, struct sums *s)
{
    double least[2] = {1e9, 1e9};
    struct agree_result r[2];
    memset(out, 0, sizeof out);
    for (int i = 0; i < 2 * rounds; i++) {
        double start = microseconds();
        r[i % 2] = call(entry, i % 2, bytes, b);
        double took = microseconds() - start;
        if (took < least[i % 2])
            least[i % 2] = took;
    }
    if (entry == JOB && r[0].number == 10 && r[1].number != 10)
        return;
    if (memcmp(&r[0], &r[1], sizeof r[0]) != 0 || memcmp(out[0], out[1], sizeof out[0]) != 0) {
        printf("%s: the archives answer job %zu differently\n", names[entry], which);
        exit(1);
    }
    if (least[0] < cut)
        return;
    double ratio = least[1] / least[0];
    s->ratios += ratio;
    s->old += least[0];
    s->new += least[1];
    s->calls++;
    if (ratio > s->most) {
        s->most = ratio;
        s->slowest = which;
    }
}

int main(int count, char **words)
{
    const int rounds = count > 1 ? atoi(words[1]) : 40;
    const double cut = count > 2 ? atof(words[2]) : 8;
    struct sums sums[ENTRIES] = {{0}};
    uint8_t length[2];
    for (size_t which = 0; fread(length, 1, 2, stdin) == 2; which++) {
        size_t bytes = (size_t)length[0] << 8 | length[1];
        struct bodies b;
        if (fread(job, 1, bytes, stdin) != bytes)
            abort();
        measure(JOB, bytes, &b, rounds, cut, which, &sums[JOB]);
        if (!split(bytes, &b))
            continue;
        measure(LARGEST, bytes, &b, rounds, cut, which, &sums[LARGEST]);
        measure(LARGEST_WITH, bytes, &b, rounds, cut, which, &sums[LARGEST_WITH]);
        if (b.at[3] != NULL)
            measure(CLAIM, bytes, &b, rounds, cut, which, &sums[CLAIM]);
    }
    for (int i = 0; i < ENTRIES; i++)
        printf("%s: %zu calls of %.0f us and more, mean ratio %.3f, most %.3f (job %zu), all together %.3f\n", names[i], sums[i].calls, cut,
               sums[i].ratios / (double)sums[i].calls, sums[i].most, sums[i].slowest, sums[i].new / sums[i].old);
    return 0;
}
