/* Measures the stack that a call of each entry takes, at its worst over a stream of jobs, and ends with status 1 if one takes more than
 * include/agree.h says. A call runs on a stack that was filled with a pattern; the bytes that changed are counted, less those of a
 * thread that does nothing. The jobs come from standard input, each after its length as two bytes:
 *
 *     gcc -O2 -pthread -Iinclude -o target/stack tools/stack.c target/staticlib/libcabi.a
 *     oracle stack-stdin | target/stack
 */
#include "agree.h"
#include <pthread.h>
#include <stdio.h>
#include <stdlib.h>
#include <string.h>

#define STACK (512u << 10)
#define PATTERN 0xa5

static uint8_t *stack;
static char job[65536];
static uint8_t out[AGREE_LINES_ROOM];
static size_t job_length, room, options;

/* What follows a line, if the text begins with it. */
static const char *after(const char *line, const char *text)
{
    size_t length = strlen(line);
    return text + (strncmp(text, line, length) == 0 ? length : 0);
}

/* The bodies of the job, if its contents can be read, and its sort; `strict` and the edition are left aside. A job without a claim has its
 * list in place of one. */
enum sort { PLAIN, CLAIMED, PIECES, SORTS };
static const char *body[4];
static size_t body_length[4];
static enum sort sort;

static int split(void)
{
    int head = 0, more = 0;
    job[job_length] = 0;
    const char *line = after("E 1\n", after("E 2\n", after("strict\n", job)));
    const char *lengths = after("pieces\n", line);
    sort = PLAIN;
    if (sscanf(lengths, "S %zu\nT %zu\nK %zu%n", &body_length[0], &body_length[1], &body_length[2], &head) != 3)
        return 0;
    int claimed = sscanf(lengths + head, "\nC %zu%n", &body_length[3], &more) == 1;
    if (!claimed)
        body_length[3] = 0;
    body[0] = lengths + head + more + 2;
    for (int i = 0; i < 4; i++)
        if (body_length[i] > job_length)
            return 0;
    for (int i = 1; i < 4; i++)
        body[i] = body[i - 1] + body_length[i - 1];
    if (body[3] + body_length[3] != job + job_length)
        return 0;
    if (!claimed) {
        body[3] = body[2];
        body_length[3] = body_length[2];
    }
    sort = claimed ? CLAIMED : lengths > line ? PIECES : PLAIN;
    return 1;
}

static void *nothing(void *unused) { return unused; }

static void *run_job(void *unused)
{
    agree_job((const uint8_t *)job, job_length, out, room);
    return unused;
}

static void *run_largest(void *unused)
{
    agree_largest((const uint8_t *)body[0], body_length[0], (const uint8_t *)body[1], body_length[1], (const uint8_t *)body[2],
                  body_length[2], out, room);
    return unused;
}

static void *run_with(void *unused)
{
    agree_largest_with(options, (const uint8_t *)body[0], body_length[0], (const uint8_t *)body[1], body_length[1],
                       (const uint8_t *)body[2], body_length[2], out, room);
    return unused;
}

static void *run_claim(void *unused)
{
    agree_claim(options, (const uint8_t *)body[0], body_length[0], (const uint8_t *)body[1], body_length[1], (const uint8_t *)body[2],
                body_length[2], (const uint8_t *)body[3], body_length[3]);
    return unused;
}

/* The bytes that a thread with this work changes on its stack, which is filled anew afterwards. */
static size_t used(void *(*work)(void *))
{
    pthread_attr_t attributes;
    pthread_t thread;
    size_t untouched = 0;
    pthread_attr_init(&attributes);
    if (pthread_attr_setstack(&attributes, stack, STACK) != 0 || pthread_create(&thread, &attributes, work, NULL) != 0)
        abort();
    pthread_join(thread, NULL);
    pthread_attr_destroy(&attributes);
    while (untouched < STACK && stack[untouched] == PATTERN)
        untouched++;
    memset(stack + untouched, PATTERN, STACK - untouched);
    return STACK - untouched;
}

struct worst {
    const char *entry;
    void *(*work)(void *);
    size_t options, bytes, at;
};

/* One call with an output that suffices and one with none; a claim takes no output. */
static void measure(struct worst *worst, size_t at)
{
    const size_t most = worst->work == run_claim ? 0 : sizeof out;
    options = worst->options;
    for (room = 0; room <= most; room += sizeof out) {
        size_t bytes = used(worst->work);
        if (bytes > worst->bytes) {
            worst->bytes = bytes;
            worst->at = at;
        }
    }
}

int main(void)
{
    struct worst entries[] = {{"agree_job", run_job, 0, 0, 0},
                              {"agree_job, with a claim", run_job, 0, 0, 0},
                              {"agree_job, with pieces", run_job, 0, 0, 0},
                              {"agree_largest", run_largest, 0, 0, 0},
                              {"agree_largest_with, strict", run_with, AGREE_STRICT, 0, 0},
                              {"agree_largest_with, edition 2", run_with, AGREE_EDITION_2, 0, 0},
                              {"agree_largest_with, strict, edition 2", run_with, AGREE_STRICT + AGREE_EDITION_2, 0, 0},
                              {"agree_claim", run_claim, 0, 0, 0},
                              {"agree_claim, strict", run_claim, AGREE_STRICT, 0, 0},
                              {"agree_claim, edition 2", run_claim, AGREE_EDITION_2, 0, 0},
                              {"agree_claim, strict, edition 2", run_claim, AGREE_STRICT + AGREE_EDITION_2, 0, 0}};
    const size_t all = sizeof entries / sizeof entries[0];
    uint8_t length[2];
    size_t count = 0, failed = 0;
    stack = aligned_alloc(4096, STACK);
    memset(stack, PATTERN, STACK);
    while (fread(length, 1, 2, stdin) == 2) {
        job_length = (size_t)length[0] << 8 | length[1];
        if (fread(job, 1, job_length, stdin) != job_length)
            abort();
        int whole = split();
        measure(&entries[sort], count);
        /* pieces are for whole jobs alone: the other entries are measured on jobs without them */
        for (size_t i = SORTS; whole && sort != PIECES && i < all; i++)
            measure(&entries[i], count);
        count++;
    }
    size_t base = used(nothing);
    for (size_t i = 0; i < all; i++) {
        size_t bytes = entries[i].bytes > base ? entries[i].bytes - base : 0;
        printf("%s: %zu bytes of stack at most, in job %zu of %zu\n", entries[i].entry, bytes, entries[i].at, count);
        failed |= bytes > AGREE_STACK;
    }
    if (failed || count == 0)
        printf("agree.h says at most %d\n", AGREE_STACK);
    return failed || count == 0;
}
