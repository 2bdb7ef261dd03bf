/* Calls the engine from C, through each entry: an answer, each refusal that it can give, an output that is too short, empty inputs,
 * options, claims, pieces. Prints one line for each call, which .ci/run compares with examples/host.out. Each call is made in a thread whose stack has just
 * the bytes that agree.h tells, and what the C library itself keeps there:
 *
 *     gcc -pthread -Iinclude -o host examples/host.c target/staticlib/libcabi.a
 */
#include "agree.h"
#include <pthread.h>
#include <stdio.h>
#include <stdlib.h>
#include <string.h>

/* Thread data, thread-local variables and the first frames: less than two pages with glibc on x86-64. */
#define THREAD_OWN 8192

/* Bytes of the lines `size`, `set` and `tree` at their longest, without those of pieces. */
#define RECORD_ROOM 5776

static int failed;

/* The bytes of one call; `output` is lent with `room` bytes and lies in a larger area, of which bytes that must not change are checked. */
struct call {
    const uint8_t *first, *second, *required, *claim, *job;
    size_t options, first_length, second_length, required_length, claim_length, job_length, room;
    uint8_t output[2 * AGREE_LINES_ROOM];
    struct agree_result result;
};

static struct call call;

static void *run_largest(void *unused)
{
    call.result = agree_largest(call.first, call.first_length, call.second, call.second_length, call.required, call.required_length,
                                call.output, call.room);
    return unused;
}

static void *run_largest_with(void *unused)
{
    call.result = agree_largest_with(call.options, call.first, call.first_length, call.second, call.second_length, call.required,
                                     call.required_length, call.output, call.room);
    return unused;
}

static void *run_claim(void *unused)
{
    call.result = agree_claim(call.options, call.first, call.first_length, call.second, call.second_length, call.required,
                              call.required_length, call.claim, call.claim_length);
    return unused;
}

static void *run_job(void *unused)
{
    call.result = agree_job(call.job, call.job_length, call.output, call.room);
    return unused;
}

static struct agree_result in_thread(void *(*work)(void *))
{
    pthread_attr_t attributes;
    pthread_t thread;
    memset(call.output, 0x5a, sizeof call.output);
    pthread_attr_init(&attributes);
    if (pthread_attr_setstacksize(&attributes, AGREE_STACK + THREAD_OWN) != 0 || pthread_create(&thread, &attributes, work, NULL) != 0)
        abort();
    pthread_join(thread, NULL);
    pthread_attr_destroy(&attributes);
    struct agree_result r = call.result;
    for (size_t i = r.length; i < sizeof call.output; i++)
        if (call.output[i] != 0x5a)
            failed = 1;
    int named = r.number == 8 || r.number == 14;
    if (r.number != 0 ? r.size != 0 || r.length != 0 : r.letter != 0 || r.place != 0)
        failed = 1;
    if (!named && (r.first != 0 || r.second != 0 || r.third != 0))
        failed = 1;
    return r;
}

static void lend(const char *first, const char *second, const char *required, size_t room)
{
    call.first = (const uint8_t *)first, call.first_length = strlen(first);
    call.second = (const uint8_t *)second, call.second_length = strlen(second);
    call.required = (const uint8_t *)required, call.required_length = strlen(required);
    call.room = room;
}

static void show(struct agree_result r)
{
    if (r.number == 0)
        printf("size %zu length %zu tree %.*s\n", r.size, r.length, (int)r.length, (const char *)call.output);
    else if (r.number == 8 || r.number == 14)
        printf("refused %zu %c %zu labels at %zu %zu %zu\n", r.number, (int)r.letter, r.place, r.first, r.second, r.third);
    else
        printf("refused %zu %c %zu\n", r.number, (int)r.letter, r.place);
}

static void largest(const char *first, const char *second, const char *required, size_t room)
{
    lend(first, second, required, room);
    show(in_thread(run_largest));
}

/* The same with options. */
static void largest_with(size_t options, const char *first, const char *second, const char *required, size_t room)
{
    lend(first, second, required, room);
    call.options = options;
    printf("options %zu: ", options);
    show(in_thread(run_largest_with));
}

/* The verdict on a claim. */
static void claim(size_t options, const char *first, const char *second, const char *required, const char *claimed)
{
    lend(first, second, required, 0);
    call.options = options;
    call.claim = (const uint8_t *)claimed, call.claim_length = strlen(claimed);
    printf("claim, options %zu: ", options);
    struct agree_result r = in_thread(run_claim);
    if (r.number == 0)
        printf("size %zu length %zu\n", r.size, r.length);
    else
        show(r);
}

/* The bytes of a label of the job from its place on: to its closing quote, or to a comma or the end of its body. */
static int label_length(const char *label, const char *end)
{
    size_t length = *label == '\'' ? strcspn(label + 1, "'") + 2 : strcspn(label, ",");
    return (int)(length < (size_t)(end - label) ? length : (size_t)(end - label));
}

/* Where a body of the job ends: the claim ends with the job, the list as many bytes before as the contents say of a claim. */
static const char *end_of(const char *bytes, size_t letter)
{
    const char *line = strstr(bytes, "\nC ");
    int claimed = line != NULL && line < strstr(bytes, "\n\n");
    return bytes + strlen(bytes) - (letter == 'K' && claimed ? strtoul(line + 3, NULL, 10) : 0);
}

/* The same for a whole job. */
static void job(const char *bytes, size_t room)
{
    call.job = (const uint8_t *)bytes, call.job_length = strlen(bytes);
    call.room = room;
    struct agree_result r = in_thread(run_job);
    const size_t places[] = {r.first, r.second, r.third};
    if (r.number == 0)
        printf("job: %zu bytes\n%.*s", r.length, (int)r.length, (const char *)call.output);
    else
        printf("job: refused %zu %c %zu", r.number, (int)r.letter, r.place);
    for (int i = 0; (r.number == 8 || r.number == 14) && i < 3; i++)
        printf("%s %.*s", i == 0 ? " labels" : "", label_length(bytes + places[i], end_of(bytes, r.letter)), bytes + places[i]);
    if (r.number != 0)
        putchar('\n');
}

/* A caterpillar of 80 leaves, its labels these with a number: no answer is deeper than it is against itself. */
static const char *caterpillar_of(char *text, const char *label)
{
    size_t n = 0;
    for (int i = 0; i < 79; i++)
        text[n++] = '(';
    for (int i = 0; i < 80; i++) {
        if (i > 0)
            text[n++] = ',';
        n += (size_t)sprintf(text + n, label, i);
        if (i > 0)
            text[n++] = ')';
    }
    text[n++] = ';';
    text[n] = 0;
    return text;
}

static const char *caterpillar(void)
{
    static char text[AGREE_TREE_ROOM + 1];
    return caterpillar_of(text, "t%02d");
}

/* With labels as long as may be, in quotes: no text is longer. */
#define LONGEST_LABEL "'Label_of leaf.Label_of leaf.La%02d'"
static const char *longest(void)
{
    static char text[AGREE_TREE_ROOM + 1];
    return caterpillar_of(text, LONGEST_LABEL);
}

/* The first of its labels, so many. */
static const char *longest_list(int count)
{
    static char list[AGREE_TREE_ROOM];
    size_t n = 0;
    for (int i = 0; i < count; i++)
        n += (size_t)sprintf(list + n, "%s" LONGEST_LABEL, i > 0 ? "," : "", i);
    return list;
}

/* The job of a tree twice and a list, with lines before their lengths. */
static const char *job_of(const char *lines, const char *tree, const char *list)
{
    static char text[4 * AGREE_TREE_ROOM];
    sprintf(text, "%sS %zu\nT %zu\nK %zu\n\n%s%s%s", lines, strlen(tree), strlen(tree), strlen(list), tree, tree, list);
    return text;
}

/* With all its labels required: no record is longer. */
static const char *longest_job(const char *lines)
{
    return job_of(lines, longest(), longest_list(80));
}

/* The same with all labels claimed: no job whose claim passes is longer, but for such lines. */
static const char *longest_claim(const char *lines)
{
    static char text[4 * AGREE_TREE_ROOM];
    const char *tree = longest(), *list = longest_list(80);
    size_t n = strlen(tree), m = strlen(list);
    sprintf(text, "%sS %zu\nT %zu\nK %zu\nC %zu\n\n%s%s%s%s", lines, n, n, m, m, tree, tree, list, list);
    return text;
}

/* As many leaves as may be, of which 27 are required and each of the others hangs at a place of its own, 53 places in all. Leaf 0 is the
 * innermost of the required ones; a further one and the leaf above it are joined above all before, and then one more leaf. */
static const char *pieced(void)
{
    static char text[AGREE_TREE_ROOM + 1];
    size_t n = 53;
    memset(text, '(', n);
    n += (size_t)sprintf(text + n, LONGEST_LABEL "," LONGEST_LABEL ")", 0, 27);
    for (int i = 1; i < 27; i++)
        n += (size_t)sprintf(text + n, ",(" LONGEST_LABEL "," LONGEST_LABEL "))," LONGEST_LABEL ")", i, 27 + i, 53 + i);
    strcpy(text + n, ";");
    return text;
}

/* With the line `pieces` no answer is longer. */
static const char *pieces_job(const char *lines)
{
    return job_of(lines, pieced(), longest_list(27));
}

/* The labels of the first of these trees in a list, and what may follow. */
static const char *eighty_and(const char *rest)
{
    static char text[80 * 4 + 16];
    size_t n = 0;
    for (int i = 0; i < 80; i++)
        n += (size_t)sprintf(text + n, "%st%02d", i > 0 ? "," : "", i);
    strcpy(text + n, rest);
    return text;
}

/* So many blanks. */
static const char *blanks(size_t n)
{
    static char text[16386];
    memset(text, ' ', n);
    text[n] = 0;
    return text;
}

/* The second edition reads capital letters as small ones; labels come back as the first tree spells them. */
static void editions(void)
{
    largest_with(AGREE_EDITION_2, "((Ab,c),D);", "((aB,C),d);", "AB,d", AGREE_TREE_ROOM);
    largest_with(AGREE_EDITION_2, "((aB,C),d);", "((Ab,c),D);", "AB,d", 11);
    largest_with(AGREE_EDITION_2, "((aB,C),d);", "((Ab,c),D);", "AB,d", 10);
    largest_with(0, "((Ab,c),D);", "((aB,C),d);", "AB,d", AGREE_TREE_ROOM);
    /* a repeat in each body */
    largest_with(0, "(A,a);", "(a,b);", "", AGREE_TREE_ROOM);
    largest_with(AGREE_EDITION_2, "(A,a);", "(a,b);", "", AGREE_TREE_ROOM);
    largest_with(AGREE_EDITION_2, "(a,b);", "((a,b),A);", "", AGREE_TREE_ROOM);
    largest_with(AGREE_EDITION_2, "(a,b);", "(b,a);", "z,Z", AGREE_TREE_ROOM);
    /* order and ties; an underscore comes after the capitals, or before every letter */
    largest_with(0, "((b,C),D);", "((b,D),C);", "", AGREE_TREE_ROOM);
    largest_with(AGREE_EDITION_2, "((b,C),D);", "((b,D),C);", "", AGREE_TREE_ROOM);
    largest_with(0, "(('_',B),C);", "(('_',C),B);", "", AGREE_TREE_ROOM);
    largest_with(AGREE_EDITION_2, "(('_',B),C);", "(('_',C),B);", "", AGREE_TREE_ROOM);
    /* a required label that a tree lacks; three that clash, with their places in the list */
    largest_with(AGREE_EDITION_2, "(a,b);", "(b,c);", "B,C", AGREE_TREE_ROOM);
    largest_with(AGREE_EDITION_2, "(a,b);", "(b,c);", "B,A", AGREE_TREE_ROOM);
    largest_with(AGREE_EDITION_2, "((A,b),C);", "((a,c),B);", "c,B,a", AGREE_TREE_ROOM);
    /* strict: partners in other letters and quotes, and a label that is another one */
    largest_with(AGREE_STRICT, "('a b',c);", "(C,A_B);", "C", AGREE_TREE_ROOM);
    largest_with(AGREE_STRICT + AGREE_EDITION_2, "('a b',c);", "(C,A_B);", "C", AGREE_TREE_ROOM);
    largest_with(AGREE_STRICT + AGREE_EDITION_2, "('a b',c);", "(C,'A_B');", "C", AGREE_TREE_ROOM);
    largest_with(AGREE_STRICT + AGREE_EDITION_2, caterpillar(), caterpillar(), "T79,T00", AGREE_TREE_ROOM);
}

static void edition_jobs(void)
{
    job("E 2\nS 11\nT 11\nK 4\n\n((Ab,c),D);((aB,C),d);AB,d", AGREE_LINES_ROOM);
    job("E 1\nS 11\nT 11\nK 4\n\n((Ab,c),D);((aB,C),d);AB,d", AGREE_LINES_ROOM);
    job("E 2\nS 10\nT 10\nK 5\n\n((A,b),C);((a,c),B);c,B,a", AGREE_LINES_ROOM);
    job("strict\nE 2\nS 10\nT 8\nK 1\n\n('a b',c);(C,A_B);C", AGREE_LINES_ROOM);
    job("E 2\nstrict\nS 10\nT 8\nK 1\n\n('a b',c);(C,A_B);C", AGREE_LINES_ROOM);
    job("E 3\nS 10\nT 8\nK 1\n\n('a b',c);(C,A_B);C", AGREE_LINES_ROOM);
    job(longest_job("strict\nE 2\n"), RECORD_ROOM);
    job(longest_job("strict\nE 2\n"), RECORD_ROOM - 1);
}

#define P "((((a,b),c),d),e);"
#define Q "((((a,c),b),d),e);"
#define R "((((a,b),c),e),d);"

static void claims(void)
{
    /* the largest sets pass, tied ones too, in any order and spelling */
    claim(0, "((a,b),(c,d));", "((a,c),(b,d));", "a", "a,b");
    claim(0, "((a,b),(c,d));", "((a,c),(b,d));", "a", "d,a");
    claim(0, P, Q, "c", "e,d,c,b");
    claim(0, P, R, "d,e", "e,d");
    claim(0, "((a_b,c),'d_e');", "(('a b','c'),'d_e');", "'c'", "'d_e',c,'a b'");
    claim(0, "(a,b);", "(c,d);", "", "");
    /* 15, also where no leaf can be added */
    claim(0, P, Q, "c", "e,d,c");
    claim(0, P, R, "", "e,d");
    claim(0, "a;", "a;", "", "");
    /* 14, with the places of the three labels in the claim; 8, with their places in the list */
    claim(0, P, R, "", "e,b,d,c,a");
    claim(0, P, R, "d,e", "e,d,a");
    claim(0, P, R, "a,d,e", "a,b,c,d");
    claim(0, "((a_b,'c_d'),e);", "(('a b',e),'c_d');", "e", "'c_d',e,'a b'");
    /* 13, in the order of the list; before 14 and 15 */
    claim(0, P, Q, "e,d,b", "e,a,b");
    claim(0, P, Q, "b,d,e", "e");
    claim(0, P, Q, "a,e", "a,b,c");
    claim(0, "a;", "a;", "a", "");
    /* 6 and 7 of the claim, in its order; before 13, after 6, 7 and 8 of the list */
    claim(0, "((a,b),x);", "((y,b),a);", "a", "b,y,x");
    claim(0, "((a,b),x);", "((y,b),a);", "a", "b,a,x,y");
    claim(0, "((a,b),x);", "((y,b),a);", "a,x", "a,y");
    claim(0, "((a,b),x);", "((y,b),a);", "y", "x");
    claim(0, "((a,b),c);", "((a,c),b);", "b,c,a", "z");
    /* a claim that cannot be read; before 6 and 8 of the list, after a list that cannot be read */
    claim(0, "(a,b);", "(b,a);", "z", "b,a b");
    claim(0, "((a,b),c);", "((a,c),b);", "b,c,a", "a,b,");
    claim(0, "(a,b);", "(b,a);", "z", "a,'aaaaaaaaaaaaaaaaaaaaaaaaaaaaaaaaa'");
    claim(0, "(a,b);", "(b,a);", "z", "b,a,'b'");
    claim(0, "(a,b);", "(b,a);", "z,", "b,");
    claim(0, "(a,b);", "(b,a)", "z,", "b,");
    claim(0, "(a b);", "(b,a)", "z,", "b,");
    /* options: each flag, both, and such that mean nothing */
    claim(AGREE_STRICT, "((a,b),c);", "((a,c),b);", "c", "b,c");
    claim(AGREE_STRICT, "((a,b),x);", "(b,a);", "z,", "b,");
    claim(AGREE_STRICT, "(b,a);", "(y,(a,b));", "b", "a,b");
    claim(0, "(b,a);", "(y,(a,b));", "b", "a,b");
    claim(AGREE_EDITION_2, "((Ab,c),D);", "((aB,C),d);", "AB", "d,C,aB");
    claim(0, "((Ab,c),D);", "((aB,C),d);", "", "d,C,aB");
    claim(AGREE_EDITION_2, "((A,b),C);", "((a,c),B);", "b", "c,B,a");
    claim(AGREE_EDITION_2, "(a,b);", "(b,a);", "a", "b,a,B");
    claim(AGREE_STRICT + AGREE_EDITION_2, "('a b',c);", "(C,A_B);", "C", "c,A_b");
    claim(AGREE_STRICT + AGREE_EDITION_2, "('a b',c);", "(C,'A_B');", "C", "c");
    claim(4, "(a,b);", "(b,a);", "a", "b,a");
    claim(AGREE_STRICT + 4, "(a b);", "a;", "a,", ",");
    claim(SIZE_MAX, "(a,b);", "(b,a);", "a", "b,a");
    /* as many labels as may be, and one more */
    claim(AGREE_STRICT, longest(), longest(), longest_list(80), longest_list(80));
    claim(0, caterpillar(), caterpillar(), "t79,t00", eighty_and(""));
    claim(0, caterpillar(), caterpillar(), "t79,t00", eighty_and(",'t80'"));
    struct agree_result r = agree_claim(0, NULL, 0, NULL, 0, NULL, 0, NULL, 0);
    printf("nothing claimed: refused %zu %c %zu\n", r.number, (int)r.letter, r.place);
}

static void claim_jobs(void)
{
    job("S 14\nT 14\nK 1\nC 3\n\n((a,b),(c,d));((a,c),(b,d));ad,a", AGREE_LINES_ROOM);
    job("S 14\nT 14\nK 1\nC 3\n\n((a,b),(c,d));((a,c),(b,d));ad,a", 11);
    job("S 14\nT 14\nK 1\nC 3\n\n((a,b),(c,d));((a,c),(b,d));ad,a", 10);
    job("S 2\nT 2\nK 0\nC 0\n\na;b;", AGREE_LINES_ROOM);
    job("S 2\nT 2\nK 0\n\na;b;", AGREE_LINES_ROOM);
    job("S 2\nT 2\nK 1\nC 0\n\na;a;a", AGREE_LINES_ROOM);
    job("S 18\nT 18\nK 5\nC 5\n\n" P Q "e,d,b" "e,a,b", AGREE_LINES_ROOM);
    job("S 18\nT 18\nK 0\nC 3\n\n" P R "e,d", AGREE_LINES_ROOM);
    job("S 18\nT 18\nK 1\nC 9\n\n" P R "b" "e,b,d,c,a", AGREE_LINES_ROOM);
    job("S 18\nT 18\nK 5\nC 7\n\n" P R "a,e,d" "a,b,c,d", 0);
    job("S 18\nT 18\nK 5\nC 0\n\n" P R "a,e,d", 0);
    job("S 10\nT 10\nK 1\nC 5\n\n((a,b),x);((y,b),a);ab,x,y", AGREE_LINES_ROOM);
    job("S 10\nT 10\nK 1\nC 5\n\n((a,b),x);((y,b),a);ab,y,x", AGREE_LINES_ROOM);
    job("S 6\nT 6\nK 1\nC 2\n\n(a,b);(b,a);zb,", AGREE_LINES_ROOM);
    job("E 2\nS 10\nT 10\nK 1\nC 5\n\n((A,b),C);((a,c),B);bc,B,a", AGREE_LINES_ROOM);
    job("strict\nE 2\nS 10\nT 8\nK 1\nC 5\n\n('a b',c);(C,A_B);Cc,A_b", AGREE_LINES_ROOM);
    job("S 2\nT 2\nC 1\nK 1\n\na;a;aa", AGREE_LINES_ROOM);
    job("S 16\nT 18\nK 13\nC 3\n\n((a_b,'c_d'),e);(('a b',e),'c_d');'a b','c_d',e" "a_b", AGREE_LINES_ROOM);
    job(longest_claim("strict\nE 2\n"), AGREE_LINES_ROOM);
}

static void piece_jobs(void)
{
    const char *four = "pieces\nS 14\nT 14\nK 1\n\n((a,b),(c,d));((a,c),(b,d));a";
    job(four, AGREE_LINES_ROOM);
    job(four, 47);
    job(four, 46);
    job("pieces\nS 14\nT 14\nK 3\n\n(((a,x),b),y);(y,(b,(x,a)));b,a", AGREE_LINES_ROOM);
    /* nothing required, nothing shared, all required */
    job("pieces\nS 14\nT 14\nK 0\n\n((a,b),(c,d));((a,c),(b,d));", AGREE_LINES_ROOM);
    job("pieces\nS 2\nT 2\nK 0\n\na;b;", AGREE_LINES_ROOM);
    job("pieces\nS 6\nT 6\nK 3\n\n(a,b);(b,a);b,a", AGREE_LINES_ROOM);
    /* a leaf at two places is on no line */
    job("pieces\nS 10\nT 10\nK 3\n\n((a,b),c);((a,c),b);a,c", AGREE_LINES_ROOM);
    /* labels as the first tree spells them */
    job("strict\nE 2\npieces\nS 16\nT 18\nK 7\n\n((A_b,'x_Y'),c);(('X_y','a B'),C);'a b',C", AGREE_LINES_ROOM);
    /* what a job is refused for without the line; a claim, an empty one too; the line twice and at a wrong place */
    job("pieces\nS 10\nT 10\nK 5\n\n((a,b),c);((a,c),b);c,a,b", AGREE_LINES_ROOM);
    job("strict\npieces\nS 10\nT 6\nK 2\n\n((a,b),x);(b,a);b,", AGREE_LINES_ROOM);
    job("pieces\nS 2\nT 2\nK 1\n\na;b;a", 0);
    job("pieces\nS 2\nT 2\nK 1\nC 1\n\na;a;aa", AGREE_LINES_ROOM);
    job("pieces\nS 2\nT 2\nK 1\nC 0\n\na;a;a", AGREE_LINES_ROOM);
    job("pieces\npieces\nS 2\nT 2\nK 1\n\na;a;a", AGREE_LINES_ROOM);
    job("pieces\nE 2\nS 2\nT 2\nK 1\n\na;a;a", AGREE_LINES_ROOM);
    job("S 2\npieces\nT 2\nK 1\n\na;a;a", AGREE_LINES_ROOM);
    /* the longest lines, and the same job without its pieces */
    job(pieces_job("strict\nE 2\npieces\n"), AGREE_LINES_ROOM);
    job(pieces_job("strict\nE 2\npieces\n"), AGREE_LINES_ROOM - 1);
    job(pieces_job("pieces\n"), RECORD_ROOM);
    job(pieces_job(""), RECORD_ROOM);
}

int main(void)
{
    largest("((a,b),(c,d));", "((a,c),(b,d));", "a", AGREE_TREE_ROOM);
    largest("((((a,b),c),d),e);", "((((a,b),c),e),d);", "d,e", AGREE_TREE_ROOM);
    largest("(a,b);", "(c,d);", "", 0);
    largest("a;", "a;", "a", 2);
    largest("(a,b);", "(b,a);", "", 6);
    largest("(a,b);", "(b,a);", "", 5);
    largest("(a,b);", "(b,a);", "", 0);
    largest("(a b);", "a;", "", AGREE_TREE_ROOM);
    largest("a;", "(a,b)", "", AGREE_TREE_ROOM);
    largest("", "a;", "", AGREE_TREE_ROOM);
    largest("a;", "aaaaaaaaaaaaaaaaaaaaaaaaaaaaaaaa;", "", AGREE_TREE_ROOM);
    largest("a;", "aaaaaaaaaaaaaaaaaaaaaaaaaaaaaaaaa;", "", AGREE_TREE_ROOM);
    largest("a;", "a;", "a,a", AGREE_TREE_ROOM);
    largest("(((((((((((((((((((((((((((((((((((((((((((((((((((((((((((((((((((((((((((((((((", "a;", "", AGREE_TREE_ROOM);
    largest("a;", "b;", "b", AGREE_TREE_ROOM);
    largest("a;", "b;", "a", AGREE_TREE_ROOM);
    largest("((a,b),c);", "((a,c),b);", "c,a,b", AGREE_TREE_ROOM);
    largest(caterpillar(), caterpillar(), "t79,t00", AGREE_TREE_ROOM);

    /* labels in quotes, and bare ones with underscores for their blanks */
    largest("((a_b,c),'d_e');", "(('a b','c'),'d_e');", "'c',a_b", AGREE_TREE_ROOM);
    largest("((a_b,c),'d_e');", "(('a b','c'),'d_e');", "'c',a_b", 16);
    largest("((a_b,c),'d_e');", "(('a b','c'),'d_e');", "'c',a_b", 15);
    largest("((a-,aZ),a_b);", "((a-,'a b'),aZ);", "", AGREE_TREE_ROOM);
    largest("('a b',(c,a_b));", "a;", "", AGREE_TREE_ROOM);
    largest("(a,'');", "a;", "", AGREE_TREE_ROOM);
    largest("a;", "(a,'a", "", AGREE_TREE_ROOM);
    largest("a;", "a;", "'aaaaaaaaaaaaaaaaaaaaaaaaaaaaaaaa'", AGREE_TREE_ROOM);
    largest("a;", "a;", "'aaaaaaaaaaaaaaaaaaaaaaaaaaaaaaaaa'", AGREE_TREE_ROOM);
    largest("('a b',c);", "(c,'a_b');", "'c','a b'", AGREE_TREE_ROOM);
    largest("((a_b,'c_d'),e);", "(('a b',e),'c_d');", "e,'c_d','a b'", AGREE_TREE_ROOM);
    largest(longest(), longest(), "", AGREE_TREE_ROOM);
    largest(longest(), longest(), "", AGREE_TREE_ROOM - 1);

    struct agree_result r = agree_largest(NULL, 0, NULL, 0, NULL, 0, NULL, 0);
    printf("nothing: refused %zu %c %zu\n", r.number, (int)r.letter, r.place);

    /* without options: as agree_largest */
    largest_with(0, "((a,b),x);", "(b,a);", "b,a", AGREE_TREE_ROOM);
    largest_with(0, "((a,b),x);", "(b,a);", "a,x", AGREE_TREE_ROOM);
    largest_with(0, "(b,a);", "((a,b),x);", "a,x", AGREE_TREE_ROOM);
    /* strict, equal leaf sets */
    largest_with(AGREE_STRICT, "((a,b),(c,d));", "((a,c),(b,d));", "b,a", AGREE_TREE_ROOM);
    largest_with(AGREE_STRICT, "((a,b),(c,d));", "((a,c),(b,d));", "b,a", 6);
    largest_with(AGREE_STRICT, "((a,b),(c,d));", "((a,c),(b,d));", "b,a", 5);
    largest_with(AGREE_STRICT, "(a,b);", "(b,a);", "b,", AGREE_TREE_ROOM);
    largest_with(AGREE_STRICT, "((a,b),c);", "((a,c),b);", "c,a,b", AGREE_TREE_ROOM);
    largest_with(AGREE_STRICT, caterpillar(), caterpillar(), "t79,t00", AGREE_TREE_ROOM);
    /* strict, a leaf that the second tree lacks, one that the first lacks, both, several; before a list that cannot be read */
    largest_with(AGREE_STRICT, "((a,b),x);", "(b,a);", "b,a", AGREE_TREE_ROOM);
    largest_with(AGREE_STRICT, "(b,a);", "(y,(a,b));", "b,a", AGREE_TREE_ROOM);
    largest_with(AGREE_STRICT, "((a,b),x);", "((y,(b,a)),c);", "b,a", AGREE_TREE_ROOM);
    largest_with(AGREE_STRICT, "((z,y),a);", "a;", "a,z", AGREE_TREE_ROOM);
    largest_with(AGREE_STRICT, "((a,x),b);", "(b,a);", "b,", 0);
    /* strict, a leaf with its partner in quotes, and one that is not the same */
    largest_with(AGREE_STRICT, "(a_b,'c');", "(c,'a b');", "'a b'", AGREE_TREE_ROOM);
    largest_with(AGREE_STRICT, "('c',a_b);", "(c,'a_b');", "'c'", AGREE_TREE_ROOM);
    /* strict, a tree that cannot be read */
    largest_with(AGREE_STRICT, "((a,b),x);", "(b,a)", "b,a", AGREE_TREE_ROOM);
    editions();
    /* options that mean nothing, whatever the texts are */
    largest_with(4, "((a,b),x);", "(b,a);", "b,a", AGREE_TREE_ROOM);
    largest_with(AGREE_STRICT + 4, "(a b);", "a;", "a,", AGREE_TREE_ROOM);
    largest_with(AGREE_EDITION_2 + 4, "(A,a);", "a;", "A", AGREE_TREE_ROOM);
    largest_with(SIZE_MAX, "(b,a);", "((a,b),x);", "a,x", 0);
    largest_with(SIZE_MAX / 2 + 1 + AGREE_STRICT, "((a,b),x);", "(b,a);", "b,a", AGREE_TREE_ROOM);
    r = agree_largest_with(AGREE_STRICT, NULL, 0, NULL, 0, NULL, 0, NULL, 0);
    printf("nothing, strict: refused %zu %c %zu\n", r.number, (int)r.letter, r.place);
    r = agree_largest_with(AGREE_EDITION_2, NULL, 0, NULL, 0, NULL, 0, NULL, 0);
    printf("nothing, edition 2: refused %zu %c %zu\n", r.number, (int)r.letter, r.place);

    job("S 14\nT 14\nK 1\n\n((a,b),(c,d));((a,c),(b,d));a", AGREE_LINES_ROOM);
    job("S 14\nT 14\nK 1\n\n((a,b),(c,d));((a,c),(b,d));a", 26);
    job("S 14\nT 14\nK 1\n\n((a,b),(c,d));((a,c),(b,d));a", 27);
    job("S 10\nT 10\nK 5\n\n((a,b),c);((a,c),b);c,a,b", AGREE_LINES_ROOM);
    job("S 2", AGREE_LINES_ROOM);
    job("S 2\nT 2\nK 1\n\na;b;a", AGREE_LINES_ROOM);
    job("strict\nS 14\nT 14\nK 1\n\n((a,b),(c,d));((a,c),(b,d));a", AGREE_LINES_ROOM);
    job("strict\nS 14\nT 14\nK 1\n\n((a,b),(c,d));((a,c),(b,d));a", 26);
    job("strict\nS 10\nT 10\nK 5\n\n((a,b),c);((a,c),b);c,a,b", AGREE_LINES_ROOM);
    job("strict\nS 10\nT 6\nK 2\n\n((a,b),x);(b,a);b,", AGREE_LINES_ROOM);
    job("strict\nS 6\nT 10\nK 3\n\n(b,a);(y,(a,b));b,a", 0);
    job("S 6\nstrict\nT 10\nK 3\n\n(b,a);(y,(a,b));b,a", AGREE_LINES_ROOM);
    job("S 14\nT 16\nK 3\n\n(('a_b',c),d);((c,'a_b'),'d');'c'", AGREE_LINES_ROOM);
    job("S 16\nT 18\nK 13\n\n((a_b,'c_d'),e);(('a b',e),'c_d');e,'c_d','a b'", AGREE_LINES_ROOM);
    job(longest_job(""), RECORD_ROOM);
    job(longest_job(""), RECORD_ROOM - 1);
    edition_jobs();
    job(blanks(16384), AGREE_LINES_ROOM);
    job(blanks(16385), AGREE_LINES_ROOM);
    claims();
    claim_jobs();
    piece_jobs();
    if (failed)
        puts("a byte that had to stay was changed, or a number that had to be 0 was another");
    return failed;
}
