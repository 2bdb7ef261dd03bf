/* agree.h: for hosts written in C. The largest set of leaves on which two rooted binary trees agree, and the check of such a set that another
 * program found.
 *
 * Link with the archive that `tools/archive` makes, target/staticlib/libcabi.a:
 *
 *     gcc -Iinclude host.c target/staticlib/libcabi.a
 *
 * Nothing here allocates, keeps state or needs an initial call. Several threads may call at the same time.
 * A pointer may be null if its length is 0. The output must not overlap an input.
 *
 * Labels. A bare label has 1 to 32 of the bytes A to Z, a to z, 0 to 9, `_`, `.` and `-`; its underscores are read as blanks. A quoted label
 * has 1 to 32 of these bytes or blanks between its quotes, each read as itself. So a_b and 'a b' are one label, and 'a_b' is another. Labels
 * are compared and ordered by the bytes so read; a blank comes before `-`. In an output a label that contains an underscore is in quotes.
 * Any other label is bare, with underscores for its blanks. The place of a quoted label is the place of its opening quote.
 *
 * Editions. The naming code, which is the rule for comparing labels, has two editions. The first is the default: capital and small letters
 * differ. The second reads A to Z as a to z when it compares or orders labels, so `(A,a);` repeats a label. The trees, the list and the claim
 * may then spell a label differently; an output has it as the first tree spells it.
 */
#ifndef AGREE_H
#define AGREE_H

#include <stddef.h>
#include <stdint.h>

#ifdef __cplusplus
extern "C" {
#endif

/* Bytes of stack that a call takes at most, whatever it is given. The prover does not speak of it. It is held against two figures:
 *
 *     from the machine code, for every input (tools/frames): the sum of frames along the calls is about 51,400 bytes for two trees and a
 *     list, 44,600 with a claim, and 54,400 for a job;
 *     measured, the worst of many inputs (tools/stack.c): the same.
 *
 * The first counts 256 bytes for memset and memcpy of the C library. A thread needs what it takes for itself besides, and so does a loader
 * that binds these two when they are first called: some 3,200 bytes with glibc. */
#define AGREE_STACK 65536

/* Bytes of output that always suffice, and that some inputs need: for a tree's text, and for the lines that answer a job. With fewer bytes,
 * an answer that does not fit is refused with 9. */
#define AGREE_TREE_ROOM 2958
#define AGREE_LINES_ROOM 9656

/* What every call returns.
 *
 * number 0: an answer. `size` is the number of leaves in the set. `length` is the number of bytes of the tree's normal text, which is at the
 *           start of the output. The bytes after it are unchanged. An empty set has a text of no bytes.
 * else:     a refusal. The output is unchanged; size and length are 0. `letter` is the body, as a character: S the first tree, T the second,
 *           K the required list, C the claim, O the output, J the options or the job. `place` is a byte offset in that body, from 0:
 *
 *     1  a byte is not allowed there                S, T, K, C  that byte
 *     2  the text ends too soon                     S, T, K, C  its length
 *     3  a label is longer than 32 bytes,           S, T, K, C  its 33rd byte
 *        quotes not counted
 *     4  a tree's 80th `(`; the 81st label of a     S, T, K, C  that byte, or the label's first
 *        list or claim
 *     5  a label repeats in its body                S, T, K, C  first byte of the repeat
 *     6  the first tree lacks a required label      K, C        its first byte in the list, or in the claim
 *        or a claimed one
 *     7  only the second tree lacks it              K, C        the same
 *     8  three required labels have different       K           0; first, second and third are the places of the three
 *        closer pairs in the two trees                          labels' first bytes in the list, in label order
 *     9  the output is too short                    O           0
 *    10  the options have a bit without a           J           0
 *        meaning; a job's contents break their rules
 *    11  a job is longer than 16,384 bytes          J           0
 *    12  a leaf is in only one tree                 S, T        first byte of its label
 *    13  the claim lacks a required label           K           its first byte in the list
 *    14  three claimed labels have different        C           0; first, second and third are the places of the three
 *        closer pairs in the two trees                          labels' first bytes in the claim, in label order
 *    15  the claim is smaller than the largest set  C           0
 *
 * Of several, the first in this order is given: 11, 10, S (1 to 5), T, 12, K, C, 6 or 7 for K, 8, 6 or 7 for C, 13, 14, 15, 9.
 *
 * Numbers 6 and 7 are given for the first label, in the order of the list or claim, that a tree lacks; 13 for the first label of the list
 * that the claim lacks; 12 for the first such leaf in the text of S or, if S has none, in that of T.
 *
 * Which call gives which: 9 all but agree_claim; 10 all but agree_largest; 11 agree_job alone; 12 with AGREE_STRICT, or for a job with the line
 * `strict`; letter C and 13 to 15 agree_claim, and agree_job for a job with a claim.
 */
struct agree_result {
    size_t number;
    size_t letter;
    size_t place;
    size_t size;
    size_t length;
    size_t first;
    size_t second;
    size_t third;
};

/* Finds the largest set of leaves common to both trees that contains every required label and on which the trees agree. Of several largest
 * sets it is the first in label order. The normal text of its tree is written to `out`.
 *
 *     uint8_t out[AGREE_TREE_ROOM];
 *     struct agree_result r = agree_largest(
 *         (const uint8_t *)"((a,b),(c,d));", 14,
 *         (const uint8_t *)"((a,c),(b,d));", 14,
 *         (const uint8_t *)"a", 1, out, sizeof out);
 *     r.number == 0, r.size == 2, r.length == 6, out begins with (a,b);
 */
struct agree_result agree_largest(const uint8_t *first, size_t first_length, const uint8_t *second, size_t second_length,
                                  const uint8_t *required, size_t required_length, uint8_t *out, size_t out_length);

/* A flag of `options`: both trees must have the same leaves. A leaf that is in only one of them is refused with 12. */
#define AGREE_STRICT 1

/* A flag of `options`: labels are compared by the second edition. */
#define AGREE_EDITION_2 2

/* The same with options, a sum of flags. With 0, or with AGREE_STRICT if both trees have the same leaves, the answer is that of agree_largest.
 * Options with any other bit are refused with 10 before anything is read.
 *
 * With AGREE_EDITION_2 every label in `out` is spelled as in the first tree. The places of number 8 are in the list, which may spell the three
 * labels differently. agree_largest uses the first edition.
 */
struct agree_result agree_largest_with(size_t options, const uint8_t *first, size_t first_length, const uint8_t *second,
                                       size_t second_length, const uint8_t *required, size_t required_length, uint8_t *out,
                                       size_t out_length);

/* Judges a claimed set, whichever program found it. `claim` is written like the list, its labels in any order; a claim of no bytes is the
 * empty set. The claim passes if and only if it contains every required label, the trees agree on it and no larger such set exists. So each
 * of several largest sets passes. If it passes, number is 0, `size` is the size of the claim and `length` is 0. Otherwise it is refused.
 * Options are those of agree_largest_with.
 *
 *     struct agree_result r = agree_claim(0,
 *         (const uint8_t *)"((a,b),(c,d));", 14,
 *         (const uint8_t *)"((a,c),(b,d));", 14,
 *         (const uint8_t *)"a", 1, (const uint8_t *)"d,a", 3);
 *     r.number == 0, r.size == 2
 *
 * There is no output, so number 9 is never given. The places of number 8 are in the list, those of 14 in the claim.
 */
struct agree_result agree_claim(size_t options, const uint8_t *first, size_t first_length, const uint8_t *second, size_t second_length,
                                const uint8_t *required, size_t required_length, const uint8_t *claim, size_t claim_length);

/* Answers a job in the format of the program `agree` (README.md): contents, two trees, a list and possibly a claim, in one text. The answer is
 * written to `out`: the three lines `size`, `set` and `tree` or, if the job has a claim that passes, the line `claim ok` with its size. If the
 * job has the line `pieces`, its pieces are written before the three lines: a line `pieces` with their total, and a line `at` for each.
 * `length` is the number of bytes written, at most AGREE_LINES_ROOM. `size` is 0: the size is in the lines. Number 9 is given if the output is
 * shorter than the lines.
 *
 * The first lines of the job are its options: `strict` means AGREE_STRICT, and `E 2`, first or right after `strict`, means AGREE_EDITION_2.
 * `E 1` there means the same as no line `E`. The line `pieces` comes after these two and before `S`; a job that has it and a line `C` is
 * refused with 10. A line `C 0` claims the empty set; a job without a claim has no line `C`.
 *
 * For numbers 8 and 14, first, second and third are the places of the three labels' first bytes in the job: in its list for 8, in its claim for
 * 14. A quoted label ends at its closing quote. A bare label ends before the next comma, or at the end of its body. Bodies follow each other
 * in the order S, T, K, C; each has the length given on its contents line, and the last one ends with the job. The program `agree` prints the
 * three labels as the first tree spells them.
 */
struct agree_result agree_job(const uint8_t *job, size_t job_length, uint8_t *out, size_t out_length);

#ifdef __cplusplus
}
#endif

#endif
