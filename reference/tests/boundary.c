/* The header from C and from C++: the structs' sizes and offsets, every call on document 01's sample, those that the inversion word
 * changes on the sample with the word 2, and those that ties change on the sample with two tied cells. Prints a line for each call; a
 * wrong value ends the program with the line's number. */
#include "canceller.h"

#include <stdio.h>
#include <stdlib.h>
#include <string.h>

#ifdef __cplusplus
#define _Static_assert static_assert
#endif
#define FIELD(type, field, place) _Static_assert(offsetof(type, field) == 8 * (place), #type "." #field)
#define SIZE(type, words) _Static_assert(sizeof(type) == 8 * (words), #type)

SIZE(canceller_set, 262);
FIELD(canceller_set, refusal, 0);
FIELD(canceller_set, m, 1);
FIELD(canceller_set, taps, 2);
FIELD(canceller_set, inversion, 3);
FIELD(canceller_set, n, 4);
FIELD(canceller_set, s, 5);
FIELD(canceller_set, spread, 6);
SIZE(canceller_stretch, 3);
FIELD(canceller_stretch, refusal, 0);
FIELD(canceller_stretch, start, 1);
FIELD(canceller_stretch, length, 2);
SIZE(canceller_written, 2);
FIELD(canceller_written, refusal, 0);
FIELD(canceller_written, length, 1);
SIZE(canceller_clocked, 2);
FIELD(canceller_clocked, refusal, 0);
FIELD(canceller_clocked, state, 1);
SIZE(canceller_signed, 2);
FIELD(canceller_signed, refusal, 0);
FIELD(canceller_signed, signature, 1);
SIZE(canceller_listed, 2);
FIELD(canceller_listed, refusal, 0);
FIELD(canceller_listed, count, 1);
SIZE(canceller_eliminated, 3);
FIELD(canceller_eliminated, refusal, 0);
FIELD(canceller_eliminated, rank, 1);
FIELD(canceller_eliminated, q, 2);
SIZE(canceller_worded, 3);
FIELD(canceller_worded, refusal, 0);
FIELD(canceller_worded, m, 1);
FIELD(canceller_worded, q, 2);
SIZE(canceller_expected, 2);
FIELD(canceller_expected, refusal, 0);
FIELD(canceller_expected, expected, 1);
SIZE(canceller_planned, 4);
FIELD(canceller_planned, refusal, 0);
FIELD(canceller_planned, m, 1);
FIELD(canceller_planned, q, 2);
FIELD(canceller_planned, expected, 3);
SIZE(canceller_cutting, 3);
FIELD(canceller_cutting, refusal, 0);
FIELD(canceller_cutting, runs, 1);
FIELD(canceller_cutting, bits, 2);
SIZE(canceller_judged, 4);
FIELD(canceller_judged, refusal, 0);
FIELD(canceller_judged, cancelled, 1);
FIELD(canceller_judged, failed, 2);
FIELD(canceller_judged, index, 3);

static void must(int holds, int line) {
    if (!holds) {
        printf("line %d does not hold\n", line);
        exit(1);
    }
}
#define MUST(x) must((x), __LINE__)

static const uint64_t spread[2] = {1, 4};
static const uint8_t values[2] = {1, 1}, marks[2] = {2, 0};
/* Bytes of the sample, and the working places that a set without ties takes. */
enum { LENGTH = 44, PLACES = 64 };
static uint8_t set[64], plan[CANCELLER_PLAN_MAX];
static uint64_t columns[3] = {9, 9, 9}, working[CANCELLER_WORKING + 1], words[4] = {8, 8, 8, 8};

/* Noise in the working list, and whether it was left as planning leaves it. */
static void disturb(void) {
    for (size_t i = 0; i <= CANCELLER_WORKING; i++) working[i] = 77 + i;
}

static int cleared(size_t places) {
    for (size_t i = 0; i <= CANCELLER_WORKING; i++) {
        if (working[i] != (i < places ? 0 : 77 + i)) return 0;
    }
    return 1;
}

static int untouched(void) {
    return cleared(0);
}

static void sets(void) {
    memset(set, 0xEE, sizeof set);
    canceller_written written = canceller_write_set(3, 3, 0, spread, 2, values, 2, marks, 2, 2, NULL, 0, set, sizeof set);
    MUST(written.refusal == 0 && written.length == LENGTH);
    MUST(set[LENGTH] == 0xEE && set[63] == 0xEE);
    printf("set written: %d bytes\n", (int)written.length);

    canceller_set read = canceller_read_set(set, LENGTH);
    MUST(read.refusal == 0 && read.m == 3 && read.taps == 3 && read.inversion == 0 && read.n == 2 && read.s == 2);
    MUST(read.spread[0] == 1 && read.spread[1] == 4 && read.spread[2] == 0 && read.spread[255] == 0);
    printf("set read\n");

    canceller_stretch row = canceller_value_row(set, LENGTH, 1);
    MUST(row.refusal == 0 && row.start == 40 && row.length == 1 && set[row.start] == 1);
    row = canceller_mark_row(set, LENGTH, 0);
    MUST(row.refusal == 0 && row.start == 39 && row.length == 1 && set[row.start] == 2);
    row = canceller_mark_row(set, LENGTH, 2);
    MUST(row.refusal == 11 && row.start == 0 && row.length == 0);
    printf("rows found\n");

    MUST(canceller_read_set(NULL, 0).refusal == 1);
    MUST(CANCELLER_SET_MAX == 22 + 8 * CANCELLER_CHAINS_MAX + 2 * 32 * CANCELLER_SLICES_MAX + 2 + 7 * 256);
}

/* The sample whose register inverts bit 1. */
static void inverted(void) {
    uint8_t other[LENGTH];
    canceller_written written = canceller_write_set(3, 3, 2, spread, 2, values, 2, marks, 2, 2, NULL, 0, other, sizeof other);
    MUST(written.refusal == 0 && written.length == LENGTH);
    MUST(other[10] == 2 && memcmp(other, set, 10) == 0 && memcmp(other + 11, set + 11, LENGTH - 11) == 0);
    MUST(canceller_write_set(3, 3, 8, spread, 2, values, 2, marks, 2, 2, NULL, 0, other, sizeof other).refusal == 25);
    canceller_set read = canceller_read_set(other, LENGTH);
    MUST(read.refusal == 0 && read.m == 3 && read.taps == 3 && read.inversion == 2 && read.n == 2 && read.s == 2);

    canceller_clocked clocked = canceller_clock(3, 3, 2, 4, spread, 2, marks + 1, 1);
    MUST(clocked.refusal == 0 && clocked.state == 1);
    clocked = canceller_clock(3, 3, 8, 4, spread, 2, marks + 1, 1);
    MUST(clocked.refusal == 25 && clocked.state == 4);

    canceller_signed with_zero = canceller_sign(other, LENGTH, values, 2);
    MUST(with_zero.refusal == 0 && with_zero.signature == 5);
    canceller_planned planned = canceller_plan(other, LENGTH, working, CANCELLER_WORKING, words, 4);
    MUST(planned.refusal == 0 && planned.q == 2 && planned.expected == 3);
    MUST(words[0] == 3 && words[1] == 4);

    other[10] = 8;
    read = canceller_read_set(other, LENGTH);
    MUST(read.refusal == 25 && read.m == 0 && read.taps == 0 && read.inversion == 0 && read.n == 0 && read.spread[0] == 0);
    printf("inverted: signed %d, expected %d\n", (int)with_zero.signature, (int)planned.expected);
}

static void responses(void) {
    const uint8_t none[1] = {0};
    canceller_clocked clocked = canceller_clock(3, 3, 0, 4, spread, 2, none, 1);
    MUST(clocked.refusal == 0 && clocked.state == 3);
    clocked = canceller_clock(3, 3, 0, 7, spread, 2, none, 1);
    MUST(clocked.refusal == 0 && clocked.state == 5);
    clocked = canceller_clock(3, 3, 0, 8, spread, 2, none, 1);
    MUST(clocked.refusal == 23 && clocked.state == 8);
    printf("clocked\n");

    const uint8_t zeros[2] = {1, 1}, ones[2] = {3, 1};
    canceller_signed first = canceller_sign(set, LENGTH, zeros, 2), second = canceller_sign(set, LENGTH, ones, 2);
    MUST(first.refusal == 0 && second.refusal == 0 && (first.signature ^ second.signature) == 3);
    MUST(canceller_sign(set, LENGTH, NULL, 0).refusal == 12);
    printf("signed: %d and %d\n", (int)first.signature, (int)second.signature);

    canceller_listed listed = canceller_list_columns(set, LENGTH, columns, 3);
    MUST(listed.refusal == 0 && listed.count == 1 && columns[0] == 3 && columns[1] == 9);
    MUST(canceller_list_columns(set, LENGTH, NULL, 0).refusal == 14);
    printf("column: %d\n", (int)columns[0]);
}

static void eliminations(void) {
    canceller_eliminated eliminated = canceller_eliminate(3, columns, 1, words, 4);
    MUST(eliminated.refusal == 0 && eliminated.rank == 1 && eliminated.q == 2);
    MUST(words[0] == 3 && words[1] == 4 && words[2] == 8);
    eliminated = canceller_eliminate(3, NULL, 0, words, 4);
    MUST(eliminated.refusal == 0 && eliminated.rank == 0 && eliminated.q == 3);
    MUST(words[0] == 1 && words[1] == 2 && words[2] == 4 && words[3] == 8);
    printf("eliminated\n");
}

/* Planning's two calls, on the sample and on the sample with chain 0's cell of slice 1 revised to 0. */
static void words_and_bits(void) {
    uint64_t of_set[3] = {7, 7, 7};
    disturb();
    canceller_worded worded = canceller_plan_words(set, LENGTH, working, PLACES, of_set, 3);
    MUST(worded.refusal == 0 && worded.m == 3 && worded.q == 2 && cleared(PLACES));
    MUST(of_set[0] == 3 && of_set[1] == 4 && of_set[2] == 7);
    disturb();
    worded = canceller_plan_words(set, LENGTH, working, CANCELLER_WORKING, NULL, 0);
    MUST(worded.refusal == 18 && worded.m == 0 && worded.q == 0 && cleared(PLACES));
    disturb();
    worded = canceller_plan_words(set, LENGTH, working, PLACES - 1, of_set, 3);
    MUST(worded.refusal == 14 && worded.m == 0 && worded.q == 0 && untouched());
    MUST(canceller_plan_words(set, LENGTH, NULL, 0, of_set, 3).refusal == 14);

    uint8_t revised[LENGTH];
    memcpy(revised, set, LENGTH);
    revised[40] = 0;
    canceller_expected before = canceller_expect(set, LENGTH, of_set, 2), after = canceller_expect(revised, LENGTH, of_set, 2);
    MUST(before.refusal == 0 && before.expected == 0 && after.refusal == 0 && after.expected == 1);
    printf("words: %d %d, expected %d, revised %d\n", (int)of_set[0], (int)of_set[1], (int)before.expected, (int)after.expected);

    const uint64_t others[3] = {1, 2, 4}, falling[2] = {4, 3};
    canceller_expected signature = canceller_expect(revised, LENGTH, others, 3);
    MUST(signature.refusal == 0 && signature.expected == 2);
    after = canceller_expect(revised, LENGTH, NULL, 0);
    MUST(after.refusal == 20 && after.expected == 0);
    MUST(canceller_expect(revised, LENGTH, falling, 2).refusal == 21);
    MUST(canceller_expect(NULL, 0, NULL, 0).refusal == 1);
}

static void plans(void) {
    disturb();
    MUST(canceller_plan(set, LENGTH, working, PLACES - 1, words, 4).refusal == 14 && untouched());
    canceller_planned planned = canceller_plan(set, LENGTH, working, CANCELLER_WORKING + 1, words, 4);
    MUST(cleared(PLACES));
    MUST(planned.refusal == 0 && planned.m == 3 && planned.q == 2 && planned.expected == 0);
    MUST(words[0] == 3 && words[1] == 4);
    printf("planned: words %d %d, expected %d\n", (int)words[0], (int)words[1], (int)planned.expected);

    canceller_written written = canceller_write_plan(planned.m, words, (size_t)planned.q, planned.expected, plan, sizeof plan);
    MUST(written.refusal == 0 && written.length == 23);
    size_t plan_len = (size_t)written.length;
    uint64_t back[2] = {0, 0};
    canceller_planned again = canceller_read_plan(plan, plan_len, back, 2);
    MUST(again.refusal == 0 && again.m == 3 && again.q == 2 && again.expected == 0 && back[0] == 3 && back[1] == 4);
    MUST(canceller_read_plan(plan, plan_len, NULL, 0).refusal == 18);
    printf("plan written and read: %d bytes\n", (int)plan_len);

    MUST(CANCELLER_PLAN_MAX == 6 + 8 * CANCELLER_WIDTH_MAX + 8);

    canceller_judged judged = canceller_judge(plan, plan_len, 3);
    MUST(judged.refusal == 0 && judged.failed == 0 && judged.index == 0);
    judged = canceller_judge(plan, plan_len, 0);
    MUST(judged.refusal == 0 && judged.failed == 0);
    judged = canceller_judge(plan, plan_len, 1);
    MUST(judged.refusal == 0 && judged.failed == 1 && judged.index == 0 && judged.cancelled == 1);
    judged = canceller_judge(plan, plan_len, 7);
    MUST(judged.refusal == 0 && judged.failed == 1 && judged.index == 1 && judged.cancelled == 2);
    judged = canceller_judge(plan, plan_len, 8);
    MUST(judged.refusal == 23 && judged.cancelled == 0 && judged.failed == 0 && judged.index == 0);
    MUST(canceller_judge(NULL, 0, 0).refusal == 19);
    printf("judged\n");
}

/* Cutting, on the sample and on the sample whose slice 1 has chain 0's cell unknown. */
static void cuttings(void) {
    uint64_t cuts[3] = {7, 7, 7};
    MUST(canceller_cut(set, LENGTH, 0, cuts, 3).refusal == 26);
    MUST(canceller_cut(set, LENGTH, 4, cuts, 3).refusal == 26);
    MUST(canceller_cut(set, LENGTH, 3, NULL, 0).refusal == 27);
    canceller_cutting cutting = canceller_cut(set, LENGTH, 2, NULL, 0);
    MUST(cutting.refusal == 28 && cutting.runs == 0 && cutting.bits == 0);
    MUST(cuts[0] == 7 && cuts[1] == 7 && cuts[2] == 7);
    canceller_cutting whole = canceller_cut(set, LENGTH, 2, cuts, 1);
    MUST(whole.refusal == 0 && whole.runs == 1 && whole.bits == 6);
    MUST(cuts[0] == 0 && cuts[1] == 7 && cuts[2] == 7);

    uint8_t marked[LENGTH];
    memcpy(marked, set, LENGTH);
    marked[40] = 0;
    marked[41] = 1;
    cuts[0] = 7;
    MUST(canceller_cut(marked, LENGTH, 2, cuts, 1).refusal == 28 && cuts[0] == 7);
    cutting = canceller_cut(marked, LENGTH, 2, cuts, 3);
    MUST(cutting.refusal == 0 && cutting.runs == 2 && cutting.bits == 12);
    MUST(cuts[0] == 0 && cuts[1] == 1 && cuts[2] == 7);
    MUST(canceller_cut(NULL, 0, 1, NULL, 0).refusal == 1);
    printf("cut: %d run, %d bits; %d runs, %d bits\n", (int)whole.runs, (int)whole.bits, (int)cutting.runs, (int)cutting.bits);
}

/* The sample whose slice 1 has chain 0's cell unknown and tied as the opposite of slice 0's unknown cell. */
static void tied(void) {
    const uint8_t known[2] = {1, 0}, both_marks[2] = {2, 1};
    const uint8_t ties[14] = {0, 0, 1, 0, 7, 0, 0, /* slice 1 */ 1, 0, 0, 0, 7, 0, 1};
    uint8_t other[LENGTH + 14];
    memset(other, 0xEE, sizeof other);
    MUST(canceller_write_set(3, 3, 0, spread, 2, known, 2, both_marks, 2, 2, ties, 13, other, sizeof other).refusal == 8);
    MUST(canceller_write_set(3, 3, 0, spread, 2, known, 2, marks, 2, 2, ties, 14, other, sizeof other).refusal == 29);
    MUST(canceller_write_set(3, 3, 0, spread, 2, known, 2, both_marks, 2, 2, ties, 14, other, sizeof other - 1).refusal == 24);
    MUST(other[0] == 0xEE && other[LENGTH + 13] == 0xEE);
    canceller_written written =
        canceller_write_set(3, 3, 0, spread, 2, known, 2, both_marks, 2, 2, ties, 14, other, sizeof other);
    MUST(written.refusal == 0 && written.length == sizeof other && other[42] == 2 && other[43] == 0);

    canceller_stretch none = canceller_ties(set, LENGTH), found = canceller_ties(other, sizeof other);
    MUST(none.refusal == 0 && none.start == 44 && none.length == 0);
    MUST(found.refusal == 0 && found.start == 44 && found.length == 14 && memcmp(other + found.start, ties, 14) == 0);

    /* the column is 3 of slice 0's cell and 1 of slice 1's; the signature for symbol 0 has slice 1's cell as 1 */
    canceller_listed listed = canceller_list_columns(other, sizeof other, columns, 1);
    MUST(listed.refusal == 0 && listed.count == 1 && columns[0] == 2);
    disturb();
    MUST(canceller_plan(other, sizeof other, working, PLACES, words, 4).refusal == 14 && untouched());
    canceller_planned planned = canceller_plan(other, sizeof other, working, PLACES + 1, words, 4);
    MUST(planned.refusal == 0 && planned.q == 2 && planned.expected == 1 && cleared(PLACES + 1));
    MUST(words[0] == 1 && words[1] == 4);

    other[LENGTH + 13] = 2;
    found = canceller_ties(other, sizeof other);
    MUST(found.refusal == 31 && found.start == 0 && found.length == 0);
    MUST(canceller_ties(NULL, 0).refusal == 1);
    printf("tied: column %d, words %d %d, expected %d\n", (int)columns[0], (int)words[0], (int)words[1], (int)planned.expected);
}

int main(void) {
    sets();
    responses();
    eliminations();
    words_and_bits();
    plans();
    cuttings();
    inverted();
    tied();
    return 0;
}
