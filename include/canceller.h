/* The canceller, for C.
 *
 * One function for each call. A slice crosses as a pointer and a length in elements; with length 0 the pointer is not looked at
 * and may be null. No slice overlaps one that is lent to be written.
 * Every answer is one struct by value whose first field is the refusal number, 0 for an answer; in a refusal every other field
 * is 0, but for the clock's state, which comes back as it was handed in.
 * Lent memory: success writes the front of each lent list or output and not the rest; a refusal writes nothing, but that
 * canceller_plan and canceller_plan_words, once past 14, leave 0 in the first places of their working list, 64 and one for each named
 * symbol, accepted or not.
 * In what follows m is the register's bits, n the chains, s the slices, B the bytes of a row (n / 8 rounded up) and q the words, m
 * less the rank of the columns. The unknown cells that a set's ties name with one number hold one symbol, or its opposite; an unknown
 * cell without a tie is a symbol by itself. The set's numbers are 1, 2, 3, 25, 4 to 10 and 29 to 31, in this order. README.md has the
 * files byte by byte.
 * No call has a precondition beyond C's own. No call keeps anything between calls; calls on different memory may run at once.
 *
 * The numbers, in the order in which they are looked for, but that 25 is looked for after 3, and 29 to 31, then 26 to 28, after 10:
 *    1 the set has fewer than 18 bytes                      17 no X-free combination but the empty one exists
 *    2 m isn't 1 to 64                                      18 the word list is shorter than q
 *    3 the tap word has bit 0 clear or a bit at or above m  19 the plan has fewer than 2 bytes, or its m isn't 1 to 64
 *    4 the chain count is absent or isn't 1 to 256          20 the word count is absent, 0 or above m, or a word is cut off
 *    5 the set ends before the last spread word             21 the words aren't a reduced list for m
 *    6 a spread word is zero or has a bit at or above m     22 the second count, the length or a spare bit is wrong
 *    7 the slice count is absent or above 512               23 a signature has a bit at or above m
 *    8 a length isn't what the counts give; a bad tie count 24 the output is shorter than the file to be written
 *    9 a row has a spare bit set                            25 the inversion word has a bit at or above m
 *   10 an unknown cell has its value bit set                26 k isn't 1 to m
 *   11 the slice number isn't below s                       27 a slice alone leaves fewer than k words
 *   12 the record's length isn't s times B                  28 the cut list is shorter than the runs are many
 *   13 the record has a spare bit set                       29 a tie's cell is absent or isn't unknown
 *   14 fewer places than symbols, or than planning takes    30 the ties don't ascend strictly by slice and chain
 *   15 a column has a bit at or above m                     31 the last byte of a tie is above 1
 * There is no 16: it stood for more than m independent columns, which can't come up, and is given to nothing else.
 */
#ifndef CANCELLER_H
#define CANCELLER_H

#include <stddef.h>
#include <stdint.h>

#ifdef __cplusplus
extern "C" {
#endif

#define CANCELLER_VERSION "4.0.2"

#define CANCELLER_WIDTH_MAX 64
#define CANCELLER_CHAINS_MAX 256
#define CANCELLER_SLICES_MAX 512
#define CANCELLER_SET_MAX 36632   /* bytes of the longest set */
#define CANCELLER_PLAN_MAX 526    /* bytes of the longest plan */
#define CANCELLER_WORKING 320     /* places of planning's working list: always enough, 64 and one for each of 256 named symbols */

typedef struct { uint64_t refusal, m, taps, inversion, n, s, spread[256]; } canceller_set;
typedef struct { uint64_t refusal, start, length; } canceller_stretch;   /* a part of the caller's set: offset and bytes */
typedef struct { uint64_t refusal, length; } canceller_written;          /* bytes put at the front of the output */
typedef struct { uint64_t refusal, state; } canceller_clocked;
typedef struct { uint64_t refusal, signature; } canceller_signed;
typedef struct { uint64_t refusal, count; } canceller_listed;
typedef struct { uint64_t refusal, rank, q; } canceller_eliminated;
typedef struct { uint64_t refusal, m, q; } canceller_worded;
typedef struct { uint64_t refusal, expected; } canceller_expected;
typedef struct { uint64_t refusal, m, q, expected; } canceller_planned;
typedef struct { uint64_t refusal, runs, bits; } canceller_cutting;
typedef struct { uint64_t refusal, cancelled, failed, index; } canceller_judged; /* failed 0: passes, and index is 0; failed 1: fails at index */

/* The set reader. Answers with m, the tap word, the inversion word, n, s and 256 spread words, zero from n on and all zero in a
 * refusal. Meets the set's numbers. Writes nothing. */
canceller_set        canceller_read_set(const uint8_t *set, size_t set_len);

/* The value row of one slice: where it stands in the caller's set, start and length in bytes. Meets the set's numbers, 11, and
 * then length is 0. Writes nothing. */
canceller_stretch    canceller_value_row(const uint8_t *set, size_t set_len, uint64_t slice);

/* The row of unknown marks of one slice, in the same way. Meets the set's numbers, 11. Writes nothing. */
canceller_stretch    canceller_mark_row(const uint8_t *set, size_t set_len, uint64_t slice);

/* The ties: where the entries stand in the caller's set, without their count, start and length in bytes, 7 for each entry. Where there
 * are none, length is 0 and start is where they would begin. What is found can be handed to the set writer. Meets the set's numbers, and
 * then start and length are 0. Writes nothing. */
canceller_stretch    canceller_ties(const uint8_t *set, size_t set_len);

/* The set writer. Takes the width, the tap word, the inversion word, n spread words, s value rows one after the other, s mark rows
 * one after the other, s, and the ties as they stand in the file, 7 bytes for each: slice, chain and symbol number, 2 bytes each, low
 * byte first, and 0 for as is or 1 for opposite. Answers with the length of the file, and writes it over the front of out.
 * Meets 2, 3, 25, 4, 6, 7, 8 (the length of a list of rows, or ties that aren't whole or more than 256), 9, 10, 29 to 31, 24. A refusal
 * writes nothing. */
canceller_written    canceller_write_set(uint64_t m, uint64_t taps, uint64_t inversion, const uint64_t *spread, size_t n,
                                         const uint8_t *values, size_t values_len, const uint8_t *marks, size_t marks_len,
                                         uint64_t s, const uint8_t *ties, size_t ties_len, uint8_t *out, size_t out_len);

/* One clock of a register with the cells of one row; the inversion word is XORed in at every clock. Answers with the next state. A
 * fresh register has state 0, whatever the inversion word is.
 * Meets 2, 3, 25, 4, 6, 8 (a row not of B bytes), 9, 23 (the state); a refusal hands the state back. Writes nothing. */
canceller_clocked    canceller_clock(uint64_t m, uint64_t taps, uint64_t inversion, uint64_t state,
                                     const uint64_t *spread, size_t n, const uint8_t *row, size_t row_len);

/* The signature of a record, unknown cells as recorded too, whether or not they obey the ties. Meets the set's numbers, 12, 13. Writes
 * nothing. */
canceller_signed     canceller_sign(const uint8_t *set, size_t set_len, const uint8_t *record, size_t record_len);

/* The columns of a set's symbols over the front of the list, each where its first cell stands by slice and then by chain; that of a
 * symbol of several cells is the XOR of theirs. The inversion word doesn't change them, nor does a tie's last byte. Answers with how
 * many there are. Meets the set's numbers, 14. A refusal writes nothing. */
canceller_listed     canceller_list_columns(const uint8_t *set, size_t set_len, uint64_t *columns, size_t columns_len);

/* The elimination: the reduced list of X-free words of these columns over the front of the word list. Answers with the rank of
 * the columns and q, the number of words. Meets 2, 15, 17, 18. A refusal writes nothing. */
canceller_eliminated canceller_eliminate(uint64_t m, const uint64_t *columns, size_t columns_len, uint64_t *words, size_t words_len);

/* The words of a set, over the front of the word list. Answers with m and q. Sets that differ in their values alone have the same words.
 * The working list takes 64 places and one for each symbol that a tie names, however many cells are unknown; CANCELLER_WORKING always
 * do, and what it holds before changes nothing. Meets the set's numbers, 14 (fewer places than that), 17, 18. Past 14 those places hold
 * 0 at the end, whatever follows, and the places behind them what they held; a refusal writes nothing else. */
canceller_worded     canceller_plan_words(const uint8_t *set, size_t set_len, uint64_t *working, size_t working_len,
                                          uint64_t *words, size_t words_len);

/* The expected bits of a list of words for a set: the parity of each word with the signature for all symbols 0, in which a cell tied as
 * opposite is 1, as one word, bit i for word i. The words need not be the set's own; whether they are, canceller_plan_words says. Meets
 * the set's numbers, 20 (no words, or more than m), 21. Writes nothing. */
canceller_expected   canceller_expect(const uint8_t *set, size_t set_len, const uint64_t *words, size_t words_len);

/* Planning: canceller_plan_words, and then canceller_expect for its words. Words over the front of the word list. Answers with m, q and
 * the expected bits as one word, bit i for word i. Meets the set's numbers, 14, 17, 18; the working list as in
 * canceller_plan_words. A refusal writes nothing else. */
canceller_planned    canceller_plan(const uint8_t *set, size_t set_len, uint64_t *working, size_t working_len,
                                    uint64_t *words, size_t words_len);

/* Cutting: the slices cut into runs, each to be clocked from zero and judged as a set of its own, each leaving at least k words, and each
 * the longest that does so from its start. The first slice of each run over the front of the cut list; CANCELLER_SLICES_MAX places always
 * do. Answers with the number of runs and the control bits in all, m times k for each run. The marks alone decide: no cell's value bears
 * on the answer, and no tie, for every unknown cell is free here. A set without slices has no runs. Meets the set's numbers, 26, 27 (any
 * slice), 28. A refusal writes nothing. */
canceller_cutting    canceller_cut(const uint8_t *set, size_t set_len, uint64_t k, uint64_t *cuts, size_t cuts_len);

/* The plan writer. Answers with the length of the file, and writes it over the front of out.
 * Meets 19 (m), 20 (how many words), 21, 22 (an expected bit at or above q), 24. A refusal writes nothing. */
canceller_written    canceller_write_plan(uint64_t m, const uint64_t *words, size_t words_len, uint64_t expected,
                                          uint8_t *out, size_t out_len);

/* The plan reader: the plan's words over the front of the word list. Answers with m, q and the expected bits as one word.
 * Meets 19 to 22, and then 18. A refusal writes nothing. */
canceller_planned    canceller_read_plan(const uint8_t *plan, size_t plan_len, uint64_t *words, size_t words_len);

/* Judging: the cancelled bits of a signature as one word, bit i for word i, and the verdict: failed is 0 where all agree with
 * the expected bits, and 1 where word `index` is the first that disagrees. Meets 19 to 23. Writes nothing. */
canceller_judged     canceller_judge(const uint8_t *plan, size_t plan_len, uint64_t signature);

#ifdef __cplusplus
}
#endif

#endif
