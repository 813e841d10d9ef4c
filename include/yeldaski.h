/* Yeldaski: the change finder for motor current, for programs in C.
 *
 * Link with libfinder.a. Nothing is allocated and nothing is kept between calls. Every list is a pointer and a length in elements. A list may
 * hold anything before a call; lists that a call writes must overlap no other list of the same call. A length of 0 is allowed everywhere, and
 * its pointer is then never followed: it may be NULL.
 *
 * A plan is handed over as the bytes of a plan file:
 *     01 lo hi | 02 states, start mask, end mask | 03 one per edge | 04 one per label | 05 readings
 * An answer file is  81 cost, 82 one per run  or  83 a refusal number  alone. Each field is a tag (1 byte), the length of the body (2 bytes) and
 * the body; numbers are big-endian.
 *
 * A label (p, q, c) speaks of the boundaries p to q - 1, boundary i lying between readings i and i + 1. With c from 0 to 7 exactly c of them are
 * changes (edges of kind 1 to 4); with 8 exactly one is, and it has kind 2 (up); with 9 exactly one is, and it has kind 3 (down).
 *
 * At an edge of kind 0 (stay) the level stays the same, at one of kind 1 (any) it moves to any other level, at 2 (up) it rises and at 3 (down) it
 * falls by at least the gap, at 4 (abs) it does either. With gap 0 the kinds 2 to 4 may keep the level.
 *
 * A run is five numbers: first reading, last reading (both from 1), state, level, number of the edge that enters it (255 for the first run).
 *
 * Refusals (0 means none). "Plan reader" below stands for what can be wrong in a plan file: fields are read in turn, the first refused field ends
 * the reading with its number, and within a field the order is: cut header 1, tag 2, length 3, for the readings 9, cut body 1, then the field's
 * own: grid 4; states 5; edge 10, 6, 7; label 10, 8, 12.
 *
 *      1  header or body cut short, or the file ends where a field is due
 *      2  a tag that may not stand there
 *      3  wrong length for the tag (05: odd)
 *      4  hi < lo, hi - lo above 1,023, or a named level off the grid
 *      5  S not 1 to 8, an empty mask, a mask bit at or above S, or a named state not below S
 *      6  edge state not below S, kind above 4, gap above 1,023 or set for kind 0 or 1, class above 15
 *      7  same from, to and kind as an earlier edge
 *      8  p = 0, q <= p, q above 4,096 or c above 9
 *      9  no readings or more than 4,096; for a moving window more than 65,535
 *     10  a 33rd edge or a 65th label
 *     11  a plan that is not sealed, or a change to a sealed one (never given here: the plan of a file is always sealed)
 *     12  label starts before the earlier one's q
 *     13  a label's q above n
 *     14  workspace under 192 * S * L words of 64 bits (for a table K + 1 times as many), S the count of states, L = hi - lo + 1
 *     15  a buffer under 5 * n run numbers (for the answer reader 5 a run read), or too short for the bytes, readings or costs to be written
 *     16  no allowed segmentation exists; for a cost at a point, none that may count ends in the named state at the named level
 *     17  answer file: runs that do not join from reading 1 on, last < first, last above 4,096, state not 0 to 7, edge not 0 to 31 (255 in the
 *         first run and only there), or no refusal number; in writing also no runs, fewer than five numbers a run, a level outside 16 bits
 *     18  a moving window over a plan with labels
 *     19  a window of 0 readings, of more than 1,024 or of more than the record has
 *     20  a table for more than 32 changes
 */
#ifndef YELDASKI_H
#define YELDASKI_H

#include <stddef.h>
#include <stdint.h>

#ifdef __cplusplus
extern "C" {
#endif

/* What a call gives. On refusal cost and count are 0. */
typedef struct {
    uint8_t refusal; /* 0 for none */
    uint64_t cost;   /* of a search or a point; otherwise 0 */
    size_t count;    /* how many runs, costs, readings or bytes were written */
} yeldaski_outcome;

/* What reading an answer file gives. Where the file was not read, held, cost and count are 0; where it holds a refusal, cost and count are 0. */
typedef struct {
    uint8_t refusal; /* why the file was not read, 0 where it was */
    uint8_t held;    /* the refusal number that the file holds, 0 for none */
    uint64_t cost;   /* the cost that it holds otherwise */
    size_t count;    /* and how many runs */
} yeldaski_reply;

/* Words of workspace for a search, a cost at a point or a moving window, for 1 to 8 states and 1 to 1,024 levels. */
#define YELDASKI_WORDS(states, levels) ((size_t)192 * (states) * (levels))

/* Words of workspace for a table of the costs for 0 to `most` changes, `most` from 0 to 32. */
#define YELDASKI_TABLE_WORDS(states, levels, most) (YELDASKI_WORDS(states, levels) * ((size_t)(most) + 1))

/* Decodes the readings of a plan file. count = how many.
 * Refuses: plan reader, 15.
 * readings: on success its first `count` numbers are the readings and the rest stays; on refusal all of it stays. */
yeldaski_outcome yeldaski_read_plan(const uint8_t *file, size_t file_len, int16_t *readings, size_t readings_len);

/* Writes the plan of `file` with other readings as a plan file. count = bytes.
 * Refuses: plan reader, 9, 15.
 * out: on success its first `count` bytes are the file and the rest stays; on refusal all of it stays. */
yeldaski_outcome yeldaski_write_plan(const uint8_t *file, size_t file_len, const int16_t *readings, size_t readings_len, uint8_t *out,
                                     size_t out_len);

/* The cheapest segmentation of `readings` that the plan of `file` allows. Among equal costs the one with the fewest changes comes first: a change is
 * a boundary with an edge of kind 1 to 4, inside labels and outside of them. Among those with as many it is the one with the lowest state at the last
 * reading, then the lowest level there, then, going back boundary by boundary, the lowest edge and the lowest level before it. The readings in the
 * file are not looked at. cost = its cost, count = its runs.
 * Refuses: plan reader, 9, 13, 14, 15 (runs_len under 5 * readings_len), 16.
 * runs: on success its first 5 * count numbers are the runs and the rest stays; on refusal all of it stays.
 * workspace: on success and after 16 its first 192 * S * L words are zero and the rest stays; after any other refusal all of it stays. */
yeldaski_outcome yeldaski_search(const uint8_t *file, size_t file_len, const int16_t *readings, size_t readings_len, uint64_t *workspace,
                                 size_t workspace_len, int32_t *runs, size_t runs_len);

/* The least cost of the segmentations of `readings` that end in the named state at the named level. cost = this cost, count = 0. The end mask is
 * ignored. Of the labels (p, q, c) those with q up to the last reading hold; one that is still open there (p before it, q behind it) allows at
 * most c changes so far for c up to 7, and at most one for 8 and 9, which then has kind 2 (up) or 3 (down); later ones are ignored.
 * Refuses: plan reader, 9, 5 (state), 4 (level), 14, 16.
 * workspace: as with yeldaski_search. */
yeldaski_outcome yeldaski_point(const uint8_t *file, size_t file_len, const int16_t *readings, size_t readings_len, uint8_t state,
                                int16_t level, uint64_t *workspace, size_t workspace_len);

/* The least cost of every stretch of w readings of a long record: that of a search over the stretch alone. The readings in the file are not looked
 * at. count = how many stretches there are, record_len - w + 1. Every stretch is searched anew, so wide windows over a long record take minutes.
 * Refuses: plan reader, 9 (no readings or more than 65,535), 18, 19, 14, 15 (costs_len under record_len - w + 1), 16 (no stretch has an allowed
 * segmentation: without labels all of them have one or none has).
 * costs: on success its first `count` numbers are the costs of the stretches that start at reading 1, 2, .. in this order, and the rest stays; on
 * refusal all of it stays.
 * workspace: as with yeldaski_search. */
yeldaski_outcome yeldaski_windows(const uint8_t *file, size_t file_len, const int16_t *record, size_t record_len, size_t w, uint64_t *workspace,
                                  size_t workspace_len, uint64_t *costs, size_t costs_len);

/* The costs for each number of changes: for k from 0 to `most` the least cost among the segmentations of `readings` that the plan of `file` allows
 * and that have exactly k changes, penalties included, and UINT64_MAX where there is none. A change is a boundary with an edge of kind 1 to 4, inside
 * labels and outside of them. The readings in the file are not looked at. count = how many numbers there are, most + 1. The smallest of them is the
 * cost that yeldaski_search gives wherever its answer has at most `most` changes.
 * Refuses: plan reader, 9, 13, 20 (most above 32), 14 (workspace_len under YELDASKI_TABLE_WORDS), 15 (costs_len under most + 1), 16 (no segmentation
 * is allowed with any number of changes; where every allowed one has more than `most`, all numbers are UINT64_MAX and nothing is refused).
 * costs: on success its first `count` numbers are those for 0, 1, .. `most` changes in this order, and the rest stays; on refusal all of it stays.
 * workspace: on success and after 16 its first 192 * S * L * (most + 1) words are zero and the rest stays; after any other refusal all of it
 * stays. */
yeldaski_outcome yeldaski_table(const uint8_t *file, size_t file_len, const int16_t *readings, size_t readings_len, size_t most,
                                uint64_t *workspace, size_t workspace_len, uint64_t *costs, size_t costs_len);

/* Reads an answer file. held = the refusal that it holds; or cost = its cost, count = its runs.
 * Refuses: field by field to the end of the file cut header 1, tag 2, length 3, cut body 1, 17; then 15.
 * runs: where the file holds runs and is read, its first 5 * count numbers are the runs and the rest stays; otherwise all of it stays. */
yeldaski_reply yeldaski_read_answer(const uint8_t *file, size_t file_len, int32_t *runs, size_t runs_len);

/* Writes an answer file with a cost and runs, runs_len being five numbers a run. count = bytes.
 * Refuses: 17, 15.
 * out: on success its first `count` bytes are the file and the rest stays; on refusal all of it stays. */
yeldaski_outcome yeldaski_write_answer(uint64_t cost, const int32_t *runs, size_t runs_len, uint8_t *out, size_t out_len);

/* Writes an answer file that holds a refusal number. count = bytes.
 * Refuses: 17 (number not 1 to 20), 15.
 * out: on success its first `count` bytes are the file and the rest stays; on refusal all of it stays. */
yeldaski_outcome yeldaski_write_refusal(uint8_t number, uint8_t *out, size_t out_len);

/* Plan file in, answer file out: the runs, or the refusal that reading, decoding or searching gave. count = bytes.
 * Refuses: only 15, where `out` is too short for the answer file. That is found at the end, after the other lists were used.
 * out: on success its first `count` bytes are the answer file and the rest stays; on refusal all of it stays.
 * readings: as yeldaski_read_plan leaves it. runs and workspace: as yeldaski_search over these readings leaves them, also where `out` is then too
 * short. Where the plan file is refused, and where `readings` is too short for its readings (the answer file then holds 15), all of readings, runs
 * and workspace stays. */
yeldaski_outcome yeldaski_segment(const uint8_t *file, size_t file_len, int16_t *readings, size_t readings_len, uint64_t *workspace,
                                  size_t workspace_len, int32_t *runs, size_t runs_len, uint8_t *out, size_t out_len);

#ifdef __cplusplus
}
#endif

#endif
