/* Node sets, ranks and cuts in memory that the caller lends.
 *
 * A set lives in four slices, which are lent together and in this order: pages (64 bits), rows (32), block counts (32), table (64). Their least lengths
 * are BP_PAGES_LEN and so on, below; bp_set_up makes an empty set in them. What else a call needs comes as numbers.
 *
 * Arguments. A slice is two arguments: a pointer, then its number of elements (not of bytes). A pointer is aligned to its elements. With length 0 it may
 * be anything, NULL too: no call looks at it. Slices of one call don't overlap where one of them is written.
 *
 * Answers. Each comes back by value in a struct of its own. Its first field is the refusal: 0, or the number of the first refusal that applies, in the
 * order beside the call. Beside a refusal every other field is 0 (false), and nothing that was lent has changed. No field means two things: where there
 * may be none, a field of its own says whether there is one. Answers of up to 16 bytes come in registers. Only bp_insert_all has no refusal of its own:
 * it says how far it came and what ended it.
 *
 * Side by side. No call keeps a pointer, allocates, or has state of its own. Calls that only read (const slices) may run on the same memory at the same
 * time, in as many threads as you like. A call that writes needs its slices for itself until it returns. Two sets are two memories.
 *
 * Copies. A set is its four slices and nothing else: copy them, and you have a second set; write them to a file, and read back it is the same set.
 * Elements are the processor's own numbers: where bytes go to a processor with another byte order, turn each element round.
 *
 * Processors. The archive is for x86-64, in C's calling convention on Linux and its like (System V). bin/library says what there is for others. */
#ifndef BROTHPILLOW_H
#define BROTHPILLOW_H

#include <stddef.h>
#include <stdint.h>
#ifndef __cplusplus
#include <stdbool.h>
#endif

#ifdef __cplusplus
extern "C" {
#endif

/* ---- refusals */

#define BP_OUTSIDE_SIZES UINT64_C(1)  /* set-up: a number outside the table of sizes */
#define BP_TOO_SHORT UINT64_C(2)      /* set-up: a lent slice shorter than required */
#define BP_NOT_LAID_OUT UINT64_C(3)   /* memory is not as the layout says; a plan record with S = 0 or the wrong number of partitions, too few boundaries */
#define BP_IS_RANKED UINT64_C(4)      /* insert of either sort, preparation, union into, or ranking of a ranked set; bp_merge from one */
#define BP_IS_OPEN UINT64_C(5)        /* rank, rank_if_set, total_count, planning or leaving the ranked form on an open set */
#define BP_OVERFLOW_FULL UINT64_C(6)  /* more overflow entries needed than V */
#define BP_ROWS_FULL UINT64_C(7)      /* more sparse chunks needed than R */
#define BP_PAGES_FULL UINT64_C(8)     /* more dense chunks needed than P */
#define BP_NOT_PREPARED UINT64_C(9)   /* prepared insert: id negative, chunk absent or sparse */
#define BP_SIZES_DIFFER UINT64_C(10)  /* union of sets whose s or m differ */
#define BP_NO_ROOM UINT64_C(11)       /* planning: partitions minus 1 exceeds the room */
#define BP_NO_PARTITION UINT64_C(12)  /* partition number not below the partitions */

/* ---- answers */

/* Done, where refusal is 0. */
typedef struct {
    uint64_t refusal;
} bp_done;

/* Yes or no. */
typedef struct {
    uint64_t refusal;
    bool yes;
} bp_truth;

typedef struct {
    uint64_t refusal;
    uint64_t value;
} bp_number;

/* A value, where has is true: else none, and value is 0. */
typedef struct {
    uint64_t refusal;
    bool has;
    uint64_t value;
} bp_optional;

/* Up to 64 member ids, rising: ids[0] to ids[count - 1], unused places 0. end: no member at or above the start is left out, and next is that start;
 * else next is where to go on. */
typedef struct {
    uint64_t refusal;
    int64_t ids[64];
    uint64_t count;
    bool end;
    int64_t next;
} bp_listing;

/* A plan: members, members to a partition, partitions. */
typedef struct {
    uint64_t refusal;
    uint64_t total;
    uint64_t slots;
    uint64_t partitions;
} bp_planned;

/* The ids from low up to high, excluded, where has_high is true: else from low on, and high is 0. */
typedef struct {
    uint64_t refusal;
    bool has_high;
    int64_t low;
    int64_t high;
} bp_interval;

/* The first rank of a partition, and how many members it holds. */
typedef struct {
    uint64_t refusal;
    uint64_t first;
    uint64_t count;
} bp_ranked_span;

/* ---- a set's memory */

/* Elements that a set of these sizes needs: s 9 to 25, m 1 to 1,024, d up to 262,144, v, r and p up to 65,536. More may be lent, and are never written. */
#define BP_PAGES_LEN(s, p) ((size_t)(p) << ((s) - 6))
#define BP_ROWS_LEN(m, r) ((size_t)(m) * (size_t)(r))
#define BP_BLOCKS_LEN(s, p) ((size_t)(p) << ((s) - 9))
#define BP_TABLE_LEN(d, v, r, p) ((size_t)16 + (size_t)2 * (d) + (size_t)3 * (v) + (size_t)(r) + (size_t)(p))

/* The four slices of a set as arguments: to read, to change, and to change in block counts and table alone. */
#define BP_SET \
    const uint64_t *pages, size_t pages_n, const uint32_t *rows, size_t rows_n, const uint32_t *blocks, size_t blocks_n, const uint64_t *table, size_t table_n
#define BP_SET_MUT \
    uint64_t *pages, size_t pages_n, uint32_t *rows, size_t rows_n, uint32_t *blocks, size_t blocks_n, uint64_t *table, size_t table_n
#define BP_SET_COUNTS \
    const uint64_t *pages, size_t pages_n, const uint32_t *rows, size_t rows_n, uint32_t *blocks, size_t blocks_n, uint64_t *table, size_t table_n

/* An empty open set of chunks of 2^s ids, m members to a sparse chunk, d direct and v overflow entries, r rows, p pages. Refusals: 1, 2. */
bp_done bp_set_up(uint64_t s, uint64_t m, uint64_t d, uint64_t v, uint64_t r, uint64_t p, BP_SET_MUT);

/* The full check: whether memory follows the layout. Refuses nothing. */
bool bp_check(BP_SET);

/* ---- an open set */

/* Inserts an id; bp_set_if_new answers whether it is new. A negative one is never a member, and not new. Refusals: 3, 4, 6, 7, 8. */
bp_done bp_set(BP_SET_MUT, int64_t id);
bp_truth bp_set_if_new(BP_SET_MUT, int64_t id);

/* Inserts an id into a dense chunk, and answers whether it is new. Refusals: 3, 4, 9. */
bp_truth bp_set_prepared(BP_SET_MUT, int64_t id);

/* Every chunk from 0 to the maximum's becomes dense; of a negative maximum none. Refusals: 3, 4, 6, 8. */
bp_done bp_pre_allocate(BP_SET_MUT, int64_t max);

/* Union: the first set gets the second one's members. bp_merge_from only reads the second; bp_merge leaves it empty and open, with its sizes.
 * The two don't overlap. Refusals: 3 (of the first one's memory, then of the second's), 4, 10, 6, 7, 8. */
#define BP_SOURCE \
    const uint64_t *spages, size_t spages_n, const uint32_t *srows, size_t srows_n, const uint32_t *sblocks, size_t sblocks_n, \
    const uint64_t *stable, size_t stable_n
#define BP_SOURCE_MUT \
    uint64_t *spages, size_t spages_n, uint32_t *srows, size_t srows_n, uint32_t *sblocks, size_t sblocks_n, uint64_t *stable, size_t stable_n
bp_done bp_merge_from(BP_SET_MUT, BP_SOURCE);
bp_done bp_merge(BP_SET_MUT, BP_SOURCE_MUT);

/* Counts for ranks: the set is ranked. Refusals: 3, 4. */
bp_done bp_into_ranked(BP_SET_COUNTS);

/* ---- a set in either form */

/* Whether an id is a member. Refusals: 3. */
bp_truth bp_get(BP_SET, int64_t id);

/* Whether a member lies in min to max, both included. Refusals: 3. */
bp_truth bp_any_in_range(BP_SET, int64_t min, int64_t max);

/* The chunk of an id; none for a negative one. Refusals: 3. */
bp_optional bp_chunk_of(BP_SET, int64_t id);

/* The members, and whether there is none. Refusals: 3. */
bp_number bp_len(BP_SET);
bp_truth bp_is_empty(BP_SET);

/* Whether there is a chunk, be it empty, and how many there are. Refusals: 3. */
bp_truth bp_has_any(BP_SET);
bp_number bp_allocated_chunk_count(BP_SET);

/* The 64 smallest members not below start, or all if fewer. Refusals: 3. */
bp_listing bp_iter_from(BP_SET, int64_t start);

/* ---- a ranked set */

/* Leaves the ranked form: the set is open. Refusals: 3, 5. */
bp_done bp_into_open(BP_SET_COUNTS);

/* The members below an id; bp_rank_if_set has none for an id that is no member. Refusals: 3, 5. */
bp_number bp_rank(BP_SET, int64_t id);
bp_optional bp_rank_if_set(BP_SET, int64_t id);

/* The members, as ranking counted them. Refusals: 3, 5. */
bp_number bp_total_count(BP_SET);

/* Cuts the set into partitions of at most so many slots, a member each; 0 is read as 1. Boundaries 1, 2, .. go to bounds[0], bounds[1], ..; spare
 * elements stay. Refusals: 3, 5, 11. */
bp_planned bp_plan(BP_SET, uint64_t slots, int64_t *bounds, size_t bounds_n);

/* ---- a plan, as bp_plan made it: total, slots, partitions, and its boundaries */

/* Partition k's interval of ids; partition 0 begins at INT64_MIN. Refusals: 3, 12. */
bp_interval bp_ids(uint64_t total, uint64_t slots, uint64_t partitions, const int64_t *bounds, size_t bounds_n, uint64_t k);

/* Partition k's first rank and members; it needs no boundaries. Refusals: 3, 12. */
bp_ranked_span bp_ranks(uint64_t total, uint64_t slots, uint64_t partitions, uint64_t k);

/* Whether an id lies in an interval, and whether a range of ids, both ends included, meets it. The interval is from low up to high, excluded, where
 * has_high is true; else from low on, and high is not looked at. Refuse nothing. */
bool bp_in_partition(int64_t id, bool has_high, int64_t low, int64_t high);
bool bp_range_meets(int64_t min, int64_t max, bool has_high, int64_t low, int64_t high);

/* ---- a range list: record i is the ids from lows[i] to highs[i], both included. As many records as the shortest of the three slices has */

#define BP_RANGES const int64_t *lows, size_t lows_n, const int64_t *highs, size_t highs_n, uint8_t *marks, size_t marks_n

/* marks[i] becomes 1 where a member lies among them, else 0; marks past the records stay. Refusals: 3. */
bp_done bp_mark_ends_by_range(BP_RANGES, BP_SET);

/* The same where they meet partition k. Refusals: 3, 12. */
bp_done bp_mark_ends_by_partition(BP_RANGES, uint64_t total, uint64_t slots, uint64_t partitions, const int64_t *bounds, size_t bounds_n, uint64_t k);

/* ---- calls over a list of ids: as many as the shorter of ids and answers has; answers past them stay. A refusal leaves every answer as it was.
 * Reading ones look at all d + v entries first, so for a few ids single calls are cheaper */

#define BP_IDS const int64_t *ids, size_t ids_n

/* answers[i] becomes 1 where ids[i] is a member, else 0. Refusals: 3. */
bp_done bp_get_all(BP_IDS, uint8_t *answers, size_t answers_n, BP_SET);

/* Of a ranked set: the members below ids[i]; the same for a member, BP_NO_RANK for any other id. Refusals: 3, 5. */
#define BP_NO_RANK UINT64_MAX
bp_done bp_rank_all(BP_IDS, uint64_t *answers, size_t answers_n, BP_SET);
bp_done bp_rank_if_set_all(BP_IDS, uint64_t *answers, size_t answers_n, BP_SET);

/* Inserts ids one after the other, as bp_set_if_new does, up to the first that is refused. taken: how many there were before it, and they stay in the set;
 * fresh: how many of those were new; stop: 0, or the number that refused ids[taken] and so ended the call: 3, 4, 6, 7, 8. */
typedef struct {
    uint64_t taken;
    uint64_t fresh;
    uint64_t stop;
} bp_inserted;
bp_inserted bp_insert_all(BP_IDS, BP_SET_MUT);

/* ---- pure numbers: refuse nothing */

/* The slots that a budget of bytes buys. */
uint64_t bp_slots_for_budget(uint64_t bytes);

/* The highest id that a file of this length allows where it claims one. */
int64_t bp_file_bounded_max_id(int64_t claim, uint64_t length, uint64_t per_byte);

#ifdef __cplusplus
}
#endif

#endif
