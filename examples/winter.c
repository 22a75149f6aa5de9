/* A winter afternoon in small: the road nodes of two villages, each loaded into a set of its own, united, ranked, cut into partitions and read partition by
 * partition. What it prints stands in winter.out.
 *
 *     bin/library
 *     cc -I target/library examples/winter.c target/library/libbrothpillow.a && ./a.out
 */
#include <inttypes.h>
#include <stdio.h>

#include "brothpillow.h"

/* chunks of 4,096 ids, lists of up to 8 members; up to chunk 7 directly, two chunks above; four lists and three bit maps */
enum { S = 12, M = 8, D = 8, V = 2, R = 4, P = 3, ROOM = 16 };

typedef struct {
    uint64_t pages[BP_PAGES_LEN(S, P)];
    uint32_t rows[BP_ROWS_LEN(M, R)];
    uint32_t blocks[BP_BLOCKS_LEN(S, P)];
    uint64_t table[BP_TABLE_LEN(D, V, R, P)];
} village;

/* the four slices of a set, as every call takes them */
#define LENT(x) \
    (x).pages, BP_PAGES_LEN(S, P), (x).rows, BP_ROWS_LEN(M, R), (x).blocks, BP_BLOCKS_LEN(S, P), (x).table, BP_TABLE_LEN(D, V, R, P)

static village here, there, kept;

static void load(const char *name, village *x, int64_t first, int64_t step, int count)
{
    int new = 0, old = 0;
    uint64_t refused = 0;
    for (int i = 0; i < count && refused == 0; i++) {
        bp_truth a = bp_set_if_new(LENT(*x), first + step * i);
        refused = a.refusal;
        new += a.yes;
        old += refused == 0 && !a.yes;
    }
    printf("%s: from %" PRId64 " on, %d new, %d not", name, first, new, old);
    if (refused != 0) printf(", then refused %" PRIu64, refused);
    printf("\n");
}

static void counts(const char *name, const village *x)
{
    bp_number members = bp_len(LENT(*x)), chunks = bp_allocated_chunk_count(LENT(*x));
    printf("%s: %" PRIu64 " members in %" PRIu64 " chunks, %s the layout\n", name, members.value, chunks.value,
           bp_check(LENT(*x)) ? "follows" : "breaks");
}

static void rank(const village *x, int64_t id)
{
    bp_number below = bp_rank(LENT(*x), id);
    bp_optional own = bp_rank_if_set(LENT(*x), id);
    if (below.refusal != 0) {
        printf("rank of %" PRId64 ": refused %" PRIu64 "\n", id, below.refusal);
        return;
    }
    printf("rank of %" PRId64 ": %" PRIu64 " below, ", id, below.value);
    if (own.has) printf("row %" PRIu64 " of the ground table\n", own.value);
    else printf("not a member\n");
}

/* the members of an interval, record by record */
static void walk(const village *x, bp_interval part)
{
    int64_t start = part.low;
    uint64_t records = 0, ids = 0;
    int64_t first = 0, last = 0;
    for (bool more = true; more; records++) {
        bp_listing list = bp_iter_from(LENT(*x), start);
        for (uint64_t i = 0; i < list.count && bp_in_partition(list.ids[i], part.has_high, part.low, part.high); i++) {
            if (ids == 0) first = list.ids[i];
            last = list.ids[i];
            ids++;
        }
        more = !list.end && bp_in_partition(list.ids[list.count - 1], part.has_high, part.low, part.high);
        start = list.next;
    }
    printf("    %" PRIu64 " ids, %" PRId64 " to %" PRId64 ", in %" PRIu64 " records\n", ids, first, last, records);
}

static void plan(const village *x, uint64_t slots)
{
    int64_t bounds[ROOM];
    bp_planned made = bp_plan(LENT(*x), slots, bounds, ROOM);
    if (made.refusal != 0) {
        printf("plan with %" PRIu64 " slots: refused %" PRIu64 "\n", slots, made.refusal);
        return;
    }
    printf("plan: %" PRIu64 " members, %" PRIu64 " slots, %" PRIu64 " partitions\n", made.total, made.slots, made.partitions);
    for (uint64_t k = 0; k <= made.partitions; k++) {
        bp_interval ids = bp_ids(made.total, made.slots, made.partitions, bounds, ROOM, k);
        bp_ranked_span ranks = bp_ranks(made.total, made.slots, made.partitions, k);
        if (ids.refusal != 0) {
            printf("  %" PRIu64 ": refused %" PRIu64 "\n", k, ids.refusal);
            continue;
        }
        printf("  %" PRIu64 ": ", k);
        if (ids.low == INT64_MIN) printf("from the smallest id ");
        else printf("from %" PRId64 " ", ids.low);
        if (ids.has_high) printf("up to %" PRId64, ids.high);
        else printf("on");
        printf(", ranks %" PRIu64 " to %" PRIu64 "\n", ranks.first, ranks.first + ranks.count - 1);
        walk(x, ids);
    }
}

/* which of three blocks of the map hold a road node */
static void ranges(const village *x)
{
    const int64_t lows[] = { 0, 9000, 40000 }, highs[] = { 999, 9999, INT64_MAX };
    uint8_t marks[3];
    bp_done a = bp_mark_ends_by_range(lows, 3, highs, 3, marks, 3, LENT(*x));
    printf("blocks with a node: %d %d %d, refusal %" PRIu64 "\n", marks[0], marks[1], marks[2], a.refusal);
}

/* a set without rows and without pages: the two slices, and the block counts, are lent as no pointer at all */
static void nothing(void)
{
    uint64_t table[BP_TABLE_LEN(2, 1, 0, 0)];
#define EMPTY NULL, 0, NULL, 0, NULL, 0, table, BP_TABLE_LEN(2, 1, 0, 0)
    bp_done made = bp_set_up(9, 4, 2, 1, 0, 0, EMPTY);
    bp_truth in = bp_set_if_new(EMPTY, 7);
    bp_done ranked = bp_into_ranked(EMPTY);
    bp_planned cut = bp_plan(EMPTY, 5, NULL, 0);
    bp_listing list = bp_iter_from(EMPTY, 0);
    printf("no rows, no pages: set up %" PRIu64 ", insert refused %" PRIu64 ", ranked %" PRIu64 ", %" PRIu64 " partition, %" PRIu64 " ids, %s\n", made.refusal,
           in.refusal, ranked.refusal, cut.partitions, list.count, bp_check(EMPTY) ? "follows the layout" : "breaks the layout");
}

int main(void)
{
    village *const both[] = { &here, &there };
    for (int i = 0; i < 2; i++)
        if (bp_set_up(S, M, D, V, R, P, LENT(*both[i])).refusal != 0) return 1;

    load("here", &here, 100, 1, 70);
    load("here", &here, 5000, 3, 4);
    load("here", &here, 5000, 1, 7);
    load("there", &there, 160, 1, 30);
    load("there", &there, 40000, 11, 6);
    load("there", &there, 40000, 11, 12);
    load("there", &there, 60000, 4096, 3);
    load("there", &there, -5, 1, 5);
    counts("here", &here);
    counts("there", &there);

    kept = there;
    bp_done united = bp_merge(LENT(here), LENT(there));
    printf("united: refusal %" PRIu64 "\n", united.refusal);
    counts("here", &here);
    counts("there", &there);
    counts("kept", &kept);

    rank(&here, 5003);
    if (bp_into_ranked(LENT(here)).refusal != 0) return 1;
    rank(&here, 100);
    rank(&here, 5003);
    rank(&here, 5004);
    rank(&here, INT64_MAX);
    printf("insert into a ranked set: refused %" PRIu64 "\n", bp_set(LENT(here), 1).refusal);

    plan(&here, 70);
    plan(&here, 1);
    ranges(&here);

    united = bp_merge_from(LENT(kept), LENT(here));
    printf("taken into the copy: refusal %" PRIu64 "\n", united.refusal);
    counts("kept", &kept);
    nothing();
    printf("a budget of a gibibyte buys %" PRIu64 " slots\n", bp_slots_for_budget(UINT64_C(1) << 30));
    return 0;
}
