/* Document 01's five-lot example through the C interface. It is C99, and C++ too. */
#include <stdio.h>
#include <string.h>

#include "lineage.h"

static int passed, failed;

static void expect(const char *what, bool right)
{
    if (right) {
        passed++;
    } else {
        failed++;
        printf("FAILED: %s\n", what);
    }
}

static bool are(const uint32_t *list, uint32_t a, uint32_t b, uint32_t c, uint32_t d, uint32_t e)
{
    return list[0] == a && list[1] == b && list[2] == c && list[3] == d && list[4] == e;
}

static int64_t reply[3];

static bool replied(bool called, int64_t a, int64_t b, int64_t c)
{
    return called && reply[0] == a && reply[1] == b && reply[2] == c;
}

static bool refused(bool called, enum lineage_refusal number, uint32_t lot)
{
    return replied(called, 0, number, lot);
}

static const uint32_t parent[5] = {0, 0, 0, 1, 1}, ranks[5] = {0, 0, 1, 0, 1};
static uint32_t times[5], x[5], y[5], held[5], work[20];

#define TABLE parent, 5, ranks, 5
#define SHEET times, 5, x, 5, y, 5, held, 5
#define WORK work, 20
#define REPLY reply, 3

/* The calls on the steep sheet. */
static bool lengthened(uint32_t lot, uint32_t count)
{
    return lineage_lengthen(false, TABLE, SHEET, WORK, lot, count, REPLY);
}

static bool shortened(uint32_t lot, uint32_t count)
{
    return lineage_shorten(false, TABLE, SHEET, WORK, lot, count, REPLY);
}

static bool hold(uint32_t lot, bool yes)
{
    return lineage_hold(false, TABLE, SHEET, WORK, lot, yes, REPLY);
}

static bool is_fresh_steep(void)
{
    return are(times, 1, 1, 1, 1, 1) && are(x, 0, 1, 1, 2, 2) && are(y, 0, 3, 4, 4, 5) && are(held, 0, 0, 0, 0, 0);
}

static void sheets(void)
{
    memset(held, -1, sizeof held);
    expect("a reply of two numbers", !lineage_layout(false, TABLE, SHEET, WORK, reply, 2));
    expect("held too short",
           refused(lineage_layout(false, TABLE, times, 5, x, 5, y, 5, held, 4, WORK, REPLY), LINEAGE_WRONG_LENGTH, 0));
    expect("held is as it was", are(held, UINT32_MAX, UINT32_MAX, UINT32_MAX, UINT32_MAX, UINT32_MAX));
    expect("steep frame", replied(lineage_layout(false, TABLE, SHEET, WORK, REPLY), 1, 3, 6));
    expect("steep sheet", is_fresh_steep());
    expect("it is monotone", replied(lineage_check(TABLE, x, 5, y, 5, WORK, REPLY), 1, 0, 0));

    expect("lengthen lot 1 by 2", replied(lengthened(1, 2), 1, 5, 12));
    expect("lots 1, 3 and 4 moved", are(times, 1, 3, 1, 1, 1) && are(x, 0, 3, 1, 4, 4) && are(y, 0, 9, 4, 10, 11));
    expect("shorten by 3", refused(shortened(1, 3), LINEAGE_COUNT_TOO_LARGE, 1));
    expect("shorten by 2", replied(shortened(1, 2), 1, 3, 6));
    expect("the fresh sheet is back", is_fresh_steep());

    expect("balanced frame", replied(lineage_layout(true, TABLE, SHEET, WORK, REPLY), 1, 7, 4));
    expect("balanced sheet", are(x, 0, 3, 1, 6, 5) && are(y, 0, 2, 1, 3, 3));
    expect("one lot is 1 by 1",
           replied(lineage_layout(true, parent, 1, ranks, 1, times, 1, x, 1, y, 1, held, 1, work, 4, REPLY), 1, 1, 1));
}

/* Document 02's held lines, on the steep sheet. */
static void held_lines(void)
{
    lineage_layout(false, TABLE, SHEET, WORK, REPLY);
    memset(reply, -1, sizeof reply);
    expect("a reply of two numbers", !lineage_hold(false, TABLE, SHEET, WORK, 1, true, reply, 2));
    expect("nothing is done", reply[0] == -1 && reply[1] == -1 && is_fresh_steep());
    expect("lot 0 has no edge", refused(hold(0, true), LINEAGE_NO_EDGE, 0));
    expect("there is no lot 5", refused(hold(5, true), LINEAGE_NO_SUCH_LOT, 0));
    expect("held too short", refused(lineage_hold(false, TABLE, times, 5, x, 5, y, 5, held, 4, WORK, 1, true, REPLY),
                                     LINEAGE_WRONG_LENGTH, 0));
    expect("no entry is set", is_fresh_steep());

    expect("hold lot 1", replied(hold(1, true), 1, 3, 6) && are(held, 0, 1, 0, 0, 0));
    expect("hold it again", replied(hold(1, true), 1, 3, 6) && are(held, 0, 1, 0, 0, 0));
    expect("hold lot 4 too", replied(hold(4, true), 1, 3, 6) && are(held, 0, 1, 0, 0, 1));
    expect("free lot 4", replied(hold(4, false), 1, 3, 6) && are(held, 0, 1, 0, 0, 0));
    expect("lengthen a held line by 2", refused(lengthened(1, 2), LINEAGE_HELD, 1));
    expect("lengthen it by 0", refused(lengthened(1, 0), LINEAGE_HELD, 1));
    expect("lengthen it too far", refused(lengthened(1, UINT32_MAX), LINEAGE_HELD, 1));
    expect("shorten it by 0", refused(shortened(1, 0), LINEAGE_HELD, 1));
    expect("shorten it by too much", refused(shortened(1, 1), LINEAGE_HELD, 1));
    expect("lengthen lot 3 below it", replied(lengthened(3, 4), 1, 7, 9) && are(x, 0, 1, 1, 6, 2));
    expect("shorten lot 3", replied(shortened(3, 4), 1, 3, 6) && are(held, 0, 1, 0, 0, 0));

    expect("free lot 1", replied(hold(1, false), 1, 3, 6) && is_fresh_steep());
    expect("free it again", replied(hold(1, false), 1, 3, 6) && is_fresh_steep());
    expect("hold lot 3", replied(hold(3, true), 1, 3, 6) && are(held, 0, 0, 0, 1, 0));
    expect("lengthen lot 1 by 2", replied(lengthened(1, 2), 1, 5, 12));
    expect("lot 3 moved, as long as it was",
           are(times, 1, 3, 1, 1, 1) && are(x, 0, 3, 1, 4, 4) && are(y, 0, 9, 4, 10, 11) && are(held, 0, 0, 0, 1, 0));

    held[3] = 2;
    expect("held is neither 0 nor 1", refused(hold(3, false), LINEAGE_NO_SHEET, 3));
    times[1] = 2;
    expect("the smallest lot, with wrong times", refused(hold(3, false), LINEAGE_NO_SHEET, 1));
    held[0] = 1;
    expect("the smallest lot, the root with held 1", refused(lengthened(3, 0), LINEAGE_NO_SHEET, 0));
    expect("a refusal leaves all", are(times, 1, 2, 1, 1, 1) && are(held, 1, 0, 0, 2, 0));
}

static int64_t each_reply[4];

static bool each_replied(bool called, int64_t a, int64_t b, int64_t c, int64_t place)
{
    return called && each_reply[0] == a && each_reply[1] == b && each_reply[2] == c && each_reply[3] == place;
}

static const uint32_t lots[3] = {1, 3, 0}, counts[3] = {2, 1, 1};

/* As many of the lots and as many of the counts, on the steep sheet of the table with these ranks. */
static bool lengthened_each(const uint32_t *rank, size_t some, size_t many)
{
    return lineage_lengthen_each(false, parent, 5, rank, 5, SHEET, WORK, lots, some, counts, many, each_reply, 4);
}

static bool is_arranged(void)
{
    return are(times, 1, 3, 1, 2, 1) && are(x, 0, 3, 1, 5, 4) && are(y, 0, 9, 4, 11, 11) && are(held, 0, 0, 0, 0, 0);
}

/* Document 02's list of lengthens, on the steep sheet. */
static void lists_of_lengthens(void)
{
    const uint32_t bad_root[5] = {1, 0, 1, 0, 1}, past_root[3] = {1, 0, 3};
    uint32_t before[20];
    lineage_layout(false, TABLE, SHEET, WORK, REPLY);
    memcpy(before, work, sizeof work);
    memset(each_reply, -1, sizeof each_reply);
    expect("a reply of three numbers",
           !lineage_lengthen_each(false, TABLE, SHEET, WORK, lots, 2, counts, 2, each_reply, 3));
    expect("nothing is done", each_replied(true, -1, -1, -1, -1) && is_fresh_steep());
    expect("lists that differ, and a work list too short",
           each_replied(lineage_lengthen_each(false, TABLE, SHEET, work, 19, lots, 2, counts, 1, each_reply, 4),
                        0, LINEAGE_WRONG_LENGTH, 0, 0));
    expect("lists that differ, and a bad root",
           each_replied(lengthened_each(bad_root, 2, 1), 0, LINEAGE_LISTS_DIFFER, 0, 0));
    expect("more counts than lots", each_replied(lengthened_each(ranks, 1, 2), 0, LINEAGE_LISTS_DIFFER, 0, 0));
    expect("the work list is as it was", memcmp(before, work, sizeof work) == 0);
    expect("a bad root", each_replied(lengthened_each(bad_root, 2, 2), 0, LINEAGE_WRONG_ROOT, 0, 0));
    expect("empty lists", each_replied(lengthened_each(ranks, 0, 0), 1, 3, 6, 0) && is_fresh_steep());

    expect("lot 1 by 2, then lot 3 by 1", each_replied(lengthened_each(ranks, 2, 2), 1, 6, 12, 0) && is_arranged());
    lineage_layout(false, TABLE, SHEET, WORK, REPLY);
    expect("the same singly", replied(lengthened(1, 2), 1, 5, 12) && replied(lengthened(3, 1), 1, 6, 12));
    expect("the same sheet", is_arranged());
    lineage_layout(false, TABLE, SHEET, WORK, REPLY);
    expect("in the other order", replied(lengthened(3, 1), 1, 4, 6) && replied(lengthened(1, 2), 1, 6, 12));
    expect("the same sheet again", is_arranged());

    lineage_layout(false, TABLE, SHEET, WORK, REPLY);
    expect("the root is second",
           each_replied(lineage_lengthen_each(false, TABLE, SHEET, WORK, past_root, 3, counts, 3, each_reply, 4),
                        0, LINEAGE_NO_EDGE, 0, 2));
    expect("lot 1 is stretched, and lot 3 is not", are(times, 1, 3, 1, 1, 1) && are(y, 0, 9, 4, 10, 11));
    hold(3, true);
    expect("a held line is second", each_replied(lengthened_each(ranks, 3, 3), 0, LINEAGE_HELD, 3, 2));
    expect("lot 1 is stretched again", are(times, 1, 5, 1, 1, 1) && are(y, 0, 15, 4, 16, 17));

    y[4]++;
    expect("no sheet, empty lists", each_replied(lengthened_each(ranks, 0, 0), 0, LINEAGE_NO_SHEET, 4, 0));
    expect("no sheet", each_replied(lengthened_each(ranks, 3, 3), 0, LINEAGE_NO_SHEET, 4, 0));
    expect("a refusal before the first leaves all", are(times, 1, 5, 1, 1, 1) && are(y, 0, 15, 4, 16, 18));
}

static bool column(uint32_t lot, uint32_t at)
{
    return lineage_column(true, TABLE, SHEET, WORK, lot, at, REPLY);
}

static bool is_fresh_balanced(void)
{
    return are(times, 1, 1, 1, 1, 1) && are(x, 0, 3, 1, 6, 5) && are(y, 0, 2, 1, 3, 3) && are(held, 0, 0, 0, 0, 0);
}

/* Document 02's columns, on the balanced sheet, where lot 1's slope goes 3 across, and lot 3 is 3 farther out. */
static void columns(void)
{
    const uint32_t most = LINEAGE_MAX_PLACE;
    uint32_t before[20];
    lineage_layout(true, TABLE, SHEET, WORK, REPLY);
    memcpy(before, work, sizeof work);
    memset(reply, -1, sizeof reply);
    expect("a reply of two numbers", !lineage_column(true, TABLE, SHEET, WORK, 1, 3, reply, 2));
    expect("nothing is done", replied(true, -1, -1, -1) && is_fresh_balanced());
    expect("no lots",
           refused(lineage_column(true, parent, 0, ranks, 0, times, 0, x, 0, y, 0, held, 0, work, 0, 1, 3, REPLY),
                   LINEAGE_NO_LOTS, 0));
    expect("held too short", refused(lineage_column(true, TABLE, times, 5, x, 5, y, 5, held, 4, WORK, 1, 3, REPLY),
                                     LINEAGE_WRONG_LENGTH, 0));
    expect("work too short",
           refused(lineage_column(true, TABLE, SHEET, work, 19, 1, 3, REPLY), LINEAGE_WRONG_LENGTH, 0));
    expect("the work list is as it was", memcmp(before, work, sizeof work) == 0);
    expect("there is no lot 5", refused(column(5, 3), LINEAGE_NO_SUCH_LOT, 0));
    expect("lot 0 has no edge", refused(column(0, 0), LINEAGE_NO_EDGE, 0));

    expect("lot 1 stands there", replied(column(1, 3), 1, 0, 0));
    expect("once more", replied(column(1, 6), 1, 1, 0));
    expect("the gap is 2", replied(column(1, 5), 2, 0, 0));
    expect("the gap is 1", replied(column(1, 4), 2, 0, 0));
    expect("to the left", replied(column(1, 2), 2, 0, 0) && replied(column(1, 0), 2, 0, 0));
    expect("as far as lot 3 can go", replied(column(1, most - 4), 1, 715827880, 0));
    expect("lot 3 would be beyond", replied(column(1, most - 1), 2, 0, 0));
    expect("the column is beyond", replied(column(1, most + 1), 2, 0, 0) && replied(column(1, UINT32_MAX), 2, 0, 0));
    expect("nothing moved", is_fresh_balanced());

    expect("hold lot 1", replied(lineage_hold(true, TABLE, SHEET, WORK, 1, true, REPLY), 1, 7, 4));
    expect("it is held", replied(column(1, 6), 2, 0, 0));
    expect("it is held where it stands", replied(column(1, 3), 2, 0, 0));
    expect("lot 3 below it is free", replied(column(3, 12), 1, 2, 0));
    expect("lengthen lot 3 by 2", replied(lineage_lengthen(true, TABLE, SHEET, WORK, 3, 2, REPLY), 1, 13, 6));
    expect("it is in the column", x[3] == 12 && replied(column(3, 12), 1, 0, 0));

    y[4]++;
    expect("no sheet", refused(column(1, 3), LINEAGE_NO_SHEET, 4));
    expect("no sheet, and no such lot", refused(column(5, 3), LINEAGE_NO_SHEET, 4));
    expect("a refusal leaves all", are(times, 1, 1, 1, 3, 1) && are(y, 0, 2, 1, 5, 4) && are(held, 0, 1, 0, 0, 0));
}

/* Document 02's small cabinet: the same sheets up to its limits, on the steep sheet, and on two lots at its edge. */
static void small_cabinet(void)
{
    static uint32_t many[4 * (LINEAGE_SMALL_LOTS + 1)];
    const size_t over = LINEAGE_SMALL_LOTS + 1;
    const uint32_t edge = LINEAGE_SMALL_PLACE;
    uint32_t before[20];
    memset(reply, -1, sizeof reply);
    memset(times, -1, sizeof times);
    expect("a reply of two numbers", !lineage_small_layout(false, TABLE, SHEET, WORK, reply, 2));
    expect("nothing is done", reply[0] == -1 && reply[1] == -1 && times[1] == UINT32_MAX);
    expect("steep frame", replied(lineage_small_layout(false, TABLE, SHEET, WORK, REPLY), 1, 3, 6));
    expect("steep sheet", is_fresh_steep());
    expect("lengthen lot 1 by 2", replied(lineage_small_lengthen(false, TABLE, SHEET, WORK, 1, 2, REPLY), 1, 5, 12));
    expect("lots 1, 3 and 4 moved", are(times, 1, 3, 1, 1, 1) && are(x, 0, 3, 1, 4, 4) && are(y, 0, 9, 4, 10, 11));
    expect("shorten by 3",
           refused(lineage_small_shorten(false, TABLE, SHEET, WORK, 1, 3, REPLY), LINEAGE_COUNT_TOO_LARGE, 1));
    expect("shorten by 2", replied(lineage_small_shorten(false, TABLE, SHEET, WORK, 1, 2, REPLY), 1, 3, 6));
    expect("the fresh sheet is back", is_fresh_steep());
    expect("hold lot 1", replied(hold(1, true), 1, 3, 6));
    expect("a held line, however far",
           refused(lineage_small_lengthen(false, TABLE, SHEET, WORK, 1, UINT32_MAX, REPLY), LINEAGE_HELD, 1));
    memcpy(before, work, sizeof work);
    expect("a lot too many", refused(lineage_small_layout(false, many, over, many, over, SHEET, WORK, REPLY),
                                     LINEAGE_TOO_MANY_FOR_SMALL, 0));
    expect("it comes before 3, and leaves all", memcmp(before, work, sizeof work) == 0 && are(held, 0, 1, 0, 0, 0));

#define PAIR parent, 2, parent, 2, times, 2, x, 2, y, 2, held, 2, work, 8
    expect("two lots", replied(lineage_small_layout(false, PAIR, REPLY), 1, 2, 2));
    expect("to beyond the edge",
           refused(lineage_small_lengthen(false, PAIR, 1, edge, REPLY), LINEAGE_WOULD_PASS_SMALL_PLACE, 1));
    expect("to the edge", replied(lineage_small_lengthen(false, PAIR, 1, edge - 1, REPLY), 1, edge + 1, edge + 1));
    expect("the large cabinet goes on", replied(lineage_lengthen(false, PAIR, 1, 1, REPLY), 1, edge + 2, edge + 2));
    expect("no sheet of the small one",
           refused(lineage_small_shorten(false, PAIR, 1, 1, REPLY), LINEAGE_NO_SHEET, 1));
    expect("a refusal leaves it", times[1] == edge + 1 && x[1] == edge + 1 && y[1] == edge + 1);
#undef PAIR
}

static void directions(void)
{
    expect("direction 3 to 2", replied(lineage_direction(false, TABLE, WORK, 3, 2, REPLY), 1, -7, 2));
    expect("direction 2 to 3", replied(lineage_direction(false, TABLE, WORK, 2, 3, REPLY), 1, 7, -2));
    expect("direction 4 to 3", replied(lineage_direction(false, TABLE, WORK, 4, 3, REPLY), 1, 3, -2));
    expect("direction 0 to 4", replied(lineage_direction(false, TABLE, WORK, 0, 4, REPLY), 1, 1, 1));
    expect("direction 2 to 2", replied(lineage_direction(false, TABLE, WORK, 2, 2, REPLY), 1, 1, 1));
    expect("direction 5 to 5", refused(lineage_direction(false, TABLE, WORK, 5, 5, REPLY), LINEAGE_NO_SUCH_LOT, 0));
}

/* Whether z is v or below it, by the parents alone. */
static bool under(uint32_t v, uint32_t z)
{
    while (z != v && z != 0)
        z = parent[z];
    return z == v;
}

static void numbers(void)
{
    const uint32_t loop[5] = {0, 2, 1, 0, 0}, loop_ranks[5] = {0, 0, 0, 0, 1};
    uint32_t first[5] = {9, 9, 9, 9, 9}, last[5] = {8, 8, 8, 8, 8}, before[20];
    memcpy(before, work, sizeof work);
    expect("no lots", refused(lineage_post_numbers(parent, 0, ranks, 0, first, 0, last, 0, work, 0, REPLY),
                              LINEAGE_NO_LOTS, 0));
    expect("first too short",
           refused(lineage_post_numbers(TABLE, first, 4, last, 5, WORK, REPLY), LINEAGE_WRONG_LENGTH, 0));
    expect("last too short",
           refused(lineage_post_numbers(TABLE, first, 5, last, 4, WORK, REPLY), LINEAGE_WRONG_LENGTH, 0));
    expect("work too short",
           refused(lineage_post_numbers(TABLE, first, 5, last, 5, work, 19, REPLY), LINEAGE_WRONG_LENGTH, 0));
    memset(reply, -1, sizeof reply);
    expect("a reply of two numbers", !lineage_post_numbers(TABLE, first, 5, last, 5, WORK, reply, 2));
    expect("it is not set", reply[0] == -1 && reply[1] == -1);
    expect("the work list is as it was", memcmp(before, work, sizeof work) == 0);
    expect("a loop",
           refused(lineage_post_numbers(loop, 5, loop_ranks, 5, first, 5, last, 5, WORK, REPLY), LINEAGE_LOOP, 1));
    expect("first and last are as they were", are(first, 9, 9, 9, 9, 9) && are(last, 8, 8, 8, 8, 8));

    expect("post numbers", replied(lineage_post_numbers(TABLE, first, 5, last, 5, WORK, REPLY), 1, 5, 0));
    expect("first and last", are(first, 1, 1, 4, 1, 2) && are(last, 5, 3, 4, 1, 2));
    for (uint32_t v = 0; v < 5; v++)
        for (uint32_t z = 0; z < 5; z++)
            expect("a lot is in a subtree exactly when its number is",
                   under(v, z) == (first[v] <= last[z] && last[z] <= last[v]));
}

static void checks(void)
{
    const uint32_t chain[4] = {0, 0, 1, 2}, first[4] = {0, 0, 0, 0}, across[4] = {0, 1, 1, 0}, up[4] = {0, 0, 1, 1};
    expect("a chain that turns",
           replied(lineage_check(chain, 4, first, 4, across, 4, up, 4, work, 16, REPLY), 2, 0, 3));

    const uint32_t far[4] = {0, LINEAGE_MAX_PLACE, 0, LINEAGE_MAX_PLACE + UINT32_C(1)};
    expect("a place beyond", refused(lineage_check(chain, 4, first, 4, far, 4, up, 4, work, 16, REPLY),
                                     LINEAGE_PASSES_MAX_PLACE, 3));
}

/* Whether the n lots are the chain, and the fresh steep sheet that layout draws of it has this frame. */
static bool is_chain(uint32_t n, const uint32_t *above, const uint32_t *rank, int64_t width, int64_t height)
{
    static uint32_t lists[4][LINEAGE_MAX_LOTS], room[4 * LINEAGE_MAX_LOTS];
    for (uint32_t v = 0; v < n; v++)
        if (above[v] != (v == 0 ? 0 : v - 1) || rank[v] != 0)
            return false;
    return replied(lineage_layout(false, above, n, rank, n, lists[0], n, lists[1], n, lists[2], n, lists[3], n, room,
                                  4 * (size_t)n, REPLY),
                   1, width, height);
}

/* Document 02's tallest sheet. */
static void tallest(void)
{
    static uint32_t many[LINEAGE_MAX_LOTS], many_ranks[LINEAGE_MAX_LOTS];
    const uint32_t most = LINEAGE_MAX_LOTS;
    uint32_t above[5] = {9, 9, 9, 9, 9}, rank[5] = {8, 8, 8, 8, 8};
    memset(reply, -1, sizeof reply);
    memset(each_reply, -1, sizeof each_reply);
    expect("a reply of two numbers", !lineage_tallest(5, above, 5, rank, 5, reply, 2));
    expect("it is not set", replied(true, -1, -1, -1));
    expect("a reply of four numbers", !lineage_tallest(5, above, 5, rank, 5, each_reply, 4));
    expect("it is not set either", each_replied(true, -1, -1, -1, -1));
    expect("no lots", refused(lineage_tallest(0, above, 0, rank, 0, REPLY), LINEAGE_NO_LOTS, 0));
    expect("no lots, in lists of five", refused(lineage_tallest(0, above, 5, rank, 5, REPLY), LINEAGE_NO_LOTS, 0));
    expect("a lot too many, in empty lists",
           refused(lineage_tallest(most + 1, above, 0, rank, 0, REPLY), LINEAGE_TOO_MANY_LOTS, 0));
    expect("the largest n",
           refused(lineage_tallest(UINT32_MAX, above, 5, rank, 5, REPLY), LINEAGE_TOO_MANY_LOTS, 0));
    expect("three lots in lists of two",
           refused(lineage_tallest(3, above, 2, rank, 2, REPLY), LINEAGE_WRONG_LENGTH, 0));
    expect("parent too short", refused(lineage_tallest(3, above, 2, rank, 3, REPLY), LINEAGE_WRONG_LENGTH, 0));
    expect("rank too short", refused(lineage_tallest(3, above, 3, rank, 2, REPLY), LINEAGE_WRONG_LENGTH, 0));
    expect("parent too long", refused(lineage_tallest(3, above, 4, rank, 3, REPLY), LINEAGE_WRONG_LENGTH, 0));
    expect("rank too long", refused(lineage_tallest(3, above, 3, rank, 4, REPLY), LINEAGE_WRONG_LENGTH, 0));
    expect("both lists are as they were", are(above, 9, 9, 9, 9, 9) && are(rank, 8, 8, 8, 8, 8));

    expect("one lot", replied(lineage_tallest(1, above, 1, rank, 1, REPLY), 1, 1, 1));
    expect("its sheet", is_chain(1, above, rank, 1, 1));
    expect("two lots", replied(lineage_tallest(2, above, 2, rank, 2, REPLY), 1, 2, 2));
    expect("their sheet", is_chain(2, above, rank, 2, 2));
    expect("what lies behind them is as it was", above[2] == 9 && rank[2] == 8);
    expect("five lots", replied(lineage_tallest(5, above, 5, rank, 5, REPLY), 1, 5, 11));
    expect("each hangs on the one before it", are(above, 0, 0, 1, 2, 3) && are(rank, 0, 0, 0, 0, 0));
    expect("their sheet", is_chain(5, above, rank, 5, 11));
    memset(many, -1, sizeof many);
    memset(many_ranks, -1, sizeof many_ranks);
    expect("the most lots", replied(lineage_tallest(most, many, most, many_ranks, most, REPLY), 1, most, 2147450881));
    expect("their sheet", is_chain(most, many, many_ranks, most, 2147450881));
}

/* What a window shows of a place, where both lists are long enough. */
static double point[2];

static bool shown(uint32_t across, uint32_t up, uint32_t a, uint32_t b, uint32_t m)
{
    point[0] = point[1] = -1;
    return lineage_window(across, up, a, b, m, point, 2, REPLY);
}

static bool is_shown(uint32_t across, uint32_t up, uint32_t a, uint32_t b, uint32_t m, double right, double high)
{
    return replied(shown(across, up, a, b, m), 1, 0, 0) && point[0] == right && point[1] == high;
}

static bool is_outside(uint32_t across, uint32_t up, uint32_t a, uint32_t b, uint32_t m)
{
    return replied(shown(across, up, a, b, m), 2, 0, 0) && point[0] == -1 && point[1] == -1;
}

/* Document 02's windows: at their edges, at the end of the grid, of the largest side, and on the five lots. */
static void windows(void)
{
    const uint32_t last = UINT32_MAX;
    const double side = 2147483648.0;
    point[0] = point[1] = -1;
    memset(reply, -1, sizeof reply);
    memset(each_reply, -1, sizeof each_reply);
    expect("a reply of two numbers", !lineage_window(5, 7, 4, 4, 2, point, 2, reply, 2));
    expect("a reply of four numbers", !lineage_window(5, 7, 4, 4, 2, point, 2, each_reply, 4));
    expect("a point of one number", !lineage_window(5, 7, 4, 4, 2, point, 1, REPLY));
    expect("a point of none, and an exponent of 32", !lineage_window(5, 7, 4, 4, 32, point, 0, REPLY));
    expect("nothing is written", replied(true, -1, -1, -1) && each_replied(true, -1, -1, -1, -1) && point[0] == -1);

    expect("(5, 7) at (4, 4), of side 4", is_shown(5, 7, 4, 4, 2, 0.25, 0.75));
    expect("it is outside at (5, 8)", is_outside(5, 7, 5, 8, 2));
    expect("the corner", is_shown(4, 4, 4, 4, 2, 0, 0));
    expect("left of it and below it", is_outside(3, 4, 4, 4, 2) && is_outside(4, 3, 4, 4, 2));
    expect("the far edges", is_outside(8, 4, 4, 4, 2) && is_outside(4, 8, 4, 4, 2));
    expect("just before them", is_shown(7, 7, 4, 4, 2, 0.75, 0.75));
    expect("a window of one place", is_shown(9, 8, 9, 8, 0, 0, 0) && is_outside(9, 9, 9, 8, 0));
    expect("the last numbers", is_shown(last, last, last, last, LINEAGE_MAX_EXPONENT, 0, 0));
    expect("a far edge beyond them", is_shown(last, last - 1, last - 1, last - 1, 1, 0.5, 0));
    expect("nothing wraps", is_outside(0, last, last, last, LINEAGE_MAX_EXPONENT));
    expect("the largest side", is_shown(LINEAGE_MAX_PLACE, 1, 0, 0, 31, LINEAGE_MAX_PLACE / side, 1 / side));
    expect("its far edge", is_outside(LINEAGE_MAX_PLACE + UINT32_C(1), 0, 0, 0, 31));
    for (uint32_t m = LINEAGE_MAX_EXPONENT + 1; m != 0; m <<= 1)
        expect("a larger exponent", refused(shown(5, 7, 4, 4, m), LINEAGE_EXPONENT_TOO_LARGE, 0) && point[0] == -1);

    lineage_layout(false, TABLE, SHEET, WORK, REPLY);
    for (uint32_t v = 0; v < 5; v++)
        if (v == 0 || v == 4)
            expect("lots 0 and 4 are outside", is_outside(x[v], y[v], 1, 3, 1));
        else
            expect("lots 1 to 3 are shown", is_shown(x[v], y[v], 1, 3, 1, (x[v] - 1) / 2.0, (y[v] - 3) / 2.0));
}

static void files(void)
{
    uint8_t file[44];
    expect("tree file written", replied(lineage_write_tree(TABLE, file, 44, WORK, REPLY), 1, 44, 0));
    expect("its first bytes", memcmp(file, "\5\0\0\0\0\0\0\0\0\0\0\0\0\0\0\0\1\0\0\0", 20) == 0);
    expect("it states 5 lots", lineage_stated_nodes(file, 44) == 5 && lineage_stated_nodes(file, 4) == 5);
    expect("3 bytes state none", lineage_stated_nodes(file, 3) == 0);

    uint32_t p[5], r[5];
    expect("tree file read", replied(lineage_read_tree(file, 44, p, 5, r, 5, WORK, REPLY), 1, 5, 0));
    expect("the same table", memcmp(p, parent, sizeof p) == 0 && memcmp(r, ranks, sizeof r) == 0);
    expect("a byte too few",
           refused(lineage_read_tree(file, 43, p, 5, r, 5, WORK, REPLY), LINEAGE_WRONG_FILE_LENGTH, 0));

    file[3] = 1;
    expect("too many are stated", lineage_stated_nodes(file, 44) == 5 + (UINT32_C(1) << 24));
    expect("and refused", refused(lineage_read_tree(file, 44, p, 5, r, 5, WORK, REPLY), LINEAGE_TOO_MANY_LOTS, 0));
}

int main(void)
{
    sheets();
    held_lines();
    lists_of_lengthens();
    columns();
    small_cabinet();
    directions();
    numbers();
    checks();
    tallest();
    windows();
    files();
    printf("%d passed, %d failed\n", passed, failed);
    return failed != 0;
}
