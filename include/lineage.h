/*
 * lineage.h - lineage sheets on the grid: monotone drawings of rooted trees with whole-number places.
 *
 * Link with liblineage.so or liblineage.a; `tools/package PREFIX` writes both, with a file for pkg-config. Every
 * function below is proved to do what its contract in crates/lineage/src/lib.rt says, for all lists of all lengths.
 *
 * A table of n lots, 1 to 65,536 (1,024 on the small cabinet), is two lists of n numbers:
 *     parent[v]   the lot that v hangs on; the root is lot 0, with parent 0
 *     rank[v]     v's place among the children of its parent, from 0; the root has rank 0
 * A sheet of a table under a rule is four lists of n numbers:
 *     times[v]    how many times its slope the edge from parent[v] to v is long; 1 for the root
 *     x[v], y[v]  the place of v: its parent's place plus times[v] times its slope; (0, 0) for the root
 *     held[v]     1 where that edge is held: no call changes its length until it is freed; otherwise 0, as for the root
 * The slope of a lot's edge is the j-th of the rule, where j is the lot's number in post-order, from 1:
 *     steep       across 1, up j
 *     balanced    the j-th fraction, in increasing order, of the first k levels of the Stern-Brocot tree, 2^k >= n
 *
 * Common to all calls
 *   - Each list is a pointer and its length, in elements. The pointer must be valid for that many elements (any
 *     non-null, aligned pointer does for a length of 0). A list that a call may change must not overlap any other list
 *     of the call.
 *   - `work` is 4n numbers that the call may use; what it holds before does not matter, and what it holds after is
 *     free. Refusals 1, 2, 3, 14, 19 and 20, and the reader's 16 and 17, leave it as it was.
 *   - `reply` is three numbers, and four for lineage_lengthen_each, which the call sets. Where reply_length is another,
 *     or point_length of lineage_window not 2, the call returns false and changes nothing at all; otherwise it returns
 *     true.
 *   - A reply of {0, number, lot} is a refusal: the call changed no list but `work` (of a list of lengthens this is
 *     said of the refused one). The number is that of the first ground that applies, in the order that stands with the
 *     call. The lot is the smallest of which it is true with 5, 6, 7, 8 and 15, the lot that was asked for with 11, 12,
 *     21 and 22, and 0 otherwise. Any other reply is given below.
 *   - No call allocates, recurses, locks or keeps anything between calls. Calls on different lists may run at once.
 */
#ifndef LINEAGE_H
#define LINEAGE_H

#include <stdbool.h>
#include <stddef.h>
#include <stdint.h>

#ifdef __cplusplus
extern "C" {
#endif

/* The version of the library that this header belongs to. From 0.2 frames count grid cells; from 0.3 there is
 * lineage_post_numbers; from 0.4 a lot has a direction to itself; from 0.5 a sheet has a fourth list, held, which its
 * calls take after y, and there is lineage_hold; from 0.6 there is lineage_lengthen_each; from 0.7 the small cabinet
 * has calls of its own; from 0.8 there is lineage_column; from 0.9 there is lineage_tallest;
 * from 0.10 there is lineage_window. */
#define LINEAGE_VERSION "0.10.0"
#define LINEAGE_VERSION_MAJOR 0
#define LINEAGE_VERSION_MINOR 10
#define LINEAGE_VERSION_PATCH 0

/* The most lots of a table, the most that the check takes, and the largest x and y on a sheet; the small cabinet's; the
 * largest exponent of a window's side. */
#define LINEAGE_MAX_LOTS 65536
#define LINEAGE_CHECK_LOTS 4096
#define LINEAGE_MAX_PLACE 2147483647
#define LINEAGE_SMALL_LOTS 1024
#define LINEAGE_SMALL_PLACE 1048575
#define LINEAGE_MAX_EXPONENT 31

/* Why a call refuses: the second number of a reply that is a refusal.
 * 13 is no longer given: up to version 0.3 it refused a direction from a lot to itself. */
enum lineage_refusal {
    /* there are no lots */
    LINEAGE_NO_LOTS = 1,
    /* there are more than 65,536 lots */
    LINEAGE_TOO_MANY_LOTS = 2,
    /* a lent list is not n long, or the work list not 4n */
    LINEAGE_WRONG_LENGTH = 3,
    /* the parent and rank of lot 0 are not both 0 */
    LINEAGE_WRONG_ROOT = 4,
    /* the lot's parent is not a lot of the table */
    LINEAGE_NO_SUCH_PARENT = 5,
    /* the lot's rank is not below its parent's number of children, or a sibling has it too */
    LINEAGE_WRONG_RANK = 6,
    /* the lot's parents never lead to lot 0 */
    LINEAGE_LOOP = 7,
    /* the lists are no sheet of the table and rule: the lot's times, place or held is wrong */
    LINEAGE_NO_SHEET = 8,
    /* there is no such lot */
    LINEAGE_NO_SUCH_LOT = 9,
    /* the root has no edge */
    LINEAGE_NO_EDGE = 10,
    /* some place would be above 2,147,483,647 */
    LINEAGE_WOULD_PASS_MAX_PLACE = 11,
    /* the count is not below the lot's times */
    LINEAGE_COUNT_TOO_LARGE = 12,
    /* there are more than 4,096 lots */
    LINEAGE_TOO_MANY_TO_CHECK = 14,
    /* the lot's place is above 2,147,483,647 */
    LINEAGE_PASSES_MAX_PLACE = 15,
    /* the tree file has fewer than 4 bytes */
    LINEAGE_FILE_TOO_SHORT = 16,
    /* the tree file is not 4 + 8n bytes long */
    LINEAGE_WRONG_FILE_LENGTH = 17,
    /* the window's exponent is above 31 */
    LINEAGE_EXPONENT_TOO_LARGE = 18,
    /* the list of lots and the list of counts differ in length */
    LINEAGE_LISTS_DIFFER = 19,
    /* there are more than 1,024 lots */
    LINEAGE_TOO_MANY_FOR_SMALL = 20,
    /* some place would be above 1,048,575 */
    LINEAGE_WOULD_PASS_SMALL_PLACE = 21,
    /* the lot's line is held */
    LINEAGE_HELD = 22
};

/* Writes the fresh sheet, every times 1 and every held 0, into times, x, y and held. Reply: {1, width, height}, the
 * frame in grid cells: the largest x plus 1 and the largest y plus 1. Refusals 1 to 7. */
bool lineage_layout(bool balanced, const uint32_t *parent, size_t parent_length, const uint32_t *rank,
                    size_t rank_length, uint32_t *times, size_t times_length, uint32_t *x, size_t x_length,
                    uint32_t *y, size_t y_length, uint32_t *held, size_t held_length, uint32_t *work,
                    size_t work_length, int64_t *reply, size_t reply_length);

/* Makes the edge of `lot` longer by `count` times its slope: times[lot] grows by count, and the lot moves with its
 * whole subtree, held lines too. Reply: {1, width, height}. Refusals 1 to 10, 22, 11. Count 0 changes nothing.
 * Lengthens that are all accepted on a sheet are so in every other order, with the same lists and frame at the end. */
bool lineage_lengthen(bool balanced, const uint32_t *parent, size_t parent_length, const uint32_t *rank,
                      size_t rank_length, uint32_t *times, size_t times_length, uint32_t *x, size_t x_length,
                      uint32_t *y, size_t y_length, const uint32_t *held, size_t held_length, uint32_t *work,
                      size_t work_length, uint32_t lot, uint32_t count, int64_t *reply, size_t reply_length);

/* Makes it shorter again: times[lot] must stay 1 or more. Reply: {1, width, height}. Refusals 1 to 10, 22, 12. */
bool lineage_shorten(bool balanced, const uint32_t *parent, size_t parent_length, const uint32_t *rank,
                     size_t rank_length, uint32_t *times, size_t times_length, uint32_t *x, size_t x_length,
                     uint32_t *y, size_t y_length, const uint32_t *held, size_t held_length, uint32_t *work,
                     size_t work_length, uint32_t lot, uint32_t count, int64_t *reply, size_t reply_length);

/* Lengthens lots[0] by counts[0], lots[1] by counts[1] and so on, as lineage_lengthen called for one after another
 * would, up to the first that is refused. Reply: {1, width, height, 0}, also where both lists are empty, or
 * {0, number, lot, place}. Refusals 1 to 3, 19, 4 to 8 are tested before any is made, and have place 0. Otherwise the
 * place is that of the refused one in the lists, from 1, and its refusal is 9, 10, 22 or 11: those before it stand, and
 * those after it are not tried. */
bool lineage_lengthen_each(bool balanced, const uint32_t *parent, size_t parent_length, const uint32_t *rank,
                           size_t rank_length, uint32_t *times, size_t times_length, uint32_t *x, size_t x_length,
                           uint32_t *y, size_t y_length, const uint32_t *held, size_t held_length, uint32_t *work,
                           size_t work_length, const uint32_t *lots, size_t lots_length, const uint32_t *counts,
                           size_t counts_length, int64_t *reply, size_t reply_length);

/* Holds the edge of `lot` where `hold` is true, and frees it where it is false: held[lot] becomes 1 or 0, whatever it
 * was, and nothing else changes. Reply: {1, width, height}. Refusals 1 to 10. */
bool lineage_hold(bool balanced, const uint32_t *parent, size_t parent_length, const uint32_t *rank,
                  size_t rank_length, const uint32_t *times, size_t times_length, const uint32_t *x,
                  size_t x_length, const uint32_t *y, size_t y_length, uint32_t *held, size_t held_length,
                  uint32_t *work, size_t work_length, uint32_t lot, bool hold, int64_t *reply,
                  size_t reply_length);

/* The count by which lineage_lengthen brings `lot` to a column: it accepts that count, and x[lot] is `column` then. No
 * other count does it. Reply: {1, count, 0}, or {2, 0, 0} where none does: the column is left of x[lot], the gap
 * between them is no multiple of the slope's across part, some place would be above 2,147,483,647, or the edge is held,
 * also where the lot stands in the column already. Nothing moves. Refusals 1 to 10. */
bool lineage_column(bool balanced, const uint32_t *parent, size_t parent_length, const uint32_t *rank,
                    size_t rank_length, const uint32_t *times, size_t times_length, const uint32_t *x,
                    size_t x_length, const uint32_t *y, size_t y_length, const uint32_t *held, size_t held_length,
                    uint32_t *work, size_t work_length, uint32_t lot, uint32_t column, int64_t *reply,
                    size_t reply_length);

/* The small cabinet: at most 1,024 lots, and no place above 1,048,575. Its layout, lengthen and shorten are calls of
 * their own, which refuse more lots with 20, in the place of 2; a place that would be above with 21, in the place of
 * 11; and a sheet that has such a place with 8. Within these limits they reply what the calls above reply, and leave
 * what those leave, refusals too; so a sheet may go from one cabinet to the other, and lineage_hold, lineage_direction
 * and lineage_check serve both. The count that lineage_column replies is the small cabinet's where
 * lineage_small_lengthen accepts it; where it does not, no count brings the lot there.
 *
 * Refusals 1, 20, 3 to 7. */
bool lineage_small_layout(bool balanced, const uint32_t *parent, size_t parent_length, const uint32_t *rank,
                          size_t rank_length, uint32_t *times, size_t times_length, uint32_t *x, size_t x_length,
                          uint32_t *y, size_t y_length, uint32_t *held, size_t held_length, uint32_t *work,
                          size_t work_length, int64_t *reply, size_t reply_length);

/* Refusals 1, 20, 3 to 10, 22, 21. */
bool lineage_small_lengthen(bool balanced, const uint32_t *parent, size_t parent_length, const uint32_t *rank,
                            size_t rank_length, uint32_t *times, size_t times_length, uint32_t *x, size_t x_length,
                            uint32_t *y, size_t y_length, const uint32_t *held, size_t held_length, uint32_t *work,
                            size_t work_length, uint32_t lot, uint32_t count, int64_t *reply, size_t reply_length);

/* Refusals 1, 20, 3 to 10, 22, 12. */
bool lineage_small_shorten(bool balanced, const uint32_t *parent, size_t parent_length, const uint32_t *rank,
                           size_t rank_length, uint32_t *times, size_t times_length, uint32_t *x, size_t x_length,
                           uint32_t *y, size_t y_length, const uint32_t *held, size_t held_length, uint32_t *work,
                           size_t work_length, uint32_t lot, uint32_t count, int64_t *reply, size_t reply_length);

/* A direction along which every edge of the tree path from one lot to another rises, on each sheet of the table under
 * the rule. Reply: {1, d, e}: an edge of (across, up) rises when d * across + e * up is above 0. From a lot to itself
 * there is no edge, and the reply is {1, 1, 1}. Refusals 1 to 7, 9. */
bool lineage_direction(bool balanced, const uint32_t *parent, size_t parent_length, const uint32_t *rank,
                       size_t rank_length, uint32_t *work, size_t work_length, uint32_t from, uint32_t to,
                       int64_t *reply, size_t reply_length);

/* Which numbers in post-order, from 1, lie under each lot: writes the least in the lot's subtree into first, and the
 * lot's own, which is the largest there, into last. A lot z is in v's subtree exactly when last[z] lies between
 * first[v] and last[v], both ends included; a leaf has both equal. Reply: {1, n, 0}. Refusals 1 to 7. */
bool lineage_post_numbers(const uint32_t *parent, size_t parent_length, const uint32_t *rank, size_t rank_length,
                          uint32_t *first, size_t first_length, uint32_t *last, size_t last_length,
                          uint32_t *work, size_t work_length, int64_t *reply, size_t reply_length);

/* Whether a drawing of at most 4,096 lots, whoever drew it, is monotone: for each two lots some direction makes every
 * edge of their tree path rise. Reply: {1, 0, 0} if it is, or {2, u, v}, u below v, the first pair that has no
 * direction: with the smallest u, then the smallest v. Refusals 1, 14, 3 to 7, 15. */
bool lineage_check(const uint32_t *parent, size_t parent_length, const uint32_t *rank, size_t rank_length,
                   const uint32_t *x, size_t x_length, const uint32_t *y, size_t y_length, uint32_t *work,
                   size_t work_length, int64_t *reply, size_t reply_length);

/* The tree of n lots whose fresh steep sheet is the tallest: fills parent with the chain in which each lot v from 1 up
 * hangs on v - 1, and rank with 0. Reply: {1, width, height}, the frame of that sheet: n, and n * (n - 1) / 2 + 1. No
 * accepted table of n lots has a taller or a wider fresh steep frame, and one is as tall exactly when no lot has two
 * children. Refusals 1 to 3: 1 and 2 are about the n given, however long the lists are. */
bool lineage_tallest(uint32_t n, uint32_t *parent, size_t parent_length, uint32_t *rank, size_t rank_length,
                     int64_t *reply, size_t reply_length);

/* Where the place (x, y) stands in a window of the screen: the square of side 2^m whose corner (a, b) is the least x
 * and y that it shows. These are any numbers, but m must not be above 31. Reply: {1, 0, 0} where a <= x < a + 2^m and
 * b <= y < b + 2^m, with sums that are not cut to 32 bits. point[0] is (x - a) / 2^m then, and point[1] (y - b) / 2^m,
 * both exact: times 2^m they are the whole numbers, and equal positions in one window mean equal places. Reply:
 * {2, 0, 0} where the place lies outside. `point` is two numbers; it stays as it was on any reply but the first.
 * Refusal 18, before anything else. */
bool lineage_window(uint32_t x, uint32_t y, uint32_t a, uint32_t b, uint32_t m, double *point, size_t point_length,
                    int64_t *reply, size_t reply_length);

/* The n that a tree file states, or 0 where it has fewer than 4 bytes: how long the lists must be that the reader is
 * lent. It may be above LINEAGE_MAX_LOTS; the reader then refuses, whatever it is lent. */
uint32_t lineage_stated_nodes(const uint8_t *bytes, size_t bytes_length);

/* Reads a tree file: n, then n parents, then n ranks, each in 4 bytes, least byte first. The two lists must be as long
 * as the file's n says, and are filled only where its table is accepted. Reply: {1, n, 0}.
 * Refusals 16, 1, 2, 17, 3 to 7. */
bool lineage_read_tree(const uint8_t *bytes, size_t bytes_length, uint32_t *parent, size_t parent_length,
                       uint32_t *rank, size_t rank_length, uint32_t *work, size_t work_length, int64_t *reply,
                       size_t reply_length);

/* Writes the tree file of an accepted table into exactly 4 + 8n bytes. Reply: {1, 4 + 8n, 0}. Refusals 1 to 7, 17. */
bool lineage_write_tree(const uint32_t *parent, size_t parent_length, const uint32_t *rank,
                        size_t rank_length, uint8_t *bytes, size_t bytes_length, uint32_t *work,
                        size_t work_length, int64_t *reply, size_t reply_length);

#ifdef __cplusplus
}
#endif

#endif
