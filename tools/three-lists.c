/* Today's calls on a sheet over those of an archive from before version 0.5, whose sheets have no list held: for
 * tools/compare. */
#include <stdbool.h>
#include <stddef.h>
#include <stdint.h>

#define TABLE bool balanced, const uint32_t *parent, size_t parents, const uint32_t *rank, size_t ranks
#define DRAWING uint32_t *times, size_t timess, uint32_t *x, size_t xs, uint32_t *y, size_t ys
#define WORK uint32_t *work, size_t works
#define REPLY int64_t *reply, size_t replies
#define LENT balanced, parent, parents, rank, ranks, times, timess, x, xs, y, ys, work, works

bool three_lists_layout(TABLE, DRAWING, WORK, REPLY);
bool three_lists_lengthen(TABLE, DRAWING, WORK, uint32_t lot, uint32_t count, REPLY);
bool three_lists_shorten(TABLE, DRAWING, WORK, uint32_t lot, uint32_t count, REPLY);

bool plain_layout(TABLE, DRAWING, uint32_t *held, size_t helds, WORK, REPLY)
{
    (void)held, (void)helds;
    return three_lists_layout(LENT, reply, replies);
}

bool plain_lengthen(TABLE, DRAWING, const uint32_t *held, size_t helds, WORK, uint32_t lot, uint32_t count, REPLY)
{
    (void)held, (void)helds;
    return three_lists_lengthen(LENT, lot, count, reply, replies);
}

bool plain_shorten(TABLE, DRAWING, const uint32_t *held, size_t helds, WORK, uint32_t lot, uint32_t count, REPLY)
{
    (void)held, (void)helds;
    return three_lists_shorten(LENT, lot, count, reply, replies);
}
