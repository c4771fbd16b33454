/* Each call of lineage.h as one would write it in C, with the same refusals, replies and work list and no proofs: what the
 * proved library is timed against. */
#include <stdbool.h>
#include <stddef.h>
#include <stdint.h>
#include <string.h>

#include "ten.h"

#define LOTS 65536u
#define CHECKED 4096u
#define LIMIT 2147483647u

static bool refused(int64_t *reply, uint32_t number, uint32_t lot)
{
    reply[0] = 0;
    reply[1] = number;
    reply[2] = lot;
    return true;
}

/* Refusals 4 to 7, in 2n numbers: where each lot's children start (n + 1 numbers), then a count of each slot, then marks. */
static uint32_t lists_refused(const uint32_t *parent, const uint32_t *rank, uint32_t n, uint32_t *work, uint32_t *lot)
{
    uint32_t *start = work, *slot = work + n + 1;
    *lot = 0;
    if (parent[0] != 0 || rank[0] != 0)
        return 4;
    for (uint32_t v = 1; v < n; v++)
        if (parent[v] >= n) {
            *lot = v;
            return 5;
        }
    memset(work, 0, 2 * (size_t)n * sizeof *work);
    for (uint32_t v = 1; v < n; v++)
        start[parent[v] + 1]++;
    for (uint32_t p = 0; p < n; p++)
        start[p + 1] += start[p];
    for (uint32_t v = 1; v < n; v++) {
        uint64_t s = (uint64_t)start[parent[v]] + rank[v];
        if (s < start[parent[v] + 1])
            slot[s]++;
    }
    for (uint32_t v = 1; v < n; v++) {
        uint64_t s = (uint64_t)start[parent[v]] + rank[v];
        if (s >= start[parent[v] + 1] || slot[s] > 1) {
            *lot = v;
            return 6;
        }
    }
    memset(slot, 0, (n - 1) * sizeof *slot);
    uint32_t *mark = work + n; /* of lots from 1 up */
    for (uint32_t v = 1; v < n; v++) {
        uint32_t u = v, steps = 0;
        while (u != 0 && !mark[u]) {
            u = parent[u];
            if (++steps > n) {
                *lot = v;
                return 7;
            }
        }
        for (u = v; u != 0 && !mark[u]; u = parent[u])
            mark[u] = 1;
    }
    return 0;
}

static uint32_t table_refused(const uint32_t *parent, size_t n, const uint32_t *rank, size_t ranks, bool others, uint32_t most,
                              uint32_t surplus, uint32_t *work, size_t works, uint32_t *lot)
{
    *lot = 0;
    if (n == 0)
        return 1;
    if (n > most)
        return surplus;
    if (ranks != n || !others || works != 4 * n)
        return 3;
    return lists_refused(parent, rank, (uint32_t)n, work, lot);
}

/* Post numbers at 0, first numbers of the subtrees at 2n, the order at 3n. */
static void number(const uint32_t *parent, const uint32_t *rank, uint32_t n, uint32_t *work)
{
    uint32_t *start = work, *child = work + n + 1, *first = work + 2 * (size_t)n, *order = work + 3 * (size_t)n;
    for (uint32_t v = 1; v < n; v++)
        child[start[parent[v]] + rank[v]] = v;
    uint32_t v = 0;
    while (start[v] < start[v + 1])
        v = child[start[v]];
    for (uint32_t c = 0;; c++) {
        order[c] = v;
        first[v] = start[v] < start[v + 1] ? first[child[start[v]]] : c + 1;
        if (v == 0)
            break;
        uint32_t p = parent[v], s = start[p] + rank[v] + 1;
        if (s < start[p + 1]) {
            v = child[s];
            while (start[v] < start[v + 1])
                v = child[start[v]];
        } else {
            v = p;
        }
    }
    for (uint32_t j = 0; j < n; j++)
        work[order[j]] = j + 1;
}

static void slope_at(bool balanced, uint32_t n, uint32_t j, uint32_t *across, uint32_t *up)
{
    if (!balanced) {
        *across = 1;
        *up = j;
        return;
    }
    uint32_t k = 32 - (uint32_t)__builtin_clz(n - 1);
    if (k <= 10) {
        const uint8_t *entry = TEN[(j << (10 - k)) - 1];
        *across = entry[0];
        *up = entry[1];
        return;
    }
    uint32_t level = k - (uint32_t)__builtin_ctz(j);
    uint32_t la = 1, lu = 0, ha = 0, hu = 1;
    for (uint32_t t = 1; t < level; t++)
        if (j >> (k - t) & 1) {
            la += ha;
            lu += hu;
        } else {
            ha += la;
            hu += lu;
        }
    *across = la + ha;
    *up = lu + hu;
}

static bool framed(const uint32_t *x, const uint32_t *y, uint32_t n, int64_t *reply)
{
    uint32_t width = 0, height = 0;
    for (uint32_t v = 0; v < n; v++) {
        if (x[v] > width)
            width = x[v];
        if (y[v] > height)
            height = y[v];
    }
    reply[0] = 1;
    reply[1] = (int64_t)width + 1;
    reply[2] = (int64_t)height + 1;
    return true;
}

bool plain_layout(bool balanced, const uint32_t *parent, size_t parents, const uint32_t *rank, size_t ranks,
                  uint32_t *times, size_t timess, uint32_t *x, size_t xs, uint32_t *y, size_t ys, uint32_t *held,
                  size_t helds, uint32_t *work, size_t works, int64_t *reply, size_t replies)
{
    uint32_t lot, number_;
    if (replies != 3)
        return false;
    bool others = timess == parents && xs == parents && ys == parents && helds == parents;
    if ((number_ = table_refused(parent, parents, rank, ranks, others, LOTS, 2, work, works, &lot)))
        return refused(reply, number_, lot);
    uint32_t n = (uint32_t)parents;
    number(parent, rank, n, work);
    const uint32_t *order = work + 3 * (size_t)n;
    times[0] = 1;
    x[0] = y[0] = 0;
    for (uint32_t j = n - 1; j > 0; j--) {
        uint32_t v = order[j - 1], p = parent[v], across, up;
        slope_at(balanced, n, j, &across, &up);
        times[v] = 1;
        x[v] = x[p] + across;
        y[v] = y[p] + up;
    }
    memset(held, 0, n * sizeof *held);
    return framed(x, y, n, reply);
}

/* Refusals 1 to 8 of a call on a sheet; the table is numbered where there is none. */
static uint32_t sheet_refused(bool balanced, const uint32_t *parent, size_t parents, const uint32_t *rank, size_t ranks,
                              const uint32_t *times, size_t timess, const uint32_t *x, size_t xs, const uint32_t *y,
                              size_t ys, const uint32_t *held, size_t helds, uint32_t *work, size_t works, uint32_t *bad)
{
    uint32_t number_;
    bool others = timess == parents && xs == parents && ys == parents && helds == parents;
    if ((number_ = table_refused(parent, parents, rank, ranks, others, LOTS, 2, work, works, bad)))
        return number_;
    uint32_t n = (uint32_t)parents;
    number(parent, rank, n, work);
    if (times[0] != 1 || x[0] != 0 || y[0] != 0 || held[0] != 0)
        return 8;
    for (uint32_t v = 1; v < n; v++) {
        uint32_t p = parent[v], across, up;
        slope_at(balanced, n, work[v], &across, &up);
        if (times[v] == 0 || x[v] != x[p] + (uint64_t)times[v] * across || y[v] != y[p] + (uint64_t)times[v] * up ||
            x[v] > LIMIT || y[v] > LIMIT || held[v] > 1) {
            *bad = v;
            return 8;
        }
    }
    return 0;
}

static uint32_t lot_refused(uint32_t n, uint32_t lot)
{
    return lot >= n ? 9 : lot == 0 ? 10 : 0;
}

/* Stretches a lot of a numbered sheet, or refuses with 9, 10, 22, and 11 or 12. */
static uint32_t stretch_refused(bool longer, bool balanced, uint32_t n, uint32_t *times, uint32_t *x, uint32_t *y,
                                const uint32_t *held, const uint32_t *work, uint32_t lot, uint32_t count, uint32_t *bad)
{
    uint32_t number_ = lot_refused(n, lot);
    *bad = 0;
    if (number_)
        return number_;
    *bad = lot;
    if (held[lot])
        return 22;
    uint32_t across, up, low = work[2 * (size_t)n + lot], high = work[lot];
    slope_at(balanced, n, high, &across, &up);
    uint64_t dx = (uint64_t)count * across, dy = (uint64_t)count * up;
    const uint32_t *order = work + 3 * (size_t)n;
    if (longer) {
        for (uint32_t j = low; j <= high; j++) {
            uint32_t z = order[j - 1];
            if (x[z] + dx > LIMIT || y[z] + dy > LIMIT)
                return 11;
        }
        for (uint32_t j = low; j <= high; j++) {
            uint32_t z = order[j - 1];
            x[z] += (uint32_t)dx;
            y[z] += (uint32_t)dy;
        }
        times[lot] += count;
    } else {
        if (count >= times[lot])
            return 12;
        for (uint32_t j = low; j <= high; j++) {
            uint32_t z = order[j - 1];
            x[z] -= (uint32_t)dx;
            y[z] -= (uint32_t)dy;
        }
        times[lot] -= count;
    }
    return 0;
}

static bool stretch(bool longer, bool balanced, const uint32_t *parent, size_t parents, const uint32_t *rank,
                    size_t ranks, uint32_t *times, size_t timess, uint32_t *x, size_t xs, uint32_t *y, size_t ys,
                    const uint32_t *held, size_t helds, uint32_t *work, size_t works, uint32_t lot, uint32_t count,
                    int64_t *reply, size_t replies)
{
    uint32_t bad, number_, n = (uint32_t)parents;
    if (replies != 3)
        return false;
    if ((number_ = sheet_refused(balanced, parent, parents, rank, ranks, times, timess, x, xs, y, ys, held, helds, work,
                                 works, &bad)))
        return refused(reply, number_, bad);
    if ((number_ = stretch_refused(longer, balanced, n, times, x, y, held, work, lot, count, &bad)))
        return refused(reply, number_, bad);
    return framed(x, y, n, reply);
}

bool plain_lengthen(bool balanced, const uint32_t *parent, size_t parents, const uint32_t *rank, size_t ranks,
                    uint32_t *times, size_t timess, uint32_t *x, size_t xs, uint32_t *y, size_t ys,
                    const uint32_t *held, size_t helds, uint32_t *work, size_t works, uint32_t lot, uint32_t count,
                    int64_t *reply, size_t replies)
{
    return stretch(true, balanced, parent, parents, rank, ranks, times, timess, x, xs, y, ys, held, helds, work,
                   works, lot, count, reply, replies);
}

bool plain_shorten(bool balanced, const uint32_t *parent, size_t parents, const uint32_t *rank, size_t ranks,
                   uint32_t *times, size_t timess, uint32_t *x, size_t xs, uint32_t *y, size_t ys,
                   const uint32_t *held, size_t helds, uint32_t *work, size_t works, uint32_t lot, uint32_t count,
                   int64_t *reply, size_t replies)
{
    return stretch(false, balanced, parent, parents, rank, ranks, times, timess, x, xs, y, ys, held, helds, work,
                   works, lot, count, reply, replies);
}

bool plain_lengthen_each(bool balanced, const uint32_t *parent, size_t parents, const uint32_t *rank, size_t ranks,
                         uint32_t *times, size_t timess, uint32_t *x, size_t xs, uint32_t *y, size_t ys,
                         const uint32_t *held, size_t helds, uint32_t *work, size_t works, const uint32_t *lots,
                         size_t lotss, const uint32_t *counts, size_t countss, int64_t *reply, size_t replies)
{
    uint32_t bad, number_, n = (uint32_t)parents;
    if (replies != 4)
        return false;
    reply[3] = 0;
    /* 19 stands behind 1 to 3, and has a test of its own: one in table_refused would make gcc's code for all calls slower */
    bool fit = ranks == parents && timess == parents && xs == parents && ys == parents && helds == parents &&
               works == 4 * parents;
    if (lotss != countss && 0 < parents && parents <= LOTS && fit)
        return refused(reply, 19, 0);
    if ((number_ = sheet_refused(balanced, parent, parents, rank, ranks, times, timess, x, xs, y, ys, held, helds, work,
                                 works, &bad)))
        return refused(reply, number_, bad);
    for (size_t i = 0; i < lotss; i++)
        if ((number_ = stretch_refused(true, balanced, n, times, x, y, held, work, lots[i], counts[i], &bad))) {
            reply[3] = (int64_t)i + 1;
            return refused(reply, number_, bad);
        }
    return framed(x, y, n, reply);
}

bool plain_hold(bool balanced, const uint32_t *parent, size_t parents, const uint32_t *rank, size_t ranks,
                const uint32_t *times, size_t timess, const uint32_t *x, size_t xs, const uint32_t *y, size_t ys,
                uint32_t *held, size_t helds, uint32_t *work, size_t works, uint32_t lot, bool hold, int64_t *reply,
                size_t replies)
{
    uint32_t bad, number_, n = (uint32_t)parents;
    if (replies != 3)
        return false;
    if ((number_ = sheet_refused(balanced, parent, parents, rank, ranks, times, timess, x, xs, y, ys, held, helds, work,
                                 works, &bad)))
        return refused(reply, number_, bad);
    if ((number_ = lot_refused(n, lot)))
        return refused(reply, number_, 0);
    held[lot] = hold;
    return framed(x, y, n, reply);
}

bool plain_column(bool balanced, const uint32_t *parent, size_t parents, const uint32_t *rank, size_t ranks,
                  const uint32_t *times, size_t timess, const uint32_t *x, size_t xs, const uint32_t *y, size_t ys,
                  const uint32_t *held, size_t helds, uint32_t *work, size_t works, uint32_t lot, uint32_t column,
                  int64_t *reply, size_t replies)
{
    uint32_t bad, number_, n = (uint32_t)parents;
    if (replies != 3)
        return false;
    if ((number_ = sheet_refused(balanced, parent, parents, rank, ranks, times, timess, x, xs, y, ys, held, helds, work,
                                 works, &bad)))
        return refused(reply, number_, bad);
    if ((number_ = lot_refused(n, lot)))
        return refused(reply, number_, 0);
    uint32_t across, up, low = work[2 * (size_t)n + lot], high = work[lot];
    slope_at(balanced, n, high, &across, &up);
    reply[0] = 2;
    reply[1] = reply[2] = 0;
    if (held[lot] || column < x[lot] || (column - x[lot]) % across)
        return true;
    uint32_t count = (column - x[lot]) / across;
    uint64_t dx = column - x[lot], dy = (uint64_t)count * up;
    const uint32_t *order = work + 3 * (size_t)n;
    for (uint32_t j = low; j <= high; j++) {
        uint32_t z = order[j - 1];
        if (x[z] + dx > LIMIT || y[z] + dy > LIMIT)
            return true;
    }
    reply[0] = 1;
    reply[1] = count;
    return true;
}

bool plain_direction(bool balanced, const uint32_t *parent, size_t parents, const uint32_t *rank, size_t ranks, uint32_t *work,
                     size_t works, uint32_t from, uint32_t to, int64_t *reply, size_t replies)
{
    uint32_t lot, number_;
    if (replies != 3)
        return false;
    if ((number_ = table_refused(parent, parents, rank, ranks, true, LOTS, 2, work, works, &lot)))
        return refused(reply, number_, lot);
    uint32_t n = (uint32_t)parents;
    if (from >= n || to >= n)
        return refused(reply, 9, 0);
    number(parent, rank, n, work);
    const uint32_t *last = work, *first = work + 2 * (size_t)n;
#define UNDER(a, z) (first[a] <= last[z] && last[z] <= last[a])
    int64_t d, e;
    if (UNDER(from, to)) {
        d = e = 1;
    } else if (UNDER(to, from)) {
        d = e = -1;
    } else {
        uint32_t p = from, q = to, a1, u1, a2, u2;
        while (!UNDER(parent[p], to))
            p = parent[p];
        while (!UNDER(parent[q], from))
            q = parent[q];
        bool left = rank[p] < rank[q];
        slope_at(balanced, n, last[left ? p : q], &a1, &u1);
        slope_at(balanced, n, last[left ? to : from], &a2, &u2);
        d = left ? -(int64_t)(u1 + u2) : (int64_t)(u1 + u2);
        e = left ? (int64_t)(a1 + a2) : -(int64_t)(a1 + a2);
    }
    reply[0] = 1;
    reply[1] = d;
    reply[2] = e;
    return true;
}

bool plain_post_numbers(const uint32_t *parent, size_t parents, const uint32_t *rank, size_t ranks, uint32_t *first,
                        size_t firsts, uint32_t *last, size_t lasts, uint32_t *work, size_t works, int64_t *reply,
                        size_t replies)
{
    uint32_t lot, number_;
    if (replies != 3)
        return false;
    bool others = firsts == parents && lasts == parents;
    if ((number_ = table_refused(parent, parents, rank, ranks, others, LOTS, 2, work, works, &lot)))
        return refused(reply, number_, lot);
    uint32_t n = (uint32_t)parents;
    number(parent, rank, n, work);
    memcpy(last, work, n * sizeof *last);
    memcpy(first, work + 2 * (size_t)n, n * sizeof *first);
    reply[0] = 1;
    reply[1] = n;
    reply[2] = 0;
    return true;
}

/* The vectors of a path as a cone between two of them: a cone is low * 65536 + high, by the lots of the two edges; 1 is the
 * empty path's and 2 that of a path without a direction. */
static uint32_t grow(const uint32_t *dx, const uint32_t *dy, uint32_t cone, uint32_t z)
{
#define PART(a) ((int64_t)(a) - 2147483648ll)
    if (cone == 2)
        return 2;
    int64_t ex = PART(dx[z]), ey = PART(dy[z]);
    if (cone == 1)
        return ex == 0 && ey == 0 ? 2 : z * 65536 + z;
    uint32_t low = cone / 65536, high = cone % 65536;
    int64_t ax = PART(dx[low]), ay = PART(dy[low]), bx = PART(dx[high]), by = PART(dy[high]);
    int64_t a = ax * ey - ay * ex, b = bx * ey - by * ex;
    if (a > 0)
        return b > 0 ? low * 65536 + z : cone;
    if (b < 0)
        return a < 0 ? z * 65536 + high : cone;
    if (a < 0 || b > 0)
        return 2;
    return ax * ex + ay * ey > 0 ? cone : 2;
}

bool plain_check(const uint32_t *parent, size_t parents, const uint32_t *rank, size_t ranks, const uint32_t *x, size_t xs,
                 const uint32_t *y, size_t ys, uint32_t *work, size_t works, int64_t *reply, size_t replies)
{
    uint32_t lot, number_;
    if (replies != 3)
        return false;
    bool others = xs == parents && ys == parents;
    if ((number_ = table_refused(parent, parents, rank, ranks, others, CHECKED, 14, work, works, &lot)))
        return refused(reply, number_, lot);
    uint32_t n = (uint32_t)parents;
    for (uint32_t v = 0; v < n; v++)
        if (x[v] > LIMIT || y[v] > LIMIT)
            return refused(reply, 15, v);
    number(parent, rank, n, work);
    uint32_t *cone = work, *dx = work + n, *dy = work + 2 * (size_t)n, *order = work + 3 * (size_t)n;
    for (uint32_t z = 0; z < n; z++) {
        dx[z] = x[z] + 2147483648u - x[parent[z]];
        dy[z] = y[z] + 2147483648u - y[parent[z]];
    }
    for (uint32_t u = 0; u < n; u++) {
        memset(cone, 0, n * sizeof *cone);
        for (uint32_t z = u; z != 0; z = parent[z]) {
            dx[z] = -dx[z];
            dy[z] = -dy[z];
        }
        cone[u] = 1;
        for (uint32_t z = u; z != 0; z = parent[z])
            cone[parent[z]] = grow(dx, dy, cone[z], z);
        for (uint32_t j = n; j-- > 0;) {
            uint32_t v = order[j];
            if (cone[v] == 0)
                cone[v] = grow(dx, dy, cone[parent[v]], v);
        }
        for (uint32_t z = u; z != 0; z = parent[z]) {
            dx[z] = -dx[z];
            dy[z] = -dy[z];
        }
        for (uint32_t v = u + 1; v < n; v++)
            if (cone[v] == 2) {
                reply[0] = 2;
                reply[1] = u;
                reply[2] = v;
                return true;
            }
    }
    reply[0] = 1;
    reply[1] = reply[2] = 0;
    return true;
}

bool plain_tallest(uint32_t n, uint32_t *parent, size_t parents, uint32_t *rank, size_t ranks, int64_t *reply,
                   size_t replies)
{
    if (replies != 3)
        return false;
    if (n == 0)
        return refused(reply, 1, 0);
    if (n > LOTS)
        return refused(reply, 2, 0);
    if (parents != n || ranks != n)
        return refused(reply, 3, 0);
    parent[0] = 0;
    for (uint32_t v = 1; v < n; v++)
        parent[v] = v - 1;
    memset(rank, 0, n * sizeof *rank);
    reply[0] = 1;
    reply[1] = n;
    reply[2] = (int64_t)n * (n - 1) / 2 + 1;
    return true;
}

bool plain_window(uint32_t x, uint32_t y, uint32_t a, uint32_t b, uint32_t m, double *point, size_t points,
                  int64_t *reply, size_t replies)
{
    if (replies != 3 || points != 2)
        return false;
    if (m > 31)
        return refused(reply, 18, 0);
    uint32_t side = UINT32_C(1) << m;
    bool shown = x >= a && x - a < side && y >= b && y - b < side;
    if (shown) {
        point[0] = (double)(x - a) / side;
        point[1] = (double)(y - b) / side;
    }
    reply[0] = shown ? 1 : 2;
    reply[1] = reply[2] = 0;
    return true;
}

static uint32_t word(const uint8_t *b)
{
    return b[0] | (uint32_t)b[1] << 8 | (uint32_t)b[2] << 16 | (uint32_t)b[3] << 24;
}

bool plain_read_tree(const uint8_t *bytes, size_t length, uint32_t *parent, size_t parents, uint32_t *rank, size_t ranks,
                     uint32_t *work, size_t works, int64_t *reply, size_t replies)
{
    uint32_t lot, number_;
    if (replies != 3)
        return false;
    if (length < 4)
        return refused(reply, 16, 0);
    uint32_t n = word(bytes);
    if (n == 0)
        return refused(reply, 1, 0);
    if (n > LOTS)
        return refused(reply, 2, 0);
    if (length != 4 + 8 * (size_t)n)
        return refused(reply, 17, 0);
    if (parents != n || ranks != n || works != 4 * (size_t)n)
        return refused(reply, 3, 0);
    memcpy(work + 2 * (size_t)n, parent, n * sizeof *parent);
    memcpy(work + 3 * (size_t)n, rank, n * sizeof *rank);
    for (uint32_t v = 0; v < n; v++) {
        parent[v] = word(bytes + 4 + 4 * (size_t)v);
        rank[v] = word(bytes + 4 + 4 * (size_t)n + 4 * (size_t)v);
    }
    if ((number_ = lists_refused(parent, rank, n, work, &lot))) {
        memcpy(parent, work + 2 * (size_t)n, n * sizeof *parent);
        memcpy(rank, work + 3 * (size_t)n, n * sizeof *rank);
        return refused(reply, number_, lot);
    }
    reply[0] = 1;
    reply[1] = n;
    reply[2] = 0;
    return true;
}

static void put_word(uint8_t *b, uint32_t w)
{
    b[0] = (uint8_t)w;
    b[1] = (uint8_t)(w >> 8);
    b[2] = (uint8_t)(w >> 16);
    b[3] = (uint8_t)(w >> 24);
}

bool plain_write_tree(const uint32_t *parent, size_t parents, const uint32_t *rank, size_t ranks, uint8_t *bytes, size_t length,
                      uint32_t *work, size_t works, int64_t *reply, size_t replies)
{
    uint32_t lot, number_;
    if (replies != 3)
        return false;
    if ((number_ = table_refused(parent, parents, rank, ranks, true, LOTS, 2, work, works, &lot)))
        return refused(reply, number_, lot);
    uint32_t n = (uint32_t)parents;
    if (length != 4 + 8 * (size_t)n)
        return refused(reply, 17, 0);
    put_word(bytes, n);
    for (uint32_t v = 0; v < n; v++) {
        put_word(bytes + 4 + 4 * (size_t)v, parent[v]);
        put_word(bytes + 4 + 4 * (size_t)n + 4 * (size_t)v, rank[v]);
    }
    reply[0] = 1;
    reply[1] = (int64_t)length;
    reply[2] = 0;
    return true;
}
