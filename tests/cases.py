#!/usr/bin/env python3
"""Prints what the program `cases` must print: document 01's calls on large trees, in plain Python, and before them the
slopes of 1 to 16 levels with their levels less 1, and the tallest trees of up to 65,536 lots.

Written from document 01 (tree table, traversal, slopes, layout, lengthen, shorten, check, refusals) and document 02
(frames, levels, held lines, columns, the small cabinet's limits, the tallest sheet), not from the Rattle code. It takes
a minute or two.
    python3 tests/cases.py > crates/cases/stdout
"""
from typing import NamedTuple

CHECKED = 4096


class Limits(NamedTuple):
    """What a cabinet takes: the most lots, the number that refuses more, the largest place, and the number for it."""

    lots: int
    surplus: int
    place: int
    beyond: int


LARGE = Limits(65536, 2, 2147483647, 11)
SMALL = Limits(1024, 20, 1048575, 21)


def fractions(k):
    """The fractions of levels 1 to k as (across, up, level), in increasing order."""
    row = [(1, 0, 0), (0, 1, 0)]  # the starting fractions 0/1 and 1/0, which stand in no level
    for level in range(1, k + 1):
        more = [row[0]]
        for (a, b, _), right in zip(row, row[1:]):
            more += [(a + right[0], b + right[1], level), right]
        row = more
    return row[1:-1]


def slopes(rule, n):
    """The first n - 1 slopes (across, up) of the rule, in order."""
    if rule == 0:
        return [(1, j) for j in range(1, n)]
    k = 0
    while 2**k < n:
        k += 1
    return [(across, up) for across, up, _ in fractions(k)][: n - 1]


class Tree:
    def __init__(self, parents, ranks):
        self.n, self.parent = len(parents), parents
        self.children = [[] for _ in parents]
        for v in range(1, self.n):
            self.children[parents[v]].append(v)
        for kids in self.children:
            kids.sort(key=lambda v: ranks[v])
        self.post, number, stack = [0] * self.n, 0, [(0, 0)]
        while stack:
            v, i = stack.pop()
            if i < len(self.children[v]):
                stack.append((v, i + 1))
                stack.append((self.children[v][i], 0))
            else:
                number += 1
                self.post[v] = number

    def down(self, v):
        """The subtree of v, parents first."""
        found = [v]
        for z in found:
            found += self.children[z]
        return found


class Sheet:
    def __init__(self, tree, rule, limits=LARGE):
        self.tree, self.limits, n = tree, limits, tree.n
        self.times, self.x, self.y, self.held = [0] * n, [0] * n, [0] * n, [0] * n
        if n > limits.lots:
            return
        order = slopes(rule, n)
        self.slope = [order[j - 1] if j < n else (0, 0) for j in tree.post]
        self.times = [1] * n
        for v in tree.down(0)[1:]:
            p = tree.parent[v]
            self.x[v] = self.x[p] + self.slope[v][0]
            self.y[v] = self.y[p] + self.slope[v][1]

    def frame(self):
        return self.too_many() or (1, max(self.x) + 1, max(self.y) + 1)

    def too_many(self):
        """The refusal of more lots than the cabinet takes, or None."""
        return (0, self.limits.surplus, 0) if self.tree.n > self.limits.lots else None

    def refusal(self, v):
        """What every call on a lot refuses, or None: the lists are this program's own, and so a sheet."""
        if self.too_many():
            return self.too_many()
        if v >= self.tree.n:
            return (0, 9, 0)
        return (0, 10, 0) if v == 0 else None

    def hold(self, v, yes):
        refused = self.refusal(v)
        if refused:
            return refused
        self.held[v] = yes
        return self.frame()

    def too_far(self, lots, across, up):
        """Whether a shift by (across, up) would bring one of the lots beyond the largest place."""
        most = self.limits.place
        return any(self.x[z] + across > most or self.y[z] + up > most for z in lots)

    def move(self, longer, v, c):
        refused = self.refusal(v)
        if refused:
            return refused
        if self.held[v]:
            return (0, 22, v)
        if not longer and c >= self.times[v]:
            return (0, 12, v)
        d = c if longer else -c
        across, up = d * self.slope[v][0], d * self.slope[v][1]
        lots = self.tree.down(v)
        if longer and self.too_far(lots, across, up):
            return (0, self.limits.beyond, v)
        self.times[v] += d
        for z in lots:
            self.x[z] += across
            self.y[z] += up
        return self.frame()

    def lengthen_each(self, lengthens):
        """The single calls in order, up to the first refused one, and its place in the list from 1, or else 0."""
        for place, (v, c) in enumerate(lengthens, 1):
            answer = self.move(1, v, c)
            if answer[0] == 0:
                return (*answer, 0 if self.too_many() else place)
        return (*self.frame(), 0)

    def column(self, v, column):
        """1 and the count by which lengthen brings v to the column, 2 where no count does, or 0 and the refusal."""
        refused = self.refusal(v)
        if refused:
            return refused
        across, up = self.slope[v]
        count, rest = divmod(column - self.x[v], across)
        if count < 0 or rest or self.too_far(self.tree.down(v), count * across, count * up) or self.held[v]:
            return (2, 0, 0)
        return (1, count, 0)


def wider(cone, e, f):
    """The cone that holds the vector (e, f) too: its two outermost vectors, clockwise first; () without any, None where
    no open half plane holds them all."""
    if not cone:
        return (e, f, e, f) if cone == () and (e or f) else None
    a, b, c, d = cone
    left, right = a * f - b * e, e * d - f * c
    if left >= 0 and right >= 0:
        return cone if left or right or a * e + b * f > 0 else None
    if left > 0:
        return a, b, e, f
    return (e, f, c, d) if right > 0 else None


def check(tree, x, y):
    """The check's answer: from each lot u in turn, a walk over the tree that carries the cone of the path from u."""
    if tree.n > CHECKED:
        return (0, 14, 0)
    near = [{} for _ in range(tree.n)]  # the lots that a lot is joined with, and the vectors to them
    for v in range(1, tree.n):
        p = tree.parent[v]
        across, up = x[v] - x[p], y[v] - y[p]
        near[p][v], near[v][p] = (across, up), (-across, -up)
    for u in range(tree.n):
        turning, walk = tree.n, [(u, u, ())]
        while walk:
            v, source, cone = walk.pop()
            for z, (e, f) in near[v].items():
                if z != source:
                    more = wider(cone, e, f)
                    if more is None and u < z < turning:
                        turning = z
                    if len(near[z]) > 1:
                        walk.append((z, v, more))
        if turning < tree.n:
            return (1, u, turning)
        while u >= 0 and len(near[u]) == 1:  # a leaf that was walked from is on no later path
            (p,) = near[u]
            del near[p][u]
            u = p if p < u else -1
    return (2, 0, 0)


def mixed(numbers):
    """The numbers of a list, in their order, as one number below 2^32."""
    h = 0
    for a in numbers:
        h = (h * 31 + a) % 2**32
    return h


def grown(shape, n, relabelled):
    """Parents and ranks of a tree of n lots; relabelled: lot v from 1 up is called n - v."""
    seed, parents = 1, [0] * n
    for v in range(1, n):
        seed = (seed * 1103515245 + 12345) % 2**31
        if shape == 0:
            p = v - 1
        elif shape == 1:
            p = 0
        elif shape == 2:
            p = v - 1 if v < n // 2 else max(n // 2, 1) - 1
        elif shape == 3:
            p = v - 1 if v % 2 == 1 else v - 2
        else:
            p = seed // 256 % v
        parents[v] = p
    name = (lambda v: n - v if v > 0 else 0) if relabelled else (lambda v: v)
    used, ranks, named = [0] * n, [0] * n, [0] * n
    for v in range(1, n):
        p = name(parents[v])
        named[name(v)] = p
        ranks[name(v)] = used[p]
        used[p] += 1
    return named, ranks


def show(*numbers):
    print(" ".join(str(a) for a in numbers))


def whole(sheet):
    return mixed(sheet.times), mixed(sheet.x), mixed(sheet.y), mixed(sheet.held)


def case(shape, relabelled, rule, n):
    tree = Tree(*grown(shape, n, relabelled))
    sheet = Sheet(tree, rule)
    show(n, shape, relabelled, rule, *sheet.frame(), *whole(sheet))
    half, last = n // 2, n - 1
    for kind, v, c in [  # 1 lengthens, 0 shortens, 2 holds or, with 0, frees
        (1, half, 1), (1, last, 1000), (2, half, 1), (1, half, 0), (0, half, 1), (1, n // 4, 1), (2, 0, 1), (2, n, 0),
        (2, half, 0), (1, 1, 0), (1, 0, 1), (1, n, 1), (1, half, 4294967295), (0, half, 2), (0, half, 1),
        (0, last, 1001), (0, last, 999), (2, last, 1), (1, n // 3, 70000),
    ]:
        answer = sheet.hold(v, c) if kind == 2 else sheet.move(kind, v, c)
        show(kind, v, c, *answer, *whole(sheet))
    show(*sheet.lengthen_each([(n // 4, 1), (half, 10), (n // 4, 2), (last, 1), (half, 1)]), *whole(sheet))
    a, b = sheet.x[half], sheet.x[last]
    for v, c in [  # columns, which move nothing; the last lot is held
        (half, a), (half, a + 1), (half, a + 2520), (half, (a - 1) % 2**32), (half, 2147483647), (half, 2147483648),
        (last, b), (0, 0), (n, 0),
    ]:
        show(v, c, *sheet.column(v, c), *whole(sheet))
    for k in reversed(range(32)):  # the middle lot as far as it goes
        sheet.move(1, half, 2**k)
    show(1, half, 1, *sheet.move(1, half, 1), *whole(sheet))
    drawing = tree.parent, sheet.x, sheet.y
    show(*check(tree, sheet.x, sheet.y), *map(mixed, drawing))
    for c in (sheet.x, sheet.y):  # the middle lot is put where the lot before it is
        c[half] = c[half - 1]
    show(*check(tree, sheet.x, sheet.y), *map(mixed, drawing))


def tallest(n):
    """The tallest tree of n lots: the frame of its steep sheet, or the refusal, and the two lists, which were 0."""
    if n > LARGE.lots:
        return (0, LARGE.surplus, 0), [0] * n, [0] * n
    parents, ranks = grown(0, n, False)
    return Sheet(Tree(parents, ranks), 0).frame(), parents, ranks


def main():
    for k in range(1, 17):
        across, up, level = zip(*fractions(k))
        show(k, mixed(across), mixed(up), mixed(i - 1 for i in level))
    for n in [2**k for k in range(17)] + [65537]:
        answer, parents, ranks = tallest(n)
        show(n, *answer, mixed(parents), mixed(ranks))
    for kind, n in enumerate([4096] * 5 + [65536, 4097, 65536, 65537, 65536]):
        for relabelled in (0, 1):
            for rule in (0, 1):
                case(kind % 5, relabelled, rule, n)


if __name__ == "__main__":
    main()
