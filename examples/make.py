#!/usr/bin/env python3
"""Writes the tree files of this folder. See README.md for what each is.

A tree file is n, then n parents, then n ranks, each in 4 bytes, least byte first (document 01, "Tree file and program").
"""
import os
import struct

HERE = os.path.dirname(os.path.abspath(__file__))


def tree_file(parents, ranks):
    n = len(parents)
    return struct.pack("<%dI" % (1 + 2 * n), n, *parents, *ranks)


def ranks_in_order(parents):
    """Each lot's rank: children of a lot in the order of their numbers."""
    seen, ranks = {}, []
    for lot, parent in enumerate(parents):
        if lot == 0:
            ranks.append(0)
            continue
        ranks.append(seen.get(parent, 0))
        seen[parent] = ranks[-1] + 1
    return ranks


def numbers(seed):
    """A small linear congruential generator."""
    while True:
        seed = (seed * 1103515245 + 12345) % 2**31
        yield seed >> 8


def season(n, seed):
    """A nursery's season: most lots come from a recent lot, some from an old one."""
    source, parents = numbers(seed), [0]
    for lot in range(1, n):
        back = 1 + next(source) % (12 if next(source) % 4 else lot)
        parents.append(max(0, lot - back))
    return parents


def save(name, content):
    with open(os.path.join(HERE, name), "wb") as file:
        file.write(content)


def main():
    five = tree_file([0, 0, 0, 1, 1], [0, 0, 1, 0, 1])
    save("five.tree", five)
    save("one.tree", tree_file([0], [0]))
    parents = season(300, 7)
    save("season.tree", tree_file(parents, ranks_in_order(parents)))
    parents = season(4096, 11)
    save("largest.tree", tree_file(parents, ranks_in_order(parents)))
    save("empty.tree", b"")
    save("none.tree", struct.pack("<I", 0))
    save("short.tree", five[:-1])
    save("byte-too-many.tree", five + b"\0")
    save("root.tree", tree_file([1, 0, 0], [0, 0, 0]))
    save("stray.tree", tree_file([0, 0, 7], [0, 0, 0]))
    save("doubled-rank.tree", tree_file([0, 0, 0, 1, 1], [0, 0, 0, 0, 1]))
    save("loop.tree", tree_file([0, 2, 1], [0, 0, 0]))
    save("too-many.tree", struct.pack("<I", 4097) + bytes(8 * 4097))


if __name__ == "__main__":
    main()
