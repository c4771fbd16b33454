#!/usr/bin/env python3
"""Prints what the program `sheet` must print for the tree file on standard input, in plain Python.

Written from document 01, not from the Rattle code. The sheets are those of cases.py.
"""
import os
import struct
import sys

sys.path.insert(0, os.path.dirname(os.path.abspath(__file__)))
from cases import Sheet, Tree


def refusal(data):
    if len(data) < 4:
        return 16, 0
    n = struct.unpack("<I", data[:4])[0]
    if n == 0:
        return 1, 0
    if n > 4096:
        return 14, 0
    if len(data) != 4 + 8 * n:
        return 17, 0
    numbers = struct.unpack("<%dI" % (2 * n), data[4:])
    parents, ranks = numbers[:n], numbers[n:]
    if parents[0] != 0 or ranks[0] != 0:
        return 4, 0
    for v in range(1, n):
        if parents[v] >= n:
            return 5, v
    children, holders = [0] * n, {}
    for v in range(1, n):
        children[parents[v]] += 1
        holders.setdefault((parents[v], ranks[v]), []).append(v)
    for v in range(1, n):
        if ranks[v] >= children[parents[v]] or len(holders[parents[v], ranks[v]]) > 1:
            return 6, v
    for v in range(1, n):
        z = v
        for _ in range(n):
            z = parents[z]
        if z != 0:
            return 7, v
    return parents, ranks


def main():
    data = sys.stdin.buffer.read()
    found = refusal(data)
    if isinstance(found[0], int):
        print("REFUSED %d %d" % found)
        return
    tree = Tree(list(found[0]), list(found[1]))
    steep, balanced = Sheet(tree, 0), Sheet(tree, 1)
    print("SHEET %d" % tree.n)
    for v in range(tree.n):
        print(v, steep.x[v], steep.y[v], balanced.x[v], balanced.y[v])


if __name__ == "__main__":
    main()
