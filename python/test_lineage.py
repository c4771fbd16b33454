"""The module beside plain Python (tests/cases.py): python3 -m unittest test_lineage, with the library where lineage.py
looks for it. LINEAGE_SEED sets the seed, which is printed."""

import doctest
import os
import pickle
import random
import re
import shutil
import struct
import subprocess
import sys
import tempfile
import time
import unittest
from fractions import Fraction
from pathlib import Path

ROOT = Path(__file__).resolve().parents[1]
sys.path.insert(0, str(ROOT / "tests"))

import cases  # noqa: E402
import lineage  # noqa: E402
from lineage import Refused, Sheet, Stopped, Tree, Window  # noqa: E402

SEED = int(os.environ.get("LINEAGE_SEED") or time.time_ns())
FIVE = [0, 0, 0, 1, 1], [0, 0, 1, 0, 1]
RULES = "steep", "balanced"
CABINETS = {"large": cases.LARGE, "small": cases.SMALL}


def load_tests(loader, tests, pattern):
    tests.addTests(doctest.DocTestSuite(lineage))
    return tests


def random_tree(draw):
    """The lists of a tree whose lots are numbered and ranked at random."""
    n = draw.choice([1, 2, 3, 5, 8, 30, 200])
    name = [0] + draw.sample(range(1, n), n - 1)
    parents, children = [0] * n, [[] for _ in range(n)]
    for v in range(1, n):
        p = name[draw.choice([v - 1, 0, draw.randrange(v)])]
        parents[name[v]] = p
        children[p].append(name[v])
    ranks = [0] * n
    for kids in children:
        draw.shuffle(kids)
        for rank, v in enumerate(kids):
            ranks[v] = rank
    return parents, ranks


class BesidePython(unittest.TestCase):
    def setUp(self):
        print(f"{self.id()}: LINEAGE_SEED={SEED}")
        self.draw = random.Random(SEED)

    def same(self, sheet, plain):
        self.assertEqual((sheet.times, sheet.x, sheet.y, sheet.held), (plain.times, plain.x, plain.y, plain.held))
        self.assertEqual((1, *sheet.frame), plain.frame())

    def reply(self, call, *numbers):
        """The reply of C that a call's outcome stands for."""
        try:
            return (1, *call(*numbers))
        except Refused as refused:
            return (0, refused.number, refused.lot)

    def test_sheets(self):
        seen = set()
        for _ in range(300):
            lists = random_tree(self.draw)
            rule, cabinet = self.draw.randrange(2), self.draw.choice(list(CABINETS))
            sheet = Sheet(Tree(*lists), RULES[rule], cabinet)
            plain = cases.Sheet(cases.Tree(*lists), rule, CABINETS[cabinet])
            self.same(sheet, plain)
            for _ in range(15):
                call = self.draw.choice(["lengthen", "lengthen", "shorten", "shorten", "hold", "free"])
                lot, count = self.lengthen(len(lists[0]))
                if call in ("lengthen", "shorten"):
                    reply = self.reply(getattr(sheet, call), lot, count)
                    self.assertEqual(reply, plain.move(call == "lengthen", lot, count))
                else:
                    reply = self.reply(getattr(sheet, call), lot)
                    self.assertEqual(reply, plain.hold(lot, int(call == "hold")))
                self.same(sheet, plain)
                seen.add(reply[1] if reply[0] == 0 else call)
            self.assertTrue(sheet.check())
            lists = sheet.times, sheet.x, sheet.y, sheet.held
            for again in Sheet.from_lists(sheet.tree, sheet.rule, *lists, cabinet), eval(repr(sheet), vars(lineage)):
                self.assertEqual((again, again.cabinet, again.frame), (sheet, cabinet, sheet.frame))
        self.assertEqual(seen, {"lengthen", "shorten", "hold", "free", 9, 10, 11, 12, 21, 22})

    def lengthen(self, n):
        """A lot, or now and then none, and a count."""
        return self.draw.randrange(n + 1), self.draw.choice([0, 1, 2, 5, 1000, 2**17, 2**31, 2**32 - 1])

    def test_lists_of_lengthens(self):
        places = set()
        for _ in range(600):
            lists = random_tree(self.draw)
            rule, n, cabinet = self.draw.randrange(2), len(lists[0]), self.draw.choice(list(CABINETS))
            sheet = Sheet(Tree(*lists), RULES[rule], cabinet)
            plain = cases.Sheet(cases.Tree(*lists), rule, CABINETS[cabinet])
            if n > 1:
                lot = self.draw.randrange(1, n)
                sheet.hold(lot)
                plain.hold(lot, 1)
            lengthens = [self.lengthen(n) for _ in range(self.draw.randrange(6))]
            try:
                reply = (1, *sheet.lengthen_each(lengthens), 0)
            except Stopped as stopped:
                reply = (0, stopped.number, stopped.lot, stopped.place)
            self.assertEqual(reply, plain.lengthen_each(lengthens))
            self.same(sheet, plain)
            places.add(reply[3])
        self.assertTrue(places >= {0, 1, 2, 3}, places)

    def column(self, plain, lot):
        """A column for a lot: one that a count brings it to, often as far as there is room, or beside that."""
        if not 0 < lot < plain.tree.n:
            return self.draw.randrange(2**32)
        below, (across, up), most = plain.tree.down(lot), plain.slope[lot], plain.limits.place
        room = min((most - max(plain.x[z] for z in below)) // across, (most - max(plain.y[z] for z in below)) // up)
        count = self.draw.choice([-1, 0, 0, 1, 5, 1000, room, room + 1, 2**31])
        beside = plain.x[lot] + count * across + self.draw.choice([0, 0, 0, -1, 1])
        return min(max(beside, 0), 2**32 - 1)

    def test_columns(self):
        seen = set()
        for _ in range(300):
            lists = random_tree(self.draw)
            rule, n, cabinet = self.draw.randrange(2), len(lists[0]), self.draw.choice(list(CABINETS))
            sheet = Sheet(Tree(*lists), RULES[rule], cabinet)
            plain = cases.Sheet(cases.Tree(*lists), rule, CABINETS[cabinet])
            for _ in range(15):
                lot, count = self.lengthen(n)
                self.assertEqual(self.reply(sheet.lengthen, lot, count), plain.move(1, lot, count))
                lot, held = self.draw.randrange(n + 1), self.draw.randrange(2)
                self.assertEqual(self.reply(sheet.hold if held else sheet.free, lot), plain.hold(lot, held))
                lot = self.draw.randrange(n + 1)
                column = self.column(plain, lot)
                try:
                    count = sheet.column(lot, column)
                    reply = (2, 0, 0) if count is None else (1, count, 0)
                except Refused as refused:
                    reply = (0, refused.number, refused.lot)
                self.assertEqual(reply, plain.column(lot, column))
                self.same(sheet, plain)
                seen.add((cabinet, *reply[:2]) if reply[0] == 0 else (cabinet, reply[0]))
        self.assertEqual(seen, {(cabinet, *reply) for cabinet in CABINETS for reply in ((0, 9), (0, 10), (1,), (2,))})

    def test_checks(self):
        seen = set()
        for _ in range(1000):
            lists = random_tree(self.draw)
            x, y = ([self.draw.randrange(6) for _ in lists[0]] for _ in "xy")
            verdict = lineage.check(Tree(*lists), x, y)
            plain = cases.check(cases.Tree(*lists), x, y)
            self.assertEqual(verdict, lineage.Verdict(None if plain[0] == 2 else plain[1:]))
            seen.add(bool(verdict))
        self.assertEqual(seen, {True, False})

    def test_directions_rise(self):
        for _ in range(300):
            sheet = Sheet(Tree(*random_tree(self.draw)), self.draw.choice(RULES))
            n, parents = len(sheet.tree), sheet.tree.parents
            u, v = self.draw.randrange(n), self.draw.randrange(n)
            way = self.path(parents, u, v)
            d, e = sheet.direction(u, v)
            for a, b in zip(way, way[1:]):
                self.assertGreater(d * (sheet.x[b] - sheet.x[a]) + e * (sheet.y[b] - sheet.y[a]), 0)
            self.assertEqual(sheet.direction(u, u), (1, 1))

    def path(self, parents, u, v):
        up, down = [u], [v]
        for way in up, down:
            while way[-1] != 0:
                way.append(parents[way[-1]])
        meeting = next(z for z in up if z in down)
        return up[: up.index(meeting) + 1] + down[: down.index(meeting)][::-1]

    def test_post_numbers(self):
        for _ in range(100):
            lists = random_tree(self.draw)
            numbers, plain = Tree(*lists).post_numbers(), cases.Tree(*lists)
            self.assertEqual(numbers.last, plain.post)
            for v in range(plain.n):
                below = plain.down(v)
                self.assertEqual(numbers.first[v], min(plain.post[z] for z in below))
                self.assertEqual({z for z in range(plain.n) if numbers.under(v, z)}, set(below))

    def test_tallest(self):
        chains = 0
        for _ in range(300):
            lists = random_tree(self.draw)
            n = len(lists[0])
            tree, frame = Tree.tallest(n)
            self.assertEqual((tree.parents, tree.ranks), ([0, *range(n - 1)], [0] * n))
            self.assertEqual((1, *frame), cases.Sheet(cases.Tree(tree.parents, tree.ranks), 0).frame())
            _, width, height = cases.Sheet(cases.Tree(*lists), 0).frame()
            self.assertTrue(width <= frame.width and height <= frame.height, (lists, width, height))
            is_chain = len(set(lists[0][1:])) == n - 1
            self.assertEqual(height == frame.height, is_chain, lists)
            chains += is_chain
        self.assertTrue(0 < chains < 300, chains)

    def test_windows(self):
        shown = 0
        for _ in range(3000):
            exponent = self.draw.randrange(32)
            side = 2**exponent
            corner = self.draw.randrange(2**32), self.draw.choice([0, 2**32 - 1, self.draw.randrange(2**32)])
            ends = 0, side - 1, side, self.draw.randrange(side), -1, -side
            place = tuple((at + self.draw.choice(ends)) % 2**32 for at in corner)
            point = Window(corner, exponent).show(place)
            distances = tuple(c - at for c, at in zip(place, corner))
            self.assertEqual(point is not None, all(0 <= d < side for d in distances), (corner, exponent, place))
            if point:
                self.assertEqual(tuple(Fraction(part) * side for part in point), distances)
                shown += 1
        self.assertTrue(300 < shown < 2700, shown)

    def test_tree_files(self):
        with tempfile.TemporaryDirectory() as folder:
            path = Path(folder) / "a.tree"
            for _ in range(100):
                parents, ranks = random_tree(self.draw)
                tree, n = Tree(parents, ranks), len(parents)
                tree.write(path)
                self.assertEqual(path.read_bytes(), struct.pack(f"<{1 + 2 * n}I", n, *parents, *ranks))
                again = Tree.read(path)
                self.assertEqual((again, hash(again), again.parents, again.ranks), (tree, hash(tree), parents, ranks))


class Refusals(unittest.TestCase):
    def refused(self, number, lot, call, *arguments):
        with self.assertRaises(Refused) as caught:
            call(*arguments)
        refused = caught.exception
        self.assertEqual((refused.number, refused.lot), (number, lot))
        self.assertEqual(refused.ground, lineage.GROUNDS[number].words)
        self.assertEqual(refused.remedy, lineage.GROUNDS[number].remedy)
        self.assertTrue(str(refused).endswith(refused.ground))
        self.assertEqual(f"at lot {lot}:" in str(refused), lineage.GROUNDS[number].names_lot)
        self.assertEqual(str(pickle.loads(pickle.dumps(refused))), str(refused))
        return refused

    def test_trees(self):
        self.refused(1, 0, Tree, [], [])
        self.refused(2, 0, Tree, [0] * 65_537, [0] * 65_537)
        self.refused(3, 0, Tree, [0, 0], [0])
        self.refused(4, 0, Tree, [1, 0], [0, 0])
        self.refused(5, 1, Tree, [0, 2], [0, 0])
        self.refused(6, 1, Tree, [0, 0, 0], [0, 0, 0])
        self.refused(7, 1, Tree, [0, 2, 1], [0, 0, 0])

    def test_tree_files(self):
        data = Tree(*FIVE).to_bytes()
        self.refused(16, 0, Tree.from_bytes, b"\5\0\0")
        self.refused(1, 0, Tree.from_bytes, b"\0" * 4)
        self.refused(2, 0, Tree.from_bytes, b"\xff" * 100)
        self.refused(17, 0, Tree.from_bytes, data[:-1])
        self.refused(17, 0, Tree.from_bytes, data + b"\0")
        self.refused(7, 1, Tree.from_bytes, struct.pack("<7I", 3, 0, 2, 1, 0, 0, 0))

    def test_tallest(self):
        self.assertEqual(self.refused(1, 0, Tree.tallest, 0).call, "tallest")
        for n in 65_537, 2**32 - 1:  # no lists of that length are made
            self.refused(2, 0, Tree.tallest, n)
        for n, height in (1, 1), (2, 2), (1024, 523_777), (65_536, 2_147_450_881):
            tree, frame = Tree.tallest(n)
            self.assertEqual((len(tree), frame), (n, (n, height)))
            self.assertEqual(tree, Tree([0, *range(n - 1)], [0] * n))
            self.assertEqual(Sheet(tree, "steep").frame, frame)

    def test_windows(self):
        for exponent in 32, 33, 64, 2**32 - 1:
            self.assertEqual(self.refused(18, 0, Window, (4, 4), exponent).call, "window")
        window = Window((4, 4), 2)
        self.assertEqual((window.corner, window.exponent, window.side), ((4, 4), 2, 4))
        self.assertEqual((window, hash(window)), (Window((4, 4), 2), hash(Window((4, 4), 2))))
        self.assertNotEqual(window, Window((4, 4), 3))
        self.assertEqual(repr(window), "Window(corner=(4, 4), exponent=2)")
        self.assertEqual(window.show(Sheet(Tree(*FIVE), "balanced").place(1)), None)
        self.assertEqual(Window((2, 2), 1).show(Sheet(Tree(*FIVE), "balanced").place(1)), (0.5, 0))

    def test_sheets(self):
        tree = Tree(*FIVE)
        sheet = Sheet(tree, "steep")
        before = Sheet(tree, "steep")
        self.refused(9, 0, sheet.lengthen, 5, 1)
        self.refused(10, 0, sheet.lengthen, 0, 1)
        self.refused(11, 1, sheet.lengthen, 1, 2**32 - 1)
        self.refused(12, 1, sheet.shorten, 1, 1)
        self.refused(9, 0, sheet.direction, 5, 1)
        self.refused(9, 0, sheet.direction, 5, 5)
        self.assertEqual(sheet, before)
        times, x, y, free = sheet.times, sheet.x, sheet.y, [0] * 5
        self.refused(3, 0, Sheet.from_lists, tree, "steep", [1] * 4, x, y, free)
        self.refused(3, 0, Sheet.from_lists, tree, "steep", times, x, y, [])
        self.refused(8, 2, Sheet.from_lists, tree, "steep", times, [0, 1, 2, 2, 2], y, free)
        self.refused(8, 0, Sheet.from_lists, Tree([0], [0]), "steep", [2], [0], [0], [0])
        self.assertEqual(Sheet.from_lists(Tree([0], [0]), "steep", [1], [0], [0], [0]).frame, (1, 1))

    def test_lists_of_lengthens(self):
        tree = Tree(*FIVE)
        sheet, singly = Sheet(tree, "steep"), Sheet(tree, "steep")
        self.assertEqual((sheet.lengthen_each([]), sheet), ((3, 6), singly))
        self.assertEqual(sheet.lengthen_each(iter([(1, 2), [3, 1]])), (6, 12))
        self.assertEqual((singly.lengthen(1, 2), singly.lengthen(3, 1), sheet), ((5, 12), (6, 12), singly))
        sheet.hold(2)
        for number, lot, wrong in (9, 0, (5, 1)), (10, 0, (0, 0)), (22, 2, (2, 0)), (11, 1, (1, 2**31)):
            self.assertEqual(self.refused(number, lot, sheet.lengthen_each, [wrong]).place, 1)
            before = sheet.times[3]
            stopped = self.refused(number, lot, sheet.lengthen_each, [(3, 1), (3, 0), wrong, (3, 1)])
            self.assertEqual((type(stopped), stopped.place, stopped.call), (Stopped, 3, "lengthen"))
            self.assertEqual((sheet.times[3], sheet.frame.width), (before + 1, sheet.x[3] + 1))

    def test_columns(self):
        sheet, fresh = Sheet(Tree(*FIVE), "balanced"), Sheet(Tree(*FIVE), "balanced")
        for column, count in (3, 0), (6, 1), (9, 2), (2147483643, 715827880):
            self.assertEqual(sheet.column(1, column), count)
        for column in 0, 2, 4, 5, 2147483646, 2147483648, 2**32 - 1:  # lot 3 is 3 farther out than lot 1
            self.assertIsNone(sheet.column(1, column))
        self.assertEqual(self.refused(9, 0, sheet.column, 5, 3).call, "column")
        self.refused(10, 0, sheet.column, 0, 0)
        self.assertEqual((sheet, sheet.frame), (fresh, fresh.frame))
        sheet.hold(1)
        self.assertEqual((sheet.column(1, 3), sheet.column(1, 6), sheet.column(3, 9)), (None, None, 1))
        most = lineage.SMALL_PLACE
        large, small = (Sheet(Tree([0, 0], [0, 0]), "steep", cabinet) for cabinet in CABINETS)
        self.assertEqual((large.column(1, most), large.column(1, most + 1)), (most - 1, most))
        self.assertEqual((small.column(1, most), small.column(1, most + 1)), (most - 1, None))
        self.assertEqual((small, small.frame), (large, (2, 2)))

    def test_the_small_cabinet(self):
        star = [Tree([0] * n, [0, *range(n - 1)]) for n in (1024, 1025, 65_536)]
        for rule in RULES:
            self.assertEqual(Sheet(star[0], rule, "small"), Sheet(star[0], rule))
            for tree in star[1:]:
                fresh = Sheet(tree, rule)
                self.refused(20, 0, Sheet, tree, rule, "small")
                self.refused(20, 0, Sheet.from_lists, tree, rule, fresh.times, fresh.x, fresh.y, fresh.held, "small")
        pair, most = Tree([0, 0], [0, 0]), lineage.SMALL_PLACE
        sheet = Sheet(pair, "steep", "small")
        self.assertEqual(self.refused(21, 1, sheet.lengthen, 1, most).call, "lengthen")
        self.assertEqual(sheet.lengthen(1, most - 1), (most + 1, most + 1))
        stopped = self.refused(21, 1, sheet.lengthen_each, [(1, 0), (1, 1), (1, 0)])
        self.assertEqual((type(stopped), stopped.place, sheet.frame), (Stopped, 2, (most + 1, most + 1)))
        large = Sheet.from_lists(pair, "steep", sheet.times, sheet.x, sheet.y, sheet.held)
        self.assertEqual((large, large.cabinet, sheet.cabinet), (sheet, "large", "small"))
        large.lengthen(1, 1)
        self.refused(8, 1, Sheet.from_lists, pair, "steep", large.times, large.x, large.y, large.held, "small")

    def test_held_lines(self):
        tree = Tree(*FIVE)
        sheet, fresh = Sheet(tree, "steep"), Sheet(tree, "steep")
        self.refused(9, 0, sheet.hold, 5)
        self.refused(10, 0, sheet.hold, 0)
        self.refused(10, 0, sheet.free, 0)
        self.assertEqual(sheet, fresh)
        self.assertEqual((sheet.hold(1), sheet.hold(1), sheet.held), (fresh.frame, fresh.frame, [0, 1, 0, 0, 0]))
        self.assertNotEqual(sheet, fresh)
        for count in 0, 1, 2**32 - 1:
            self.refused(22, 1, sheet.lengthen, 1, count)
            self.refused(22, 1, sheet.shorten, 1, count)
        sheet.lengthen(3, 1)
        sheet.shorten(3, 1)
        self.assertEqual((sheet.free(1), sheet.free(1), sheet), (fresh.frame, fresh.frame, fresh))
        self.assertEqual(sheet.lengthen(1, 2), (5, 12))
        lists = tree, "steep", [1] * 5, fresh.x, fresh.y
        for held, lot in ([0, 2, 0, 0, 0], 1), ([0, 0, 0, 0, 2**32 - 1], 4), ([1, 0, 0, 0, 0], 0), ([1, 7, 0, 0, 0], 0):
            self.refused(8, lot, Sheet.from_lists, *lists, held)
        self.refused(8, 1, Sheet.from_lists, tree, "steep", [1, 2, 1, 1, 1], fresh.x, fresh.y, [0, 0, 2, 0, 0])
        self.refused(8, 0, Sheet.from_lists, Tree([0], [0]), "steep", [1], [0], [0], [1])
        self.assertEqual(Sheet.from_lists(*lists, [0, 1, 0, 0, 1]).held, [0, 1, 0, 0, 1])

    def test_checks(self):
        self.refused(3, 0, lineage.check, Tree(*FIVE), [0], [0])
        self.refused(15, 2, lineage.check, Tree(*FIVE), [0, 0, 2**31, 0, 0], [0] * 5)
        star = Tree([0] * 4097, [0, *range(4096)])
        self.refused(14, 0, Sheet(star, "steep").check)

    def test_limits_are_the_header_s(self):
        header = (ROOT / "include/lineage.h").read_text()
        for name in "MAX_LOTS", "CHECK_LOTS", "MAX_PLACE", "SMALL_LOTS", "SMALL_PLACE", "MAX_EXPONENT":
            (given,) = re.findall(rf"#define LINEAGE_{name} (\d+)", header)
            self.assertEqual(int(given), getattr(lineage, name))
        # 18, of a window, stands between the others
        others = [n for n in lineage.GROUNDS if n != 18]
        self.assertEqual(others, [*(n for n in range(1, 18) if n != 13), 19, 20, 21, 22])
        self.assertEqual(list(lineage.GROUNDS), sorted([*others, 18]))


class Finding(unittest.TestCase):
    """Where the library is looked for: by a copy of the module in a folder of its own."""

    def setUp(self):
        folder = tempfile.TemporaryDirectory()
        self.addCleanup(folder.cleanup)
        self.folder, self.library = Path(folder.name), Path(lineage._LIBRARY._name).resolve()
        for name in "lineage.py", "refusals.txt":
            shutil.copy(ROOT / "python" / name, self.folder)

    def load(self, **environment):
        """What a fresh Python says when it imports the module."""
        clean = {k: v for k, v in os.environ.items() if k not in ("LINEAGE_LIBRARY", "LD_LIBRARY_PATH", "PYTHONPATH")}
        command = [sys.executable, "-c", "import lineage; print(lineage._LIBRARY._name)"]
        done = subprocess.run(command, cwd=self.folder, env={**clean, **environment}, capture_output=True, text=True)
        return done.stdout.strip() or done.stderr.strip().splitlines()[-1]

    def test_by_the_variable(self):
        self.assertEqual(self.load(LINEAGE_LIBRARY=str(self.library)), str(self.library))

    def test_beside_the_file(self):
        shutil.copy(self.library, self.folder / "liblineage.so")
        self.assertEqual(self.load(), str(self.folder / "liblineage.so"))

    def test_by_the_system(self):
        self.assertEqual(self.load(LD_LIBRARY_PATH=str(self.library.parent)), "liblineage.so.0")

    def test_nowhere(self):
        self.assertIn("LINEAGE_LIBRARY may name it", self.load())


class WrongValues(unittest.TestCase):
    """Python's own errors, before any call."""

    def setUp(self):
        self.ask, lineage._ask = lineage._ask, self.never
        self.addCleanup(setattr, lineage, "_ask", self.ask)

    def never(self, *arguments):
        self.fail("a call was made")

    def test_lists(self):
        for wrong in [[0.0], ["0"], [None], "a", 7, None]:
            self.assertRaises(ValueError, Tree, wrong, [0])
            self.assertRaises(ValueError, Tree, [0], wrong)
        for wrong in [[-1], [2**32], [10**30]]:
            self.assertRaises(OverflowError, Tree, wrong, [0])
            self.assertRaises(OverflowError, Tree, [0], wrong)

    def test_bytes(self):
        for wrong in "text", [1, 2], 5, None:
            self.assertRaises(ValueError, Tree.from_bytes, wrong)

    def test_numbers(self):
        lineage._ask = self.ask
        sheet = Sheet(Tree(*FIVE), "balanced")
        lineage._ask = self.never
        for wrong, error in ("1", ValueError), (1.0, ValueError), (-1, OverflowError), (2**32, OverflowError):
            for call in sheet.lengthen, sheet.shorten, sheet.column, sheet.direction:
                self.assertRaises(error, call, wrong, 1)
                self.assertRaises(error, call, 1, wrong)
            for call in sheet.hold, sheet.free, sheet.place:
                self.assertRaises(error, call, wrong)
            self.assertRaises(error, sheet.lengthen_each, [(1, 1), (wrong, 1)])
            self.assertRaises(error, sheet.lengthen_each, [(1, 1), (1, wrong)])
            self.assertRaises(error, lineage.check, sheet.tree, [wrong] * 5, sheet.y)
            self.assertRaises(error, Tree.tallest, wrong)
        self.assertRaises(IndexError, sheet.place, 5)
        for wrong in [1, 1], [(1,)], [(1, 2, 3)], [(1, 1), "ab"], 7, None:
            self.assertRaises(ValueError, sheet.lengthen_each, wrong)

    def test_windows(self):
        lineage._ask = self.ask
        window = Window((4, 4), 2)
        lineage._ask = self.never
        for wrong, error in ("1", ValueError), (1.0, ValueError), (-1, OverflowError), (2**32, OverflowError):
            self.assertRaises(error, window.show, (wrong, 1))
            self.assertRaises(error, window.show, (1, wrong))
            self.assertRaises(error, Window, (wrong, 1), 2)
            self.assertRaises(error, Window, (1, wrong), 2)
            self.assertRaises(error, Window, (1, 1), wrong)
        for wrong in (1,), (1, 2, 3), [], 7, None:
            self.assertRaises(ValueError, window.show, wrong)
            self.assertRaises(ValueError, Window, wrong, 2)

    def test_post_numbers(self):
        lineage._ask = self.ask
        numbers = Tree(*FIVE).post_numbers()
        lineage._ask = self.never
        for wrong, error in ("1", ValueError), (1.0, ValueError), (-1, OverflowError), (5, IndexError):
            self.assertRaises(error, numbers.under, wrong, 1)
            self.assertRaises(error, numbers.under, 1, wrong)

    def test_rules(self):
        lineage._ask = self.ask
        tree = Tree(*FIVE)
        lineage._ask = self.never
        for wrong in "Steep", True, None:
            self.assertRaises(ValueError, Sheet, tree, wrong)
            self.assertRaises(ValueError, lineage.direction, tree, wrong, 1, 2)

    def test_cabinets(self):
        lineage._ask = self.ask
        tree = Tree(*FIVE)
        lineage._ask = self.never
        for wrong in "Small", True, None:
            self.assertRaises(ValueError, Sheet, tree, "steep", wrong)
            self.assertRaises(ValueError, Sheet.from_lists, tree, "steep", [1] * 5, [0] * 5, [0] * 5, [0] * 5, wrong)


if __name__ == "__main__":
    unittest.main()
