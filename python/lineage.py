"""Lineage sheets on the grid: drawings of a tree in which, for any two lots, some direction makes every edge of the
path between them rise. All the work is done by the proved library; this module lends it lists and names its answers.

>>> tree = Tree([0, 0, 0, 1, 1], [0, 0, 1, 0, 1])
>>> sheet = Sheet(tree, "steep")
>>> sheet.frame
Frame(width=3, height=6)
>>> sheet.lengthen(1, 2)
Frame(width=5, height=12)
>>> sheet.x, sheet.y
([0, 3, 1, 4, 4], [0, 9, 4, 10, 11])
>>> sheet.direction(3, 2)
Direction(d=-7, e=2)
>>> bool(sheet.check())
True
>>> sheet.shorten(1, 3)
Traceback (most recent call last):
lineage.Refused: shorten refused (12) at lot 1: the count is not below the lot's times

Numbers are whole and from 0 to 4,294,967,295: anything else raises ValueError or OverflowError, and no call is made.

The library is the file that the environment variable LINEAGE_LIBRARY names, or else liblineage.so beside this file, or
else the one that the system finds; `tools/package` writes a folder that has both.
"""

from __future__ import annotations

import ctypes
import ctypes.util
import os
from array import array
from ctypes import c_bool, c_double, c_int64, c_size_t, c_uint8, c_uint32
from dataclasses import dataclass
from pathlib import Path
from typing import Any, Iterable, NamedTuple, Optional, Union

__all__ = ["CHECK_LOTS", "MAX_EXPONENT", "MAX_LOTS", "MAX_PLACE", "SMALL_LOTS", "SMALL_PLACE", "GROUNDS", "Direction",
           "Frame", "Ground", "Point", "PostNumbers", "Refused", "Sheet", "Stopped", "Tree", "Verdict", "Window",
           "check", "direction"]

MAX_LOTS = 65_536  #: the most lots of a tree
CHECK_LOTS = 4_096  #: the most lots of a drawing that the check takes
MAX_PLACE = 2_147_483_647  #: the largest x and y on a sheet
SMALL_LOTS = 1_024  #: the most lots of a tree on the small cabinet
SMALL_PLACE = 1_048_575  #: the largest x and y on a sheet of the small cabinet
MAX_EXPONENT = 31  #: the largest exponent of a window's side

# ----------------------------------------------------------------------------------------------------------------------
# Refusals


class Ground(NamedTuple):
    """A ground on which calls refuse."""

    number: int
    name: str
    names_lot: bool
    words: str
    remedy: str


def _grounds() -> dict[int, Ground]:
    """The grounds of refusals.txt, three lines each."""
    text = Path(__file__).with_name("refusals.txt").read_text(encoding="utf-8")
    lines = [line.strip() for line in text.splitlines() if not line.startswith("#")]
    found = {}
    for head, words, remedy in zip(lines[0::3], lines[1::3], lines[2::3]):
        number, name, *lot = head.split()
        found[int(number)] = Ground(int(number), name, lot == ["lot"], words, remedy)
    return found


#: The grounds, by number. 13 is no longer given: up to version 0.3 it refused a direction from a lot to itself.
GROUNDS = _grounds()


class Refused(Exception):
    """A refusal: the call, the number of the ground, and the lot (0 where the ground names none)."""

    def __init__(self, call: str, number: int, lot: int) -> None:
        self.call, self.number, self.lot = call, number, lot
        self.ground = GROUNDS[number].words
        self.remedy = GROUNDS[number].remedy
        at = f" at lot {lot}" if GROUNDS[number].names_lot else ""
        super().__init__(f"{call} refused ({number}){at}: {self.ground}")

    def __reduce__(self) -> tuple[Any, ...]:
        return Refused, (self.call, self.number, self.lot)


class Stopped(Refused):
    """The refusal that stopped a list of lengthens, with its place in the list, from 1: those before it stand."""

    def __init__(self, place: int, call: str, number: int, lot: int) -> None:
        super().__init__(call, number, lot)
        self.place = place

    def __str__(self) -> str:
        return f"at place {self.place} of the list: {super().__str__()}"

    def __reduce__(self) -> tuple[Any, ...]:
        return Stopped, (self.place, self.call, self.number, self.lot)


# ----------------------------------------------------------------------------------------------------------------------
# The library


def _lists(count: int) -> list[Any]:
    """The types of as many lists of 32-bit numbers: each an address and a length."""
    return [ctypes.POINTER(c_uint32), c_size_t] * count


_BYTES: list[Any] = [ctypes.POINTER(c_uint8), c_size_t]

# The lists of a sheet, in the order in which calls take them, between the table's two and the work list.
_SHEET = "times", "x", "y", "held"
_ON_SHEET: list[Any] = [c_bool, *_lists(2 + len(_SHEET) + 1)]

# What each call of lineage.h takes before its reply, which is three numbers, and four for lengthen_each.
_TAKES = {
    "layout": _ON_SHEET,
    "lengthen": [*_ON_SHEET, c_uint32, c_uint32],
    "shorten": [*_ON_SHEET, c_uint32, c_uint32],
    "column": [*_ON_SHEET, c_uint32, c_uint32],
    "lengthen_each": [*_ON_SHEET, *_lists(2)],
    "hold": [*_ON_SHEET, c_uint32, c_bool],
    "small_layout": _ON_SHEET,
    "small_lengthen": [*_ON_SHEET, c_uint32, c_uint32],
    "small_shorten": [*_ON_SHEET, c_uint32, c_uint32],
    "direction": [c_bool, *_lists(3), c_uint32, c_uint32],
    "post_numbers": _lists(5),
    "check": _lists(5),
    "tallest": [c_uint32, *_lists(2)],
    "window": [*[c_uint32] * 5, ctypes.POINTER(c_double), c_size_t],
    "read_tree": [*_BYTES, *_lists(3)],
    "write_tree": [*_lists(2), *_BYTES, *_lists(1)],
}


def _path() -> str:
    """Where the library is."""
    beside = Path(__file__).with_name("liblineage.so")
    here = str(beside) if beside.exists() else None
    path = os.environ.get("LINEAGE_LIBRARY") or here or ctypes.util.find_library("lineage")
    if path is None:
        raise ImportError("liblineage.so is not found; LINEAGE_LIBRARY may name it")
    return path


def _load() -> ctypes.CDLL:
    """The library, with the types of its calls."""
    library = ctypes.CDLL(_path())
    for name, takes in _TAKES.items():
        call = getattr(library, f"lineage_{name}")
        call.argtypes = [*takes, ctypes.POINTER(c_int64), c_size_t]
        call.restype = c_bool
    library.lineage_stated_nodes.argtypes = _BYTES
    library.lineage_stated_nodes.restype = c_uint32
    return library


_LIBRARY = _load()

_List = ctypes.Array[c_uint32]
_Lent = Union[bool, int, ctypes.Array[Any]]


def _lend(arguments: Iterable[_Lent]) -> Iterable[Any]:
    """The arguments as C takes them: a list is its address and its length."""
    for argument in arguments:
        yield argument
        if isinstance(argument, ctypes.Array):
            yield len(argument)


def _ask(call: str, *arguments: _Lent) -> tuple[int, int, int]:
    """Makes a call: the first three numbers of its reply, or Refused; Stopped where the fourth is a place in a list."""
    reply = (c_int64 * (4 if call == "lengthen_each" else 3))()
    getattr(_LIBRARY, f"lineage_{call}")(*_lend((*arguments, reply)))
    case, a, b, *place = reply
    if case == 0:
        raise Stopped(place[0], "lengthen", a, b) if any(place) else Refused(call.removeprefix("small_"), a, b)
    return case, a, b


def _numbers(values: Iterable[int]) -> _List:
    """A list to lend, of whole numbers that fit 32 bits."""
    try:
        numbers = array("I", list(values))
    except TypeError as error:
        raise ValueError(f"not whole numbers: {error}") from None
    return (c_uint32 * len(numbers))(*numbers)


def _number(value: int) -> int:
    """A whole number that fits 32 bits."""
    return int(_numbers([value])[0])


def _pairs(values: Iterable[tuple[int, int]]) -> tuple[_List, _List]:
    """Two lists to lend, of the first and of the second numbers of pairs."""
    try:
        pairs = [(first, second) for first, second in values]
    except TypeError as error:
        raise ValueError(f"not pairs: {error}") from None
    return _numbers(first for first, _ in pairs), _numbers(second for _, second in pairs)


def _zeros(count: int) -> _List:
    return (c_uint32 * count)()


def _bytes(values: bytes) -> ctypes.Array[c_uint8]:
    try:
        return (c_uint8 * len(values)).from_buffer_copy(values)
    except TypeError as error:
        raise ValueError(f"not bytes: {error}") from None


def _balanced(rule: str) -> bool:
    if rule not in ("steep", "balanced"):
        raise ValueError(f"{rule!r} is not a rule: 'steep' or 'balanced'")
    return rule == "balanced"


def _small(cabinet: str) -> bool:
    if cabinet not in ("large", "small"):
        raise ValueError(f"{cabinet!r} is not a cabinet: 'large' or 'small'")
    return cabinet == "small"


# ----------------------------------------------------------------------------------------------------------------------
# Trees


class PostNumbers(NamedTuple):
    """The post numbers in each lot's subtree: all from its first to its last, which is its own, and no others."""

    first: list[int]
    last: list[int]

    def under(self, v: int, z: int) -> bool:
        """Whether lot z is in v's subtree: its number lies between v's two; IndexError where one of them is no lot."""
        v, z = _number(v), _number(z)
        return self.first[v] <= self.last[z] <= self.last[v]


class Tree:
    """An accepted tree table: each lot's parent, and its place among its parent's children. Lot 0 is the root.

    >>> tree = Tree([0, 0], [0, 0])
    >>> Tree.from_bytes(tree.to_bytes()) == tree
    True
    >>> Tree([0, 2, 1], [0, 0, 0])
    Traceback (most recent call last):
    lineage.Refused: write_tree refused (7) at lot 1: the lot's parents never lead to lot 0
    """

    def __init__(self, parents: Iterable[int], ranks: Iterable[int]) -> None:
        """The table of these lists, if none of refusals 1 to 7 applies: the writer of its tree file is asked."""
        self._parents, self._ranks = _numbers(parents), _numbers(ranks)
        self.to_bytes()

    @classmethod
    def from_bytes(cls, data: bytes) -> Tree:
        """The table of a tree file's bytes."""
        given = _bytes(data)
        # where more are stated the reader refuses, whatever it is lent
        n = min(_LIBRARY.lineage_stated_nodes(given, len(given)), MAX_LOTS)
        tree = cls.__new__(cls)
        tree._parents, tree._ranks = _zeros(n), _zeros(n)
        _ask("read_tree", given, tree._parents, tree._ranks, _zeros(4 * n))
        return tree

    def to_bytes(self) -> bytes:
        """The bytes of its tree file."""
        n = min(len(self), MAX_LOTS)  # where there are more the writer refuses, whatever it is lent
        data = (c_uint8 * (4 + 8 * n))()
        _ask("write_tree", self._parents, self._ranks, data, _zeros(4 * n))
        return bytes(data)

    @classmethod
    def read(cls, path: Union[str, os.PathLike[str]]) -> Tree:
        """The table of a tree file."""
        return cls.from_bytes(Path(path).read_bytes())

    def write(self, path: Union[str, os.PathLike[str]]) -> None:
        """Writes its tree file."""
        Path(path).write_bytes(self.to_bytes())

    @classmethod
    def tallest(cls, n: int) -> tuple[Tree, Frame]:
        """The tree of n lots whose fresh steep sheet is the tallest, with that sheet's frame, for paper that is ordered
        before a tree is known. It is the chain in which each lot v from 1 up has parent v - 1. No tree of n lots has a
        taller or a wider fresh steep sheet, and one is as tall exactly when no lot has two children. That this is so is
        proved.

        >>> tree, frame = Tree.tallest(5)
        >>> frame
        Frame(width=5, height=11)
        >>> tree.parents
        [0, 0, 1, 2, 3]
        >>> Sheet(tree, "steep").frame == frame
        True
        >>> Tree.tallest(65_537)
        Traceback (most recent call last):
        lineage.Refused: tallest refused (2): there are more than 65,536 lots
        """
        n = _number(n)
        lots = n if n <= MAX_LOTS else 0  # where there are more the call refuses, whatever it is lent
        tree = cls.__new__(cls)
        tree._parents, tree._ranks = _zeros(lots), _zeros(lots)
        _, width, height = _ask("tallest", n, tree._parents, tree._ranks)
        return tree, Frame(width, height)

    def post_numbers(self) -> PostNumbers:
        """The first and the last post number in each lot's subtree.

        >>> numbers = Tree([0, 0, 0, 1, 1], [0, 0, 1, 0, 1]).post_numbers()
        >>> numbers
        PostNumbers(first=[1, 1, 4, 1, 2], last=[5, 3, 4, 1, 2])
        >>> numbers.under(1, 4), numbers.under(1, 2)
        (True, False)
        """
        n = len(self)
        first, last = _zeros(n), _zeros(n)
        _ask("post_numbers", self._parents, self._ranks, first, last, _zeros(4 * n))
        return PostNumbers(list(first), list(last))

    @property
    def parents(self) -> list[int]:
        """Each lot's parent."""
        return list(self._parents)

    @property
    def ranks(self) -> list[int]:
        """Each lot's place among its parent's children, from 0."""
        return list(self._ranks)

    def __len__(self) -> int:
        """The number of lots."""
        return len(self._parents)

    def __eq__(self, other: object) -> bool:
        return isinstance(other, Tree) and (self.parents, self.ranks) == (other.parents, other.ranks)

    def __hash__(self) -> int:
        return hash(self.to_bytes())

    def __repr__(self) -> str:
        return f"Tree({self.parents}, {self.ranks})"


# ----------------------------------------------------------------------------------------------------------------------
# Drawings


class Frame(NamedTuple):
    """The grid cells of a sheet, from the root's: the largest x plus 1 and the largest y plus 1."""

    width: int
    height: int


class Direction(NamedTuple):
    """An edge (across, up) rises along it when d * across + e * up is above 0."""

    d: int
    e: int


class Verdict(NamedTuple):
    """What the check says of a drawing, which is true where it is monotone: every pair of lots has a direction."""

    turns: Optional[tuple[int, int]]
    """The first pair that has no direction, or None."""

    def __bool__(self) -> bool:
        return self.turns is None


def check(tree: Tree, x: Iterable[int], y: Iterable[int]) -> Verdict:
    """Whether a drawing of the tree, whoever drew it, is monotone.

    >>> chain = Tree([0, 0, 1, 2], [0, 0, 0, 0])
    >>> check(chain, [0, 1, 1, 0], [0, 0, 1, 1])
    Verdict(turns=(0, 3))
    """
    case, u, v = _ask("check", tree._parents, tree._ranks, _numbers(x), _numbers(y), _zeros(4 * len(tree)))
    return Verdict(None if case == 1 else (u, v))


def direction(tree: Tree, rule: str, start: int, end: int) -> Direction:
    """A direction along which every edge of the path from one lot to another rises, on every sheet under the rule.

    >>> direction(Tree([0, 0], [0, 0]), "steep", 1, 1)  # no edge
    Direction(d=1, e=1)
    """
    lists = tree._parents, tree._ranks, _zeros(4 * len(tree))
    _, d, e = _ask("direction", _balanced(rule), *lists, _number(start), _number(end))
    return Direction(d, e)


class Sheet:
    """A tree drawn under a rule, 'steep' or 'balanced', on a cabinet, 'large' or 'small'. Within its limits the small
    one answers what the large one answers. Two sheets are equal where tree, rule, times, places and held lines are.

    >>> sheet = Sheet(Tree([0, 0], [0, 0]), "steep", "small")
    >>> sheet.lengthen(1, SMALL_PLACE - 1)
    Frame(width=1048576, height=1048576)
    >>> sheet.lengthen(1, 1)
    Traceback (most recent call last):
    lineage.Refused: lengthen refused (21) at lot 1: some place would be above 1,048,575
    """

    def __init__(self, tree: Tree, rule: str, cabinet: str = "large") -> None:
        """The fresh sheet, with every times 1 and no line held."""
        self._open(tree, rule, cabinet, [_zeros(len(tree)) for _ in _SHEET])
        self._ask(self._own("layout"))

    @classmethod
    def from_lists(cls, tree: Tree, rule: str, times: Iterable[int], x: Iterable[int], y: Iterable[int],
                   held: Iterable[int], cabinet: str = "large") -> Sheet:
        """The sheet that these lists are, as one that was saved; refused with 8 where they are none."""
        sheet = cls.__new__(cls)
        sheet._open(tree, rule, cabinet, [_numbers(values) for values in (times, x, y, held)])
        if sheet._small:
            sheet._test()
        sheet._find_frame()
        return sheet

    def _open(self, tree: Tree, rule: str, cabinet: str, lists: list[_List]) -> None:
        self._balanced, self._small = _balanced(rule), _small(cabinet)
        self._tree, self._lists = tree, dict(zip(_SHEET, lists))
        self._work = _zeros(4 * len(tree))

    def _own(self, call: str) -> str:
        """A call that each cabinet has of its own."""
        return f"small_{call}" if self._small else call

    def _test(self) -> None:
        """Refused where the lists are no sheet of the cabinet: it is asked for a lot that there is not, and says so,
        with 9, only of a sheet."""
        try:
            self.lengthen(len(self._tree), 0)
        except Refused as refused:
            if refused.number != 9:
                raise

    def _find_frame(self) -> None:
        """Asks the large cabinet for no lengthen at all: the lists are tested, and the frame becomes what they say."""
        self._ask("lengthen_each", *_pairs([]))

    def _ask(self, call: str, *arguments: _Lent) -> Frame:
        """Makes a call, which is lent the sheet; the frame that it answers is the sheet's then."""
        _, width, height = self._reply(call, *arguments)
        self._frame = Frame(width, height)
        return self._frame

    def _reply(self, call: str, *arguments: _Lent) -> tuple[int, int, int]:
        lists = self._tree._parents, self._tree._ranks, *self._lists.values(), self._work
        return _ask(call, self._balanced, *lists, *arguments)

    def lengthen(self, lot: int, count: int) -> Frame:
        """Makes the edge of a lot longer by count times its slope; its whole subtree moves along, held lines too.

        Lengthens that are all accepted on a sheet are so in every other order, with the same sheet at the end. That
        this is so is proved.
        """
        return self._ask(self._own("lengthen"), _number(lot), _number(count))

    def shorten(self, lot: int, count: int) -> Frame:
        """Makes it shorter again, to at least one times its slope."""
        return self._ask(self._own("shorten"), _number(lot), _number(count))

    def column(self, lot: int, column: int) -> Optional[int]:
        """The count by which lengthen brings a lot to a column, its x then. None where no count does: the column is
        left of the lot, the gap between them is no multiple of the slope's across part, some place would be beyond the
        cabinet's edge, or the line is held, also where the lot stands in the column already. Nothing moves.

        The small cabinet has no such call. The large one's count is the answer there where the small cabinet's own
        lengthen, tried on a copy, accepts it; otherwise it is None. That this is so is proved.

        >>> sheet = Sheet(Tree([0, 0, 0, 1, 1], [0, 0, 1, 0, 1]), "balanced")
        >>> sheet.x
        [0, 3, 1, 6, 5]
        >>> sheet.column(1, 9)
        2
        >>> sheet.column(1, 8) is None  # it goes 3 across
        True
        >>> sheet.column(0, 9)
        Traceback (most recent call last):
        lineage.Refused: column refused (10): the root has no edge
        """
        case, count, _ = self._reply("column", _number(lot), _number(column))
        return count if case == 1 and (not self._small or self._accepts(lot, count)) else None

    def _accepts(self, lot: int, count: int) -> bool:
        """Whether lengthen does, on a copy."""
        copy = Sheet.from_lists(self._tree, self.rule, *self._lists.values(), cabinet=self.cabinet)
        try:
            copy.lengthen(lot, count)
        except Refused:
            return False
        return True

    def lengthen_each(self, lengthens: Iterable[tuple[int, int]]) -> Frame:
        """Lengthens a list of lots, each by its count, as lengthen called for one after another would; on the large
        cabinet in much less time, as the small one has no such call. It stops at the first that is refused: those
        before it stand.

        >>> sheet = Sheet(Tree([0, 0, 0, 1, 1], [0, 0, 1, 0, 1]), "steep")
        >>> sheet.lengthen_each([(1, 2), (3, 1)])
        Frame(width=6, height=12)
        >>> sheet.lengthen_each([(3, 4), (0, 1), (1, 1)])
        Traceback (most recent call last):
        lineage.Stopped: at place 2 of the list: lengthen refused (10): the root has no edge
        >>> sheet.times, sheet.frame
        ([1, 3, 1, 6, 1], Frame(width=10, height=16))
        """
        lots, counts = _pairs(lengthens)
        if self._small:
            return self._lengthen_singly(lots, counts)
        try:
            return self._ask("lengthen_each", lots, counts)
        except Stopped:
            self._find_frame()  # a refusal has no frame, and that of those which stand may be another
            raise

    def _lengthen_singly(self, lots: _List, counts: _List) -> Frame:
        for place, (lot, count) in enumerate(zip(lots, counts), 1):
            try:
                self.lengthen(lot, count)
            except Refused as refused:
                raise Stopped(place, refused.call, refused.number, refused.lot) from None
        return self._frame

    def hold(self, lot: int) -> Frame:
        """Holds the line of a lot: it keeps its length until it is freed, and still moves with the lots above it.

        >>> sheet = Sheet(Tree([0, 0, 0, 1, 1], [0, 0, 1, 0, 1]), "steep")
        >>> sheet.hold(3)
        Frame(width=3, height=6)
        >>> sheet.lengthen(3, 0)
        Traceback (most recent call last):
        lineage.Refused: lengthen refused (22) at lot 3: the lot's line is held
        >>> sheet.lengthen(1, 2)
        Frame(width=5, height=12)
        >>> sheet.place(3), sheet.times[3], sheet.held
        ((4, 10), 1, [0, 0, 0, 1, 0])
        """
        return self._ask("hold", _number(lot), True)

    def free(self, lot: int) -> Frame:
        """Frees it again."""
        return self._ask("hold", _number(lot), False)

    def direction(self, start: int, end: int) -> Direction:
        """A direction along which the path from one lot to another rises."""
        return direction(self._tree, self.rule, start, end)

    def check(self) -> Verdict:
        """What the check says of the sheet: never that it turns, which is proved."""
        return check(self._tree, self.x, self.y)

    @property
    def tree(self) -> Tree:
        """The tree that is drawn."""
        return self._tree

    @property
    def rule(self) -> str:
        """The rule that it is drawn under."""
        return "balanced" if self._balanced else "steep"

    @property
    def cabinet(self) -> str:
        """The cabinet that draws it."""
        return "small" if self._small else "large"

    @property
    def frame(self) -> Frame:
        """The grid cells that it takes: the largest x plus 1 and the largest y plus 1."""
        return self._frame

    @property
    def times(self) -> list[int]:
        """How many times its slope each lot's edge is long."""
        return list(self._lists["times"])

    @property
    def x(self) -> list[int]:
        """Each lot's x."""
        return list(self._lists["x"])

    @property
    def y(self) -> list[int]:
        """Each lot's y."""
        return list(self._lists["y"])

    @property
    def held(self) -> list[int]:
        """1 where the lot's line is held, otherwise 0."""
        return list(self._lists["held"])

    def place(self, lot: int) -> tuple[int, int]:
        """The place of a lot; IndexError where there is no such lot."""
        at = _number(lot)
        return self._lists["x"][at], self._lists["y"][at]

    def __eq__(self, other: object) -> bool:
        return isinstance(other, Sheet) and self._drawn() == other._drawn()

    __hash__ = None  # type: ignore[assignment]  # a sheet changes

    def _drawn(self) -> tuple[Any, ...]:
        return self._tree, self.rule, *map(list, self._lists.values())

    def __repr__(self) -> str:
        return f"Sheet.from_lists({', '.join(map(repr, (*self._drawn(), self.cabinet)))})"


# ----------------------------------------------------------------------------------------------------------------------
# Windows


class Point(NamedTuple):
    """A position in a window, in sides of it: each part is from 0 up to, but not, 1."""

    across: float
    up: float


@dataclass(frozen=True)
class Window:
    """A square of the grid that a screen shows, with its side a power of two: the places from its corner on, in both
    directions, up to but not at the far edges. The corner may be anywhere; an exponent above 31 is refused with 18.

    The positions that it gives are exact: times the side they are the whole numbers x - a and y - b, with no rounding,
    and so equal positions in one window mean equal places. That this is so is proved.

    >>> window = Window((4, 4), 2)
    >>> window.side
    4
    >>> window.show((5, 7))
    Point(across=0.25, up=0.75)
    >>> window.show((8, 7)) is None
    True
    >>> Window((4, 4), 32)
    Traceback (most recent call last):
    lineage.Refused: window refused (18): the window's exponent is above 31
    """

    corner: tuple[int, int]
    exponent: int

    def __post_init__(self) -> None:
        self.show(self.corner)

    def show(self, place: tuple[int, int]) -> Optional[Point]:
        """Where a place stands in the window; None where it lies outside."""
        (x, y), (a, b) = (self._two(pair) for pair in (place, self.corner))
        point = (c_double * 2)()
        case, _, _ = _ask("window", x, y, a, b, _number(self.exponent), point)
        return Point(*point) if case == 1 else None

    @staticmethod
    def _two(pair: tuple[int, int]) -> _List:
        numbers = _numbers(pair)
        if len(numbers) != 2:
            raise ValueError(f"not two numbers: {pair!r}")
        return numbers

    @property
    def side(self) -> int:
        """How many grid cells it is wide and high, 2 to the exponent."""
        return 1 << self.exponent
