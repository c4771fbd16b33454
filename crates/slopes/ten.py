"""Writes the table of the 1,023 balanced slopes of ten levels: as numbers for the code, as slopes for its contract, and
for the plain C version.

    python3 crates/slopes/ten.py            write src/ten.rt, specs/Ten.antt and rust/bench/ten.h
    python3 crates/slopes/ten.py --check    say whether they are as this writes them
"""

import pathlib
import sys

CODE = """\
// The 1,023 slopes of ten levels (document 02, request 102), with 0/1 before the first: 32 rows of 32. Made by ten.py.
//
// A number holds four slopes, the first highest, each as two bytes: across, up. The rows are the arms of a match, since
// of these the compiler makes tables that are only read; it would write an array that is indexed to the stack first.
ghost use Rattle.std.specs.Prelude.{◌≡◌, ◌<◌};
ghost use Rattle.slopes.specs.Rows.{slopes_in, row_of};

%s
// Row `r`.
pub fn row(r: usize) -> [u64; 8]
    requires { r < 32 }
    ensures { slopes_in result ≡ row_of r }
{
    match r {
%s        _ => ROW_31,
    }
}
"""

CONTRACT = """\
-- The 1,023 slopes of ten levels (document 02, request 102), as the paper writes them: up over across. Made by ten.py.
use Rattle.std.specs.Prelude.{List, [], ◌∷◌, ℕ}
use Rattle.slopes.specs.declared.Slope.{Slope}

infix 70 ◌over◌
abbrev pub ◌over◌ : ℕ → ℕ → Slope
u over a = record { across = a; up = u }

unfoldable pub ten : List Slope
ten =
    %s ∷ []
"""

PLAIN = """\
/* The 1,023 slopes of ten levels: across, up. Made by crates/slopes/ten.py. */
static const uint8_t TEN[1023][2] = {
    %s,
};
"""


def levels(k, left, right):
    """The slopes (across, up) of k levels between two neighbours, in order."""
    if k == 0:
        return []
    middle = (left[0] + right[0], left[1] + right[1])
    return levels(k - 1, left, middle) + [middle] + levels(k - 1, middle, right)


def by(count, entries):
    """The entries, so many at a time."""
    return [entries[i : i + count] for i in range(0, len(entries), count)]


def code(flat, ten):
    slopes = ["%02x%02x" % slope for slope in [flat] + ten]
    numbers = ["    0x%s,\n" % "_".join(four) for four in by(4, slopes)]
    rows = ["const ROW_%d: [u64; 8] = [\n%s];\n" % (r, "".join(row)) for r, row in enumerate(by(8, numbers))]
    arms = ["        %d => ROW_%d,\n" % (r, r) for r in range(31)]
    return CODE % ("\n".join(rows), "".join(arms))


def contract(ten):
    slopes = ["%d over %d" % (up, across) for across, up in ten]
    return CONTRACT % "\n    ∷ ".join(" ∷ ".join(line) for line in by(8, slopes))


def plain(ten):
    slopes = ["{%d, %d}" % slope for slope in ten]
    return PLAIN % ",\n    ".join(", ".join(line) for line in by(11, slopes))


def main(words):
    if words not in ([], ["--check"]):
        sys.exit(__doc__)
    flat, upright = (1, 0), (0, 1)
    ten = levels(10, flat, upright)
    crate = pathlib.Path(__file__).resolve().parent
    made = {
        crate / "src/ten.rt": code(flat, ten),
        crate / "specs/Ten.antt": contract(ten),
        crate.parents[1] / "rust/bench/ten.h": plain(ten),
    }
    if words:
        other = [f"{path} is not what ten.py writes" for path in made if path.read_text() != made[path]]
        sys.exit("\n".join(other) or None)
    for path, text in made.items():
        path.write_text(text)


main(sys.argv[1:])
