#!/usr/bin/env python3
"""Gives the repository's own definitions and lemmas the spelling of today's Rattle.

Run once at the top, on what Rattle's own script for older repositories left: words in snake case; a dash only between
two names, as in length-lot_line, and `_` before a plain word, as in child_at_of. Functions of src/, exported names,
strings, inputs and outputs keep their names. What it renames is printed; two names that fall together stop it.
"""

import os
import re
import sys

TOKEN = re.compile(r"[^\W\d][\w'◌]*(?:-[\w'◌]+)*|◌\w+◌")
USE = re.compile(r"^(?:pub )?(?:ghost )?use ([\w.+-]+?)\.\{([^}]*)\}", re.M)
DEFINED = re.compile(r"^(?:(abbrev|unfoldable|data|record) )?(?:pub )?(?:record )?([^\s:(]+) (?:\(|\{|:)", re.M)
# names that would otherwise fall together with a definition or a field
APART = {
    "◌orElse◌": "◌or_else◌",
    "is_Within": "is_within",
    "steepX": "five_steep_x",
    "steepY": "five_steep_y",
    "balancedX": "five_balanced_x",
    "balancedY": "five_balanced_y",
    "all-long": "all_long_lem",
    "child-at": "child_at_lem",
    "has-number": "has_number_lem",
    "held_fits": "held_fits_lem",
    "long-fault": "long_fault_lem",
    "on-sheet": "on_sheet_lem",
    "three_quarters": "three_quarters_lem",
    "word-at": "word_at_lem",
}
WORDS = {"length", "set", "get_or", "take", "drop", "zero", "suc", "sum", "map", "reverse", "append", "replicate"}


def files(*endings):
    for folder, inner, names in os.walk("crates"):
        inner[:] = sorted(d for d in inner if d != "out")
        for name in sorted(names):
            if name.endswith(endings):
                yield os.path.join(folder, name)


def read(path):
    with open(path, encoding="utf-8") as f:
        return f.read()


def own_files(path):
    """Whether a file has definitions or lemmas of the repository's own, not one function's proof."""
    return path.endswith(".antt") and os.path.basename(os.path.dirname(path)) in ("specs", "proofs")


def code(text):
    return re.sub(r"(^|\s)--( .*|-*$)", "", text, flags=re.M)


def snake(name):
    name = re.sub(r"(?<=[a-z0-9])_?([A-Z])(?![A-Z0-9_'-]|$)", lambda m: "_" + m.group(1).lower(), name)
    return re.sub(r"(?<=[a-z])([A-Z])(?=-|◌|$)", lambda m: "_" + m.group(1).lower(), name)


def gather():
    foreign, names, functions = set(), set(), set()
    for path in files(".antt", ".rt"):
        for module, listed in USE.findall(read(path)):
            own = re.match(r"Rattle\.(\w+)\.", module)
            if not own or not os.path.isdir(os.path.join("crates", own.group(1))):
                foreign |= {word.strip() for word in listed.split(",")}
    for path in files(".antt"):
        if not own_files(path):
            continue
        text = code(read(path))
        names |= set(TOKEN.findall(USE.sub("", text)))
        functions |= {name for kind, name in DEFINED.findall(text) if kind}
    return foreign, names, functions


def spelling(name, functions):
    if name[:1].isupper():
        return name
    parts = [snake(part) for part in name.split("-")]
    known = [part in functions or part in WORDS for part in name.split("-")]
    out = parts[0]
    for i in range(1, len(parts)):
        both = known[i] and (known[i - 1] or "-".join(name.split("-")[:i]) in functions)
        out += ("-" if both else "_") + parts[i]
    return out


def main():
    foreign, names, functions = gather()
    turned = {}
    for name in sorted(names - foreign):
        new = APART.get(name) or spelling(name, functions)
        if new != name:
            turned[name] = new
    turned.update(APART)
    taken = {}
    for old, new in turned.items():
        if new in taken or new in names - set(turned):
            print(f"{old} and {taken.get(new, new)} fall together as {new}", file=sys.stderr)
            turned[old] = "?"
        taken[new] = old
    if "?" in turned.values():
        sys.exit(1)
    for path in files(".antt", ".rt", ".edit"):
        text = read(path)
        dashed = own_files(path)

        def word(m):
            name = m.group()
            new = turned.get(name)
            if new is None:
                return name
            before = text[max(0, m.start() - 1) : m.start()]
            if "-" in name and before == "." and not dashed:
                return name
            return new

        turned_text = TOKEN.sub(word, text)
        if path.endswith(".edit"):
            turned_text = re.sub(r"\borElse\b", "or_else", turned_text)
            turned_text = re.sub(r"Rattle·(\w+)(?:·(?:specs|proofs))?\.", r"Rattle.\1.", turned_text)
        if turned_text != text:
            with open(path, "w", encoding="utf-8") as f:
                f.write(turned_text)
    for old, new in sorted(turned.items()):
        print(f"{old}  {new}")


main()
