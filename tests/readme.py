#!/usr/bin/env python3
"""Runs every shell command that the README files show, in a copy of the repository, and compares what it prints.

Commands stand in blocks fenced as ```sh, behind '$ '; the lines below one are its whole output. Each must end with
status 0. All commands of a file run in one shell. The one that is left out is CI itself, which runs this test. Blocks
without a language are not allowed, so that no command hides in one.
"""
import os
import shutil
import subprocess
import sys
import tempfile

ROOT = os.path.dirname(os.path.dirname(os.path.abspath(__file__)))
FILES = ["README.md", "examples/README.md"]
CI = "bash .ci/run"
LEFT_BEHIND = {".git", "rust/target"}
BUILT = {"sheet", "liblineage.a"}


def blocks(name, lines):
    """The fenced blocks: language, number of the first line, lines."""
    language, first, block = None, 0, []
    for number, line in enumerate(lines, 1):
        if line.startswith("```"):
            if language is None:
                language, first, block = line[3:].strip(), number + 1, []
                if not language:
                    sys.exit("%s:%d: a block without a language" % (name, number))
            else:
                yield language, first, block
                language = None
        elif language is not None:
            block.append(line)
        elif line.startswith("    "):
            sys.exit("%s:%d: an indented block: fence it, with its language" % (name, number))


def commands(name, lines):
    """Each command of the shell blocks: its line, its text, and the output shown."""
    found = []
    for language, first, block in blocks(name, lines):
        if language != "sh":
            continue
        goes_on = False
        for number, line in enumerate(block, first):
            if goes_on:
                found[-1][1] += "\n" + line
            elif line.startswith("$ "):
                found.append([number, line[2:], []])
            elif found and found[-1][0] >= first:
                found[-1][2].append(line)
            else:
                sys.exit("%s:%d: output before any command" % (name, number))
            goes_on = line.endswith("\\") and (goes_on or line.startswith("$ "))
    return found


def copy(to):
    """The repository as it stands, with the program and the library that the toolchain built, and nothing else of its
    work: times are kept, so that nothing is built anew."""

    def left_behind(folder, names):
        inside = os.path.relpath(folder, ROOT)
        if os.path.basename(inside) == "out" and inside.startswith("crates" + os.sep):
            return set(names) - BUILT
        return [name for name in names if os.path.normpath(os.path.join(inside, name)) in LEFT_BEHIND]

    shutil.copytree(ROOT, to, symlinks=True, ignore=left_behind)


def script(found, folder):
    """Runs the commands one after another; output and status of each go to files of its number."""
    parts = []
    for i, (_, text, _) in enumerate(found):
        parts.append("{ %s\n} >%s/%d.out 2>&1\necho $? >%s/%d.status" % (text, folder, i, folder, i))
    return "\n".join(parts)


def run(name, found):
    """Runs a file's commands and tells what is not as shown; the number that is."""
    with tempfile.TemporaryDirectory() as scratch:
        place, results = os.path.join(scratch, "copy"), os.path.join(scratch, "results")
        copy(place)
        os.mkdir(results)
        subprocess.run(["bash", "-c", script(found, results)], cwd=place, stdin=subprocess.DEVNULL)
        good = 0
        for i, (line, text, shown) in enumerate(found):
            path = os.path.join(results, "%d.status" % i)
            status = open(path).read().strip() if os.path.exists(path) else "none"
            with open(os.path.join(results, "%d.out" % i), errors="replace") as file:
                printed = file.read().splitlines()
            if status == "0" and printed == shown:
                good += 1
                continue
            print("%s:%d: %s: status %s" % (name, line, text, status))
            print("\n".join(["shown:"] + shown + ["printed:"] + printed))
    return good


def main():
    total = good = 0
    for name in FILES:
        with open(os.path.join(ROOT, name)) as file:
            found = [c for c in commands(name, file.read().splitlines()) if c[1] != CI]
        total += len(found)
        good += run(name, found) if found else 0
    print("%d commands of the README files, %d as shown" % (total, good))
    sys.exit(good != total)


if __name__ == "__main__":
    main()
