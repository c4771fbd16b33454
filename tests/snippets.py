#!/usr/bin/env python3
"""Compiles and runs the C, Rust and Python of README.md against a folder that `tools/package` wrote, and compares what
each prints with the block of text that follows it.

    python3 tests/snippets.py PREFIX

The commands that compile the C, and the dependency of the Rust, are those in the snippets' own first lines. The last
line is 'N passed, 0 failed' exactly when all passed.
"""
import os
import re
import subprocess
import sys
import tempfile
from pathlib import Path

ROOT = Path(__file__).resolve().parents[1]


def blocks(text):
    """The fenced blocks: the language and what stands inside."""
    return re.findall(r"^```(\w+)\n(.*?)^```$", text, re.MULTILINE | re.DOTALL)


def run(command, folder, **more):
    done = subprocess.run(command, cwd=folder, env={**os.environ, **more}, capture_output=True, text=True)
    if done.returncode != 0:
        sys.exit(f"failed: {command}\n{done.stdout}{done.stderr}")
    return done.stdout


def run_c(code, folder, prefix):
    (folder / "five.c").write_text(code)
    commands = re.findall(r"^// (gcc .*)$", code, re.MULTILINE)
    assert len(commands) == 2, "one command with pkg-config and one without"
    for command in commands:
        strict = command.replace("gcc", "gcc -std=c99 -Wall -Wextra -pedantic -Werror", 1)
        run(["bash", "-c", strict], folder, PREFIX=str(prefix), PKG_CONFIG_PATH=str(prefix / "lib/pkgconfig"))
        yield run(["./a.out"], folder, LD_LIBRARY_PATH=str(prefix / "lib"))


def run_rust(code, folder, prefix):
    """In a package of its own, where `rt` is a command that fails: the library of the package must do."""
    (name, path), = re.findall(r'(\w+) = \{ path = "([^"]+)" \}', code)
    (folder / "src").mkdir()
    (folder / "src/main.rs").write_text(code)
    (folder / "Cargo.toml").write_text(
        '[package]\nname = "five"\nversion = "0.1.0"\nedition = "2021"\n\n'
        f'[dependencies]\n{name} = {{ path = "{ROOT / path}" }}\n\n[workspace]\n'
    )
    (folder / "rt").symlink_to("/bin/false")
    search = f"{folder}:{os.environ['PATH']}"
    yield run(["cargo", "run", "-q", "--offline"], folder, LINEAGE_LIB_DIR=str(prefix / "lib"), PATH=search,
              CARGO_TARGET_DIR=str(folder / "target"))


def run_python(code, folder, prefix):
    (folder / "five.py").write_text(code)
    yield run([sys.executable, "five.py"], folder, PYTHONPATH=str(prefix / "python"))


RUN = {"c": run_c, "rust": run_rust, "python": run_python}


def main():
    prefix, passed = Path(sys.argv[1]).resolve(), 0
    found = blocks((ROOT / "README.md").read_text())
    for i, (language, code) in enumerate(found):
        if language not in RUN:
            continue
        shown = next(text for kind, text in found[i:] if kind == "text")
        with tempfile.TemporaryDirectory() as folder:
            for printed in RUN[language](code, Path(folder), prefix):
                if printed != shown:
                    sys.exit(f"README.md shows\n{shown}\nand its {language} prints\n{printed}")
                print(f"README.md's {language} prints what is shown")
                passed += 1
    assert {language for language, _ in found} >= set(RUN), "a snippet of each language"
    print(f"{passed} passed, 0 failed")


if __name__ == "__main__":
    main()
