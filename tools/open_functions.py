#!/usr/bin/env python3
"""Holds docs/ENTRIES.md to the code: every function that a library opens to other crates is named there by its path
(`plane::dot`, `walk::units::turn_units`; a function for C by its plain name), and every path named there is open.

    open_functions.py          compare, and fail where the two differ
    open_functions.py --list   print the open functions, those with a `requires` marked
"""
import re
import sys
from pathlib import Path

ROOT = Path(__file__).resolve().parent.parent
MODULE = re.compile(r"^(pub )?mod (\w+);")
FUNCTION = re.compile(r'^(\s*)pub (extern "C" )?fn (\w+)')
IMPL = re.compile(r"^impl(?:<[^>]*>)? (\w+)")
HANDED_ON = re.compile(r"^pub use (\w+)::\{?([\w, ]+?)\}?;")
NAMED = re.compile(r"`([a-z_]\w*(?:::\w+)+|turning_\w+)(?:\(|`)")


def requires(lines, start):
    """Whether the function that starts at this line asks something of its callers."""
    for line in lines[start:]:
        if line.lstrip().startswith("requires"):
            return True
        if line.startswith(("{", "    {")) or line.rstrip().endswith("{"):
            return False
    return False


def functions(file, path):
    """The open functions of a module and of the open modules below it: (path, whether it has a `requires`)."""
    lines = file.read_text().splitlines()
    owner = None
    for at, line in enumerate(lines):
        if match := IMPL.match(line):
            owner = match[1]
        elif line == "}":
            owner = None
        if match := FUNCTION.match(line):
            name = f"{owner}::{match[3]}" if owner else match[3]
            yield (match[3] if match[2] else f"{path}::{name}"), requires(lines, at)
        folder = file.parent if file.name == "lib.rt" else file.parent / file.stem
        if (match := HANDED_ON.match(line)) and (folder / f"{match[1]}.rt").exists():
            # a private module's functions, handed on under this one's name
            wanted = {f"{path}::{name.strip()}" for name in match[2].split(",")}
            yield from (found for found in functions(folder / f"{match[1]}.rt", path) if found[0] in wanted)
        if (match := MODULE.match(line)) and match[1]:
            yield from functions(folder / f"{match[2]}.rt", f"{path}::{match[2]}")


def main():
    open_now = {}
    for lib in sorted(ROOT.glob("crates/*/src/lib.rt")):
        open_now.update(functions(lib, lib.parent.parent.name))
    if sys.argv[1:] == ["--list"]:
        for name, asks in open_now.items():
            print(name, "(requires)" if asks else "")
        return 0
    named = set(NAMED.findall((ROOT / "docs/ENTRIES.md").read_text()))
    crates = {path.parent.parent.name for path in ROOT.glob("crates/*/src/*.rt")}
    missing = [name for name in open_now if name not in named]
    stale = sorted(name for name in named if name not in open_now and name.split("::")[0] in crates | {name})
    for name in missing:
        print(f"open, but not named in docs/ENTRIES.md: {name}")
    for name in stale:
        print(f"named in docs/ENTRIES.md, but not open: {name}")
    print(f"open functions: {len(open_now)}, {len(missing)} not named, {len(stale)} named but not open")
    return 1 if missing or stale else 0


if __name__ == "__main__":
    sys.exit(main())
