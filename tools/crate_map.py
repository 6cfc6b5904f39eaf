#!/usr/bin/env python3
"""Writes the tables of crates into docs/MAP.md, between its two marker lines: tools/crate_map.py [--check] [--help].

A crate's sentence is the first one of the doc comment of its src/lib.rt, or of src/main.rt. What it stands on is said by
crates.txt; crates on which another one of them stands are left out, and so are those that come with Rattle. The rows go by
floors: a crate's floor is one above the highest floor of those that it stands on. Crates whose names end with `_rows` or
`_images` are those of tests, and have a table of their own.

With --check nothing is written, and the status is 1 where the tables aren't those that would be written, or where crates.txt
has more ways down than MOST_WAYS: the kit's `rt ci` goes each way from a crate down to the ground, under half a millisecond a way, so
a crate lists few libraries and names the others through these (CONTRIBUTING.md). With --ways the ways down from each crate are
printed, most first.
"""
import argparse
import re
import sys
from pathlib import Path

TOP = Path(__file__).resolve().parent.parent
PAGE = TOP / "docs" / "MAP.md"
BEGIN = "<!-- The tables from here on are written by tools/crate_map.py. -->"
END = "<!-- The tables end here. -->"
TESTS = ("_rows", "_images")
MOST_WAYS = 1_250_000


def named():
    """Of each crate, in the order of crates.txt, those of the repository that it names."""
    lines = (TOP / "crates.txt").read_text(encoding="utf-8").splitlines()
    pairs = [line.split(":") for line in lines if ":" in line and not line.startswith("#")]
    known = {name.split()[0] for name, _ in pairs}
    return {name.split()[0]: [it for it in below.split() if it in known] for name, below in pairs}


# What was found of crates so far: there are millions of ways down from the topmost ones.
FLOORS = {}


def all_below(crate, below):
    """All crates on which a crate stands, also through others."""
    found = set()
    waiting = list(below[crate])
    while waiting:
        one = waiting.pop()
        if one not in found:
            found.add(one)
            waiting += below[one]
    return found


def first_sentence(crate):
    """The first sentence of the doc comment of a crate."""
    for name in ("lib.rt", "main.rt"):
        path = TOP / "crates" / crate / "src" / name
        if path.exists():
            lines = path.read_text(encoding="utf-8").splitlines()
            text = " ".join(line[3:].strip() for line in lines if line.startswith("//!"))
            found = re.match(r"(.+?)\.(?:\s|$)", text)
            if found:
                return found.group(1)
    sys.exit(f"crate_map: {crate} has no doc comment that begins with a sentence")


def row(crate, below):
    """The cells of a crate behind its floor."""
    nearest = [it for it in below[crate] if not any(it in all_below(other, below) for other in below[crate])]
    cells = [f"`{crate}`", first_sentence(crate).replace("|", "\\|"), ", ".join(f"`{it}`" for it in nearest) or "-"]
    return "| " + " | ".join(cells) + " |"


def floor(crate, below):
    """How many floors lie below a crate."""
    if crate not in FLOORS:
        FLOORS[crate] = 1 + max((floor(it, below) for it in below[crate]), default=-1)
    return FLOORS[crate]


def table(title, crates, below):
    """A table of some crates, from the ground up."""
    rows = [f"| {floor(it, below)} {row(it, below)}" for it in sorted(crates, key=lambda it: floor(it, below))]
    return [title, "", "| Floor | Crate | What it is | Stands on |", "|---|---|---|---|", *rows]


def ways(below):
    """Of each crate, how many ways lead from it down through crates.txt, itself among them."""
    found = {}

    def count(crate):
        if crate not in found:
            found[crate] = 1 + sum(count(it) for it in below[crate])
        return found[crate]

    for crate in below:
        count(crate)
    return found


def tables():
    below = named()
    tests = [crate for crate in below if crate.endswith(TESTS)]
    others = [crate for crate in below if crate not in tests]
    return "\n".join(
        table("The crates of the host, from the ground up:", others, below)
        + [""]
        + table("The crates of worked rows, which are tests alone, and of the builders that they share:", tests, below)
    )


def main():
    words = argparse.ArgumentParser(description=__doc__, formatter_class=argparse.RawDescriptionHelpFormatter)
    words.add_argument("--check", action="store_true", help="write nothing, and fail where the tables aren't fresh")
    words.add_argument("--ways", action="store_true", help="print the ways down from each crate, and write nothing")
    given = words.parse_args()
    check = given.check
    counts = ways(named())
    if given.ways:
        for crate in sorted(counts, key=lambda it: -counts[it]):
            print(counts[crate], crate)
        return
    if check and sum(counts.values()) > MOST_WAYS:
        sys.exit(f"crate_map: crates.txt has {sum(counts.values())} ways down, more than {MOST_WAYS}: list fewer libraries (CONTRIBUTING.md)")
    page = PAGE.read_text(encoding="utf-8")
    if page.count(BEGIN) != 1 or page.count(END) != 1 or page.index(BEGIN) > page.index(END):
        sys.exit(f"crate_map: {PAGE} lacks its two marker lines")
    front, rest = page.split(BEGIN)
    fresh = f"{front}{BEGIN}\n\n{tables()}\n\n{END}{rest.split(END)[1]}"
    if check and fresh != page:
        sys.exit("crate_map: docs/MAP.md isn't fresh: run tools/crate_map.py")
    if not check:
        PAGE.write_text(fresh, encoding="utf-8")


if __name__ == "__main__":
    main()
