#!/usr/bin/env python3
"""Shortens the lists of crates.txt: tools/short_lists.py WAYS [--help].

The kit's `rt ci` goes each way from a crate down through crates.txt, so full lists cost hours. This script takes libraries out of the
lists, first those that save most ways, until WAYS are left in all. A library is taken out only where another one of the list stands on
it. What the crate names of it goes through such a one from then on, which passes it on:

- `Rattle.low.specs` becomes `Rattle.mid.specs.low`, and specs/Lib.antt of `mid` gets `pub use Rattle.low.specs as low`;
- `Rattle.low.proofs` becomes `Rattle.mid.proofs.low`, and proofs/Lib.antt of `mid` gets `pub use Rattle.low.proofs as low`;
- `low::Item` becomes `mid::Item`, and src/lib.rt of `mid` gets `pub use low::Item`.

Edits in must-fail and tools/bugs follow. A library stays in a list where a tactic's `unfolding` or `using` names
it, where specs/ or src/ name its proofs, or where an item would be passed on under a name that the crate on the way, or a file of its
proofs/, has for another thing. Run `rt fmt` in the changed crates behind it.
"""
import argparse
import os
import re
import sys
from pathlib import Path

TOP = Path(__file__).resolve().parent.parent
TEXTS = {}


def read(path):
    if path not in TEXTS:
        TEXTS[path] = path.read_text(encoding="utf-8") if path.exists() else ""
    return TEXTS[path]


def files(crate, part, ending):
    return sorted((TOP / "crates" / crate / part).rglob(f"*{ending}"))


def root_of(crate):
    lib = TOP / "crates" / crate / "src" / "lib.rt"
    return lib if lib.exists() else lib.with_name("main.rt")


def bare(text):
    """The code without comments, texts and ghost imports."""
    return re.sub(r'//[^\n]*|"(?:\\.|[^"\\\n])*"|ghost use [^;]*;', "", text)


def group_at(text, at):
    """The text between the braces that begin there, split at its own commas."""
    depth, parts = 0, [""]
    for letter in text[at:]:
        depth += (letter == "{") - (letter == "}")
        if depth == 0:
            break
        if letter == "," and depth == 1:
            parts.append("")
        else:
            parts[-1] += letter
    parts[0] = parts[0][1:]
    return [it.strip() for it in parts if it.strip()]


class Lists:
    def __init__(self):
        self.lines = (TOP / "crates.txt").read_text(encoding="utf-8").split("\n")
        said = {}
        for at, line in enumerate(self.lines):
            if ":" in line and not line.startswith("#"):
                front, _, back = line.partition(":")
                said[front.split()[0]] = at, front, back.split()
        self.said = said
        self.deps = {crate: [it for it in it[2] if it in said] for crate, it in said.items()}
        self.below = {}
        for crate in said:
            self.all_below(crate)
        self.order = sorted(said, key=lambda it: len(self.below[it]))
        self.roots = {}

    def all_below(self, crate):
        if crate not in self.below:
            self.below[crate] = set().union(*[{it} | self.all_below(it) for it in self.deps[crate]])
        return self.below[crate]

    def ways(self):
        """The ways down from each crate, and the ways up to each, itself counted."""
        down, up = {}, dict.fromkeys(self.deps, 1)
        for crate in self.order:
            down[crate] = 1 + sum(down[it] for it in self.deps[crate])
        for crate in reversed(self.order):
            for it in self.deps[crate]:
                up[it] += up[crate]
        return down, up

    def is_wanted(self, crate, low):
        """Whether a tactic names the library, or a contract its proofs, which can't be named through another one."""
        code = [read(it) for it in files(crate, "src", ".rt")]
        tactics = [it for text in code for it in re.findall(r"#!?\[tactic\((.*?)\)\]", text, re.S)]
        said = code + [read(it) for it in files(crate, "specs", ".antt")]
        return any(re.search(rf"\b{low}::", it) for it in tactics) or any(f"Rattle.{low}.proofs." in it for it in said)

    def cut(self, most):
        """Takes libraries out of the lists until at most so many ways are left."""
        cuts = {crate: [] for crate in self.deps}
        over = {
            (crate, it)
            for crate, listed in self.deps.items()
            for it in listed
            if any(it in self.below[other] for other in listed if other != it) and not self.is_wanted(crate, it)
        }
        while over:
            down, up = self.ways()
            if sum(down.values()) <= most:
                break
            best = sorted(over, key=lambda it: (-up[it[0]] * down[it[1]], it))
            for crate, low in best[: max(1, len(best) // 40)]:
                self.deps[crate].remove(low)
                cuts[crate].append(low)
                over.remove((crate, low))
        return cuts

    def names(self, crate):
        """What the names in the root of a crate mean: whether they are passed on, and the library and item that they come from."""
        if crate in self.roots:
            return self.roots[crate]
        found = self.roots[crate] = {}
        code = bare(read(root_of(crate)))
        for use in re.finditer(r"(?m)^(pub )?use (\w+)((?:::\w+)*)(?:::(\{)|( as \w+)?;)", code):
            last = use[3].split("::")[-1] or use[2]
            items = group_at(code, use.end() - 1) if use[4] else [last + (use[5] or "")]
            for item in items:
                own = re.match(r"[\w:]+", item)[0].split("::")[-1]
                name = (re.search(r" as (\w+)", item) or [None, own])[1]
                came = self.origin(use[2], own) if use[2] in self.deps else (crate, own)
                found[name] = bool(use[1]), came
        for item in re.findall(r"(?m)^(?:pub )?(?:fn|struct|enum|trait|const|static|type|mod) (\w+)", code):
            found.setdefault(item, (False, (crate, item)))
        for path in (TOP / "crates" / crate / "proofs").glob("*.antt"):
            found.setdefault(path.stem, (False, (crate, path.stem)))
        return found

    def origin(self, crate, item):
        return self.names(crate).get(item, (True, (crate, item)))[1]


class Passing:
    """What libraries pass on: of each the names, and through which library each comes (None: it is listed)."""

    def __init__(self, lists):
        self.lists = lists
        self.given = {part: {crate: {} for crate in lists.deps} for part in ("specs", "proofs", "code")}

    def has(self, part, crate, low, item=None):
        if part == "code":
            return self.lists.names(crate).get(item) == (True, self.lists.origin(low, item)) or (low, item) in self.given[part][crate]
        old = read(TOP / "crates" / crate / part / "Lib.antt")
        return low in self.given[part][crate] or bool(re.search(rf"(?m)^pub use \S*(?: as |\.){low}$", old))

    def can(self, crate, low, item):
        """Whether the item may be passed on there under its name."""
        here, came = self.lists.names(crate).get(item), self.lists.origin(low, item)
        others = [self.lists.origin(*it) for it in self.given["code"][crate] if it[1] == item]
        return (here is None or here == (True, came)) and all(it == came for it in others)

    def through(self, part, crate, low, items=(None,)):
        """The listed library through which the crate names these items of a lower one, or None; sees to it that it passes them on."""
        lists = self.lists
        ways = [it for it in lists.deps[crate] if low in lists.below[it] and (part != "code" or all(self.can(it, low, x) for x in items))]
        ways.sort(key=lambda it: (sum(not self.has(part, it, low, x) for x in items), low not in lists.deps[it], -len(lists.below[it])))
        for mid in ways:
            lacking = [it for it in items if not self.has(part, mid, low, it)]
            before = None if low in lists.deps[mid] or not lacking else self.through(part, mid, low, lacking)
            if before is None and lacking and low not in lists.deps[mid]:
                continue
            for it in lacking:
                self.given[part][mid][low if part != "code" else (low, it)] = before
            return mid
        return None

    def write(self):
        for part in ("specs", "proofs"):
            for crate, given in self.given[part].items():
                lines = sorted(f"pub use Rattle.{mid}.{part}.{low}" if mid else f"pub use Rattle.{low}.{part} as {low}" for low, mid in given.items())
                if lines:
                    path = TOP / "crates" / crate / part / "Lib.antt"
                    TEXTS[path] = "\n".join(lines) + "\n" + read(path)
        for crate, given in self.given["code"].items():
            lines = "".join(sorted(f"pub use {mid or low}::{item};\n" for (low, item), mid in given.items()))
            if lines:
                path = root_of(crate)
                text = read(path)
                first = re.search(r"(?m)^pub use ", text)
                last = [it.end() for it in re.finditer(r"(?m)^(?:pub )?mod \w+;\n", text)]
                at = first.start() if first else last[-1] if last else len(text)
                TEXTS[path] = text[:at] + ("" if first else "\n") + lines + text[at:]


def items_of(code, low):
    """The items of a library that the code names."""
    found = set()
    for use in re.finditer(rf"(?<![\w:.]){low}::", code):
        here = group_at(code, use.end()) if code[use.end()] == "{" else [code[use.end() :]]
        found |= {re.match(r"\w+", it)[0] for it in here}
    return found


def renamed(text, low, specs, proofs, code):
    for part, mid in (("specs", specs), ("proofs", proofs)):
        if mid:
            text = re.sub(rf"\bRattle\.{low}\.{part}\b", f"Rattle.{mid}.{part}.{low}", text)
    if code:
        parts = re.split(r'(//[^\n]*|"(?:\\.|[^"\\\n])*")', text)
        parts[::2] = [re.sub(rf"(?<![\w:.]){low}::", f"{code}::", it) for it in parts[::2]]
        text = "".join(parts)
    return text


def shorten(most):
    lists = Lists()
    cuts, passing, new = lists.cut(most), Passing(lists), {}
    for crate in reversed(lists.order):
        for low in cuts[crate]:
            code = [bare(read(it)) for it in files(crate, "src", ".rt")]
            whole = [read(it) for part, end in (("src", ".rt"), ("specs", ".antt"), ("proofs", ".antt")) for it in files(crate, part, end)]
            items = sorted(set().union(*[items_of(it, low) for it in code]))
            named = [part for part in ("specs", "proofs") if any(re.search(rf"\bRattle\.{low}\.{part}\b", it) for it in whole)]
            by = {part: passing.through(part, crate, low) for part in named}
            if items:
                by["code"] = passing.through("code", crate, low, items)
            if None in by.values():
                print(f"{crate} keeps {low}: a name is taken on the way")
                lists.deps[crate].append(low)
            else:
                new[crate, low] = by.get("specs"), by.get("proofs"), by.get("code")
    for (crate, low), by in new.items():
        bugs = TOP / "tools" / "bugs" / f"{crate}.bugs"
        for path in [*files(crate, "src", ".rt"), *files(crate, "must-fail", ".edit"), *[bugs] * bugs.exists()]:
            TEXTS[path] = renamed(read(path), low, *by)
        for path in [*files(crate, "specs", ".antt"), *files(crate, "proofs", ".antt")]:
            TEXTS[path] = renamed(read(path), low, by[0], by[1], None)
    passing.write()
    for crate, (at, front, back) in lists.said.items():
        lists.lines[at] = f"{front}:" + "".join(f" {it}" for it in back if it not in lists.said or it in lists.deps[crate])
    TEXTS[TOP / "crates.txt"] = "\n".join(lists.lines)
    for path, text in TEXTS.items():
        if not path.exists() or path.read_text(encoding="utf-8") != text:
            path.parent.mkdir(exist_ok=True)
            path.write_text(text, encoding="utf-8")
    print(f"{sum(lists.ways()[0].values())} ways, {len(new)} names of libraries fewer in the lists")


def main():
    words = argparse.ArgumentParser(description=__doc__, formatter_class=argparse.RawDescriptionHelpFormatter)
    words.add_argument("ways", type=int, help="how many ways may be left")
    sys.setrecursionlimit(10_000)
    os.chdir(TOP)
    shorten(words.parse_args().ways)


if __name__ == "__main__":
    main()
