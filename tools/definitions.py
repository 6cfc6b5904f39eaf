#!/usr/bin/env python3
"""Writes docs/DEFINITIONS.md: each definition of specs/ with the sentence above it, by crate and file. One whose name says
enough to have no sentence is listed by its name.

Run it at the top of the repository:

    python3 tools/definitions.py > docs/DEFINITIONS.md
"""
import re
from pathlib import Path

HEAD = re.compile(r"^(?:abbrev |unfoldable )?pub (?:record |data )?(\S+)")


def entries(path):
    """Yields (name, sentence) for each definition of a file."""
    comment = []
    for line in path.read_text().splitlines():
        if line.startswith("--"):
            text = line.lstrip("-").strip()
            if line.startswith("-- ----"):
                comment = []
            else:
                comment.append(text)
            continue
        found = HEAD.match(line)
        if found and not line.startswith("pub mod"):
            yield found.group(1), " ".join(comment)
        if line.strip():
            comment = []


def title(path):
    """The file's first comment block."""
    lines = []
    for line in path.read_text().splitlines():
        if not line.startswith("--"):
            break
        lines.append(line.lstrip("-").strip())
    return " ".join(lines)


def crates():
    for line in Path("crates.txt").read_text().splitlines():
        if ":" in line and not line.startswith("#"):
            yield line.split(":")[0].split()[0]


def main():
    print("# Definitions\n")
    print("Each definition that contracts cite, in one sentence, by crate and file of `specs/`. Written by")
    print("`tools/definitions.py` from the comments of the definitions themselves.")
    for crate in crates():
        files = [p for p in sorted(Path("crates", crate, "specs").glob("*.antt")) if p.name != "Lib.antt"]
        if not files:
            continue
        print(f"\n## {crate}")
        for path in files:
            found = list(entries(path))
            if not found:
                continue
            print(f"\n### {path.stem}\n\n{title(path)}\n")
            for name, sentence in found:
                start = sentence[:1].lower() + sentence[1:] if sentence[:2].istitle() else sentence
                print(f"- `{name}`" + (f": {start}" if start else ""))


if __name__ == "__main__":
    main()
