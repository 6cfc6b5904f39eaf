#!/usr/bin/env python3
"""Tries the wrong bodies of tools/bugs/CRATE.bugs against the contracts: tools/planting.py CRATE..

Each bug is a name, a file of the crate, and lines that stand for others. They are planted many at a time, one in a function, and
`rt check` says of which functions the proof fails. A bug whose function is still proved is one that the contract lets through. One
whose function is not judged, since a function that it calls has a bug too, is tried again later. The gate tries none of these: they
are too many for it; those that tell most stand in the crates' must-fail folders.

It works in the checkout that it stands in, which has to be clean, and leaves the files as they were. Of each bug it prints a line,
with the clauses at which its function is refused, and of each crate how many bugs were refused and how many let through. A line
`let through: WHY` behind a bug's name says that no clause refuses it, and why. Each other one has to be refused: where it isn't, or
no longer fits the text, the status is 1.
"""
import os
import re
import subprocess
import sys

TOP = os.path.dirname(os.path.dirname(os.path.abspath(__file__)))
FUNCTION = re.compile(r"^[ \t]*(?:pub(?:\([a-z]+\))? )?(?:const )?fn (\w+)", re.M)
HIDDEN = re.compile(r"(?:no proof|not proved)[:;] it (?:calls|passes)(?!.*(?:did not prove|antt refuses|expected answers))")


class Bug:
    def __init__(self, name, crate):
        self.name, self.crate, self.file, self.pairs = name, crate, None, []
        self.why = None

    def path(self):
        return f"{TOP}/crates/{self.crate}/{self.file}"

    def planted(self, text):
        """The text with the bug in it, or None where it doesn't fit there."""
        for old, new in self.pairs:
            if text.count(old) != 1:
                return None
            text = text.replace(old, new)
        return text

    def function(self):
        text = read(self.path())
        end = text.find(self.pairs[0][0]) + len(self.pairs[0][0])
        found = FUNCTION.findall(text[:end])
        return found[-1] if found else None


def read(path):
    with open(path, encoding="utf-8") as it:
        return it.read()


def write(path, text):
    with open(path, "w", encoding="utf-8") as it:
        it.write(text)


def bugs_of(crate):
    bugs, old = [], None
    for line in read(f"{TOP}/tools/bugs/{crate}.bugs").split("\n"):
        if line.startswith("# "):
            bugs.append(Bug(line[2:], crate))
        elif line.startswith("let through: "):
            bugs[-1].why = line[13:]
        elif line.startswith("file: "):
            bugs[-1].file = line[6:]
        elif line.startswith("old: "):
            old = line[5:]
        elif line.startswith("new: "):
            bugs[-1].pairs.append((old, line[5:]))
    return bugs


def next_batch(bugs):
    """As many of the bugs as fit beside one another, one in a function, with the texts that have them; and the bugs that are left."""
    batch, left, texts, used = [], [], {}, set()
    for bug in bugs:
        place = (bug.file, bug.function())
        text = None if place in used else bug.planted(texts.get(bug.path()) or read(bug.path()))
        if text is None:
            left.append(bug)
        else:
            texts[bug.path()] = text
            used.add(place)
            batch.append(bug)
    return batch, left, texts


def check(crate):
    done = subprocess.run(["rt", "check"], cwd=f"{TOP}/crates/{crate}", capture_output=True, text=True)
    return done.stdout + done.stderr


def at_fault(batch, said):
    """The bugs at whose lines the compiler stopped, before any proof."""
    if re.search(r"^fn \S+: ", said, re.M):
        return []
    found = []
    for file, line in re.findall(r"(src/[\w/]+\.rt):(\d+):\d+: error", said):
        for bug in batch:
            rows = read(bug.path()).split("\n")
            near = "\n".join(rows[max(0, int(line) - 3) : int(line) + 2])
            if bug.file == file and bug not in found and any(new.strip() and new.strip() in near for _, new in bug.pairs):
                found.append(bug)
    return found


def verdict(bug, function, said):
    """Whether the proof of the bug's function fails: "refused", "let through", or None where its callees hide it."""
    module = bug.file[4:-3].replace("/", "::")
    lines = re.findall(r"^fn (\S+?): (.*)$", said, re.M)
    own = [(path, rest) for path, rest in lines if path.split("::")[-1].split("+")[0] == function]
    own = [it for it in own if f"::{module}::" in it[0]] or own
    failed = [rest for _, rest in own if not rest.startswith("proved")]
    if any(not HIDDEN.match(rest) for rest in failed):
        return "refused"
    return "let through" if own and not failed else None


def clauses(bug, function, said):
    """What the check says isn't proved of the bug's function: its clauses, or what it calls requires."""
    rows = read(bug.path()).split("\n")
    found = []
    for file, line, what in re.findall(r"^note: (src/[\w/]+\.rt):(\d+):\d+: .*\(`([^`]+)`\)$", said, re.M):
        here = FUNCTION.findall("\n".join(rows[: int(line)])) + FUNCTION.findall("\n".join(rows[int(line) :]))[:1]
        if file == bug.file and function in here[-2:] and what not in found:
            found.append(what)
    return ", ".join(found)


def try_batch(crate, batch, texts):
    """What became of each bug of the batch."""
    was = {path: read(path) for path in texts}
    functions = {bug: bug.function() for bug in batch}
    became, told, planted = {}, {}, batch[:]
    try:
        while planted:
            for path, text in was.items():
                for bug in planted:
                    text = bug.planted(text) if bug.path() == path else text
                write(path, text)
            said = check(crate)
            wrong = at_fault(planted, said)
            became.update({bug: "does not compile" for bug in wrong})
            planted = [bug for bug in planted if bug not in wrong]
            if not wrong:
                became.update({bug: verdict(bug, functions[bug], said) for bug in planted})
                told.update({bug: clauses(bug, functions[bug], said) for bug in planted if became[bug] == "refused"})
                if len(planted) == 1 and became[planted[0]] is None:
                    # a constant's functions stand elsewhere: the whole crate judges it
                    words = {"logic=not-proved": "refused", "logic=proved": "let through"}
                    became[planted[0]] = next((word for line, word in words.items() if line in said), None)
                break
    finally:
        for path, text in was.items():
            write(path, text)
    return became, told


def plant(crate):
    """Tries the crate's bugs; the answer is how many are neither refused nor marked."""
    waiting, became, told = [], {}, {}
    for bug in bugs_of(crate):
        fits = os.path.isfile(bug.path()) and bug.planted(read(bug.path())) is not None
        became.update({} if fits else {bug: "does not fit"})
        waiting += [bug] * fits
    alone = []
    while waiting or alone:
        batch, waiting, texts = next_batch(waiting or [alone.pop()])
        words, refused = try_batch(crate, batch, texts)
        told.update(refused)
        for bug, word in words.items():
            if word is None and len(batch) > 1:
                alone.append(bug)
            else:
                became[bug] = word or "not judged"
    for bug, word in became.items():
        print(f"{crate}: {bug.name}: {word}" + (f" ({told[bug]})" if told.get(bug) else "") + (", as marked" if bug.why else ""))
    counts = {word: list(became.values()).count(word) for word in sorted({*became.values()})}
    print(f"{crate}: {len(became)} bugs: " + ", ".join(f"{word} {count}" for word, count in counts.items()), flush=True)
    return sum(word != "refused" and not bug.why for bug, word in became.items())


def main():
    if subprocess.run(["git", "status", "--porcelain", "crates"], cwd=TOP, capture_output=True, text=True).stdout:
        sys.exit("the checkout has changes under crates/: commit or undo them first")
    lost = sum([plant(crate) for crate in sys.argv[1:]])
    sys.exit(f"{lost} bugs that have to be refused are not" if lost else 0)


if __name__ == "__main__":
    main()
