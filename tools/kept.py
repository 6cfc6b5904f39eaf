#!/usr/bin/env python3
"""Does what `rt ci` does with crates, in pieces, and keeps what passed: tools/kept.py KIND.. [--store DIR] [--lanes N] [CRATE..].

A KIND is `proofs`, `tests` or `edits`; with no CRATE all crates are taken. A library's proof is kept as it was built, by the
checksums of its files, of those below it and of the kit, and is laid into out/rlib again where nothing of these changed: by the
next call, or by `give`, behind which `rt check` in a crate finds the libraries below it built. `lacks` says what no call has passed
yet. It isn't the gate: `.ci/run` proves everything from nothing, in one piece, and runs the programs.

    tools/kept.py proofs tests          proves all, and the tests, as far as the files are new
    tools/kept.py edits txn_core        tries the edits of one crate
    tools/kept.py give                  lays the kept libraries into this checkout
    tools/kept.py lacks                 what is left to do

It loads the kit's own `rt`, whose calls prove, build and run; what the kit's crates ask anew on each way down through crates.txt is
remembered here. Logs stand in DIR/log. DIR is ~/.cache/ntfshost_kept where none is given.
"""
import argparse
import copy
import hashlib
import importlib.machinery
import importlib.util
import os
import re
import shutil
import subprocess
import sys
import threading
import time
from concurrent.futures import FIRST_COMPLETED, ThreadPoolExecutor, wait
from pathlib import Path

TOP = Path(__file__).resolve().parent.parent
KINDS = ("proofs", "tests", "edits")


def kit():
    """The kit's rt, as a module."""
    sys.dont_write_bytecode = True
    sys.setrecursionlimit(10_000)
    path = os.path.realpath(shutil.which("rt"))
    sys.path.insert(0, os.path.dirname(path))
    loader = importlib.machinery.SourceFileLoader("rt_kit", path)
    module = importlib.util.module_from_spec(importlib.util.spec_from_loader("rt_kit", loader))
    loader.exec_module(module)
    return module


def sum_of(parts):
    total = hashlib.sha256()
    for part in parts:
        total.update(part if isinstance(part, bytes) else str(part).encode())
    return total.hexdigest()


class Kept:
    def __init__(self, store, lanes):
        self.rt = kit()
        self.store, self.lanes = Path(store), lanes
        self.printing = threading.Lock()
        self.sums, self.belows, self.stamps = {}, {}, {}
        (self.store / "log").mkdir(parents=True, exist_ok=True)
        self.remember()
        self.rt.rtlib.stop = self.rt.stop
        self.rt.rtlib.Crate = self.rt.Crate
        self.rt.Crate.cuts_libraries = True
        self.rt.Crate.allowed = self.rt.handles_of(str(TOP))
        self.rt.rtlib.guarded()
        with open(self.rt.rtlib.KIT + "/KIT-ID", "rb") as it:
            self.kit_id = it.read()
        self.crates = sorted(self.rt.rtlib.crates_below(str(TOP)), key=lambda it: len(it.below()))

    def remember(self):
        """What lies below a crate, and its stamp, are found once."""
        belows, stamps = self.belows, self.stamps

        def below(crate):
            if crate.folder not in belows:
                found = []
                for dep in crate.deps:
                    found += [it for it in [*dep.below(), dep] if it not in found]
                belows[crate.folder] = found
            return belows[crate.folder]

        def stamp(crate):
            if crate.folder not in stamps:
                parts = [repr((crate.said, crate.has_c))]
                with open(f"{self.rt.rtlib.KIT}/WHAT", "rb") as it:
                    parts.append(it.read())
                for file in self.rt.rtlib.files_of(crate.folder):
                    with open(file, "rb") as it:
                        parts.append(repr((file.replace(crate.folder, ""), it.read())))
                stamps[crate.folder] = sum_of([*parts, repr([stamp(it) for it in crate.deps])])
            return stamps[crate.folder]

        for kind in (self.rt.rtlib.Crate, self.rt.Crate):
            kind.below, kind.stamp = below, stamp

    def sum(self, crate):
        """Of all from which a crate is proved."""
        if crate.folder not in self.sums:
            parts = [self.kit_id, repr((sorted(crate.said.items(), key=str), crate.has_c))]
            for part in ("src", "specs", "proofs"):
                for path in sorted(Path(crate.folder, part).rglob("*")):
                    if path.is_file():
                        parts += [path.relative_to(crate.folder), path.read_bytes()]
            self.sums[crate.folder] = sum_of([*parts, *[self.sum(it) for it in crate.deps]])
        return self.sums[crate.folder]

    def place(self, crate, kind):
        found = self.sum(crate)
        if kind == "edits":
            found = sum_of([found, *[part for it in self.rt.edits_of(crate)[0] for part in (Path(it).name, Path(it).read_bytes())]])
        return self.store / kind / found

    def has(self, crate, kind):
        return (self.place(crate, kind) / "passed").exists()

    def keep(self, crate, kind, what):
        to = self.place(crate, kind)
        part = to.with_name(f"{to.name}.{threading.get_ident()}")
        part.mkdir(parents=True)
        for it in what:
            if it.is_dir():
                shutil.copytree(it, part / it.name)
            elif it.exists():
                shutil.copy2(it, part)
        (part / "passed").write_text(crate.name)
        shutil.rmtree(to, ignore_errors=True)
        part.rename(to)

    @staticmethod
    def link(one, other):
        """A second name of a file that is kept: the kit removes such a file before it makes it anew."""
        try:
            os.link(one, other)
        except OSError:
            shutil.copy2(one, other)

    def give(self, crate):
        """Lays a kept library, or a kept program, into the crate's out/; whether one is kept."""
        if not self.has(crate, "proofs"):
            return False
        out, kept = Path(crate.folder, "out"), self.place(crate, "proofs")
        out.mkdir(exist_ok=True)
        mark = out / "rlib" / "kept"
        if mark.exists() and mark.read_text() == kept.name:
            return True
        shutil.rmtree(out / "rlib", ignore_errors=True)
        for it in kept.iterdir():
            if it.is_dir():
                shutil.copytree(it, out / it.name, copy_function=self.link)
                (out / it.name / "stamp").unlink(missing_ok=True)
                (out / it.name / "stamp").write_text(crate.stamp())
                mark.unlink(missing_ok=True)
                mark.write_text(kept.name)
            elif it.name != "passed":
                shutil.copy2(it, out)
        return True

    def text_fault(self, crate):
        """Why `rt ci` would refuse the crate's text, if it would."""
        rt, code = self.rt, self.rt.rtlib.code_of(crate.folder)
        beyond = [it for it, words in rt.REACHES.items() if it not in crate.allowed and re.search(words, code)]
        if beyond or re.search(rt.RENAMES, code) or re.search(rt.IGNORED, code):
            return f"its text is refused {beyond}"
        rt.rtlib.stop_on_links(crate.folder)
        rt.rtlib.stop_on_unread(crate.folder, self.crates)
        rt.rtlib.stop_on_text(crate, "verdict")
        rt.stop_on_words(crate)
        return "run rt fmt" if rt.rtlib.fmt(crate.folder, "--check", crate.out) else None

    def prove(self, crate, kind, jobs):
        tests, crate = kind == "tests", copy.copy(crate)
        out = Path(crate.folder, "out")
        out.mkdir(exist_ok=True)
        with open(self.store / "log" / f"{crate.name}.{kind}", "w+", errors="replace") as crate.out:
            try:
                why = None if tests else self.text_fault(crate)
                status = 1 if why else crate.ci(["--jobs", str(jobs)], tests)
            except SystemExit as stopped:
                why, status = str(stopped), 1
            if why:
                print(why, file=crate.out)
        if status:
            return False
        if tests:
            with self.printing:
                if not self.rt.run(crate, True, ""):
                    return False
            self.keep(crate, kind, [out / f"{crate.name}_tests"])
        elif crate.is_program:
            self.keep(crate, kind, [it for it in out.iterdir() if it.name.startswith(crate.name)])
        else:
            self.keep(crate, kind, [out / "rlib"])
            (out / "rlib" / "stamp").write_text(crate.stamp())
        return True

    def edits(self, crate):
        good, bad = self.rt.edits_of(crate)
        flags = ["--jobs", "1"]
        room = self.rt.seeded(crate, flags) if len(good) > 1 else None
        try:
            tried = [self.edit(crate, edit, flags, room, number) for number, edit in enumerate(good)]
        finally:
            shutil.rmtree(room or "", ignore_errors=True)
        log = self.store / "log" / f"{crate.name}.edits"
        log.write_text("\n".join(text for _, text in tried) + "\n")
        if bad or not all(came in (self.rt.REFUSED, self.rt.AT_LIMIT) for came, _ in tried):
            return False
        self.keep(crate, "edits", [log])
        return True

    def edit(self, crate, edit, flags, room, number):
        """What a try of the edit comes to, over what the crate's own check proved where this tells."""
        if room:
            over = f"{room}/{number}"
            self.rt.linked(f"{room}/seed", over)
            tried = self.rt.must_fail(crate, edit, flags, over)
            shutil.rmtree(over, ignore_errors=True)
            if tried[0] in self.rt.SETTLED:
                return tried[:2]
        return self.rt.must_fail(crate, edit, flags)[:2]

    def wants(self, crate, kind):
        return kind == "proofs" or (crate.has_tests() if kind == "tests" else bool(self.rt.edits_of(crate)[0]))

    def lacks(self):
        for kind in KINDS:
            found = [it.name for it in self.crates if self.wants(it, kind) and not self.has(it, kind)]
            print(kind, len(found), *found)

    def tasks(self, kinds, names):
        """What is to be done, each with what it waits for, the longest way first."""
        wanted = [it for it in self.crates if not names or it.name in names]
        below = {it.name for crate in wanted for it in crate.below()}
        found = {}
        for crate in self.crates:
            if crate in wanted or crate.name in below:
                found[crate.name, "proofs"] = [(it.name, "proofs") for it in crate.below()]
        for crate in wanted:
            for kind in set(kinds) - {"proofs"}:
                if self.wants(crate, kind):
                    found[crate.name, kind] = [(it.name, "proofs") for it in [*crate.below(), crate]]
        size = {it.name: 60 + it.count(rb"\n") for it in self.crates}
        behind = dict.fromkeys(found, 0)
        for task in reversed(list(found)):
            behind[task] += size[task[0]]
            for it in found[task]:
                behind[it] = max(behind[it], behind[task])
        return {it: found[it] for it in sorted(found, key=lambda it: (it[1] == "edits", -behind[it]))}

    def run(self, kinds, names):
        tasks, crates = self.tasks(kinds, names), {it.name: it for it in self.crates}
        ended = {it: True for it in tasks if (self.give(crates[it[0]]) if it[1] == "proofs" else self.has(crates[it[0]], it[1]))}
        left, running = [it for it in tasks if it not in ended], {}
        print(f"{len(tasks)} tasks, {len(left)} to do", flush=True)

        def call(task, jobs):
            began, crate = time.time(), crates[task[0]]
            return (self.edits(crate) if task[1] == "edits" else self.prove(crate, task[1], jobs)), time.time() - began

        with ThreadPoolExecutor(self.lanes) as pool:
            while left or running:
                for task in [it for it in left if not all(ended.get(below, True) for below in tasks[it])]:
                    ended[task] = False
                    left.remove(task)
                ready = [it for it in left if all(below in ended for below in tasks[it])]
                for task in ready[: self.lanes - len(running)]:
                    left.remove(task)
                    running[pool.submit(call, task, 1 if len(ready) + len(running) >= self.lanes else 2)] = task
                for one in wait(running, return_when=FIRST_COMPLETED).done if running else ():
                    task = running.pop(one)
                    ended[task], seconds = one.result()
                    print(time.strftime("%H:%M:%S"), *task, "passed" if ended[task] else "FAILED", f"{seconds:.0f} s,", len(left), "left", flush=True)
        failed = [" ".join(it) for it, well in ended.items() if not well]
        print(f"{len(ended) - len(failed)} passed, {len(failed)} failed", *failed, sep="\n")
        return 1 if failed else 0


def main():
    words = argparse.ArgumentParser(description=__doc__, formatter_class=argparse.RawDescriptionHelpFormatter)
    words.add_argument("words", nargs="+", metavar="WORD", help="proofs, tests, edits, give or lacks, and names of crates")
    words.add_argument("--store", default=os.path.expanduser("~/.cache/ntfshost_kept"), help="where what passed is kept")
    words.add_argument("--lanes", type=int, default=len(os.sched_getaffinity(0)), help="how many checks at a time")
    given = words.parse_args()
    os.chdir(TOP)
    kept = Kept(given.store, given.lanes)
    kinds = [it for it in given.words if it in KINDS]
    names = {it for it in given.words if it not in (*KINDS, "give", "lacks")}
    unknown = names - {it.name for it in kept.crates}
    if unknown:
        sys.exit(f"kept: no crate {', '.join(sorted(unknown))}")
    if "lacks" in given.words:
        return kept.lacks()
    if "give" in given.words:
        return print(sum(map(kept.give, kept.crates)), "libraries laid in")
    return kept.run(kinds or ["proofs"], names)


if __name__ == "__main__":
    sys.exit(main())
