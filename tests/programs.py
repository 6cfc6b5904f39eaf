"""Small programs that a script holds as a text, built over crates of the repository in a folder of their own."""
import shutil

from volumes import TOP


def below(names, stands):
    """These crates and all that they stand on, by what each one stands on."""
    found, left = set(), list(names)
    while left:
        name = left.pop()
        if name in stands and name not in found:
            found.add(name)
            left += stands[name]
    return found


def made(folder, name, crates, text):
    """The folder of a program of this name and text over these crates, with all that they stand on beside it and what was built of it."""
    lines = (TOP / "crates.txt").read_text().splitlines()
    stands = {crate: rest.split() for crate, colon, rest in (line.partition(":") for line in lines) if colon and not crate.startswith("#")}
    copied = below(crates, stands)
    for crate in copied:
        shutil.copytree(TOP / "crates" / crate, folder / "crates" / crate, ignore=shutil.ignore_patterns("must-fail"))
    kept = [line for line in lines if line.partition(":")[0] in copied]
    (folder / "crates.txt").write_text("\n".join([*kept, f"{name}: {' '.join(crates)}", ""]))
    shutil.copy(TOP / "HANDLES", folder)
    source = folder / "crates" / name / "src"
    source.mkdir(parents=True)
    (source / "main.rt").write_text(text)
    return source.parent
