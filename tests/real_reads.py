"""Directories listed as ntfsls lists them, and files read in pieces as they were put in, on a volume of mkntfs.

ntfscp puts in what stands in a record and what has one run; the library of ntfs-3g makes the directories, the sparse file and the one of
many runs.
"""
import random
import re

from journals import printed
from real_printed import units_of
from real_scripts import replies
from real_volumes import ASKED
from volumes import Volume, blank, library, run

# The runs of the file of many that aren't sparse.
RUNS = 64
# The most bytes that a read asks for.
MOST = 4096
FORTY = [f"name {place:02} {'é' * (place % 5)}.txt" for place in range(40)]
THOUSANDS = [f"{place:04} {'n' * (place % 60)}" for place in range(4000)]


def listed(image, path):
    """The names of a directory by ntfsls."""
    lines = run("ntfsls", "-a", "-s", "-p", path, image).stdout.decode().splitlines()
    return sorted(line for line in lines if line and line not in (".", ".."))


def put_in(image, source, name, data):
    source.write_bytes(data)
    put = run("ntfscp", "-q", image, source, name)
    if put.returncode != 0:
        raise OSError(f"ntfscp: {put.stderr.decode(errors='replace')}")
    return data


def runs_of(image, number):
    """How many runs the clusters of a file have that istat prints; those of sparse ones are 0."""
    text = run("istat", image, number).stdout.decode()
    clusters = [int(word) for word in re.findall(r"\d+", text.split("$DATA (128")[-1].partition("\n")[2])]
    return sum(1 for before, after in zip([None, *clusters], clusters) if after and after != (before or 0) + 1)


def numbers_of(image):
    """{path: record number} of the files by fls."""
    lines = run("fls", "-r", "-p", "-u", image).stdout.decode().splitlines()
    found = [re.match(r"\S+ (\d+)-\S+:\t(.*)", line) for line in lines]
    return {f"/{it.group(2)}": int(it.group(1)) for it in found if it}


def filled(folder):
    """An image, and the bytes of its files by their paths."""
    image, source, chosen = blank(folder, "read", 4096, ASKED), folder / "source", random.Random(7)
    with Volume(library(), image) as volume:
        # Every second cluster is sparse, so that each other one is a run.
        done = [volume.make("/", "many")]
        pieces = [chosen.randbytes(MOST) for _ in range(RUNS)]
        done += [volume.write("/many", piece, 2 * MOST * place) for place, piece in enumerate(pieces)]
        done += [volume.make("/", name, kind=0o040000) for name in ("forty", "thousands")]
        done += [volume.make("/forty", name) for name in FORTY] + [volume.make("/thousands", name) for name in THOUSANDS]
        done += [volume.make("/", "sparse", data=b"z" * 5000), volume.write("/sparse", b"hello", 900000)]
    if not all(done):
        raise OSError(f"the library can't make step {done.index(False)} of {image}")
    files = {"/sparse": b"z" * 5000 + bytes(895000) + b"hello", "/many": bytes(MOST).join(pieces), f"/forty/{FORTY[0]}": b""}
    for name, size in [("/record", 200), ("/one run", 100_000), ("/forty/a page", 4096), ("/thousands/and 1", 4097)]:
        files[name] = put_in(image, source, name, chosen.randbytes(size))
    return image, files


def text_of(path):
    """A path as a script has it."""
    return "/".join(printed(part) for part in path.split("/"))


def lists(count, image):
    for path, names in [("/forty", 41), ("/thousands", 4001), ("/", None)]:
        meant = listed(image, path)
        told = replies(count.program, image, [f"list {path}"])[0]
        found = sorted(units_of(name) for name in told[2:] if name != ".")
        faults = [] if found == meant and (names is None or len(found) == names) else [f"{told[:2]}, {found[:3]}, by ntfsls {len(meant)}, {meant[:3]}"]
        count.say(f"{path} listed", faults, f"{len(found)} names")


def pieces(path, size):
    """Reads of a whole file and of what lies behind its end: at places that are no multiple of a sector, too."""
    places = [*range(0, size + 1, MOST), *range(100, size, 3 * MOST + 311), size]
    return [(place, f"read {text_of(path)} {place} {MOST}") for place in places]


def reads(count, folder):
    image, files = filled(folder)
    number = numbers_of(image).get("/many", 0)
    made = runs_of(image, number)
    count.say("a file of many runs", [] if made == RUNS else [f"{made} runs"], f"{made} runs")
    lists(count, image)
    for path, data in sorted(files.items()):
        asked = pieces(path, len(data))
        told = replies(count.program, image, [command for _, command in asked])
        meant = [["bytes", data[place : place + MOST].hex() or "-"] for place, _ in asked]
        faults = [f"at {place}: {it[:2]}, not {that[:2]}"[:200] for (place, _), it, that in zip(asked, told, meant) if it != that]
        count.say(f"{path} read", faults[:3], f"{len(data)} bytes in {len(asked)} pieces")
