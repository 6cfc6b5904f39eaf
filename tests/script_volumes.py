# Volumes whose dumps go through the scripts of tools/: the paths are compared with those of sleuthkit, and mactime reads the body file.
import re
import shutil

from images import WHOLE
from volumes import MEBIBYTE, Volume, blank, library, run

TIME = 134200000000000000
# Names that body files, tables and mactime could get wrong.
NAMES = [
    "a|b",
    "100%41 or 5%",
    "tab\tline\nescape\x1b",
    "back\\slash",
    "colon:x",
    "é漢字ß",
    "\U0001f600 x",
    " two  blanks ",
    "x (deleted)",
    '"q",c',
    "-> y",
    "#",
]
WHOLE_PATHS = [(11, "/$Extend"), (24, "/d"), (25, "/f"), (26, "/d/Long"), (27, "/$Extend/$UsnJrnl")]
WHOLE_ROW = "0,26,1,25,1,FILE_CREATE|CLOSE,ARCHIVE,1601-01-01T00:00:00.0001002Z,f\n"


def mixed(calls, folder, cluster):
    """Directories in directories, such names, further links, a short name, named streams, sparse data and deleted names."""
    image = blank(folder, f"mixed-{cluster}", cluster, 8 * MEBIBYTE)
    with Volume(calls, image) as volume:
        done, path = [], "/"
        for depth in range(6):
            done += [volume.make(path, name, data=b"x" * (300 * depth)) for name in NAMES]
            done.append(volume.make(path, f"folder {depth} %7C", kind=0o040000))
            path = f"{path.rstrip('/')}/folder {depth} %7C"
        done += [volume.link("/colon:x", path, f"link {place}") for place in range(150)]
        done += [volume.make("/", "Long name of a file.text"), volume.short("/", "Long name of a file.text", "LONGNA~1.TEX")]
        done += [volume.make("/", "streams", data=b"abc"), volume.stream("/streams", "small", b"y" * 30)]
        done += [volume.make("/", "sparse", data=b"z" * 8192), volume.write("/sparse", b"hello", 900000)]
        done += [volume.make("/", f"deleted {place}") for place in range(9)]
        done += [volume.delete("/", f"deleted {place}") for place in range(0, 9, 2)]
    if not all(done):
        raise OSError(f"the library can't make step {done.index(False)} of {image}")
    return image


# ---- body files


def body_lines(body):
    """{(record number, path): (size, the times read, modified, changed and made)} of a body file; the paths as mactime reads them."""
    found = {}
    for line in body.splitlines():
        check, path, number, mode, *rest = line.split("|")
        path = re.sub("%([0-9A-Fa-f]{2})", lambda code: chr(int(code.group(1), 16)), path)
        owner, group, size, *times = map(int, rest)
        if (check, owner, group) != ("0", 0, 0) or mode not in ("d/d---------", "r/r---------") or len(times) != 4:
            raise ValueError(f"the line {line}")
        found[int(number), path] = size, times
    return found


def peer_lines(image):
    """(number and type of the attribute, path, size, times) of each line of fls, whose paths may have a `|`; deleted names are left out."""
    listed = run("fls", "-r", "-u", "-m", "/", image)
    if listed.returncode != 0:
        raise OSError(f"fls: {listed.stderr.decode(errors='replace')}")
    for line in listed.stdout.decode().split("\n")[:-1]:
        _, *path, place, mode, _, _, size, read, modified, changed, made = line.split("|")
        if not mode.startswith("V/"):
            yield place.split("-"), "|".join(path), int(size), [int(read), int(modified), int(changed), int(made)]


def path_at(number, path, known):
    """The path of a line of fls without what stands behind it: the note of a name, or a stream."""
    fronts = [path, path.removesuffix(" ($FILE_NAME)"), *(path[: found.start()] for found in re.finditer(":", path))]
    return next((front for front in fronts if (number, front) in known), None)


def peer_faults(image, body):
    """How the body file differs from what fls reads: names, and by each file's data its times and, for users' files, its size. fls has 32 bits
    for the seconds, and another size for directories."""
    known, met, faults = body_lines(body), set(), []
    for (number, *kind), path, size, times in peer_lines(image):
        front = path_at(int(number), path, known)
        if front is None:
            faults.append(f"fls has {number} {path}")
            continue
        met.add((int(number), front))
        own_size, own_times = known[int(number), front]
        if kind[:1] != ["48"] and [time % 2**32 for time in own_times if time] != [time for time, own in zip(times, own_times) if own]:
            faults.append(f"{front} has the times {own_times}, and {times} for fls")
        if kind[:1] == ["128"] and path == front and not path.startswith("/$") and own_size != size:
            faults.append(f"{front} has {own_size} bytes, and {size} for fls")
    return faults + [f"fls hasn't {number} {path}" for number, path in sorted(set(known) - met)]


def timeline_faults(file, body):
    """How what mactime reads differs from the body file: each line that has a time after 1970 must be there."""
    file.write_text(body)
    ended = run("mactime", "-b", file, "-y")
    rows = [re.fullmatch(r".{20} +\d+ [macb.]{4} ./.-{9} 0 +0 +(\d+) +(/.*)", line) for line in ended.stdout.decode().split("\n")[:-1]]
    if ended.returncode != 0 or ended.stderr or None in rows:
        return [f"mactime ends with {ended.returncode}, {ended.stderr[:200]}, {ended.stdout[:200]}"]
    found = {(int(row.group(1)), row.group(2)) for row in rows}
    wanted = {place for place, (_, times) in body_lines(body).items() if max(times) > 0}
    return [f"mactime: {place}" for place in sorted(found ^ wanted)]


def first(faults):
    return "; ".join(faults[:3]) or None


# ---- all


def dumped(program, call, image, *words):
    """What a script makes of the dump of an image."""
    status, out, error = call("bodyfile", *words, text=run(program, image, "dump").stdout)
    if status != 0:
        raise OSError(f"bodyfile: {error}")
    return out


def small_image(program, call, folder):
    """The small volume of the rows, which sleuthkit doesn't read: its paths and its journal; and its refusal as the tiny image."""
    image = folder / "whole.img"
    image.write_bytes(WHOLE)
    body = dumped(program, call, image)
    yield "the paths of the small volume", None if sorted(body_lines(body)) == WHOLE_PATHS else body
    if shutil.which("mactime"):
        yield "mactime on the small volume", first(timeline_faults(folder / "body", body))
    journal = call("journal2csv", text=run(program, image, "journal").stdout)
    yield "the journal of the small volume", None if journal[0] == 0 and journal[1].endswith(f"\n{WHOLE_ROW}") else journal
    image.write_bytes(WHOLE[:300])
    status, out, error = call("explain", text=run(program, image, "scan").stdout)
    yield "the refusal of a part of it", None if status == 0 and out.startswith("refused 4 Short 1 0\n  means ") else f"{out}{error}"


def compared(program, call, folder, what, image):
    """A volume that sleuthkit reads too."""
    body = dumped(program, call, image)
    yield f"the paths of {what}", first(peer_faults(image, body))
    yield f"mactime on {what}", first(timeline_faults(folder / "body", body))
    rows = dumped(program, call, image, "--csv").count("\n")
    yield f"the table of {what}", None if rows == 1 + body.count("\n") else f"{rows} rows"


def checks(program, call, folder):
    yield from small_image(program, call, folder)
    if not shutil.which("fls") or not shutil.which("mactime"):
        print("skipped: paths and times beside sleuthkit, which is missing")
        return
    image = folder / "new.img"
    image.write_bytes(bytes(8 * MEBIBYTE))
    run(program, image, "format", f"--time={TIME}")
    yield from compared(program, call, folder, "a new volume", image)
    calls = library() if shutil.which("mkntfs") else None
    if calls is None:
        print("skipped: volumes of ntfs-3g, which is missing")
        return
    for cluster in (512, 4096):
        yield from compared(program, call, folder, f"a volume with clusters of {cluster}", mixed(calls, folder, cluster))
