"""Volumes whose bytes are changed before a script runs on them, and where they are changed."""
import random
import struct
from collections import namedtuple

from crash_scripts import growing
from crash_volumes import crafted, formatted
from logs import ENTRIES
from parsed import CLUSTER, Parsed, held
from real_reads import put_in
from real_tools import LIBRARY
from real_volumes import ASKED
from recorded import Disk, Laid, cannot_record, recorded
from volumes import Volume, blank, library, run

# The bytes of an entry of the log before what it redoes.
HEAD = 0x58
# A volume: its image, and the directories and the files that the script is about.
Hostile = namedtuple("Hostile", "image folders paths")
EDGES = [b"\0", b"\xff", b"\x80", b"\0\0\0\0", b"\xff\xff\xff\xff", b"\0\x80", b"\xff\x7f", b"\xff\xff\xff\xff\xff\xff\xff\x7f"]


def of_crafted(count, folder):
    image, folders, files = crafted(count, folder)
    return Hostile(image, folders[1:], sorted(files))


def of_format(count, folder):
    image, folders, files = formatted(count, folder)
    return Hostile(image, folders[1:], sorted(files))


def of_mkntfs(count, folder):
    """With a directory whose index has blocks, and files of ntfscp."""
    image, chance = blank(folder, "filled", 4096, ASKED), random.Random(31)
    paths = [("/record", 200), ("/page", 4096), ("/pages", 30_000)]
    for path, size in paths:
        put_in(image, folder / "source", path, chance.randbytes(size))
    with Volume(library(), image) as volume:
        done = [volume.make("/", "many", kind=0o040000)]
        done += [volume.make("/many", f"name {place:03}", data=b"d" * (97 * place)) for place in range(120)]
        done += [volume.write(f"/many/name {place:03}", b"e" * 5000, 97 * place) for place in (80, 90, 80, 90)]
    if not all(done):
        raise OSError(f"the library can't make step {done.index(False)} of {image}")
    return Hostile(image, ["/many"], ["/record", "/pages", "/many/name\\u0020080"])


def of_crash(count, folder):
    """The crafted volume as a crash leaves it before the closing flush of a script: its log isn't clean. None where nothing can be recorded."""
    if cannot_record(folder) is not None:
        return None
    image, folders, files = crafted(count, folder)
    laid, disk = Laid(image), Disk()
    calls = recorded(count.program, folder, image, growing(files).text()).calls
    for call in calls[: before_flush(calls)]:
        disk.take(call)
    laid.follow(calls)
    laid.lay(disk.newest())
    laid.close()
    return Hostile(image, folders[1:], sorted(files))


def before_flush(calls):
    """How many calls come before the closing flush, whose last three syncs are its own."""
    return [place for place, call in enumerate(calls) if call is None][-4] + 1


VOLUMES = [
    ("a crafted volume", (), of_crafted),
    ("a crafted volume whose log isn't clean", (), of_crash),
    ("a formatted volume", (), of_format),
    ("a volume of mkntfs", ("mkntfs", "ntfscp", LIBRARY), of_mkntfs),
]


# ---- where bytes are changed


def told(parsed, clusters):
    """The sectors of these clusters that have more than one value of a byte."""
    places = [CLUSTER * cluster + at for cluster in clusters for at in range(0, CLUSTER, 512)]
    return [place for place in places if len(set(parsed.read(place, 512))) > 1]


def entries_of(parsed, cluster):
    """Where the heads of the entries of a page of the log stand."""
    page = parsed.read(CLUSTER * cluster, CLUSTER)
    at, free = ENTRIES, struct.unpack_from("<H", page, 0x18)[0]
    while page[:4] == b"RCRD" and at + HEAD <= min(free, CLUSTER):
        yield CLUSTER * cluster + at, HEAD
        at += 0x30 + struct.unpack_from("<I", page, at + 0x18)[0]


def kinds_of(image):
    """{what: the places, as (first byte, bytes)} of an image's records, runs, index blocks, log pages, bits and boot sector."""
    parsed = Parsed(held(image))
    numbers = [number for number, _ in parsed.records()]
    records = [(parsed.place(number) + at, 510) for number in numbers for at in (0, 512)]
    found = {number: parsed.attributes(number) for number in numbers}
    runs = [(parsed.place(number) + it.pairs, it.end - it.pairs) for number in numbers for it in found[number] if it.pairs]
    heads = [(parsed.place(number) + it.at, min(it.size, 72)) for number in numbers for it in found[number]]
    blocks = [cluster for number in numbers for it in found[number] if it.kind == 0xA0 and it.clusters for cluster in it.clusters if cluster is not None]
    files = [parsed.stream(6), parsed.stream(0, 0xB0)]
    made = {
        "boot sector": [(0, 510)],
        "records": records,
        "heads of attributes": heads,
        "runs": runs,
        "index blocks": [(place, 510) for place in told(parsed, blocks)],
        "log": [(place, 510) for place in told(parsed, parsed.stream(2))] or [(CLUSTER * parsed.stream(2)[page], 510) for page in (0, 1, 2, 4)],
        "entries of the log": [found for cluster in parsed.stream(2) for found in entries_of(parsed, cluster)],
        "bits": [(place, 512) for clusters in files for place in told(parsed, clusters)],
    }
    return {what: places for what, places in made.items() if places}


def new_bytes(old, chance):
    """Other bytes in the place of these."""
    kind, width = chance.randrange(5), chance.choice([1, 2, 4, 8])
    number = int.from_bytes(old[:width], "little")
    if kind == 0:
        return bytes([old[0] ^ 1 << chance.randrange(8)])
    if kind == 1:
        return bytes([chance.randrange(256)])
    if kind == 2:
        return chance.choice(EDGES)
    if kind == 3:
        return ((number + chance.choice([1, -1, 8, -8, 255, 4096])) % 256**width).to_bytes(width, "little")
    return chance.randbytes(width)


def changes(image, kinds, chance):
    """One to three changes, each (what, place, bytes)."""
    made = []
    with open(image, "rb") as file:
        for _ in range(chance.choice([1, 1, 2, 3])):
            what = chance.choice(sorted(kinds))
            place, count = chance.choice(kinds[what])
            at = chance.randrange(count)
            file.seek(place + at)
            new = new_bytes(file.read(8), chance)[: count - at]
            made.append((what, place + at, new))
    return made
