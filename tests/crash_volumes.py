"""Volumes on which scripts are cut off: one that Python makes, one of mkntfs that ntfscp filled, and one of the program's format into which files are
put, since the library of ntfs-3g makes none there. Each is given by its image, its directories and the bytes of its files."""
import random
import struct

from images import BOTH, IN_USE, entry, in_clusters, information, named, plain, writable_volume
from logs import protected
from parsed import CLUSTER, Parsed, held, unprotected
from real_reads import put_in
from real_volumes import ASKED
from tiny_image import record
from volumes import blank, put

SIZES = {"/empty": 0, "/small": 10, "/record": 650, "/page": 4096, "/pages": 30_000}


def crafted(count, folder):
    image = folder / "crafted"
    image.write_bytes(writable_volume(700))
    return image, ["/", "/d", "/$Extend"], {"/d/Long": b"hello", "/f": bytes(4096)}


def by_ntfscp(count, folder):
    image, chance = blank(folder, "filled", 4096, ASKED), random.Random(21)
    return image, ["/"], {name: put_in(image, folder / "source", name, chance.randbytes(size)) for name, size in SIZES.items()}


def with_entries(block, entries):
    """An index block whose entries are these and, behind them, the one that ends it, before which they are put."""
    body = bytearray(unprotected(block))
    begin, used = (struct.unpack_from("<I", body, at)[0] + 0x18 for at in (0x18, 0x1C))
    at = begin
    while not body[at + 12] & 2:
        at += struct.unpack_from("<H", body, at + 8)[0]
    body[at:used] = entries + body[at:used]
    struct.pack_into("<I", body, 0x1C, used + len(entries) - 0x18)
    return protected(bytes(body[: len(block)]), struct.unpack_from("<H", body, 4)[0])


def with_bits(data, numbers):
    made = bytearray(data)
    for number in numbers:
        made[number // 8] |= 1 << number % 8
    return bytes(made)


def formatted(count, folder):
    """Behind a format of 8 MiB: a file in its record and one of two runs, whose records and names are put into the table and the root."""
    image = folder / "formatted"
    status, text = count.format(image, 16_384)
    if status != 0:
        raise OSError(f"format: status {status}, {text.strip()}")
    parsed, files = Parsed(held(image)), {"/a": b"in its record", "/b": random.Random(22).randbytes(3 * CLUSTER)}
    runs = [1000, 1001, 1100]
    block, marks, bits = (parsed.stream(number, kind)[0] * CLUSTER for number, kind in ((5, 0xA0), (0, 0xB0), (6, 0x80)))
    pairs = b"\x21\x02" + struct.pack("<h", 1000) + b"\x11\x01" + struct.pack("<bx", 100)
    small, large = plain(0x80, 2, files["/a"]), in_clusters(2, 0x80, "", 0, 3, 3 * CLUSTER, pairs, sectors=8)
    for number, name, data in [(24, "a", small), (25, "b", large)]:
        put(image, parsed.place(number), record(number, 1, IN_USE, [information(), named(1, 5, BOTH, name), data]))
    put(image, block, with_entries(parsed.read(block, CLUSTER), entry(24, 1, 5, BOTH, "a") + entry(25, 1, 5, BOTH, "b")))
    put(image, marks, with_bits(parsed.read(marks, CLUSTER), [24, 25]))
    put(image, bits, with_bits(parsed.read(bits, CLUSTER), runs))
    for place, cluster in enumerate(runs):
        put(image, cluster * CLUSTER, files["/b"][place * CLUSTER : (place + 1) * CLUSTER])
    return image, ["/", "/$Extend"], files


# By the name of each volume the tools without which it can't be made, and what makes it.
VOLUMES = {
    "a crafted volume": ((), crafted),
    "a volume of mkntfs": (("mkntfs", "ntfscp"), by_ntfscp),
    "a formatted volume": ((), formatted),
}
