# Crafted images, as sparse files, that would cost much of a program without bounds.
"""Volumes of clusters of 4,096 bytes that break no rule but where that is said: the boot sector in cluster 0, then the log, the bits of the
clusters and of the records, and the file table, as `images.py` makes their parts."""
import struct

from images import BOTH, DIRECTORY, IN_USE, LAST, changed, directory, entry, in_clusters, index_root, named, plain
from logs import PAGE, Log
from tiny_image import boot, mapped, record

SECTORS, CLUSTER, RECORD = 8, 4096, 1024
ROOT_LINK = entry(5, 5, 5, BOTH, ".")


def pairs(*runs):
    """Mapping pairs of these runs, each (clusters, first cluster or None); the runs after the first one are sparse."""
    made = b""
    for clusters, first in runs:
        length = clusters.to_bytes(clusters.bit_length() // 8 + 1, "little")
        place = b"" if first is None else first.to_bytes(first.bit_length() // 8 + 1, "little")
        made += bytes([len(place) << 4 | len(length)]) + length + place
    return made + b"\0"


def bits(count, numbers):
    """So many bits, of which these are set."""
    made = bytearray((count + 63) // 64 * 8)
    for number in numbers:
        made[number // 8] |= 1 << number % 8
    return bytes(made)


class Crafted:
    """A volume of so many file records and so many clusters besides, whose log has this many."""

    def __init__(self, path, records, log=2, spare=0):
        self.path, self.count, self.log = path, (records + 3) // 4 * 4, log
        table = self.count // 4
        least = 64 + log + table + spare
        self.bits = least // (8 * CLUSTER) + 2
        self.marks = self.count // (8 * CLUSTER) + 1
        self.at_bits = 1 + log
        self.at_marks = self.at_bits + self.bits
        self.at_table = self.at_marks + self.marks
        self.at_spare = self.at_table + table
        self.clusters = (self.at_spare + spare + 64) // 64 * 64
        self.records = {}

    def put(self, number, sequence, flags, attributes):
        self.records[number] = record(number, sequence, flags, attributes)

    def put_system(self, *root):
        """The records of the volume itself, and a root with these entries."""
        table, size = self.count // 4, (self.count + 63) // 64 * 8
        marks = in_clusters(1, 0xB0, "", 0, self.marks, size, pairs((self.marks, self.at_marks)), sectors=SECTORS)
        owned = in_clusters(0, 0x80, "", 0, self.bits, self.clusters // 8, pairs((self.bits, self.at_bits)), sectors=SECTORS)
        self.put(0, 1, IN_USE, [mapped(0, table, pairs((table, self.at_table)), SECTORS), marks])
        self.put(2, 2, IN_USE, [mapped(0, self.log, pairs((self.log, 1)), SECTORS)])
        self.put(3, 3, IN_USE, [plain(0x70, 0, bytes([0] * 8 + [3, 1, 0, 0]))])
        self.put(*directory(5, (5, BOTH, "."), ROOT_LINK, *root))
        self.put(6, 6, IN_USE, [owned])

    def boot(self):
        places = struct.pack("<QQQ", SECTORS * self.clusters, self.at_table, self.at_table)
        return changed(boot(), (0x0D, bytes([SECTORS])), (0x28, places), (0x40, b"\xf6"), (0x44, b"\x01"))

    def write(self, log=None):
        """Writes the image; where nothing is said of the log it is all FF."""
        with open(self.path, "wb") as file:
            file.truncate(CLUSTER * self.clusters + 512)
            for cluster, data in [
                (0, self.boot()),
                (1, b"\xff" * (CLUSTER * self.log) if log is None else b""),
                (self.at_bits, bits(self.clusters, range(self.at_spare))),
                (self.at_marks, bits(self.count, self.records)),
            ]:
                file.seek(CLUSTER * cluster)
                file.write(data)
            for number, data in self.records.items():
                file.seek(CLUSTER * self.at_table + RECORD * number)
                file.write(data)
        if log is not None:
            log.put(self.path, range(1, 1 + self.log), CLUSTER)


def sparse_directory(path):
    """A directory whose index has 2^28 clusters, none of them on the disk, and no node in them: a check refuses it, since an index allocation
    has no sparse run."""
    made = Crafted(path, 32)
    made.put_system(entry(24, 24, 5, BOTH, "d"))
    size = CLUSTER << 28
    allocation = in_clusters(2, 0xA0, "$I30", 0, 1 << 28, size, pairs((1 << 28, None)), True, SECTORS)
    made.put(24, 24, DIRECTORY, [named(0, 5, BOTH, "d"), index_root(1, LAST), allocation])
    made.write()


def deep_directories(path, count=60000):
    """So many directories, one in the other."""
    made = Crafted(path, 24 + count)
    made.put_system(entry(24, 24, 5, BOTH, "d"))
    for number in range(24, 24 + count):
        inner = [entry(number + 1, number + 1, number, BOTH, "d")] if number < 23 + count else []
        made.put(*directory(number, (5 if number == 24 else number - 1, BOTH, "d"), *inner))
    made.write()


def long_log(path, count=600000, kind=0, pages=16384):
    """A log of 64 MiB, whose entries each name another block: a sector, or of another kind."""
    size = (1, 2, 8)[kind]
    made = Crafted(path, 32, pages, count * size // SECTORS + 1)
    made.put_system()
    log, first = Log(pages), SECTORS * made.at_spare
    for place in range(count):
        log.update(1, first + size * place, kind, 0x40, b"redo", b"undo")
    log.commit(1)
    made.write(log)


def large_table(path, count=1 << 20):
    """A file table of so many records, of which the first ones alone are in use."""
    made = Crafted(path, count)
    made.put_system()
    made.write()
