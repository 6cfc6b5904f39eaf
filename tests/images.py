# Images that the rows of commands run on: the tiny image, a small volume that breaks no rule, and their parts.
"""The layouts are those of the Linux-NTFS documentation, "FILE Record", "Attribute Header" and the pages of the attributes, and of
Microsoft's reference, "USN_RECORD_V2". Clusters have one sector, or eight where that is said; the file table stands at sector 8. A file is
given by its number and its sequence, and where only one number is given the sequence is the same."""
import struct
import sys
from pathlib import Path

sys.path.insert(0, str(Path(__file__).resolve().parent.parent / "tools"))
from tiny_image import mapped, padded, record, resident, tiny

SECTOR, RECORD, TABLE = 512, 1024, 4096
PLAIN, WIN32, DOS, BOTH = 0, 1, 2, 3
IN_USE, DIRECTORY = 1, 3


def changed(image, *changes):
    """The image with other bytes, each (place, bytes)."""
    made = bytearray(image)
    for at, data in changes:
        made[at : at + len(data)] = data
    return bytes(made)


def with_records(image, *records):
    """The image with these records, each of its number, its sequence, its flags and its attributes."""
    return changed(image, *((TABLE + RECORD * number, record(number, *rest)) for number, *rest in records))


# ---- attributes


def name_value(parent, space, name, is_directory=False):
    units = name.encode("utf-16-le")
    return struct.pack("<QQQQQQQIIBB", parent | parent << 48, 0, 0, 0, 0, 0, 0, is_directory << 28, 0, len(name), space) + units


def named(number, *value):
    """A file name: its id, and its directory, its namespace and the name."""
    return resident(0x30, number, name_value(*value), 1)


def plain(kind, number, value):
    """A resident attribute that isn't indexed."""
    return resident(kind, number, value, 0)


def information():
    """Standard information with the times 1, 2, 3 and 4: made, modified, changed and read."""
    return plain(0x10, 0, struct.pack("<QQQQ", 1, 2, 3, 4) + bytes(0x28))


def named_data(number, name, value):
    """A resident stream of data with a name."""
    units = name.encode("utf-16-le")
    place = 0x18 + len(padded(units))
    length = place + len(padded(value))
    head = struct.pack("<IIBBHHHIHH", 0x80, length, 0, len(name), 0x18, 0, number, len(value), place, 0)
    return head + padded(units) + padded(value)


def in_clusters(number, kind, name, first, clusters, real, pairs, is_sparse=False, sectors=1):
    """A stream in clusters: its first VCN, how many there are, its size, which is initialised, and its mapping pairs; and the sectors of one."""
    units, size = name.encode("utf-16-le"), SECTOR * sectors * clusters
    total = struct.pack("<Q", size) if is_sparse else b""
    place = 0x40 + len(total) + len(padded(units))
    flags, names = 0x8000 if is_sparse else 0, 0x40 + len(total)
    head = struct.pack("<IIBBHHHQQHHI", kind, place + 8, 1, len(name), names, flags, number, first, first + clusters - 1, place, 0, 0)
    return head + struct.pack("<QQQ", size, real, real) + total + padded(units) + pairs.ljust(8, b"\0")


def list_entry(kind, number, record, sequence):
    """An entry of an attribute list for an attribute without a name, by its type, its id and its record."""
    return struct.pack("<IHBBQQHxxxxxx", kind, 32, 0, 0x1A, 0, record | sequence << 48, number)


def entry(number, sequence, *value):
    """An entry of an index: a file and its name; or the last one, which has no name."""
    key = name_value(*value) if value else b""
    length = 0x10 + len(padded(key))
    return struct.pack("<QHHHxx", number | sequence << 48, length, len(key), 0 if value else 2) + padded(key)


LAST = entry(0, 0)


def index_root(number, *entries):
    """The index root of a directory with these entries."""
    body = b"".join(entries)
    value = struct.pack("<IIII", 0x30, 1, 4096, 8) + struct.pack("<IIII", 0x10, 0x10 + len(body), 0x10 + len(body), 0) + body
    head = struct.pack("<IIBBHHHIHH", 0x90, 0x20 + len(value), 0, 4, 0x18, 0, number, len(value), 0x20, 0)
    return head + "$I30".encode("utf-16-le") + value


def directory(number, name, *entries):
    """The record of a directory with this name and an index of these entries, the last one left out."""
    return number, number, DIRECTORY, [named(0, *name), index_root(1, *entries, LAST)]


# ---- whole images

TINY = tiny()

# A record of the change journal for the file of record 26, made and closed, whose name is `f`: 64 bytes, the first of the journal.
JOURNAL_RECORD = struct.pack("<IHHQQQQIIIIHHHxx", 64, 2, 0, 26 | 1 << 48, 25 | 1 << 48, 0, 1002, 0x80000100, 0, 0, 0x20, 2, 60, 0x66)
# The bits of the clusters in use: 0 to 87, 96 and 97.
CLUSTERS = bytes([255] * 11 + [0, 3, 0, 0, 0])

EXTEND_LINK = entry(11, 11, 5, BOTH, "$Extend")
ROOT_LINK = entry(5, 5, 5, BOTH, ".")
FOLDER_LINK = entry(24, 24, 5, BOTH, "d")
FILE_LINK = entry(25, 1, 5, BOTH, "f")
JOURNAL_LINK = entry(27, 1, 11, BOTH, "$UsnJrnl")
LONG_LINK, SHORT_LINK = entry(26, 1, 24, WIN32, "Long"), entry(26, 1, 24, DOS, "LONG~1")


def journal_file(size, *more, cluster=97, sectors=1):
    """Record 27, whose $J has so many bytes in this cluster; further attributes stand behind it."""
    stream = in_clusters(2, 0x80, "$J", 0, 1, size, bytes([0x11, 1, cluster, 0]), True, sectors)
    return 27, 1, IN_USE, [information(), named(1, 11, BOTH, "$UsnJrnl"), stream, *more]


JOURNAL_LIMITS = named_data(3, "$Max", bytes(32))


def in_use(table, log, bitmap, data):
    """The records of a volume that breaks no rule, but for that of its journal, by the data of the table, of the log and of file 25, and the bits
    of the clusters. In use are the records of the volume itself 0, 2, 3 and 6, which have no names; the root; record 11, a directory with the
    change journal; a directory 24 with file 26, which has a long and a short name; and file 25 in the root."""
    return (
        (0, 1, IN_USE, [table, plain(0xB0, 1, bytes([0x6D, 0x08, 0, 0x0F]))]),
        (2, 2, IN_USE, [log]),
        (3, 3, IN_USE, [plain(0x70, 0, bytes([0] * 8 + [3, 1, 0, 0]))]),
        (6, 6, IN_USE, [plain(0x80, 0, bitmap)]),
        directory(5, (5, BOTH, "."), EXTEND_LINK, ROOT_LINK, FOLDER_LINK, FILE_LINK),
        directory(11, (5, BOTH, "$Extend"), JOURNAL_LINK),
        directory(24, (5, BOTH, "d"), LONG_LINK, SHORT_LINK),
        (25, 1, IN_USE, [information(), named(1, 5, BOTH, "f"), data]),
        (26, 1, IN_USE, [information(), named(1, 24, WIN32, "Long"), named(2, 24, DOS, "LONG~1"), plain(0x80, 3, b"hello")]),
    )


def with_journal(journal):
    """An image without files whose volume has 128 sectors, with a sector after it; at this place the record of the journal."""
    made = TINY.ljust(129 * SECTOR, b"\0")
    return changed(made, (0x28, b"\x80"), (TABLE, bytes(32 * RECORD)), (72 * SECTOR, b"\xff" * 8192), (journal, JOURNAL_RECORD))


def whole_volume():
    """A volume of 128 clusters of one sector that breaks no rule."""
    table, log = mapped(0, 64, bytes([0x11, 64, 8, 0])), mapped(0, 16, bytes([0x11, 16, 72, 0]))
    records = in_use(table, log, CLUSTERS, mapped(2, 1, bytes([0x11, 1, 96, 0])))
    return with_records(with_journal(97 * SECTOR), *records, journal_file(64, JOURNAL_LIMITS))


def wide_volume(bitmap):
    """The same files in 16 clusters of eight sectors, with these bits of the clusters."""
    made = changed(with_journal(13 * 8 * SECTOR), (0x0D, b"\x08"), (0x30, b"\x01"), (0x38, b"\x07"), (0x40, b"\xf6"), (0x44, b"\x01"))
    table, log = mapped(0, 8, bytes([0x11, 8, 1, 0]), 8), mapped(0, 2, bytes([0x11, 2, 9, 0]), 8)
    records = in_use(table, log, bitmap, mapped(2, 1, bytes([0x11, 1, 12, 0]), 8))
    return with_records(made, *records, journal_file(64, JOURNAL_LIMITS, cluster=13, sectors=8))


def asked_volume(bitmap, log_pages=513, initialised=None, clusters=544, log_size=None):
    """The same files without a change journal, in so many clusters of eight sectors of which these bits are set: a log of so many pages, all FF, of which
    so many are initialised, from cluster 16 on; its size may be another one than that of its pages."""
    made = TINY.ljust((clusters * 8 + 1) * SECTOR, b"\0")
    log_bytes = 4096 * (log_pages if initialised is None else initialised)
    made = changed(made, (0x28, struct.pack("<Q", clusters * 8)), (0x0D, b"\x08"), (0x30, b"\x01"), (0x38, b"\x07"), (0x40, b"\xf6"), (0x44, b"\x01"))
    made = changed(made, (TABLE, bytes(32 * RECORD)), (16 * 4096, b"\xff" * log_bytes))
    table, log = mapped(0, 8, bytes([0x11, 8, 1, 0]), 8), in_clusters(0, 0x80, "", 0, log_pages, log_size or 4096 * log_pages, struct.pack("<BHBB", 0x12, log_pages, 16, 0), sectors=8)
    if initialised is not None:
        log = changed(log, (0x38, struct.pack("<Q", log_bytes)))
    files = in_use(table, log, bitmap, mapped(2, 1, bytes([0x11, 1, 12, 0]), 8))
    kept = [found for found in files if found[0] != 11]
    empty = directory(11, (5, BOTH, "$Extend"))
    return with_records(made, *kept, empty)


def bits(count, *clusters):
    """So many bits, of which these are set."""
    made = bytearray((count + 63) // 64 * 8)
    for cluster in clusters:
        made[cluster // 8] |= 1 << cluster % 8
    return bytes(made)


WHOLE = whole_volume()
# Of the wide volume the clusters 0 to 10, 12 and 13 are in use; the other one has the bit of cluster 12 clear.
WIDE = wide_volume(bytes([0xFF, 0x37]))
MISOWNED = wide_volume(bytes([0xFF, 0x27]))
# Of the volume that scripts ask the clusters 0 to 10, 12 and those of the log are in use; of the other one cluster 12 isn't.
ASKED_CLUSTERS = [*range(11), 12, *range(16, 529)]
ASKED = asked_volume(bits(544, *ASKED_CLUSTERS))
MISASKED = asked_volume(bits(544, *range(11), *range(16, 529)))
# The same with fewer pages of the log, and with one that isn't initialised to its end.
ASKED_LOG = {pages: asked_volume(bits(544, *range(11), 12, *range(16, 16 + pages)), pages) for pages in [256, 512]}
UNREADY = asked_volume(bits(544, *ASKED_CLUSTERS), initialised=512)
# The same in which file 26 has an attribute list without entries, and another one that has a name.
SECOND_LIST = plain(0x20, 5, b"")[:4] + struct.pack("<IBBHHHIHH", 0x20, 0, 1, 0x18, 0, 5, 0, 0x20, 0) + "Z".encode("utf-16-le").ljust(8, b"\0")
LISTS = [information(), plain(0x20, 4, b""), SECOND_LIST, named(1, 24, WIN32, "Long"), named(2, 24, DOS, "LONG~1"), plain(0x80, 3, b"hello")]
TWO_LISTS = with_records(ASKED, (26, 1, IN_USE, LISTS))
ONE_LIST = with_records(ASKED, (26, 1, IN_USE, [attribute for attribute in LISTS if attribute is not SECOND_LIST]))
# The same, which has no record 7, with the bit of the first cluster clear; and with the data of file 25 in that cluster.
UNMARKED = asked_volume(bits(544, *ASKED_CLUSTERS[1:]))
IN_FIRST = (25, 1, IN_USE, [information(), named(1, 5, BOTH, "f"), mapped(2, 1, bytes([0x11, 1, 0, 0]), 8)])
FIRST_GIVEN = with_records(ASKED, IN_FIRST)
# The bits of the clusters in cluster 13, so that scripts may change files.
IN_CLUSTER = (6, 6, IN_USE, [mapped(0, 1, bytes([0x11, 1, 13, 0]), 8)])


def writable_volume(clusters):
    """The same files in so many clusters, of which all but 526 are free, and scripts may change them."""
    held = bits(clusters, *ASKED_CLUSTERS, 13)
    return changed(with_records(asked_volume(held, clusters=clusters), IN_CLUSTER), (13 * 4096, held))


WRITABLE = writable_volume(614)
# Of another such volume the log's last page isn't whole.
ODD_BITS = bits(614, *ASKED_CLUSTERS, 529, 13)
ODD_LOG = changed(with_records(asked_volume(ODD_BITS, 514, clusters=614, log_size=4096 * 513 + 512), IN_CLUSTER), (13 * 4096, ODD_BITS))
