# Rows of scans: of the tiny image, of images that differ from it, and of other words.
import struct

from images import BOTH, DIRECTORY, DOS, IN_USE, PLAIN, RECORD, TABLE, TINY, WIN32, changed, list_entry, mapped, named, plain, with_records
from row import IMAGE, TINY_TEXT, USAGE, Row, done, refused
from tiny_image import record

# Where record 5 stands.
ROOT = 9216
WITHOUT_ROOT = "0 1 5 5 $MFT\n2 2 5 5 $LogFile\nlinks 2\n"
DOT = named(0, 5, BOTH, ".", True)


def word(value):
    return value.to_bytes(2, "little")


def the_tiny_image_is_as_described():
    """Bytes of the description: offsets in the image, and what stands there."""
    bytes_of_it = [
        (3, ord("N")),
        (0x0D, 1),
        (0x28, 64),
        (0x1FF, 0xAA),
        (4096, ord("F")),
        (4096 + 0x18, 0xF0),
        (4096 + 0x30, 1),
        (4096 + 0x38, 0x30),
        (4096 + 0x1FE, 1),
        (4096 + 0xA0, 0x80),
        (4096 + 0xE1, 32),
        (4096 + 0xE2, 8),
        (6144 + 0x10, 2),
        (6144 + 0xE9, 16),
        (6144 + 0xEA, 40),
        (9216 + 0x16, 3),
        (9216 + 0x92, ord(".")),
        (9216 + 0x98, 0xFF),
        (20480, 0xFF),
        (28671, 0xFF),
        (28672, ord("F")),
        (28672 + 2048, ord("F")),
        (33279, 0),
    ]
    yield Row(TINY, (IMAGE, "scan"), (0,), TINY_TEXT, b"", lambda left: len(left) == 33280)
    for at, byte in bytes_of_it:
        yield Row(TINY, (IMAGE, "scan"), (0,), TINY_TEXT, b"", lambda left, at=at, byte=byte: left[at] == byte)


def the_tiny_image_has_three_links():
    yield done("scan", TINY, TINY_TEXT)


def other_words_are_answered_by_the_usage_line():
    for words in [(IMAGE, "burn"), (IMAGE, "Scan"), ("scan", IMAGE), (IMAGE, "scan", "scan"), (IMAGE,), ()]:
        yield Row(TINY, words, (2,), USAGE)


def a_missing_file_is_a_device_that_fails():
    yield Row(TINY, ("no such image", "scan"), (8,), "")


# ---- names of record 7, whose sequence is 9


def names_are_sorted():
    names = [named(0, 10, PLAIN, "a"), named(0, 5, WIN32, "b"), named(0, 5, BOTH, "aa"), named(0, 5, PLAIN, "Z"), named(0, 5, PLAIN, "a")]
    text = "0 1 5 5 $MFT\n2 2 5 5 $LogFile\n5 5 5 5 .\n7 9 5 5 Z\n7 9 5 5 a\n7 9 5 5 aa\n7 9 5 5 b\n7 9 10 10 a\nlinks 8\n"
    yield done("scan", with_records(TINY, (7, 9, IN_USE, names)), text)


def short_names_are_not_printed():
    """A short name, and a long one beside it."""
    names = [named(0, 5, DOS, "LONGNA~1.TXT"), named(0, 5, WIN32, "LongNameFile.txt")]
    text = "0 1 5 5 $MFT\n2 2 5 5 $LogFile\n5 5 5 5 .\n7 9 5 5 LongNameFile.txt\nlinks 4\n"
    yield done("scan", with_records(TINY, (7, 9, IN_USE, names)), text)


def other_records_are_not_printed():
    """One of another record's, one that isn't in use, one that doesn't begin FILE."""
    for base, flags, first in [(5, IN_USE, b"F"), (0, 2, b"F"), (0, IN_USE, b"B")]:
        image = with_records(TINY, (7, 9, flags, [named(0, 5, BOTH, "x")], base))
        yield done("scan", changed(image, (TABLE + 7 * RECORD, first)), TINY_TEXT)


# ---- changes of the tiny image, and the line that answers them


def the_boot_sector_is_refused():
    yield refused("scan", bytes(4096), "1 NotNtfs 1")
    yield refused("scan", b"", "4 Short 1 0")
    for at, byte, line in [
        (0x03, ord("M"), "1 NotNtfs 1"),
        (0x0A, 0, "1 NotNtfs 1"),
        (0x1FE, 0, "1 NotNtfs 2"),
        (0x1FF, 0, "1 NotNtfs 2"),
        (0x0C, 4, "2 Geometry 11 1024"),
        (0x0D, 16, "2 Geometry 13 16"),
        (0x0D, 2, "2 Geometry 56 56"),
        (0x28, 0, "2 Geometry 40 0"),
        (0x28, 15, "2 Geometry 56 56"),
        (0x30, 64, "2 Geometry 48 64"),
        (0x40, 1, "2 Geometry 64 1"),
        (0x44, 1, "2 Geometry 68 1"),
        (0x2B, 1, "3 VolumeLarge 16777280"),
        (0x28, 66, "4 Short 66 65"),
        (0x30, 57, "11 NoRestart"),
    ]:
        yield refused("scan", changed(TINY, (at, bytes([byte]))), line)
    for at, byte in [(0x40, 0xF6), (0x44, 0xF4)]:
        yield done("scan", changed(TINY, (at, bytes([byte]))), TINY_TEXT)


def torn(*sectors):
    """Other last words of these sectors."""
    return [(512 * sector + 510, b"\x09") for sector in sectors]


def a_torn_record_is_refused():
    for sector, line in [(19, "5 BadFixup 5"), (18, "5 BadFixup 5"), (13, "5 BadFixup 2"), (9, "5 BadFixup 0")]:
        yield refused("scan", changed(TINY, *torn(sector)), line)


def record_2_is_refused_before_record_0():
    yield refused("scan", changed(TINY, *torn(13, 9, 19)), "5 BadFixup 2")


def torn_records_come_before_broken_rules():
    """Record 3 becomes a copy of record 5 with an attribute of length 0."""
    image = changed(TINY, (7168, TINY[9216:10240]), (7168 + 0x3C, b"\0"))
    yield refused("scan", image, "6 BadRecord 3 3")
    yield refused("scan", changed(image, *torn(19)), "5 BadFixup 5")


def the_log_is_refused_before_record_0():
    """A log with no restart page and no page that is all FF, and record 0 torn."""
    yield refused("scan", changed(TINY, (20480, b"\0"), (24576, b"\0"), *torn(9)), "11 NoRestart")


# ---- rules of file records


def each_rule_is_answered():
    """Words of record 5 of the tiny image, by their offset in it, and the rule that they break. Its one attribute stands from 38 to 98
    (hexadecimal), the value from 50, the end mark at 98; A0 bytes are used."""
    for at, value, rule in [
        (0x14, 0x3C, 1),
        (0x14, 0xA0, 1),
        (0x18, 0x38, 1),
        (0x18, 0x408, 2),
        (0x1C, 0x800, 2),
        (0x3C, 0, 3),
        (0x3C, 0x10, 3),
        (0x3C, 0x5C, 3),
        (0x3C, 0x70, 3),
        (0x18, 0x98, 5),
        (0x48, 0x49, 6),
        (0x4C, 0x1D, 6),
        (0x41, 0x4018, 6),
        (0x40, 0x0001, 7),
        (0x48, 0x43, 8),
        (0x90, 0x0302, 8),
        (0x90, 0x0401, 8),
        (0x92, 0x2F, 8),
        (0x92, 0, 8),
    ]:
        yield refused("scan", changed(TINY, (ROOT + at, word(value))), f"6 BadRecord 5 {rule}")


def the_lower_rule_is_answered():
    """Two words of record 5 that break two rules, and the lower one."""
    for at, value, other, another, rule in [
        (0x92, 0x2F, 0x4C, 0x1D, 6),
        (0x92, 0x2F, 0x3C, 0, 3),
        (0x3C, 0, 0x1C, 0x800, 2),
        (0x1C, 0x800, 0x14, 0x3C, 1),
        (0x90, 0x0401, 0x18, 0x98, 5),
    ]:
        image = changed(TINY, (ROOT + at, word(value)), (ROOT + other, word(another)))
        yield refused("scan", image, f"6 BadRecord 5 {rule}")


def a_record_that_is_not_in_use_refuses_nothing():
    """Flags 2, and a first letter other than F, with an attribute of length 0."""
    for at, byte in [(0x16, b"\x02"), (0x00, b"B")]:
        image = changed(TINY, (ROOT + at, byte))
        yield done("scan", image, WITHOUT_ROOT)
        yield done("scan", changed(image, (ROOT + 0x3C, b"\0")), WITHOUT_ROOT)


def with_root(*attributes):
    return with_records(TINY, (5, 5, DIRECTORY, list(attributes)))


def attributes_of_the_root_are_judged():
    """Standard information of 48 and of 2F bytes (hexadecimal; 30 are the least), before the name and after it."""
    whole, short = plain(0x10, 1, bytes(0x48)), plain(0x10, 1, bytes(0x2F))
    yield done("scan", with_root(whole, DOT), TINY_TEXT)
    yield refused("scan", with_root(short, DOT), "6 BadRecord 5 8")
    yield refused("scan", with_root(DOT, whole), "6 BadRecord 5 4")


def lists_and_clusters_serve():
    """An attribute list and data in clusters of the root; and an attribute of length 0 in record 7."""
    listed = with_root(plain(0x20, 1, b""), DOT)
    stored = with_root(DOT, mapped(1, 1, bytes([0x11, 1, 0x38, 0])))
    broken = changed(with_records(stored, (7, 7, IN_USE, [DOT])), (ROOT + 2048 + 0x3C, b"\0"))
    for image in (listed, stored):
        yield done("scan", image, TINY_TEXT)
    yield refused("scan", broken, "6 BadRecord 7 3")


def logs_and_tables_are_answered():
    """Bytes of the image: in the boot sector; the length and cluster of record 2's run, which leaves one page of FF or none; one of the log's
    two pages; the same of record 0, and its real size. What answers a scan, with its status."""
    log = "refused 11 NoRestart\n"
    for at, data, status, text in [
        (0x40, [0xF6, 0], 0, TINY_TEXT),
        (0x30, [57, 0], 3, log),
        (6144 + 0xE9, [15, 40], 3, "refused 6 BadRecord 2 7\n"),
        (6144 + 0xEA, [49, 0], 3, log),
        (6144 + 0xEA, [39, 0], 0, TINY_TEXT),
        (20480, [0, 0xFF], 0, TINY_TEXT),
        (28670, [0xFF, 0xFE], 0, TINY_TEXT),
        (4096 + 0xE1, [57, 8], 3, "refused 6 BadRecord 0 7\n"),
        (4096 + 0xE2, [9, 0], 0, "links 0\n"),
        (4096 + 0xD0, [4, 0x40], 0, TINY_TEXT),
    ]:
        yield Row(changed(TINY, (at, bytes(data))), (IMAGE, "scan"), (status,), text)


def log_of(first, clusters, pairs):
    """Record 2, whose data has so many clusters from this VCN on, 8,192 bytes and these pairs; VCNs have 64 bits."""
    log = mapped(1, clusters, pairs)
    log = changed(log, (0x10, struct.pack("<QQ", first, (first + clusters - 1) % 2**64)), (0x30, struct.pack("<QQ", 8192, 8192)))
    return with_records(TINY, (2, 2, IN_USE, [named(0, 5, BOTH, "$LogFile"), log]))


def the_log_lies_where_its_vcns_say():
    """The log begins at VCN 0, wherever its run stands in the list, and all FF are clusters 40 to 55 alone. A first run has the VCNs 2^64 - 4 to
    2^64 - 1, and those after it the VCNs from 0 on; or the only run begins at VCN 16."""
    wrapped = bytes([0x11, 4, 2, 0x11, 16, 38, 0])
    yield done("scan", log_of(2**64 - 4, 20, wrapped), TINY_TEXT)
    yield refused("scan", log_of(2**64 - 4, 20, bytes([0x11, 4, 40, 0x11, 16, 0x100 - 38, 0])), "11 NoRestart")
    yield refused("scan", log_of(16, 16, bytes([0x11, 16, 40, 0])), "11 NoRestart")
    yield done("scan", log_of(2**64 - 4, 21, bytes([0x11, 4, 2, 0x11, 8, 38, 0x11, 9, 8, 0])), TINY_TEXT)


def the_file_table_is_refused():
    """Record 0 with other attributes after its name, and what answers them. The table has 16 records in 32 clusters; its sizes stand at 28, 30
    and 38 (hexadecimal) of its data. An attribute list comes before the number of records, and that before mapping pairs whose clusters aren't
    those up to the last VCN. Record 7 lies in two runs that touch."""
    for first, pairs, size, line in [
        (plain(0x20, 2, b""), [0x11, 7, 8, 0, 0, 0, 0, 0], 0x4000_0400, "7 MftList"),
        (DOT, [0x11, 7, 8, 0, 0, 0, 0, 0], 0x4000_0400, "8 MftLarge 1048577"),
        (DOT, [0x11, 7, 8, 0, 0, 0, 0, 0], 0x4000_0000, "6 BadRecord 0 7"),
        (DOT, [0x11, 15, 8, 0x11, 17, 15, 0, 0], 0x4000, "6 BadRecord 0 9"),
    ]:
        stored = changed(mapped(1, 32, bytes(pairs)), (0x30, size.to_bytes(4, "little")))
        yield refused("scan", with_records(TINY, (0, 1, IN_USE, [first, stored])), line)


def listed(entries, base):
    """The file table in two runs of 16 clusters, at 8 and 64, in 96 clusters. Record 9 has this list; record 12 has a name, and this base."""
    image = changed(TINY.ljust(97 * 512, b"\0"), (0x28, bytes([96])), (4096 + 0xE0, bytes([0x11, 16, 8, 0x11, 16, 56, 0])))
    second = [
        (8, record(8, 8, IN_USE, [named(0, 5, BOTH, "$BadClus")])),
        (9, record(9, 9, IN_USE, [plain(0x20, 0, entries)])),
        (12, record(12, 12, IN_USE, [named(0, 5, BOTH, "$Secure")], base | base << 48)),
    ]
    return changed(image, *((32768 + RECORD * (number - 8), raw) for number, raw in second))


def names_of_other_records_are_printed():
    """The list names the name in record 12. Then the entry has another type, id, number or sequence, its reference is cut, and record 12 has
    another base: rule 10."""
    whole = list_entry(0x30, 0, 12, 12)
    text = "0 1 5 5 $MFT\n2 2 5 5 $LogFile\n5 5 5 5 .\n8 8 5 5 $BadClus\n9 9 5 5 $Secure\nlinks 5\n"
    yield done("scan", listed(whole, 9), text)
    for entries, base in [
        (list_entry(0x10, 0, 12, 12), 9),
        (list_entry(0x30, 1, 12, 12), 9),
        (list_entry(0x30, 0, 8, 12), 9),
        (list_entry(0x30, 0, 12, 9), 9),
        (list_entry(0x30, 0, 16, 12), 9),
        (whole, 8),
        (whole[:25], 9),
    ]:
        yield refused("scan", listed(entries, base), "6 BadRecord 9 10")


def any_byte_of_a_record_is_answered():
    """Hostile input: each byte of record 5 up to its used bytes is changed in three ways."""
    for at in range(ROOT, ROOT + 0xA0):
        for mask in [0x01, 0x80, 0xFF]:
            yield Row(changed(TINY, (at, bytes([TINY[at] ^ mask]))), (IMAGE, "scan"), (0, 3), lambda text: text != "")


TABLES = [
    the_tiny_image_is_as_described,
    the_tiny_image_has_three_links,
    other_words_are_answered_by_the_usage_line,
    a_missing_file_is_a_device_that_fails,
    names_are_sorted,
    short_names_are_not_printed,
    other_records_are_not_printed,
    the_boot_sector_is_refused,
    a_torn_record_is_refused,
    record_2_is_refused_before_record_0,
    torn_records_come_before_broken_rules,
    the_log_is_refused_before_record_0,
    each_rule_is_answered,
    the_lower_rule_is_answered,
    a_record_that_is_not_in_use_refuses_nothing,
    attributes_of_the_root_are_judged,
    lists_and_clusters_serve,
    logs_and_tables_are_answered,
    the_log_lies_where_its_vcns_say,
    the_file_table_is_refused,
    names_of_other_records_are_printed,
    any_byte_of_a_record_is_answered,
]
