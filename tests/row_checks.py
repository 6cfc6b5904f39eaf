# Rows of checks and dumps: of a volume that breaks no rule, and of volumes that break one of the nine, each at its least number.
from images import (
    BOTH,
    DIRECTORY,
    DOS,
    EXTEND_LINK,
    FILE_LINK,
    FOLDER_LINK,
    IN_USE,
    JOURNAL_LIMITS,
    JOURNAL_RECORD,
    LAST,
    LONG_LINK,
    ROOT_LINK,
    SHORT_LINK,
    TINY,
    WHOLE,
    WIN32,
    changed,
    directory,
    entry,
    in_clusters,
    index_root,
    information,
    journal_file,
    mapped,
    named,
    plain,
    with_records,
)
from row import done, refused

# Where these records stand.
TABLE, ROOT, BITMAP, FILE, NAMED, JOURNAL = 4096, 9216, 10240, 29696, 30720, 31744

CHECK_TEXT = "ok nodes 6 links 7 room 38 journal 0 64\n"
DUMP_TEXT = """node 5 5 directory 0 0 0 0 0 0 0
node 11 11 directory 0 0 0 0 0 0 0
node 24 24 directory 0 0 0 0 0 0 0
node 25 1 file 512 512 1 1 2 3 4
node 26 1 file 5 5 0 1 2 3 4
node 27 1 system 0 0 0 1 2 3 4
link 5 5 long .
link 11 5 long $Extend
link 24 5 long d
link 25 5 long f
link 26 24 long Long
link 27 11 long $UsnJrnl
link 26 24 short LONG~1
journal 0 64 512
room 38
"""
SCAN_TEXT = """5 5 5 5 .
11 11 5 5 $Extend
24 24 5 5 d
25 1 5 5 f
26 1 24 24 Long
27 1 11 11 $UsnJrnl
links 6
"""


def a_whole_volume_has_its_texts():
    yield done("check", WHOLE, CHECK_TEXT)
    yield done("dump", WHOLE, DUMP_TEXT)
    yield done("scan", WHOLE, SCAN_TEXT)


def the_version_is_refused():
    """Where record 3 has its minor version, and where record 0 has the bits of the records 24 to 27. A torn record comes before the version,
    and this before a broken rule."""
    yield refused("check", TINY, "9 Version 0 0")
    yield refused("dump", TINY, "9 Version 0 0")
    image = changed(WHOLE, (4096 + 0x9B, b"\0"), (7168 + 0x59, b"\0"))
    yield refused("check", image, "9 Version 3 0")
    yield refused("check", changed(image, (9216 + 0x1FE, b"\x09")), "5 BadFixup 5")


def changed_bytes_break_a_rule():
    """Bytes of the whole volume, and what answers its check.

    Record 0 has its data at 0x38 and the bits of the records at 0x98; record 5 its name at 0x38, its index root at 0x98, and the entries from
    byte 216 on; record 6 the bitmap at 0x38. Record 25 has its information at 0x38, its name at 0x98 and its data at 0xF8, with the mapping
    pairs at 0x138; record 26 its long name at 0x98. Record 27 has its name at 0x98, $J at 0x108, with the mapping pairs at 0x158, and $Max at
    0x160; the journal's bytes stand in cluster 97."""
    for changes, rule, number in [
        # 1: no long name; a directory without one; no standard information; no Win32 name.
        ([(JOURNAL + 0x98, 0x28)], 1, 27),
        ([(ROOT + 0x38, 0x28)], 1, 5),
        ([(FILE + 0x38, 0x08)], 1, 25),
        ([(NAMED + 0xF1, 0)], 1, 26),
        # 2: another sequence; a directory that isn't in use; a file.
        ([(FILE + 0xB6, 9)], 2, 25),
        ([(FILE + 0xB0, 31), (FILE + 0xB6, 31)], 2, 25),
        ([(FILE + 0xB0, 26), (FILE + 0xB6, 1)], 2, 25),
        # 3: another file; another name; a root of another type; an entry that is too long.
        ([(ROOT + 0x190, 26)], 3, 5),
        ([(ROOT + 0x1E2, ord("e"))], 3, 5),
        ([(ROOT + 0xB8, 0x31)], 3, 5),
        ([(ROOT + 0x141, 8)], 3, 5),
        # 4: sizes; the initialised size of the table; bits of records and of clusters.
        ([(FILE + 0x129, 3)], 4, 25),
        ([(FILE + 0x131, 3)], 4, 25),
        ([(FILE + 0x121, 4)], 4, 25),
        ([(TABLE + 0x70, 0xFF), (TABLE + 0x71, 0x7F)], 4, 0),
        ([(TABLE + 0x90, 3)], 4, 0),
        ([(BITMAP + 0x48, 15)], 4, 6),
        # 5 and 6: one cluster for two streams, whose bit is set or clear; a cluster whose bit is clear.
        ([(JOURNAL + 0x15A, 96)], 5, 96),
        ([(FILE + 0x13A, 98), (JOURNAL + 0x15A, 98)], 5, 98),
        ([(FILE + 0x13A, 99), (JOURNAL + 0x15A, 98)], 6, 98),
        # 7: the bits of records 26 and 27 are clear.
        ([(TABLE + 0x9B, 3)], 7, 26),
        # 9: $Max too short; $J not flagged sparse, not initialised, and with a record at fault.
        ([(JOURNAL + 0x170, 31)], 9, 0),
        ([(JOURNAL + 0x115, 0)], 9, 0),
        ([(JOURNAL + 0x140, 63)], 9, 0),
        ([(JOURNAL + 0x138, 128), (JOURNAL + 0x140, 128), (49728, 4)], 9, 64),
    ]:
        image = changed(WHOLE, *((at, bytes([byte])) for at, byte in changes))
        yield refused("check", image, f"15 BadVolume {rule} {number}")


def breaks(image, rule, number):
    """A check and a dump that tell this rule."""
    return [refused(command, image, f"15 BadVolume {rule} {number}") for command in ("check", "dump")]


def names_break_rule_1():
    """Two long names of a directory, in its own record; two short names of a file in one directory."""
    folder = [named(0, 5, BOTH, "d"), named(1, 5, BOTH, "e"), index_root(2, LAST)]
    yield from breaks(with_records(WHOLE, (24, 24, DIRECTORY, folder)), 1, 24)
    file = [information(), named(1, 24, WIN32, "Long"), named(2, 24, DOS, "LONG~1"), named(3, 24, DOS, "LONG~2")]
    yield from breaks(with_records(WHOLE, (26, 1, IN_USE, file)), 1, 26)


# The last entry of a node, with its child at VCN 0.
CHILD = bytes([0, 0, 0, 0, 0, 0, 0, 0, 24, 0, 0, 0, 3, 0, 0, 0, 0, 0, 0, 0, 0, 0, 0, 0])


def with_block(index, word):
    """The root with this index root and a block of its index in the clusters from 112 on, whose one entry is the last, with itself as its
    child; its sectors end with this word, where 1 is not torn."""
    blocks = in_clusters(2, 0xA0, "$I30", 0, 8, 4096, bytes([0x11, 8, 112, 0]))
    image, at = with_records(WHOLE, (5, 5, DIRECTORY, [named(0, 5, BOTH, "."), index, blocks])), 112 * 512
    return changed(
        image,
        (at, b"INDX"),
        (at + 0x04, bytes([0x28, 0, 9])),
        (at + 0x18, bytes([0x28, 0, 0, 0, 0x40, 0, 0, 0, 0xE8, 0x0F, 0, 0, 1])),
        (at + 0x28, b"\x01"),
        (at + 0x40, CHILD),
        *((at + 512 * sector - 2, word.to_bytes(2, "little")) for sector in range(1, 9)),
    )


def indexes_break_rules_3_and_4():
    """A second file f in the root; a block that names itself as a child; and one that no entry leads to and that is torn."""
    root = directory(5, (5, BOTH, "."), EXTEND_LINK, ROOT_LINK, FOLDER_LINK, FILE_LINK, entry(28, 1, 5, BOTH, "f"))
    other = (28, 1, IN_USE, [information(), named(1, 5, BOTH, "f")])
    yield from breaks(with_records(WHOLE, other, root), 3, 5)
    leading = changed(index_root(1, CHILD), (0x3C, b"\x01"))
    yield from breaks(with_block(leading, 1), 3, 5)
    yield from breaks(with_block(index_root(1, EXTEND_LINK, ROOT_LINK, FOLDER_LINK, FILE_LINK, LAST), 9), 4, 5)


def a_table_elsewhere_breaks_rule_4():
    """The boot sector says that the file table begins at a copy of the records 0 to 3."""
    image = changed(WHOLE, (104 * 512, WHOLE[4096:8192]), (0x30, bytes([104])))
    yield from breaks(image, 4, 0)
    yield refused("journal", image, "15 BadVolume 4 0")
    yield done("scan", WHOLE, SCAN_TEXT)
    yield done("scan", image, SCAN_TEXT)


def piece(number, first, pairs):
    """A piece of data of one cluster."""
    return in_clusters(number, 0x80, "", first, 1, 512, bytes(pairs))


def with_pieces(*pieces):
    """The file f with these pieces of data."""
    return with_records(WHOLE, (25, 1, IN_USE, [information(), named(1, 5, BOTH, "f"), *pieces]))


def empty_piece(number):
    """A piece of data of no clusters, at VCN 0, with the sizes of one cluster."""
    return changed(piece(number, 0, [0]), (0x18, b"\xff" * 8))


def streams_break_rule_4():
    """A VCN is left out; a piece stands twice; an empty piece before a whole one, and behind it; clusters past the volume; a sparse bitmap; a
    torn mirror."""
    for vcn in [0, 2]:
        image = with_pieces(piece(2, 0, [0x11, 1, 96, 0]), piece(3, vcn, [0x11, 1, 95, 0]))
        yield from breaks(image, 4, 25)
    yield from breaks(with_pieces(empty_piece(2), piece(3, 0, [0x11, 1, 96, 0])), 4, 25)
    yield from breaks(with_pieces(piece(2, 0, [0x11, 1, 96, 0]), empty_piece(3)), 4, 25)
    yield from breaks(with_pieces(mapped(2, 2, bytes([0x11, 2, 127, 0])), b""), 4, 25)
    yield from breaks(with_records(WHOLE, (6, 6, IN_USE, [piece(0, 0, [0x01, 1, 0])])), 4, 6)
    mirror = changed(WHOLE, (104 * 512, WHOLE[4096:8192]), (105 * 512 + 510, b"\x09"))
    yield from breaks(with_records(mirror, (1, 1, IN_USE, [mapped(0, 8, bytes([0x11, 8, 104, 0]))])), 4, 1)


def a_directory_in_itself_breaks_rule_8():
    """The directory d is its own, and doesn't stand in the root."""
    folder = directory(24, (24, BOTH, "d"), entry(24, 24, 24, BOTH, "d"), LONG_LINK, SHORT_LINK)
    root = directory(5, (5, BOTH, "."), EXTEND_LINK, ROOT_LINK, FILE_LINK)
    yield from breaks(with_records(WHOLE, folder, root), 8, 24)


def journals_are_judged():
    """A journal whose second record is cut, and one without $Max, which is none."""
    second = 97 * 512 + 64
    image = changed(with_records(WHOLE, journal_file(128, JOURNAL_LIMITS)), (second, JOURNAL_RECORD))
    yield from breaks(image, 9, 64)
    image = changed(image, (second + 0x18, bytes([64])))
    yield done("check", image, "ok nodes 6 links 7 room 38 journal 0 128\n")
    image = changed(image, (second, bytes([72])))
    yield from breaks(image, 9, 64)
    yield done("check", with_records(image, journal_file(128)), "ok nodes 6 links 7 room 38 journal -\n")


TABLES = [
    a_whole_volume_has_its_texts,
    the_version_is_refused,
    changed_bytes_break_a_rule,
    names_break_rule_1,
    indexes_break_rules_3_and_4,
    a_table_elsewhere_breaks_rule_4,
    streams_break_rule_4,
    a_directory_in_itself_breaks_rule_8,
    journals_are_judged,
]
