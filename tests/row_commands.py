# Rows of formats, of the reading of a journal, and of volumes whose log is refused or recovered.
from images import TINY, WHOLE, changed
from logs import PAGE, RING, Log, body_of
from row import IMAGE, USAGE, Row, done, refused

SCAN_TEXT = """0 1 5 5 $MFT
1 1 5 5 $MFTMirr
2 2 5 5 $LogFile
3 3 5 5 $Volume
4 4 5 5 $AttrDef
5 5 5 5 .
6 6 5 5 $Bitmap
7 7 5 5 $Boot
8 8 5 5 $BadClus
9 9 5 5 $Secure
10 10 5 5 $UpCase
11 11 5 5 $Extend
links 12
"""
DUMP_FRONT = "node 0 1 system 0 0 0 0 0 0 0\n"
DUMP_END = "journal -\nroom 1480\n"
NEW_TEXT = "ok nodes 12 links 12 room 1480 journal -\n"
# The image as the row before left it.
SAME = None


def formatted(sectors, text):
    return done("format", bytes(512 * sectors), text)


def new_volume():
    """The format of a device of 8 MiB."""
    return formatted(16384, "formatted 2047 1480\n")


# ---- formats


def a_new_volume_has_its_texts():
    """What the other commands say of it."""
    yield new_volume()
    yield done("check", SAME, NEW_TEXT)
    yield done("scan", SAME, SCAN_TEXT)
    yield refused("journal", SAME, "14 NoJournal 1")
    yield done("dump", SAME, lambda text: text.startswith(DUMP_FRONT) and text.endswith(DUMP_END))


def a_torn_root_is_refused():
    """The last word of record 5's second sector: record 5 stands in the sectors 42 and 43."""
    yield formatted(4537, "formatted 567 0\n")
    yield refused("scan", lambda left: changed(left, (43 * 512 + 510, b"\x09")), "5 BadFixup 5")
    yield refused("check", SAME, "5 BadFixup 5")


def formats_are_sized():
    """How many sectors, and what a format says of them."""
    for sectors, line in [(0, "4 Short 1 0"), (1, "4 Short 4537 1"), (4536, "4 Short 4537 4536")]:
        yield refused("format", bytes(512 * sectors), line)
    for sectors, text in [(4617, "formatted 577 10\n"), (5017, "formatted 627 60\n")]:
        yield formatted(sectors, text)


def has_serial(left):
    return left[0x48:0x50] == bytes([1, 2, 0, 0, 0, 0, 0, 0])


def options_are_taken():
    """The serial number and the times of a volume; and words that are no line."""
    words = (IMAGE, "format", "--time=7", "--seed", "513")
    yield Row(bytes(512 * 4537), words, (0,), "formatted 567 0\n", b"", has_serial)
    for words in [(IMAGE, "burn", "--time=7"), (IMAGE, "format", "--time=+7"), (IMAGE, "enable"), (IMAGE, "gen")]:
        yield Row(SAME, words, (2,), USAGE, b"", has_serial)


# ---- change journals

JOURNAL_TEXT = "0 26 1 25 1 80000100 00000020 1002 f\njournal 0 64\n"
# Where record 27 stands, the file of the journal.
JOURNAL_FILE = 4096 + 27 * 1024


def journals_are_read():
    """The journal; its file with an empty attribute list in place of its standard information, which stands at 38; and $J, whose flags stand at
    114 (hexadecimal), without the flag sparse."""
    yield done("journal", WHOLE, JOURNAL_TEXT)
    listed = changed(WHOLE, (JOURNAL_FILE + 0x38, b"\x20"), (JOURNAL_FILE + 0x48, b"\0"))
    yield refused("journal", listed, "14 NoJournal 2")
    yield refused("journal", changed(WHOLE, (JOURNAL_FILE + 0x115, b"\0")), "14 NoJournal 3")
    yield refused("journal", TINY, "9 Version 0 0")


def a_broken_journal_is_no_volume():
    """The record at byte 0 of the journal, in sector 97, with the USN 1."""
    yield refused("journal", changed(WHOLE, (97 * 512 + 0x18, b"\x01")), "15 BadVolume 9 0")


# ---- logs

# The pages of the log of a new volume of 8 MiB, and its first byte.
PAGES, LOG = 513, 416 * 512
ZEROS, EMPTIED = bytes(PAGE), b"\xff" * PAGE


def with_log(*pages):
    """Puts these pages, each of its number and its bytes, into the log of the volume that is left."""
    return lambda left: changed(left, *((LOG + PAGE * number, page) for number, page in pages))


def logs_are_refused():
    """A log of version 2.0, one without a restart page, and one of another host in use."""
    later = Log(PAGES).restart(version=(2, 0))
    other = Log(PAGES).restart(name="NTFS", current=1_048_576)
    for first, line in [(later, "10 LogVersion 2 0"), (ZEROS, "11 NoRestart"), (other, "12 ForeignLog 1048576")]:
        yield new_volume()
        yield refused("scan", with_log((0, first), (1, ZEROS)), line)
        yield refused("check", SAME, line)
        yield refused("journal", SAME, line)


def an_emptied_log_is_taken():
    """One of the log's first two pages is torn."""
    torn = changed(Log(PAGES).restart(), (0x3FE, b"\x09"))
    yield new_volume()
    yield done("scan", with_log((0, torn), (1, EMPTIED)), SCAN_TEXT)
    yield done("check", SAME, NEW_TEXT)
    yield refused("journal", SAME, "14 NoJournal 1")


# Where the fourth letter of `$UpCase` stands in the file record.
UNIT = 0xF8


def renamed(left):
    """The volume with a log in use, of which an ended transaction gives record 10, in the sector 52, the name `$UpKase`."""
    log, old = Log(PAGES), body_of(left[52 * 512 : 54 * 512])
    log.update(1, 52, 1, 0, changed(old, (UNIT, b"K")), old)
    # The entries of a transaction don't name the ones before.
    log.before.clear()
    log.commit(1)
    log.seal()
    return with_log((0, log.restart()), (1, log.restart()), (RING, log.ring[0]))(left)


def what_is_recovered_is_printed():
    """The name of the log is scanned, and the root's index hasn't it."""
    yield new_volume()
    yield done("scan", renamed, SCAN_TEXT.replace("$UpCase", "$UpKase"))
    yield refused("check", SAME, "15 BadVolume 3 5")


TABLES = [
    a_new_volume_has_its_texts,
    a_torn_root_is_refused,
    formats_are_sized,
    options_are_taken,
    journals_are_read,
    a_broken_journal_is_no_volume,
    logs_are_refused,
    an_emptied_log_is_taken,
    what_is_recovered_is_printed,
]
