# Rows of runs of scripts on volumes with clusters of eight sectors.
from images import ASKED, ASKED_LOG, FIRST_GIVEN, IN_FIRST, MISASKED, ONE_LIST, TINY, TWO_LISTS, UNMARKED, UNREADY, WHOLE, WIDE, changed, with_records
from row import done, refused, run

SCRIPT = b"1 list /\n1 stat /\n1 stat /f/x\n1 stat /q\n"
TEXT = "1 1 1 0 names 4 $Extend . d f\n1 2 2 0 stat 5 5 directory 1 0 0 0 0 0 0\n1 3 3 0 not-directory 1\n1 4 4 0 not-found 1\n"
NAMED = "stat 26 1 file 1 5 0 1 2 3 4"


def a_script_looks():
    yield run(ASKED, SCRIPT, 0, TEXT)
    yield run(ASKED, b"# nothing\n\n", 0, "")
    text = "1 1 1 0 names 0\n1 2 2 0 not-found 2\n1 3 3 0 bad-name\n"
    yield run(ASKED, b"1 list /$EXTEND\n1 list /$EXTEND/$usnjrnl\n1 stat /a\\u0000\n", 0, text)


def names_are_found_in_any_case():
    """By a path of two parts, in other cases and by the short name, which no listing shows."""
    paths = [b"/d/Long", b"/D/LONG", b"/d/long~1", b"/d/LONG~1"]
    for path in paths:
        yield run(ASKED, b"1 stat " + path + b"\n", 0, f"1 1 1 0 {NAMED}\n")
    yield run(ASKED, b"1 list /d\n", 0, "1 1 1 0 names 1 Long\n")
    yield run(ASKED, b"1 stat /f\n1 stat /d/f\n", 0, "1 1 1 0 stat 25 1 file 1 4096 1 1 2 3 4\n1 2 2 0 not-found 2\n")


def bytes_are_read():
    """Up to the size of a file whose bytes stand in its record, and of one whose bytes stand in a cluster."""
    for asked, reply in [
        (b"0 4096", "68656c6c6f"),
        (b"1 3", "656c6c"),
        (b"4 9", "6f"),
        (b"5 9", "-"),
        (b"4611686018427387903 1", "-"),
        (b"0 0", "-"),
    ]:
        yield run(ASKED, b"1 read /d/Long " + asked + b"\n", 0, f"1 1 1 0 bytes {reply}\n")
    inside = changed(ASKED, (12 * 4096 + 510, b"\x01\x02\x03\x04"), (12 * 4096 + 4095, b"\x07"))
    yield run(inside, b"1 read /f 510 4\n1 read /F 4095 4096\n1 read /f 4096 1\n", 0, "1 1 1 0 bytes 01020304\n1 2 2 0 bytes 07\n1 3 3 0 bytes -\n")
    text = "1 1 1 0 is-directory\n1 2 2 0 is-directory\n1 3 3 0 not-directory 1\n1 4 4 0 not-found 2\n"
    yield run(ASKED, b"1 read / 0 1\n1 read /d 0 1\n1 read /f/x 0 1\n1 read /d/x 0 1\n", 0, text)


def a_new_volume_is_asked():
    """Its files stand in order; one of the volume's own is found in another case, and the directory for further ones is empty."""
    yield done("format", bytes(512 * 4537), "formatted 567 0\n")
    names = "names 12 $AttrDef $BadClus $Bitmap $Boot $Extend $LogFile $MFT $MFTMirr $Secure $UpCase $Volume ."
    text = f"1 1 1 0 {names}\n1 2 2 0 stat 0 1 system 1 0 0 0 0 0 0\n1 3 3 0 names 0\n1 4 4 0 not-directory 1\n1 5 5 0 system\n"
    yield run(None, b"1 list /\n1 stat /$mft\n1 list /$Extend\n1 stat /$mft/x\n1 read /$MFT 0 1\n", 0, text)


def a_volume_that_is_no_tree_is_refused():
    """A cluster of a file is clear; and what refuses a mount before it."""
    yield run(MISASKED, SCRIPT, 3, "refused 15 BadVolume 6 12\n")
    yield refused("check", MISASKED, "15 BadVolume 6 12")
    yield done("check", ASKED, "ok nodes 5 links 6 room 19 journal -\n")
    yield run(changed(MISASKED, (7168 + 0x59, b"\0")), SCRIPT, 3, "refused 9 Version 3 0\n")


def volumes_that_cannot_be_written_are_refused():
    """One with a change journal; one whose log is small, or not initialised to its end; the first of these wins, and both come before the rules."""
    yield run(WIDE, SCRIPT, 3, "refused 17 Unbuilt 6\n")
    yield done("check", WIDE, "ok nodes 6 links 7 room 3 journal 0 64\n")
    yield run(ASKED_LOG[256], SCRIPT, 3, "refused 13 LogSmall 256 513\n")
    yield run(ASKED_LOG[512], SCRIPT, 3, "refused 13 LogSmall 512 513\n")
    yield run(UNREADY, SCRIPT, 3, "refused 13 LogSmall 512 513\n")
    yield done("check", UNREADY, "ok nodes 5 links 6 room 19 journal -\n")


def attribute_lists_of_two_pieces_are_refused():
    """By a run alone, behind the rules: a check says yes of the volume, and of one with a single list a run does too."""
    yield run(TWO_LISTS, SCRIPT, 3, "refused 15 BadVolume 4 26\n")
    yield done("check", TWO_LISTS, "ok nodes 5 links 6 room 19 journal -\n")
    yield run(ONE_LIST, SCRIPT, 0, TEXT)


def the_boot_sector_is_kept():
    """By a run alone, behind the rules: the first cluster is marked free, or is a file's. Where it is both, a rule is broken."""
    for image, line, room in [(UNMARKED, "6 0", 20), (FIRST_GIVEN, "5 0", 19)]:
        yield run(image, SCRIPT, 3, f"refused 15 BadVolume {line}\n")
        yield done("check", image, f"ok nodes 5 links 6 room {room} journal -\n")
    yield run(with_records(UNMARKED, IN_FIRST), SCRIPT, 3, "refused 15 BadVolume 6 0\n")
    yield refused("check", with_records(UNMARKED, IN_FIRST), "15 BadVolume 6 0")


def other_clusters_are_refused_in_their_place():
    """Behind the name and the mark of the boot sector and the bytes of a sector, before all other fields."""
    for image in [TINY, WHOLE, changed(TINY, (0x28, b"\0")), changed(ASKED, (0x0D, b"\x01")), changed(ASKED, (0x0D, b"\x01"), (0x30, b"\xff"))]:
        yield run(image, SCRIPT, 3, "refused 2 Geometry 13 1\n")
    yield refused("scan", changed(TINY, (0x28, b"\0")), "2 Geometry 40 0")
    for at, byte, line in [
        (0x0D, 16, "2 Geometry 13 16"),
        (0x0D, 0, "2 Geometry 13 0"),
        (0x0D, 0xF8, "2 Geometry 13 248"),
        (0x0A, 0, "1 NotNtfs 1"),
        (0x1FE, 0, "1 NotNtfs 2"),
        (0x0C, 4, "2 Geometry 11 1024"),
    ]:
        yield run(changed(TINY, (at, bytes([byte]))), SCRIPT, 3, f"refused {line}\n")
    yield run(changed(ASKED, (0x28, bytes(2))), SCRIPT, 3, "refused 2 Geometry 40 0\n")
    yield run(TINY[:300], SCRIPT, 3, "refused 4 Short 1 0\n")


def what_is_no_script_is_refused():
    for script, text in [
        (b"1 wri", "script line 1 rule 1\n"),
        (b"1 list /\n1 \xff\n", "script line 2 rule 2\n"),
        (b"1  list /\n", "script line 1 rule 3\n"),
        (b"01 list /\n", "script line 1 rule 4\n"),
        (b"1 create /a\n", "script line 1 rule 5\n"),
        (b"1 sync now\n", "script line 1 rule 6\n"),
        (b"1 write /f 0\n", "script line 1 rule 6\n"),
        (b"1 fill /f 0 1 00 0\n", "script line 1 rule 6\n"),
        (b"1 truncate f x\n", "script line 1 rule 7\n"),
        (b"1 write /f x 0\n", "script line 1 rule 8\n"),
        (b"1 fill /f 0 x 0\n", "script line 1 rule 8\n"),
        (b"1 truncate /f 4611686018427387904\n", "script line 1 rule 8\n"),
        (b"1 write /f 0 0\n", "script line 1 rule 9\n"),
        (b"1 write /f 0 0g\n", "script line 1 rule 9\n"),
        (b"1 write /f 0 " + b"00" * 65537 + b"\n", "script line 1 rule 9\n"),
        (b"1 fill /f 0 65537 00\n", "script line 1 rule 9\n"),
        (b"1 fill /f 0 1 000\n", "script line 1 rule 9\n"),
        (b"1 stat\n", "script line 1 rule 6\n"),
        (b"1 list a\n", "script line 1 rule 7\n"),
        (b"1 read / 0\n", "script line 1 rule 6\n"),
        (b"1 read a x y\n", "script line 1 rule 7\n"),
        (b"1 read / x 5000\n", "script line 1 rule 8\n"),
        (b"1 read / 4611686018427387904 1\n", "script line 1 rule 8\n"),
        (b"1 read / 0 01\n", "script line 1 rule 8\n"),
        (b"1 read / 0 4097\n", "script line 1 rule 9\n"),
        (b"0  burn\n", "script line 1 rule 3\n"),
        (b"2 list /\n", "script clients 2\n"),
    ]:
        yield run(ASKED, script, 4, text)


def scripts_that_are_too_large_are_refused():
    yield run(ASKED, b"#" * 16_777_217, 4, "script bytes\n")
    yield run(ASKED, b"1 stat /\n" * 16_385, 4, "script commands\n")


TABLES = [
    a_script_looks,
    names_are_found_in_any_case,
    bytes_are_read,
    a_new_volume_is_asked,
    a_volume_that_is_no_tree_is_refused,
    volumes_that_cannot_be_written_are_refused,
    attribute_lists_of_two_pieces_are_refused,
    the_boot_sector_is_kept,
    other_clusters_are_refused_in_their_place,
    what_is_no_script_is_refused,
    scripts_that_are_too_large_are_refused,
]
