# Rows of runs of scripts that change a volume: replies, what a second run and a check find behind them, and volumes that can't be changed yet.
from images import ASKED, ASKED_LOG, MISASKED, ODD_LOG, WIDE, WRITABLE, changed
from row import IMAGE, Row, done, refused, run

# What stands in a file of a directory, and in one that has a cluster; a number in a reply's time is that of its turn.
LONG, FILE = b"/d/Long", b"/f"


def script(*commands):
    """The text of a script of one client."""
    return b"".join(b"1 " + command + b"\n" for command in commands)


def text(*replies):
    """The lines of these replies, one a command."""
    return "".join(f"1 {turn} {turn} 0 {reply}\n" for turn, reply in enumerate(replies, 1))


def files_are_changed():
    """One whose bytes stand in its record, and one that gets a second cluster; a run behind it, a check and a dump find what was left."""
    commands = [
        b"write /d/Long 1 4142",
        b"read /d/Long 0 10",
        b"sync",
        b"truncate /d/long~1 3",
        b"read /d/Long 0 10",
        b"fill /f 4094 4 5a",
        b"stat /f",
        b"read /f 4090 20",
        b"sync",
        b"write /F 4096 -",
    ]
    replies = [
        "wrote 2",
        "bytes 6841426c6f",
        "synced 2",
        "size 3",
        "bytes 684142",
        "wrote 4",
        "stat 25 1 file 1 4098 2 1 6 6 4",
        "bytes 000000005a5a5a5a",
        "synced 8",
        "wrote 0",
    ]
    yield run(WRITABLE, script(*commands), 0, text(*replies))
    yield run(None, script(b"read /d/Long 0 10", b"stat /d/Long", b"stat /f", b"read /f 4090 20"), 0, text("bytes 684142", "stat 26 1 file 1 3 0 1 4 4 4", replies[6], replies[7]))
    yield done("check", None, "ok nodes 5 links 6 room 87 journal -\n")
    yield run(None, script(b"truncate /f 0", b"sync", b"stat /f"), 0, text("size 0", "synced 1", "stat 25 1 file 1 0 0 1 1 1 4"))
    yield done("check", None, "ok nodes 5 links 6 room 89 journal -\n")


def times_are_those_of_turns():
    yield Row(WRITABLE, (IMAGE, "run", "--time", "1000"), (0,), text("wrote 1", "stat 26 1 file 1 5 0 1 1001 1001 4"), script(b"write /d/Long 0 00", b"stat /d/Long"))


def a_gap_is_zeros():
    """Behind the bytes of a file up to the offset of a write, and behind its end where it grows."""
    commands = [b"write /d/Long 8 01", b"read /d/Long 0 20", b"truncate /d/Long 12", b"read /d/Long 0 20"]
    yield run(WRITABLE, script(*commands), 0, text("wrote 1", "bytes 68656c6c6f00000001", "size 12", "bytes 68656c6c6f00000001000000"))
    commands = [b"truncate /f 1", b"write /f 5000 ff", b"read /f 0 4096", b"read /f 4990 20", b"stat /f"]
    yield run(WRITABLE, script(*commands), 0, text("size 1", "wrote 1", "bytes " + "00" * 4096, "bytes " + "00" * 10 + "ff", "stat 25 1 file 1 5001 2 1 2 2 4"))


def changes_are_refused():
    """By the tree, by how far a file may grow in one command, and where there is no room; the file stays as it was."""
    commands = [
        b"write / 0 00",
        b"write /d 0 00",
        b"write /$Extend 0 00",
        b"fill /q 0 1 00",
        b"truncate /f/x 0",
        b"write /f 70000 00",
        b"truncate /f 69633",
        b"stat /f",
        b"fill /f 4096 65536 00",
        b"stat /f",
        b"fill /f 69632 65536 00",
        b"stat /f",
    ]
    still = "stat 25 1 file 1 69632 17 1 9 9 4"
    wanted = ["is-directory"] * 3 + ["not-found 1", "not-directory 1", "too-long 70001", "too-long 69633", "stat 25 1 file 1 4096 1 1 2 3 4", "wrote 65536", still]

    def is_told(found):
        replies = [line.split(" ", 4)[4] for line in found.splitlines()]
        return replies[:10] == wanted and replies[10].startswith("no-space 72 ") and replies[11:] == [still]

    yield run(WRITABLE, script(*commands), 0, is_told)
    yield done("check", None, "ok nodes 5 links 6 room 72 journal -\n")


def a_sync_alone_opens_a_session():
    """The log is marked clean behind it, and nothing else changes."""
    yield run(WRITABLE, script(b"sync"), 0, text("synced 0"))
    yield run(None, script(b"sync", b"sync"), 0, text("synced 0", "synced 1"))
    yield done("check", None, "ok nodes 5 links 6 room 88 journal -\n")


def a_page_that_is_not_whole_is_none_of_the_log():
    yield run(ODD_LOG, script(b"write /f 0 00", b"sync", b"read /f 0 2"), 0, text("wrote 1", "synced 1", "bytes 0000"))
    yield done("check", None, "ok nodes 5 links 6 room 87 journal -\n")


def a_script_that_looks_writes_nothing():
    yield Row(WRITABLE, (IMAGE, "run"), (0,), text("bytes 68656c6c6f", "names 4 $Extend . d f"), script(b"read /d/Long 0 5", b"list /"), lambda image: image == WRITABLE)
    yield Row(WRITABLE, (IMAGE, "run"), (0,), "", b"# nothing\n", lambda image: image == WRITABLE)


def what_refuses_a_look_refuses_a_change():
    for image, line in [(WIDE, "17 Unbuilt 6"), (ASKED_LOG[256], "13 LogSmall 256 513"), (MISASKED, "15 BadVolume 6 12"), (changed(ASKED, (0x0D, b"\x01")), "2 Geometry 13 1")]:
        for asked in [b"sync", b"write /f 0 00"]:
            yield Row(image, (IMAGE, "run"), (3,), f"refused {line}\n", script(asked), lambda left, image=image: left == image)


def volumes_that_cannot_be_changed_yet():
    """Where the bits of the clusters stand in their record, a script may look, and no more; the image stays."""
    yield run(ASKED, script(b"stat /"), 0, text("stat 5 5 directory 1 0 0 0 0 0 0"))
    for asked in [b"sync", b"write /f 0 00", b"fill /f 0 1 00", b"truncate /f 1"]:
        yield Row(ASKED, (IMAGE, "run"), (3,), "refused 17 Unbuilt 8\n", script(b"stat /", asked), lambda image: image == ASKED)


def a_new_volume_takes_a_session():
    """A format's volume has no file to be changed; a session is opened and closed on it."""
    yield done("format", bytes(512 * 4681), "formatted 585 18\n")
    yield run(None, script(b"sync", b"write /$MFT 0 00", b"list /$Extend", b"sync"), 0, text("synced 0", "system", "names 0", "synced 3"))
    yield done("check", None, "ok nodes 12 links 12 room 18 journal -\n")


TABLES = [
    files_are_changed,
    times_are_those_of_turns,
    a_gap_is_zeros,
    changes_are_refused,
    a_sync_alone_opens_a_session,
    a_page_that_is_not_whole_is_none_of_the_log,
    a_script_that_looks_writes_nothing,
    what_refuses_a_look_refuses_a_change,
    volumes_that_cannot_be_changed_yet,
    a_new_volume_takes_a_session,
]
