# Small texts for the scripts of tools/, what is written of them, and what the program's sources say of their tables.
import re
import sys

from journals import REASONS, sample
from telling import PLAIN, UNCLEAN
from volumes import TOP

sys.path.insert(0, str(TOP / "tools"))
from refusals import REFUSALS, SCRIPT_RULES, SCRIPTS, STATUSES, VOLUME_RULES
from texts import EPOCH, TICKS, date

# ---- texts that are right

DUMP = f"""node 5 5 directory 0 0 0 0 0 0 0
node 24 7 directory 0 0 0 {EPOCH + TICKS} {EPOCH + 2 * TICKS} {EPOCH + 3 * TICKS} {EPOCH + 4 * TICKS}
node 25 1 file 512 100 1 {EPOCH - 1} 134200000000000000 {EPOCH + 19999999} 0
node 26 2 opaque 7 7 0 1 2 3 4
node 27 1 directory 0 0 0 0 0 0 {2**63}
link 5 5 long .
link 24 5 long d
link 25 5 long a|b%41%zz
link 25 24 long \\u00E9\\uD83D\\uDE00\\u000A\\u005C\\uD800
link 26 27 long "f,"
link 27 24 long e\\u0020
link 25 24 short E~1
journal 0 64 512
room 38
"""

BODY = """0|/d|24|d/d---------|0|0|0|4|2|3|1
0|/a%7Cb%2541%zz|25|r/r---------|0|0|512|0|1775526400|1|-1
0|/d/é\U0001f600^\\^|25|r/r---------|0|0|512|0|1775526400|1|-1
0|/d/e /"f,"|26|r/r---------|0|0|7|-11644473600|-11644473600|-11644473600|-11644473600
0|/d/e |27|d/d---------|0|0|0|910692730085|0|0|0
"""

TABLE = """path,number,sequence,kind,size,valid,clusters,created,modified,changed,read
/d,24,7,directory,0,0,0,1970-01-01T00:00:01.0000000Z,1970-01-01T00:00:02.0000000Z,1970-01-01T00:00:03.0000000Z,1970-01-01T00:00:04.0000000Z
/a|b%41%zz,25,1,file,512,100,1,1969-12-31T23:59:59.9999999Z,2026-04-07T01:46:40.0000000Z,1970-01-01T00:00:01.9999999Z,
/d/é\U0001f600\\u000A\\\\uD800,25,1,file,512,100,1,1969-12-31T23:59:59.9999999Z,2026-04-07T01:46:40.0000000Z,1970-01-01T00:00:01.9999999Z,
"/d/e /""f,\""",26,2,opaque,7,7,0,1601-01-01T00:00:00.0000001Z,1601-01-01T00:00:00.0000002Z,1601-01-01T00:00:00.0000003Z,1601-01-01T00:00:00.0000004Z
/d/e ,27,1,directory,0,0,0,,,,30828-09-14T02:48:05.4775808Z
"""

JOURNAL = """0 26 1 25 1 80000100 00000020 1002 f
64 26 1 25 2 00003008 00000004 -1 \\u0020\\uDC00
128 27 65535 5 5 00000000 80000000 0 ~
journal 0 192
"""

JOURNAL_TABLE = """usn,number,sequence,parent,parent_sequence,reasons,attributes,time,name
0,26,1,25,1,FILE_CREATE|CLOSE,ARCHIVE,1601-01-01T00:00:00.0001002Z,f
64,26,1,25,2,RENAME_OLD_NAME|RENAME_NEW_NAME|0x00000008,SYSTEM,1600-12-31T23:59:59.9999999Z, \\uDC00
128,27,65535,5,5,,0x80000000,,~
"""

EXPLAINED = """refused 6 BadRecord 70 10
  means    File record 70 breaks a rule of its own.
  rule     10: its attribute list has an entry that is cut, or that names a record which doesn't hold the attribute
  look at  `istat IMAGE 70` of sleuthkit shows the record; a copy of the image from before the damage, or a repair by Windows, helps.
status 7
  means    The text couldn't be written whole.
  look at  Where it goes: a full disk, or a reader that ended early.
"""


def sampled():
    """A journal of 300 records as the program prints it, and its rows by the words of another reader."""
    journal, rows = sample(65536, 300), []
    for line, told in zip(journal.lines, journal.told):
        number, sequence, parent, parent_sequence, reason, time, name = told
        words = "|".join(word for word, bit in sorted(REASONS.items(), key=lambda item: item[1]) if reason & bit)
        rows.append(f"{line.split(' ')[0]},{number},{sequence},{parent},{parent_sequence},{words},ARCHIVE,{date(time)},{name}\n")
    return journal.text(), JOURNAL_TABLE.splitlines(True)[0] + "".join(rows)


# The script, its words, the text and what is written.
DONE = [
    ("bodyfile", [], DUMP, BODY),
    ("bodyfile", ["--csv"], DUMP, TABLE),
    ("bodyfile", [], "journal -\nroom 0\n", ""),
    ("journal2csv", [], JOURNAL, JOURNAL_TABLE),
    ("journal2csv", [], "journal 0 0\n", JOURNAL_TABLE.splitlines(True)[0]),
    ("journal2csv", [], *sampled()),
    ("explain", [], "refused 6 BadRecord 70 10\nstatus 7\n", EXPLAINED),
    ("explain", [], "", ""),
]


# ---- texts at fault


def changed(text, old, new):
    """The text with this part changed, which it has once."""
    if text.count(old) != 1:
        raise ValueError(f"{old!r} stands {text.count(old)} times")
    return text.replace(old, new).encode()


def faults_of_dumps():
    """The text, the line at fault and a part of the error."""
    yield b"", 1, "cut off"
    yield DUMP[:-8].encode(), 14, "ends with `room R`"
    yield DUMP[:-1].encode(), 14, "doesn't end"
    yield DUMP[:40].encode(), 2, "cut off"
    yield DUMP.encode() + b"room 38\n", 15, "doesn't stand here"
    yield changed(DUMP, "journal 0 64 512\n", ""), 13, "doesn't stand here"
    yield changed(DUMP, "link 5 5 long .\n", "room 38\n"), 6, "doesn't stand here"
    yield changed(DUMP, "link 5 5 long .\n", "link 5 5 short .\n"), 7, "doesn't stand here"
    yield changed(DUMP, "room 38\n", "journal -\n"), 14, "doesn't stand here"
    yield changed(DUMP, "node 26 2", "node 25 2"), 4, "a second node 25"
    yield changed(DUMP, "26 2 opaque", "26 2 socket"), 4, "no line of a dump"
    yield changed(DUMP, "link 24 5 long d", "link 24 5 long d e"), 7, "no line of a dump"
    yield changed(DUMP, "link 24 5 long d", "link 24 5 long d/e"), 7, "no line of a dump"
    yield changed(DUMP, "link 24 5 long d", "link 24 5 long \\u00e9"), 7, "no line of a dump"
    yield changed(DUMP, "link 24 5 long d", "link 24 5 long \u00e9"), 7, "ASCII"
    yield changed(DUMP, "link 26 27 long", "link 28 27 long"), 10, "no node for the file 28"
    yield changed(DUMP, "link 26 27 long", "link 26 28 long"), 10, "no node for the directory 28"
    yield changed(DUMP, "link 26 27 long", "link 26 25 long"), 10, "file 25 is no directory"
    yield changed(DUMP, "link 26 27 long", "link 24 27 long"), 10, "a second long name of the directory 24"
    yield changed(DUMP, "link 24 5 long d", "link 24 27 long d"), 7, "not at the root"
    yield changed(DUMP, "link 24 5 long d\n", ""), 8, "not at the root"
    yield b"refused 15 BadVolume 3 5\n", 1, "tools/explain"


def faults_of_journals():
    yield b"", 1, "cut off"
    yield JOURNAL[:-1].encode(), 4, "cut off"
    yield changed(JOURNAL, "journal 0 192\n", ""), 4, "cut off"
    yield JOURNAL.encode() + b"journal 0 192\n", 5, "behind the last one"
    yield changed(JOURNAL, "80000100", "8000010"), 1, "no line of a journal"
    yield changed(JOURNAL, "80000100", "8000010G"), 1, "no line of a journal"
    yield changed(JOURNAL, " ~", " "), 3, "no line of a journal"
    yield b"refused 14 NoJournal 1\n", 1, "tools/explain"


def faults_of_lines():
    for line in ("13 X", "6 BadRecord 70", "6 BadRecord 70 11", "6 BadRecord x 10", "6 BadVolume 70 10", "7", "7 MftList 1"):
        yield f"status 0\nrefused {line}\n".encode(), 2, f"refused {line}"
    for line in ("script", "script line 3", "script line 3 rule 10", "script bytes 3", "status", "status 1", "status 3 4", "", "0 1 5 5 $MFT"):
        yield f"status 0\n{line}\n".encode(), 2, line
    yield b"status 0\nstatus 3", 2, "cut off"


# The script, the text, the line at fault and a part of the error.
FAULTS = [
    *(("bodyfile", *fault) for fault in faults_of_dumps()),
    *(("journal2csv", *fault) for fault in faults_of_journals()),
    *(("explain", *fault) for fault in faults_of_lines()),
]

# ---- the tables of refusals

HOST = TOP / "crates" / "ntfs_host" / "src"


def tables():
    """What the program prints by its sources, and the same by the tables: refusals with how many values, scripts, statuses and rules."""
    text = (HOST / "text.rt").read_text()
    printed = {(int(number), name, values.count("{")) for number, name, values in re.findall(r'"refused (\d+) (\w+)((?: \{\w+\})*)\\n"', text)}
    yield "refusals", {(number, refusal.name, len(refusal.values.split())) for number, refusal in REFUSALS.items()}, printed
    scripts = {re.sub(r"\{\w+\}", "N", line) for line in re.findall(r'"script ([^"]*)\\n"', text)}
    yield "scripts", {re.sub("[A-Z]+", "N", form) for form in SCRIPTS}, scripts
    statuses = {int(number) for number in re.findall(r"^pub const \w+: u8 = (\d+);", (HOST / "status.rt").read_text(), re.M)}
    yield "statuses", set(STATUSES), statuses
    rules = (TOP / "crates" / "volume_state" / "specs" / "Rules.antt").read_text()
    yield "rules of a volume", set(VOLUME_RULES), {int(number) for number in re.findall(r"broken_or (\d+) ", rules)}
    fields = (TOP / "crates" / "boot_sector" / "src" / "boot.rt").read_text()
    kept = {int(at, 16) for call in re.findall(r"\bkeep\((.*?)\)[?;\n]", fields, re.S) for at in re.findall(r"\b0x([0-9A-F]{2}),", call)}
    yield "fields of a boot sector", set(REFUSALS[2].rules), kept


def lines():
    """Lines that are explained: of each refusal with each of its rules, of scripts and of statuses, and those of the table of changes."""
    for number, refusal in REFUSALS.items():
        names = refusal.values.split()
        for rule in refusal.rules or [0]:
            values = [str(rule) if name == refusal.key else "7" for name in names]
            yield " ".join(["refused", str(number), refusal.name, *values])
    for form in SCRIPTS:
        for rule in SCRIPT_RULES if "RULE" in form else [1]:
            yield "script " + re.sub("[A-Z]+", str(rule), form)
    yield from (f"status {number}" for number in STATUSES)
    yield from sorted({line for *_, line in PLAIN + UNCLEAN})


def kinds():
    """How many kinds of lines there are."""
    return len(REFUSALS) + len(SCRIPTS) + len(STATUSES)


# ---- many names

# A time in 2026.
START = 134200000000000000


def large(names):
    """The script, its words and a text of so many names: directories in directories, files with names that are escaped in part."""
    nodes, links, records, parent = ["node 5 5 directory 0 0 0 0 0 0 0"], ["link 5 5 long ."], [], 5
    for place in range(names):
        number, kind, name, time = 64 + place, "file" if place % 100 else "directory", f"{'a' * (place % 60)}\\u0020\\u00E9{place}", START + place
        nodes.append(f"node {number} 1 {kind} {place} {place} 1 {START} {START + 1} {START + 2} {time}")
        links.append(f"link {number} {parent} long {name}")
        records.append(f"{64 * place} {place} 1 5 5 80000102 00000020 {time} {name}")
        if place % 100 == 0:
            parent = number if place % 500 else 5
    dump = "\n".join([*nodes, *links, "journal -", "room 1", ""])
    journal = "\n".join([*records, f"journal 0 {64 * names}", ""])
    return [("bodyfile", [], dump), ("bodyfile", ["--csv"], dump), ("journal2csv", [], journal)]
