"""What the lines of a refusal, of a script that is none and of a status mean, as tables.

A refusal's line is `refused NUMBER NAME VALUES`. `meaning` and `look` may hold the values by their names in braces; `rules` says what each
number means that the value `key` can have.
"""
from collections import namedtuple

# The values are names, parted by blanks.
Refusal = namedtuple("Refusal", "name values meaning look key rules", defaults=(None, {}))

BOOT_RULES = {
    1: "the bytes 3 to 10 aren't `NTFS` and four blanks",
    2: "the last two bytes of the sector aren't 55 AA (hexadecimal)",
}

BOOT_FIELDS = {
    11: "the bytes of a sector, which have to be 512",
    13: "the sectors of a cluster, which have to be 1, 2, 4 or 8",
    40: "the sectors of the volume, which have to be a cluster at least",
    48: "the first cluster of `$MFT`, which has to lie in the volume",
    56: "the first cluster of `$MFTMirr`, which has to lie in the volume",
    64: "the size of a file record, which has to be 1,024 bytes",
    68: "the size of an index block, which has to be 4,096 bytes",
}

RECORD_RULES = {
    1: "its first attribute doesn't begin at a multiple of 8 inside the record's used bytes",
    2: "it has more used bytes than allocated ones, or these aren't 1,024",
    3: "the length of an attribute is less than its header's, no multiple of 8, or reaches past the used bytes",
    4: "the types of its attributes fall",
    5: "there is no end mark after its attributes",
    6: "a name, a value or the mapping pairs of an attribute lie outside it",
    7: "the mapping pairs of an attribute can't be read, or don't have the clusters that its header says",
    8: "its standard information or a file name lies in clusters, or is out of shape",
    9: "a record of the file table (record 0), or an index block of the directory, lies in two runs",
    10: "its attribute list has an entry that is cut, or that names a record which doesn't hold the attribute",
}

JOURNAL_REASONS = {
    1: "`$Extend` has no `$UsnJrnl`: the journal was never made, or it was deleted",
    2: "the file of the journal has an attribute list, which isn't read for this",
    3: "one of the streams `$Max` and `$J` is missing or out of shape",
}

VOLUME_RULES = {
    1: "the names of file {NUMBER}: a file needs a long name, a directory exactly one, and each short name its long one",
    2: "the directory of a name of file {NUMBER}: it isn't in use, no directory, or has another sequence",
    3: "the index of directory {NUMBER}: it can't be read, or isn't the sorted list of the names in that directory",
    4: "the streams of file {NUMBER}: their pieces, places, sizes or whole blocks, at 0 also where the file table begins, at 6 a short bitmap",
    5: "cluster {NUMBER} belongs to two streams, or to one twice",
    6: "cluster {NUMBER} belongs to a stream, and `$Bitmap` says that it is free",
    7: "record {NUMBER} is in use, and the bitmap of the file table says that it is free",
    8: "the way up from directory {NUMBER} doesn't reach the root",
    9: "the change journal: the record at byte {NUMBER} of `$J`, or at 0 also one of its streams",
}

UNBUILT_RULES = {
    6: "a change journal: the name `$UsnJrnl` in `$Extend` leads to a file",
}

# What to look at where one file record is at fault.
RECORD_LOOK = "`istat IMAGE {NUMBER}` of sleuthkit shows the record; a copy of the image from before the damage, or a repair by Windows, helps."

REFUSALS = {
    1: Refusal(
        "NotNtfs",
        "RULE",
        "The image doesn't begin with the boot sector of an NTFS volume.",
        "The first 512 bytes, `xxd -l 512 IMAGE`. Of a disk with partitions `mmls IMAGE` tells where the volume begins, and `dd` cuts it out.",
        "RULE",
        BOOT_RULES,
    ),
    2: Refusal(
        "Geometry",
        "FIELD VALUE",
        "The boot sector's field at byte {FIELD} is {VALUE}, which isn't taken.",
        "`fsstat IMAGE`. Sectors of 4,096 bytes and clusters above that are lawful NTFS, and aren't read here; else the boot sector is damaged.",
        "FIELD",
        BOOT_FIELDS,
    ),
    3: Refusal(
        "VolumeLarge",
        "CLUSTERS",
        "The volume has {CLUSTERS} clusters, and at most 16,777,216 are taken.",
        "The size of the image, and the number of sectors at byte 40 of the boot sector.",
    ),
    4: Refusal(
        "Short",
        "SECTORS DEVICE",
        "{SECTORS} sectors of 512 bytes are needed, and the image has {DEVICE}.",
        "The size of the image: a copy that was cut off, an empty file, or one that is too small for a format.",
    ),
    5: Refusal(
        "BadFixup",
        "NUMBER",
        "File record {NUMBER} is torn: its sectors weren't written together, or its update sequence is out of shape.",
        RECORD_LOOK,
    ),
    6: Refusal("BadRecord", "NUMBER RULE", "File record {NUMBER} breaks a rule of its own.", RECORD_LOOK, "RULE", RECORD_RULES),
    7: Refusal(
        "MftList",
        "",
        "Record 0, the file table's own, has an attribute list.",
        "`istat IMAGE 0`: the file table lies in so many runs that one record can't say where. Such a volume isn't read here.",
    ),
    8: Refusal(
        "MftLarge",
        "RECORDS",
        "The file table has {RECORDS} records, and at most 1,048,576 are taken.",
        "`istat IMAGE 0` shows its size; a volume of so many files isn't read here.",
    ),
    9: Refusal(
        "Version",
        "MAJOR MINOR",
        "The volume says that it is NTFS {MAJOR}.{MINOR}, and 3.1 is needed; 0.0 is said where it says nothing.",
        "`fsstat IMAGE` and `istat IMAGE 3`, the record of `$Volume`; a scan reads the volume's names all the same.",
    ),
    10: Refusal(
        "LogVersion",
        "MAJOR MINOR",
        "The log (`$LogFile`) is of version {MAJOR}.{MINOR}, and only those of version 1 are read.",
        "Whether the volume was left unclean by a newer Windows (fast start-up writes version 2): there it is to be shut down whole.",
    ),
    11: Refusal(
        "NoRestart",
        "",
        "The log (`$LogFile`) has no whole restart page, and wasn't emptied either.",
        "The first 8,192 bytes of record 2, `icat IMAGE 2 | xxd -l 8192`. A host that repairs the log, or empties it as ntfs-3g does, helps.",
    ),
    12: Refusal(
        "ForeignLog",
        "LSN",
        "The log isn't clean and not this host's, or has an entry, a block or a lap that no log of this host has, at the LSN {LSN}.",
        "Which host used the volume last. Mounted and unmounted there, the log is clean, and then it is read here; work on a copy.",
    ),
    13: Refusal(
        "LogSmall",
        "PAGES NEEDED",
        "The log (`$LogFile`) has {PAGES} pages that are initialised, and a volume that scripts run on needs {NEEDED}.",
        "`istat IMAGE 2` shows its size. The other commands don't need a larger log.",
    ),
    14: Refusal(
        "NoJournal",
        "WHY",
        "The volume has no change journal that can be read.",
        "`fls IMAGE 11` shows the names in `$Extend`. The other commands don't need a journal.",
        "WHY",
        JOURNAL_REASONS,
    ),
    15: Refusal(
        "BadVolume",
        "RULE NUMBER",
        "The volume stands for no file tree: this is the first rule that it breaks, at the least number {NUMBER}.",
        "For a file, `istat IMAGE {NUMBER}`; for a cluster, `ifind -d {NUMBER} IMAGE`. A scan asks none of these rules. Repair a copy alone.",
        "RULE",
        VOLUME_RULES,
    ),
    16: Refusal(
        "HasJournal",
        "",
        "The volume has a change journal, so that none can be made.",
        "`fls IMAGE 11` shows the names in `$Extend`. The journal that is there can be read.",
    ),
    17: Refusal(
        "Unbuilt",
        "RULE",
        "Scripts don't run on volumes of this kind yet.",
        "What the rule names. The commands scan, check, dump and journal take such volumes too.",
        "RULE",
        UNBUILT_RULES,
    ),
}

SCRIPT_RULES = {
    1: "the line has no line feed at its end",
    2: "the line isn't UTF-8",
    3: "a word is empty: two blanks stand together, or one at an end",
    4: "the client is no number above 0 that is written without a zero before it",
    5: "there is no such command, or none at all",
    6: "the command has more or fewer words than it takes",
    7: "the path doesn't begin with `/`, has an empty part, or a name that can't be",
    8: "a number isn't `0` or digits without a zero before them, or is 2^62 or more",
    9: "a read asks for more than 4,096 bytes",
}

# The line behind `script`, with the names of its values; what it means and what to look at.
SCRIPTS = {
    "bytes": ("The script has more than 16,777,216 bytes.", "Its size; it can be run in parts."),
    "line NUMBER rule RULE": ("Line {NUMBER} of the script is no command.", "That line, `sed -n {NUMBER}p SCRIPT`."),
    "clients CLIENT": ("A line is for the client {CLIENT}, and there is only the client 1.", "The first word of each line."),
    "commands": ("The script has more than 16,384 commands.", "How many lines it has; it can be run in parts."),
}

# What each status means and what to look at.
STATUSES = {
    0: ("The command was done, and its whole text was written.", "The text."),
    2: ("The words are no line of a command.", "The usage line: an image, one command and its options, and no other command is there."),
    3: ("The image was refused.", "The line that begins `refused`, by this script."),
    4: ("The script breaks its grammar or a limit.", "The line that begins `script`, by this script."),
    5: ("A read of the standard input failed.", "Where the script comes from."),
    6: ("Memory was wanting; nothing or a front of the text was written.", "How much memory is free, and limits like `ulimit -v`."),
    7: ("The text couldn't be written whole.", "Where it goes: a full disk, or a reader that ended early."),
    8: ("The image couldn't be opened, read or written.", "Whether the path is right, who may read it, and whether the disk below it fails."),
}
