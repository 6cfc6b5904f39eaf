# Hostile changes of a volume that the program made: of some thousands the ones that told most, each with what is answered.
"""The volume is that of `format --seed=7 --time=134200000000000000` on 4,537 sectors; its file table begins at cluster 4 and its log at
cluster 52. A change is the place of a byte, the bytes that stand there then as hexadecimal digits, a command, and the line of its refusal."""
from logs import Log, body_of

SECTORS = 4537
RECORD, CLUSTER = 1024, 4096
TABLE, LOG, LOG_PAGES = 4, 52, 513

PLAIN = [
    (9, "61", "dump", "refused 1 NotNtfs 1"),
    (11, "89", "scan", "refused 2 Geometry 11 649"),
    (45, "ff", "journal", "refused 3 VolumeLarge 35046933135927"),
    (77828, "80", "journal", "refused 5 BadFixup 60"),
    (16414, "80", "scan", "refused 6 BadRecord 0 2"),
    (17736, "ff", "dump", "refused 6 BadRecord 1 7"),
    (19624, "ab", "check", "refused 6 BadRecord 3 6"),
    (20637, "1e", "journal", "refused 6 BadRecord 4 3"),
    (20538, "ff", "check", "refused 6 BadRecord 4 4"),
    (74770, "ffffffffffffff7f", "dump", "refused 6 BadRecord 57 1"),
    (23624, "00", "journal", "refused 6 BadRecord 7 8"),
    (16684, "ffffffffffffff7f", "dump", "refused 8 MftLarge 2097151"),
    (19488, "ffffffffffffff7f", "check", "refused 9 Version 0 0"),
    (18693, "ffffffff", "check", "refused 11 NoRestart"),
    (18751, "5a", "dump", "refused 12 ForeignLog 0"),
    (9456, "00000000", "journal", "refused 14 NoJournal 1"),
    (34838, "df", "check", "refused 15 BadVolume 1 18"),
    (18615, "ffffffff", "dump", "refused 15 BadVolume 2 2"),
    (19699, "9e", "dump", "refused 15 BadVolume 3 5"),
    (16771, "ffffffff", "check", "refused 15 BadVolume 4 0"),
    (17738, "00", "dump", "refused 15 BadVolume 5 0"),
]

# The same with the log of `leave_open`.
UNCLEAN = [
    (4, "bf", "dump", "refused 1 NotNtfs 1"),
    (45, "ff", "journal", "refused 3 VolumeLarge 35046933135927"),
    (59396, "5b", "scan", "refused 5 BadFixup 42"),
    (279724, "c0", "scan", "refused 6 BadRecord 12 1"),
    (279875, "5c", "check", "refused 6 BadRecord 12 6"),
    (242868, "f2", "dump", "refused 6 BadRecord 3 2"),
    (250363, "74", "scan", "refused 6 BadRecord 5 7"),
    (258257, "e4", "scan", "refused 6 BadRecord 7 4"),
    (262454, "0080", "check", "refused 6 BadRecord 8 3"),
    (267666, "00000000", "scan", "refused 6 BadRecord 9 8"),
    (230861, "ffffffffffffff7f", "journal", "refused 8 MftLarge 18014397435740224"),
    (230704, "ffffffffffffff7f", "check", "refused 9 Version 0 0"),
    (239818, "2e", "scan", "refused 12 ForeignLog 527635"),
    (269622, "ffffffffffffff7f", "journal", "refused 14 NoJournal 1"),
    (233802, "0080", "dump", "refused 15 BadVolume 2 1"),
    (243084, "ffffffff", "check", "refused 15 BadVolume 3 5"),
    (258507, "ab", "check", "refused 15 BadVolume 4 7"),
    (231656, "35", "dump", "refused 15 BadVolume 6 68"),
]


def leave_open(image):
    """Writes a log that isn't clean into the volume: updates of the records 0 to 15 by what stands there, and of sectors of the log's last
    cluster; two of three transactions have ended."""
    whole, made, log = image.read_bytes(), Log(LOG_PAGES), [LOG + page for page in range(LOG_PAGES)]
    for number in range(16):
        place = TABLE * CLUSTER + RECORD * number
        body = body_of(whole[place : place + RECORD])
        made.update(number + 1, place // 512, 1, 0, body, body)
        made.update(number + 1, 8 * log[-1] + number % 8, 0, 8, b"new", b"old")
        if number % 3:
            made.commit(number + 1)
    made.put(image, log, CLUSTER)
