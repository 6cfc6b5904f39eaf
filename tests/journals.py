# Change journals, written into volumes by the library of ntfs-3g, and the lines that the program prints of them.
"""The layouts are those of Microsoft's references, "USN_RECORD_V2" and "USN_RECORD_V3", and of the Linux-NTFS documentation, "$UsnJrnl"."""
import struct

PAGE = 4096
# The reasons of records, by the words that usnjls prints.
REASONS = {
    "DATA_OVERWRITE": 0x1,
    "DATA_EXTEND": 0x2,
    "DATA_TRUNCATION": 0x4,
    "FILE_CREATE": 0x100,
    "FILE_DELETE": 0x200,
    "RENAME_OLD_NAME": 0x1000,
    "RENAME_NEW_NAME": 0x2000,
    "BASIC_INFO_CHANGE": 0x8000,
    "HARD_LINK_CHANGE": 0x10000,
    "CLOSE": 0x80000000,
}
MIXED = [0x100, 0x102, 0x80000102, 0x1000, 0x2000, 0x80002000, 0x80000200, 0x8000, 0x10000, 0x5]
# From 1601 to 1970, in units of 100 ns.
EPOCH = 116444736000000000


def record(usn, number, sequence, parent, parent_sequence, reason, time, name, attributes=0x20):
    """A record of version 2."""
    units = name.encode("utf-16-le")
    head = struct.pack("<HHQQQqIIIIHH", 2, 0, number | sequence << 48, parent | parent_sequence << 48, usn, time, reason, 0, 0, attributes, len(units), 60)
    size = 4 + len(head) + len(units)
    return struct.pack("<I", size + -size % 8) + head + units + bytes(-size % 8)


def later(usn, name):
    """A record of version 3, whose references have 16 bytes each."""
    units = name.encode("utf-16-le")
    head = struct.pack("<HH16s16sqqIIIIHH", 3, 0, b"\1" * 16, b"\2" * 16, usn, 0, 0x100, 0, 0, 0x20, len(units), 76)
    size = 4 + len(head) + len(units)
    return struct.pack("<I", size + -size % 8) + head + units + bytes(-size % 8)


def printed(name):
    """A name as the program prints it."""
    units = name.encode("utf-16-le")
    return "".join(chr(unit) if 0x21 <= unit <= 0x7E and unit != 0x5C else f"\\u{unit:04X}" for (unit,) in struct.iter_unpack("<H", units))


class Journal:
    """The bytes of a journal from its first one on, and its records of version 2: the lines that the program prints, and what
    usnjls tells of them. No record crosses a page."""

    def __init__(self, first):
        self.first, self.bytes, self.lines, self.told = first, b"", [], []

    def place(self, size):
        """Where the next record of so many bytes begins; what is left of a page that is too short for it are zeros."""
        left = PAGE - len(self.bytes) % PAGE
        if size > left:
            self.bytes += bytes(left)
        return self.first + len(self.bytes)

    def add(self, number, sequence, parent, parent_sequence, reason, time, name):
        usn = self.place(len(record(0, number, sequence, parent, parent_sequence, reason, time, name)))
        self.bytes += record(usn, number, sequence, parent, parent_sequence, reason, time, name)
        self.lines.append(f"{usn} {number} {sequence} {parent} {parent_sequence} {reason:08x} 00000020 {time} {printed(name)}")
        self.told.append((number, sequence, parent, parent_sequence, reason, time, name))

    def add_later(self, name):
        self.bytes += later(self.place(len(later(0, name))), name)

    def next(self):
        return self.first + len(self.bytes)

    def text(self):
        return "".join(f"{line}\n" for line in [*self.lines, f"journal {self.first} {self.next()}"])


def limits(first, journal_id=7):
    """The value of $Max: the greatest size, the delta, the journal's id and the least valid USN."""
    return struct.pack("<QQQQ", 1 << 25, 1 << 22, journal_id, first)


def sample(first, count):
    """A journal of so many records of version 2, with some of version 3 among them."""
    made = Journal(first)
    for place in range(count):
        name = ["f", "a name with spaces", "é漢字.txt", "x" * 255, "\U0001f600 end"][place % 5] + str(place) * (place % 5 != 3)
        made.add(64 + place % 40, 1 + place % 3, 5, 5, MIXED[place % len(MIXED)], 134200000000000000 + 1234567 * place, name)
        if place % 11 == 10:
            made.add_later(f"later {place}")
    return made


def peer_records(text):
    """What usnjls tells of each record, by its lines `N-S<tab>P-Q<tab>SECONDS.NANOSECONDS<tab>REASONS<tab>NAME`."""
    told = []
    for line in text.splitlines():
        of, within, time, words, name = line.split("\t")
        seconds, fraction = (int(part) for part in time.split("."))
        reason = sum(REASONS[word] for word in words.split())
        told.append((*map(int, of.split("-")), *map(int, within.split("-")), reason, EPOCH + 10**7 * seconds + fraction // 100, name))
    return told
