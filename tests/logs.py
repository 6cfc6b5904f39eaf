# Logs of this host, as a crash could leave them, written into images: restart pages, record pages and their entries.
"""The layouts are those of the Linux-NTFS documentation, "$LogFile". A block is given by its first sector and its kind: 0 for a sector, 1 for
a file record, 2 for an index block. Its body has the update sequence undone, with zeros in place of the array."""
import struct

PAGE = 4096
SECTOR = 512
# The first page of the ring, and where entries begin in a page.
RING, ENTRIES = 4, 0x40
OWN = "NTFSHOST"


def protected(page, array, check=1):
    """The page with its update sequence made, whose array stands there."""
    made = bytearray(page)
    struct.pack_into("<H", made, array, check)
    for sector in range(len(page) // SECTOR):
        last = SECTOR * sector + SECTOR - 2
        made[array + 2 + 2 * sector : array + 4 + 2 * sector] = made[last : last + 2]
        struct.pack_into("<H", made, last, check)
    return bytes(made)


def body_of(raw):
    """The body of a file record or an index block as it stands on the disk."""
    array, count = struct.unpack_from("<HH", raw, 4)
    body = bytearray(raw)
    for sector in range(count - 1):
        last = SECTOR * sector + SECTOR - 2
        body[last : last + 2] = raw[array + 2 + 2 * sector : array + 4 + 2 * sector]
    body[array : array + 2 * count] = bytes(2 * count)
    return bytes(body)


class Log:
    """A log of so many pages in its first lap, whose entries are appended one after the other."""

    def __init__(self, pages):
        self.pages, self.bits = pages, (PAGE * pages).bit_length() - 3
        self.page, self.ring, self.last = bytearray(ENTRIES), [], 0
        self.before = {}

    def lsn(self, lap, page, at):
        return (lap << self.bits) + (PAGE * page + at) // 8

    def append(self, transaction, fields, redo=b"", undo=b""):
        """Appends an entry of these eleven fields from 30 (hexadecimal) on, a VCN and an LCN, with its bytes; its LSN."""
        data = b"".join(part + bytes(-len(part) % 8) for part in (redo, undo))
        if len(self.page) + 0x58 + len(data) > PAGE:
            self.seal()
        own, before = self.lsn(1, RING + len(self.ring), len(self.page)), self.before.get(transaction, 0)
        head = struct.pack("<QQQIIIIHHI", own, before, before, 0x28 + len(data), 0, 1, transaction, 0, 0, 0)
        self.page += head + struct.pack("<11HHQQ", *fields[:11], 0, *fields[11:]) + data
        self.before[transaction] = self.last = own
        return own

    def update(self, transaction, first, kind, at, redo, undo):
        behind = 0x28 + len(redo) + -len(redo) % 8
        fields = [8, 8, 0x28, len(redo), behind, len(undo), 0, 1, at, kind, first % 8, 0, first // 8]
        return self.append(transaction, fields, redo, undo)

    def commit(self, transaction):
        return self.append(transaction, [0x1A] + [0] * 12)

    def seal(self):
        """Ends the page that is being filled."""
        page, free = self.page, len(self.page)
        page[0x00:0x40] = bytes(0x40)
        struct.pack_into("<4sHHQIHHHxxxxxxQ", page, 0, b"RCRD", 0x28, 9, self.last, 1, 1, 1, free, self.last)
        self.ring.append(protected(bytes(page) + bytes(PAGE - free), 0x28))
        self.page = bytearray(ENTRIES)

    def restart(self, opens=1, clean=False, used=True, name=OWN, version=(1, 1), current=None):
        """A restart page that names the ring's first page as its oldest place."""
        oldest = self.lsn(1, RING, ENTRIES)
        page = bytearray(PAGE)
        struct.pack_into("<4sHH8xIIHHH", page, 0, b"RSTR", 0x1E, 9, PAGE, PAGE, 0x30, version[1], version[0])
        lists = (0xFFFF, 0) if used else (0, 0xFFFF)
        area = (oldest if current is None else current, 1, *lists, 2 if clean else 0, 64 - self.bits, 0xE0, 0x40, PAGE * self.pages, 0, 0x30, 0x40, opens)
        struct.pack_into("<QHHHHIHHQIHHI", page, 0x30, *area)
        struct.pack_into("<QQHH", page, 0x70, oldest, oldest, 0xFFFF, 0xFFFF)
        struct.pack_into("<I", page, 0x8C, 2 * len(name))
        page[0x90 : 0x90 + 2 * len(name)] = name.encode("utf-16-le")
        return protected(page, 0x1E)

    def put(self, image, clusters, cluster, **restart):
        """Writes the log into an image, whose log has these clusters of so many bytes, in order; a blank page ends it."""
        if len(self.page) > ENTRIES:
            self.seal()
        blank = b"\xff" * PAGE
        whole = {0: self.restart(**restart), 1: blank}
        whole.update({RING + place: page for place, page in enumerate([*self.ring, blank])})
        with open(image, "r+b") as file:
            for number, page in whole.items():
                for at in range(0, PAGE, cluster):
                    file.seek(cluster * clusters[(PAGE * number + at) // cluster])
                    file.write(page[at : at + cluster])
