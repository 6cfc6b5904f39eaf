"""Logs as a crash of this host could leave them, and those of other hosts, in a small volume.

A file record with another name stands on the disk, and the log says what stood there before, of a transaction that never ended; what is
scanned, checked and dumped must be the volume from before. The other way round, the other name stands in the log alone, of a transaction
that ended. A clean log of another host changes nothing, and one that isn't clean is refused. The log of a volume that mkntfs made, or
that the library of ntfs-3g closed, is all FF.
"""
from logs import PAGE, Log, body_of
from real_peers import RECORD, clusters_of, record_place
from real_volumes import kinds
from volumes import MEBIBYTE, library, put

# A file of `kinds` with one name.
NAMED = 100
FOREIGN = (3, "refused 12 ForeignLog 1048576\n")


def renamed(raw):
    """The record as it stands on the disk, with another first unit in each of its names; its body, and the body with those names."""
    made, body = bytearray(raw), body_of(raw)
    at = int.from_bytes(raw[0x14:0x16], "little")
    while (kind := int.from_bytes(raw[at : at + 4], "little")) != 0xFFFFFFFF:
        if kind == 0x30:
            value = at + int.from_bytes(raw[at + 0x14 : at + 0x16], "little")
            made[value + 0x42] ^= 1
        at += int.from_bytes(raw[at + 4 : at + 8], "little")
    return bytes(made), body, body_of(bytes(made))


class LoggedVolume:
    """A small volume, of which one file record gets other names on the disk or in the log."""

    def __init__(self, count, folder):
        self.count, self.faults = count, []
        self.image = kinds(library(), folder, 4096, 4 * MEBIBYTE, 150)
        self.log, self.place = clusters_of(self.image, 2, 4096), record_place(self.image, NAMED, 4096)
        self.raw = self.image.read_bytes()[self.place : self.place + RECORD]
        self.other, self.old, self.new = renamed(self.raw)

    def answers(self):
        return [self.count.command(self.image, command) for command in ("scan", "check", "dump")]

    def told(self, what, meant, transactions, **restart):
        """With a log of these transactions, each (number, whether it has ended), that give the record its other names, the volume
        answers what is meant."""
        made = Log(len(self.log) * 4096 // PAGE)
        for transaction, has_ended in transactions:
            made.update(transaction, self.place // 512, 1, 0, self.new, self.old)
            if has_ended:
                made.commit(transaction)
        made.put(self.image, self.log, 4096, **restart)
        found = self.answers()
        if found != meant:
            self.faults.append(f"{what}: {[part[:60] for _, part in found]}")


def recoveries(count, folder):
    volume = LoggedVolume(count, folder)
    before = volume.answers()
    put(volume.image, volume.place, volume.other)
    after = volume.answers()
    if before[0] == after[0] or before[1][0] != 0:
        volume.faults.append("no name was changed")
    volume.told("undone", before, [(1, False)])
    put(volume.image, volume.place, volume.raw)
    volume.told("redone", after, [(1, False), (2, True)])
    volume.told("undone where nothing was written", before, [(1, False)])
    volume.told("closed", before, [(1, True)], clean=True)
    volume.told("no client in use", before, [(1, True)], used=False)
    volume.told("clean, of another host", before, [], clean=True, name="NTFS")
    volume.told("of another host", [FOREIGN] * 3, [], name="NTFS", current=1048576)
    volume.told("of version 2.0", [(3, "refused 10 LogVersion 2 0\n")] * 3, [], version=(2, 0))
    put(volume.image, volume.log[0] * 4096, bytes(2 * PAGE))
    if count.command(volume.image, "scan") != (3, "refused 11 NoRestart\n"):
        volume.faults.append("no restart page")
    count.say("logs", volume.faults, f"{len(volume.log)} pages")
