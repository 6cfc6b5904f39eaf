"""What the program does to an image: its writes and syncs in their order, by strace, and the images that a disk could leave between them.

A call is (first byte, bytes) of a write, and None for a sync. A sector of 512 bytes is whole; one that was written since the last sync may hold any of
what was written there since, or what was durable before. Images are given by their sectors that differ from those of the image before: {number: bytes}.
"""
import os
import re
import shutil
from collections import namedtuple

from volumes import run

SECTOR = 512
CALLS = "trace=pwrite64,pwritev,write,lseek,fsync,fdatasync"
# What else the program may ask of an image: nothing that changes it.
HARMLESS = {"openat", "open", "close", "fstat", "newfstatat", "statx", "read", "pread64", "ioctl", "fcntl"}
LINE = re.compile(r"(?:\d+ +)?(\w+)\((\d+)(?:, (.*))?\) += (-?\d+)")

# What a run did: its status, its text and its calls.
Record = namedtuple("Record", "status text calls")


def traced(folder, image, words, script, *options):
    """(status, text, the lines of strace about this image)"""
    asked, report = folder / "asked", folder / "traced"
    asked.write_bytes(script)
    report.unlink(missing_ok=True)
    strace = ["strace", "-f", "-qq", "-e", "signal=none", "-P", image, *options, "-o", report]
    ended = run("sh", "-c", 'exec "$@" <"$0"', asked, *strace, *words)
    return ended.returncode, ended.stdout, report.read_text(errors="replace").splitlines() if report.exists() else None


def cannot_record(folder):
    """Why nothing can be recorded here, in words; None where it can."""
    if not shutil.which("strace"):
        return "strace is missing"
    image = folder / "probe"
    image.write_bytes(b"")
    words = ["sh", "-c", f"echo some >{image}"]
    _, _, lines = traced(folder, image.resolve(), words, b"", "-e", "trace=write")
    return None if lines and "some" in "".join(lines) else "strace can't trace here"


def bytes_of(text):
    """The bytes of a write, of which strace prints each in hexadecimal digits."""
    if '"...' in text:
        raise OSError("strace cut the bytes of a write")
    return b"".join(bytes.fromhex(found.replace("\\x", "")) for found in re.findall(r'"((?:\\x[0-9a-f]{2})*)"', text))


def called(name, rest, result, place):
    """(the call or None where it changes nothing, the place behind it) of a line of strace."""
    if name == "lseek":
        return None, result
    if name in ("fsync", "fdatasync"):
        return (None,), place
    data = bytes_of(rest)[:result]
    if name == "write":
        return ((place, data),), place + len(data)
    return ((int(rest.rsplit(", ", 1)[1]), data),), place


def calls_of(lines):
    """The calls that these lines tell of."""
    calls, places = [], {}
    for line in lines:
        found = LINE.match(line)
        if not found or int(found.group(4)) < 0:
            raise OSError(f"strace says {line[:100]}")
        name, handle, rest, result = found.groups()
        call, places[handle] = called(name, rest or "", int(result), places.get(handle, 0))
        calls += call or ()
    return calls


def recorded(program, folder, image, script, *options):
    """The record of a run of a script on an image."""
    words = [program, image, "run", *options]
    status, text, lines = traced(folder, image, words, script, "-e", CALLS, "-xx", "-s", 1 << 24)
    if lines is None:
        raise OSError("strace has written nothing")
    return Record(status, text.decode("latin-1"), calls_of(lines))


def other_calls(program, folder, image, script):
    """The names of the calls on the image that a record doesn't have, and that may change it."""
    _, _, lines = traced(folder, image, [program, image, "run"], script, "-s", 0)
    names = {re.match(r"(?:\d+ +)?(\w+)\(", line).group(1) for line in lines or ()}
    return sorted(names - HARMLESS - set(CALLS.split("=")[1].split(",")))


def sectors_of(call):
    """(number, bytes) of the sectors of a write."""
    first, data = call
    if first % SECTOR or len(data) % SECTOR:
        raise OSError(f"a write of {len(data)} bytes at {first} isn't of whole sectors")
    return [((first + at) // SECTOR, data[at : at + SECTOR]) for at in range(0, len(data), SECTOR)]


class Disk:
    """What a disk may hold in the midst of a record: the sectors that are durable, and the writes since the last sync."""

    def __init__(self, durable=()):
        self.durable, self.newer = dict(durable), []

    def take(self, call):
        if call is not None:
            return self.newer.append(sectors_of(call))
        for write in self.newer:
            self.durable.update(write)
        self.newer = []

    def written(self):
        """{number: what was written there since the last sync, in order}"""
        values = {}
        for write in self.newer:
            for number, data in write:
                values.setdefault(number, []).append(data)
        return values

    def with_sectors(self, chosen):
        return {**self.durable, **chosen}

    def with_writes(self, is_there):
        """The image that has those of the writes, each whole."""
        chosen = {}
        for write in self.newer:
            if is_there():
                chosen.update(write)
        return self.with_sectors(chosen)

    def newest(self):
        return self.with_writes(lambda: True)


# ---- the images that a disk may leave, each by a choice


def all_durable(disk, chance):
    return disk.with_sectors({})


def all_newest(disk, chance):
    return disk.newest()


def every_second(disk, chance):
    odd = chance.randrange(2)
    return disk.with_sectors({number: values[-1] for number, values in disk.written().items() if number % 2 == odd})


def any_sectors(disk, chance):
    """Sector by sector, none or any of its values; more or fewer of them new."""
    share = chance.choice([0.03, 0.2, 0.5, 0.8, 0.97])
    return disk.with_sectors({number: chance.choice(values) for number, values in disk.written().items() if chance.random() < share})


def any_writes(disk, chance):
    share = chance.choice([0.1, 0.5, 0.9])
    return disk.with_writes(lambda: chance.random() < share)


def torn_front(disk, chance):
    """The writes up to one, of which some sectors stand."""
    if not disk.newer:
        return disk.with_sectors({})
    last = chance.randrange(len(disk.newer))
    chosen = {number: data for write in disk.newer[:last] for number, data in write}
    chosen.update((number, data) for number, data in disk.newer[last] if chance.randrange(2))
    return disk.with_sectors(chosen)


def one_missing(disk, chance):
    """All newest but for one sector, or that one alone."""
    values = disk.written()
    if not values:
        return disk.with_sectors({})
    number = chance.choice(sorted(values))
    if chance.randrange(2):
        return disk.with_sectors({number: values[number][-1]})
    made = disk.newest()
    made.pop(number)
    return {**made, **({number: disk.durable[number]} if number in disk.durable else {})}


CHOICES = [all_durable, all_newest, every_second, any_sectors, any_sectors, any_sectors, any_writes, torn_front, one_missing]


class Laid:
    """An image file into which others are laid, and out of which they are taken again."""

    def __init__(self, image):
        self.path, self.whole, self.sectors = image, image.with_name(image.name + ".whole"), {}
        run("cp", "--sparse=always", image, self.whole)
        self.kept = open(self.whole, "rb", buffering=0)

    def close(self):
        self.kept.close()

    def before(self, number):
        return os.pread(self.kept.fileno(), SECTOR, number * SECTOR)

    def lay(self, sectors):
        """Makes the file the image before with these sectors."""
        with open(self.path, "r+b", buffering=0) as file:
            for number in self.sectors.keys() | sectors.keys():
                if self.sectors.get(number) != sectors.get(number):
                    file.seek(number * SECTOR)
                    file.write(sectors[number] if number in sectors else self.before(number))
        self.sectors = dict(sectors)

    def follow(self, calls):
        """What a run did to the file."""
        for call in calls:
            if call is not None:
                self.sectors.update(sectors_of(call))

    def is_as_laid(self):
        """Whether the file is the image before with the sectors that are laid; these are taken out."""
        with open(self.path, "rb", buffering=0) as file:
            stand = all(os.pread(file.fileno(), SECTOR, number * SECTOR) == data for number, data in self.sectors.items())
        self.lay({})
        return stand and run("cmp", self.path, self.whole).returncode == 0
