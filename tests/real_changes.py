"""Hostile changes of volumes: by a seed in many ways, and those of a table.

Bytes of a small volume are changed by a seeded generator, and `check`, `dump`, `scan` and `journal` run in turn: each must end within a
second with the status 0 or 3. The same is done with a volume whose log isn't clean, of which the log is changed too, and with one that has
a change journal, of which the journal is changed too.

Of some thousands of such changes of a volume that the program made, with an empty log and with one that isn't clean, those that told most
stand in a table (`telling.py`), each with the line of the refusal that it must get.
"""
import random
import subprocess

from journals import sample
from logs import PAGE, RING, Log, body_of
from real_journals import JOURNAL_FILE, journaled
from real_peers import RECORD, clusters_of, record_place
from real_volumes import kinds
from telling import PLAIN, SECTORS, UNCLEAN, leave_open
from volumes import MEBIBYTE, library, put

MUTANTS = 2000
EDGES = [b"\0", b"\xff", b"\x80", b"\0\0\0\0", b"\xff\xff\xff\xff", b"\0\x80", b"\xff\x7f", b"\xff\xff\xff\xff\xff\xff\xff\x7f"]
COMMANDS = ["check", "dump", "scan", "journal"]


def told_sectors(image, cluster):
    """The sectors that tell of the volume: those of more than one byte value, but of the log, the tables and the descriptors."""
    passed = {number for file in (2, 4, 10) for number in clusters_of(image, file, cluster)}
    passed |= set(clusters_of(image, 9, cluster, name="$SDS"))
    held = image.read_bytes()
    sectors = range(0, len(held), 512)
    return [place for place in sectors if place // cluster not in passed and len(set(held[place : place + 512])) > 1]


def changes(seed, sectors):
    """One to four changes, each (place, bytes); the last words of sectors, which tell torn blocks, are changed seldom."""
    chance = random.Random(seed)
    made = []
    for _ in range(chance.randrange(1, 5)):
        sector = chance.choice(sectors)
        at = chance.randrange(510 if chance.random() < 0.95 else 512)
        new = chance.choice(EDGES) if chance.random() < 0.4 else bytes([chance.randrange(256)])
        made.append((sector + at, new[: 512 - at]))
    return made


def ended_well(program, image, command):
    """Why the program didn't end as it should, or None."""
    try:
        ended = subprocess.run([str(program), str(image), command], capture_output=True, timeout=1)
    except subprocess.TimeoutExpired:
        return "no end within a second"
    return None if ended.returncode in (0, 3) else f"status {ended.returncode}"


def changed_ways(count, what, image, sectors, ways):
    """The volume with some bytes of these sectors changed, and then put back, in so many ways."""
    whole, faults = image.read_bytes(), []
    with open(image, "r+b", buffering=0) as file:
        for seed in range(ways):
            made = changes(seed, sectors)
            for place, new in made:
                file.seek(place)
                file.write(new)
            command = COMMANDS[seed % len(COMMANDS)]
            fault = ended_well(count.program, image, command)
            if fault:
                faults.append(f"{command} of mutant {seed}: {fault}")
            for place, new in made:
                file.seek(place)
                file.write(whole[place : place + len(new)])
    if image.read_bytes() != whole:
        faults.append("the volume isn't as before")
    count.say(f"{ways} mutants of a volume with {what}", faults[:5], f"{len(sectors)} sectors")


def unclean(image):
    """Writes an unclean log into an image, of updates of file records, index blocks and sectors; the sectors of its pages."""
    log, table = clusters_of(image, 2, 4096), clusters_of(image, 0, 4096)
    whole, made = image.read_bytes(), Log(len(log))
    for transaction, number in enumerate(range(64, 80), 1):
        place = table[number * RECORD // 4096] * 4096 + number * RECORD % 4096
        body = body_of(whole[place : place + RECORD])
        made.update(transaction, place // 512, 1, 0, body, body)
        made.update(transaction, 8 * log[-1] + number % 8, 0, 8, b"new", b"old")
        if number % 3:
            made.commit(transaction)
    made.put(image, log, 4096)
    pages = [0, *range(RING, RING + len(made.ring))]
    return [4096 * log[page] + at for page in pages for at in range(0, PAGE, 512)]


def mutants(count, folder):
    image = kinds(library(), folder, 4096, 4 * MEBIBYTE, 150)
    sectors = told_sectors(image, 4096)
    changed_ways(count, "an emptied log", image, sectors, MUTANTS)
    changed_ways(count, "an unclean log", image, unclean(image) * 4 + sectors, MUTANTS)
    image = journaled(library(), folder, sample(65536, 60))
    record, pages = record_place(image, JOURNAL_FILE, 4096), clusters_of(image, JOURNAL_FILE, 4096, name="$J")
    parts = [record, record + 512, *(4096 * page + at for page in pages if page for at in range(0, 4096, 512))]
    changed_ways(count, "a change journal", image, parts * 4 + told_sectors(image, 4096), MUTANTS)


def telling(count, folder):
    """The changes that told most, of a volume that the program made, each with the line that is answered."""
    image = folder / "told"
    count.format(image, SECTORS)
    for what, table, prepare in (("an empty log", PLAIN, None), ("a log that isn't clean", UNCLEAN, leave_open)):
        if prepare is not None:
            prepare(image)
        whole, faults = image.read_bytes(), []
        for place, new, command, line in table:
            data = bytes.fromhex(new)
            put(image, place, data)
            found = count.command(image, command)
            put(image, place, whole[place : place + len(data)])
            if found != (3, line + "\n"):
                faults.append(f"{new} at {place}, {command}: {found[1].strip()[:80]}, not {line}")
        count.say(f"{len(table)} changes of a volume with {what}", faults, "each refused by its line")
    image.unlink()
