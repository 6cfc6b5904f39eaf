"""Change journals in a small volume.

What `journal` prints must be what was written, record by record, and what `usnjls` of sleuthkit reads, where that is there; records of
version 3 among them are passed over by both. `journal` refuses one whose data isn't flagged sparse, which breaks the ninth rule for a
check, and one that lacks `$Max`, which a check passes as a volume without a journal. A record whose length, USN or name's place is changed
breaks the ninth rule at its offset.
"""
import shutil

from journals import limits, peer_records, sample
from real_peers import free_clusters
from volumes import MEBIBYTE, Volume, blank, library, put, run

# The first file of such a volume.
JOURNAL_FILE = 64
# Where the first record keeps its length, its USN and its name's place.
CHANGED = (1, 0x18, 0x3A)
# Whether the data are flagged sparse, whether $Max is there, the refusal of `journal`, and how the line of a check begins.
OUT_OF_SHAPE = [(False, True, "14 NoJournal 3", "refused 15 BadVolume 9 0"), (True, False, "14 NoJournal 3", "ok ")]


def journaled(calls, folder, journal, sparse=True, whole=True):
    """A volume with this change journal and a sparse front; without the flag sparse, or without $Max."""
    image, path = blank(folder, f"journal-{journal.first}", 4096, 8 * MEBIBYTE), "/$Extend/$UsnJrnl"
    with Volume(calls, image) as volume:
        done = [volume.make("/$Extend", "$UsnJrnl"), volume.without_data(path), volume.stream(path, "$J", b"")]
        # usnjls reads the first stream that the record has.
        done.append(volume.write_stream(path, "$J", journal.bytes, journal.first if sparse else 0))
        done.append(not whole or volume.stream(path, "$Max", limits(journal.first)))
    if not all(done):
        raise OSError(f"the library can't make step {done.index(False)} of {image}")
    return image


def journal_faults(count, image, journal):
    """What the program prints otherwise of a volume with this change journal, and what usnjls reads otherwise."""
    faults, places = [], f"{journal.first} {journal.next()}"
    if count.command(image, "journal") != (0, journal.text()):
        faults.append("the records aren't those that were written")
    if shutil.which("usnjls") and peer_records(run("usnjls", image).stdout.decode()) != journal.told:
        faults.append("usnjls reads other records")
    (checked, line), (dumped, text) = count.command(image, "check"), count.command(image, "dump")
    if checked != 0 or not line.endswith(f" room {free_clusters(image)} journal {places}\n"):
        faults.append(f"the check says {line.strip()}")
    reach = journal.next() + -journal.next() % 4096
    if dumped != 0 or f"\njournal {places} {reach}\nroom " not in text:
        faults.append(f"the dump ends {text[-100:].strip()}")
    return faults


def changed_faults(count, image, journal):
    """How the journal is answered otherwise where a byte of its first record is changed."""
    whole, faults = image.read_bytes(), []
    place, line = whole.index(journal.bytes[:64]), f"refused 15 BadVolume 9 {journal.first}"
    for change in CHANGED:
        put(image, place + change, bytes([whole[place + change] ^ 1]))
        found = count.command(image, "journal")[1].strip()
        if found != line:
            faults.append(f"byte {change} changed: {found}")
        put(image, place, whole[place : place + 64])
    return faults


def shape_faults(count, folder):
    faults = []
    for sparse, complete, journal_line, check_line in OUT_OF_SHAPE:
        image = journaled(library(), folder, sample(65536, 40), sparse, complete)
        found, checked = count.command(image, "journal"), count.command(image, "check")
        if found != (3, f"refused {journal_line}\n") or not checked[1].startswith(check_line):
            faults.append(f"sparse {sparse}, $Max {complete}: {found[1].strip()}, {checked[1].strip()}")
    return faults


def journals(count, folder):
    if not shutil.which("usnjls"):
        count.skip("what usnjls reads of change journals")
    for first in (65536, 1 << 20):
        journal = sample(first, 300)
        image = journaled(library(), folder, journal)
        count.say(f"a change journal from {first} on", journal_faults(count, image, journal), f"{len(journal.lines)} records")
    faults = [*changed_faults(count, image, journal), *shape_faults(count, folder)]
    count.say("change journals at fault", faults, "each refused by its line")
