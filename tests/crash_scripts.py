"""Scripts of one client with what they are told: a model in memory has the bytes of each file behind each command.

Behind each change stands a `stat` of its file, whose reply says the times and clusters that the file has from there on. A volume is looked at by a script
of `list`, `stat` and `read`, and by a check; what these say behind k commands is made of the model, and of those stats.
"""
import hashlib
import random
from collections import namedtuple

from real_writes import command_on, written

PIECE = 4096

# A state: the bytes of the files and the words of their stats, by their paths.
State = namedtuple("State", "files stats")
# A command: its words, the reply that is meant or None for a stat, the file that it changes or None, and what the files hold behind it.
Turn = namedtuple("Turn", "asked reply changes files")


class Script:
    """Commands on some files, one behind the other."""

    def __init__(self, files):
        self.files, self.turns = dict(files), []

    def add(self, asked, reply, changes=None, data=None):
        if changes is not None:
            self.files[changes] = data
        self.turns.append(Turn(asked, reply, changes, dict(self.files)))
        if changes is not None:
            self.turns.append(Turn(f"stat {changes}", None, None, self.turns[-1].files))

    def write(self, path, offset, piece):
        self.add(f"write {path} {offset} {piece.hex()}", f"wrote {len(piece)}", path, written(self.files[path], offset, piece))

    def fill(self, path, offset, count, byte):
        self.add(f"fill {path} {offset} {count} {byte:02x}", f"wrote {count}", path, written(self.files[path], offset, bytes([byte]) * count))

    def truncate(self, path, size):
        self.add(f"truncate {path} {size}", f"size {size}", path, self.files[path][:size].ljust(size, b"\0"))

    def sync(self):
        self.add("sync", f"synced {len(self.turns)}")

    def any(self, chance, most):
        """A command that is chosen, on a file that has at most so many bytes before."""
        path = chance.choice(sorted(self.files))
        if len(self.files[path]) > most:
            return self.truncate(path, chance.randrange(most))
        asked, reply, data = command_on(path, self.files, chance)
        self.add(asked, reply, None if asked.startswith("read") else path, data)

    def text(self, count=None):
        return "".join(f"1 {turn.asked}\n" for turn in self.turns[:count]).encode()


def replies_of(text):
    """The replies of a run's text; None where a line isn't of its form."""
    lines = [line.split(" ", 4) for line in text.splitlines()]
    if any(len(words) != 5 or words[:4] != ["1", str(place), str(place), "0"] for place, words in enumerate(lines, 1)):
        return None
    return [words[4] for words in lines]


def states_of(script, start, text):
    """(the states behind 0, 1, .. commands or None, why the text isn't as meant or None)"""
    replies = replies_of(text)
    if replies is None or len(replies) != len(script.turns):
        return None, f"{text.count(chr(10))} lines, the last {text[-80:]!r}"
    states, stats = [start], dict(start.stats)
    for place, (turn, reply) in enumerate(zip(script.turns, replies), 1):
        if turn.reply not in (None, reply):
            return None, f"turn {place}, {turn.asked[:60]}: {reply[:80]}, not {turn.reply[:80]}"
        if turn.changes is not None:
            stats[turn.changes] = replies[place].split(" ")
            if stats[turn.changes][5] != str(len(turn.files[turn.changes])):
                return None, f"turn {place + 1}: {replies[place]}, of {len(turn.files[turn.changes])} bytes"
        states.append(State(turn.files, dict(stats)))
    return states, None


class View:
    """How a volume is looked at: its directories are listed, and its files asked for and read, up to the greatest of these sizes."""

    def __init__(self, folders, states):
        self.folders, self.paths = folders, sorted(states[0].files)
        self.sizes = {path: max(len(state.files[path]) for state in states) for path in self.paths}

    def places(self, path):
        return range(0, self.sizes[path] + 1, PIECE)

    def script(self):
        asked = [f"list {path}" for path in self.folders] + [f"stat {path}" for path in self.paths]
        asked += [f"read {path} {place} {PIECE}" for path in self.paths for place in self.places(path)]
        return "".join(f"1 {command}\n" for command in asked).encode()

    def text(self, lists, state):
        """What it is told in this state, of directories with these replies to their lists."""
        told = [*lists, *(" ".join(state.stats[path]) for path in self.paths)]
        pieces = ((state.files[path], place) for path in self.paths for place in self.places(path))
        told += [f"bytes {data[place : place + PIECE].hex() or '-'}" for data, place in pieces]
        return "".join(f"1 {place} {place} 0 {reply}\n" for place, reply in enumerate(told, 1))


def digest(*texts):
    return hashlib.sha256("".join(texts).encode("latin-1")).digest()


# ---- the scripts


def growing(files):
    """Files grow, leave their records for clusters, and get gaps; a small one stays in its record."""
    small, large = sorted(files, key=lambda path: len(files[path]))[:2]
    made = Script(files)
    made.write(small, 1, b"AB")
    made.sync()
    for size in (40, 200, 480, 700, 900):
        made.fill(small, size - 30, 30, size % 251)
        made.write(large, size * 9, bytes([size % 256]) * 100)
    made.sync()
    made.write(large, 20_000, b"gap" * 40)
    made.fill(small, 5000, 9000, 0x11)
    made.truncate(small, 16_384)
    made.fill(large, 4090, 12, 0x22)
    made.sync()
    made.write(small, 0, b"front" * 700)
    made.fill(large, 30_000, 8192, 0x33)
    made.sync()
    made.write(large, 39_000, b"end")
    return made


def cutting(files):
    """Files are cut to nothing and to other sizes, and clusters go from one to the other."""
    made, names = Script(files), sorted(files)
    for turn, size in enumerate([0, 30_000, 1, 12_289, 600, 0, 4096, 20_000, 8191, 0, 700, 8192]):
        one, other = names[turn % len(names)], names[(turn + 1) % len(names)]
        made.truncate(one, size)
        made.fill(other, 0, 5000 + 900 * turn, turn + 1)
        if turn % 3 == 1:
            made.sync()
    made.truncate(names[0], 0)
    made.fill(names[1], 100, 20_000, 0x5A)
    return made


def lapping(files, fills=26):
    """Pieces of 64 KiB, each logged with what they replace: the log of 513 pages is filled twice."""
    made, path = Script(files), max(files, key=lambda path: len(files[path]))
    other = min(files, key=lambda path: len(files[path]))
    for turn in range(fills):
        made.fill(path, turn % 3 * 20_000, 65_536, turn + 1)
        if turn % 8 == 5:
            made.fill(other, turn, 600, turn)
        if turn % 11 == 7:
            made.sync()
    return made


def random_script(files, seed, count=50, syncs=0.1, most=60_000):
    """Commands that a seed chooses, and a cut behind them."""
    made, chance = Script(files), random.Random(seed)
    while len(made.turns) < count:
        if chance.random() < syncs:
            made.sync()
        else:
            made.any(chance, most)
    made.truncate(min(files), 7)
    return made


def following(files, chance):
    """What the next session does to a volume that a crash has left: two changes."""
    made = Script(files)
    for _ in range(2):
        path = chance.choice(sorted(files))
        if chance.randrange(3):
            made.fill(path, chance.randrange(len(made.files[path]) + 100), chance.choice([10, 900, 6000]), chance.randrange(256))
        else:
            made.truncate(path, chance.randrange(len(made.files[path]) + 900))
    return made
