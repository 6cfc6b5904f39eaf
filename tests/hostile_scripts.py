"""A script of every command, and the grammar of what it may be told (docs/COMMANDS.md)."""
import re

NAME = r"(?:[!-.0-\[\]-~]|\\u[0-9A-F]{4})+"
NUMBER = r"(?:0|[1-9]\d*)"
LOST = rf"bad-name|not-found {NUMBER}|not-directory {NUMBER}"
REFUSED = rf"{LOST}|is-directory|system|fixed (?:reparse|encrypted|compressed|sparse|list)"
CHANGED = rf"{REFUSED}|too-long {NUMBER}|no-space {NUMBER} {NUMBER}|record-full {NUMBER}"
REPLIES = {
    "list": rf"names {NUMBER}(?: {NAME})*|{LOST}",
    "stat": rf"stat {NUMBER} {NUMBER} (?:directory|system|opaque|fixed|file)(?: {NUMBER}){{7}}|{LOST}",
    "read": rf"bytes (?:-|(?:[0-9a-f]{{2}})+)|{REFUSED}",
    "write": rf"wrote {NUMBER}|{CHANGED}",
    "fill": rf"wrote {NUMBER}|{CHANGED}",
    "truncate": rf"size {NUMBER}|{CHANGED}",
    "sync": rf"synced {NUMBER}",
}
# Each refusal of a check and of a run, with how many values it has.
VALUES = {1: ("NotNtfs", 1), 2: ("Geometry", 2), 3: ("VolumeLarge", 1), 4: ("Short", 2), 5: ("BadFixup", 1), 6: ("BadRecord", 2), 7: ("MftList", 0)}
VALUES.update({8: ("MftLarge", 1), 9: ("Version", 2), 10: ("LogVersion", 2), 11: ("NoRestart", 0), 12: ("ForeignLog", 1), 15: ("BadVolume", 2)})
OF_RUNS = {13: ("LogSmall", 2), 17: ("Unbuilt", 1)}
# What refuses a run where a check says yes.
BEYOND_CHECKS = {2, 12, 13, 15, 17}
CHECKED = re.compile(rf"ok nodes {NUMBER} links {NUMBER} room {NUMBER} journal (?:-|{NUMBER} {NUMBER})\n")


# What is asked first, and of each file, by its path and a byte behind its front; and behind all files what is refused, and a large file that gets small.
FIRST = ["list /", "list /q", "stat /q", "stat /", "stat /$MFT", "stat /q/q", "read /$Boot 0 4"]
OF_FILES = ["stat {0}", "list {0}", "read {0} 0 4096", "write {0} 3 " + "a1" * 40, "read {0} 3 40", "fill {0} {1} 700 5a", "read {0} {1} 700", "stat {0}"]
OF_FILES += ["truncate {0} 300", "sync", "fill {0} 5000 9000 c3", "read {0} 5000 4096", "truncate {0} 70000", "read {0} 69000 4096", "truncate {0} 4097"]
LAST = ["write / 0 00", "write /$MFT 0 00", "fill /q 0 1 00", "truncate {0}/q 0", "truncate {0} 0", "truncate {0} 99999999", "fill {0} 0 65536 11", "sync"]
LAST += ["write {0} 9 -", "truncate {0} 20", "stat {0}"]


def commands(folders, paths):
    """A script on these directories and files: the changes of each file stand behind its stat."""
    made = FIRST + [f"list {path}" for path in folders]
    for place, path in enumerate(paths):
        made += [command.format(path, 900 + 4000 * place) for command in OF_FILES]
    return made + [command.format(paths[-1]) for command in LAST]


def text_of(made):
    return "".join(f"1 {command}\n" for command in made).encode()


def refusal_of(text, kinds):
    """The number of the refusal whose line this is; None where it is none."""
    words = text[:-1].split(" ") if text.endswith("\n") else []
    if len(words) < 3 or words[0] != "refused" or not all(re.fullmatch(NUMBER, word) for word in [words[1], *words[3:]]):
        return None
    return int(words[1]) if kinds.get(int(words[1])) == (words[2], len(words) - 3) else None


def shown(command, reply):
    """What a read must say behind the change before it, of which this is the reply; None where it says nothing."""
    words = command.split(" ")
    if words[0] == "write" and reply == f"wrote {len(words[3]) // 2}":
        return f"bytes {words[3]}"
    if words[0] == "fill" and reply == f"wrote {words[3]}":
        return f"bytes {words[4] * min(int(words[3]), 4096)}"
    return None


def fault_of_text(made, text):
    """(the replies or None, the line that the grammar doesn't have or that isn't what was written before it, or None)"""
    lines = text.split("\n")
    if len(lines) != len(made) + 1 or lines[-1]:
        return None, f"{len(lines) - 1} lines for {len(made)} commands"
    replies = []
    for place, (command, line) in enumerate(zip(made, lines), 1):
        front, reply = f"1 {place} {place} 0 ", line.split(" ", 4)[-1]
        if not line.startswith(front) or not re.fullmatch(REPLIES[command.split(" ")[0]], reply):
            return None, f"{command[:40]}: {line[:80]!r}"
        wanted = shown(made[place - 2], replies[-1]) if command.startswith("read") and replies else None
        if wanted not in (None, reply):
            return None, f"{command[:40]} behind {made[place - 2][:40]}: {line[:80]!r}"
        replies.append(reply)
    return replies, None


def touched(made, replies):
    """The numbers of the files that were changed, each by the stat of its path before."""
    numbers, found = {}, set()
    for command, reply in zip(made, replies):
        kind, path = (command.split(" ") + [""])[:2]
        if kind == "stat" and reply.startswith("stat "):
            numbers[path] = int(reply.split(" ")[1])
        elif kind in ("write", "fill", "truncate") and reply.startswith(("wrote ", "size ")):
            found.add(numbers[path])
    return found
