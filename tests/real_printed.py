"""What the program prints of an image, read back.

A line of a scan is `NUMBER SEQUENCE PARENT SEQUENCE NAME`. Names are joined to paths by the numbers of the parents, and the sequence of a
parent must be that of its record. The root's own name `.` is the program's alone.
"""
import re


def units_of(name):
    """The text of a printed name."""
    units = re.sub(r"\\u([0-9A-F]{4})", lambda found: chr(int(found.group(1), 16)), name)
    return units.encode("utf-16-le", "surrogatepass").decode("utf-16-le")


def program_links(text):
    """(number, sequence, parent, sequence, name) of each line of a scan, or an error in words."""
    lines = [line.split(" ") for line in text.splitlines()]
    if not lines or lines[-1] != ["links", str(len(lines) - 1)]:
        raise ValueError("the last line doesn't count the others")
    links = [(int(n), int(s), int(p), int(q), units_of(name)) for n, s, p, q, name in lines[:-1]]
    if links != sorted(links, key=lambda link: (link[0], link[2], link[4].encode("utf-16-be"))):
        raise ValueError("the lines aren't sorted")
    if (5, 5, 5, 5, ".") not in links:
        raise ValueError("the root has no line")
    return links


def program_names(text):
    """(record number, path) of each line but the root's, or an error in words."""
    links = program_links(text)
    sequences = {n: s for n, s, _, _, _ in links}
    folders = {n: (p, name) for n, _, p, _, name in links}
    names = []
    for number, _, parent, sequence, name in links:
        if sequences.get(parent) != sequence:
            raise ValueError(f"the parent of {number} has another sequence")
        while parent != 5:
            parent, before = folders[parent]
            name = f"{before}/{name}"
        if (number, name) != (5, "."):
            names.append((number, name))
    return names


def program_tree(text):
    """({number: (sequence, kind, size, valid, times)}, {number: how many links}, the number of links, the room) of a dump"""
    nodes, links, rest = {}, {}, []
    for line in text.splitlines():
        words = line.split(" ")
        if words[0] == "node":
            number, sequence, kind, size, valid, _, *times = words[1:]
            nodes[int(number)] = int(sequence), kind, int(size), int(valid), [int(time) for time in times]
        elif words[0] == "link":
            links[int(words[1])] = links.get(int(words[1]), 0) + 1
        else:
            rest.append(line)
    if len(rest) != 2 or rest[0] != "journal -" or not rest[1].startswith("room "):
        raise ValueError(f"the last lines are {rest}")
    return nodes, links, sum(links.values()), int(rest[1][5:])
