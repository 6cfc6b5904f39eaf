"""Scripts that look at a volume, compared with what fls tells of its directories and the program's dump of its nodes.

Each directory is listed, and files are asked for by their paths: all, or a sample where there are many.
"""
import re
import struct
import subprocess

from real_printed import units_of

# The most commands of each of the two sorts.
MOST = 4000


def paths_of(text):
    """{number: the path that its first name leads to, as a script has it} of a scan."""
    lines = [line.split(" ") for line in text.splitlines()[:-1]]
    above = {}
    for number, _, parent, _, name in lines:
        above.setdefault(int(number), (int(parent), name))
    paths = {5: ""}
    for number in above:
        parts, at = [], number
        while at != 5:
            at, name = above[at]
            parts.append(name)
        paths[number] = "".join(f"/{part}" for part in reversed(parts))
    return paths


def replies(program, image, commands):
    """The reply of each command, in words."""
    script = "".join(f"1 {command}\n" for command in commands)
    ended = subprocess.run([program, image, "run"], input=script.encode(), capture_output=True)
    lines = ended.stdout.decode().splitlines()
    if ended.returncode != 0 or len(lines) != len(commands):
        raise ValueError(f"status {ended.returncode}, {ended.stdout[-200:]}")
    return [line.split(" ")[4:] for line in lines]


def log_of(image):
    """How many pages the log has by istat, how many of them are initialised, and how many a session that writes needs by the volume's clusters of eight
    sectors."""
    text = subprocess.run(["istat", image, "2"], capture_output=True).stdout.decode()
    size, initialised = map(int, re.search(r"\(128-\d+\).*Non-Resident +size: (\d+) +init_size: (\d+)", text).groups())
    with open(image, "rb") as file:
        clusters = struct.unpack_from("<Q", file.read(512), 0x28)[0] // 8
    sectors = -(-clusters // 4096)
    return size // 4096, initialised // 4096, 512 - -sectors // 3


def small_log(image):
    """The line by which scripts are refused on a volume whose log is too small; None where it is large enough."""
    pages, whole, needed = log_of(image)
    needed = max(needed, pages)
    return f"refused 13 LogSmall {whole} {needed}" if whole < needed else None


def nodes_of(text):
    """{number: what a stat tells of the node, in words} of a dump."""
    nodes, links = {}, {}
    for line in text.splitlines():
        words = line.split(" ")
        if words[0] == "node":
            nodes[words[1]] = words[1:]
        elif words[0] == "link" and words[3] == "long":
            links[words[1]] = links.get(words[1], 0) + 1
    return {
        int(number): ["stat", number, sequence, kind, str(links.get(number, 0)), size, clusters, *times]
        for number, (_, sequence, kind, size, _, clusters, *times) in nodes.items()
    }


def compare_scripts(count, what, image, peer):
    """Directories have the names that fls prints, of which `peer` has record numbers and paths; and nodes are those of the dump."""
    line = small_log(image)
    if line is not None:
        ended = subprocess.run([count.program, image, "run"], input=b"1 stat /\n", capture_output=True)
        told = ended.returncode, ended.stdout.decode()
        return count.say(f"scripts on {what}", [] if told == (3, line + "\n") else [f"{told}, not {line}"], line)
    (_, scanned), (_, dumped) = count.command(image, "scan"), count.command(image, "dump")
    paths, nodes = paths_of(scanned), nodes_of(dumped)
    children = {}
    for _, path in peer | {(5, ".")}:
        folder, _, name = path.rpartition("/")
        children.setdefault(f"/{folder}" if folder else "", set()).add(name)
    folders = [path for number, path in sorted(paths.items()) if nodes.get(number, ["", "", "", ""])[3] == "directory" or number == 5][:MOST]
    files = sorted(number for number in paths if number in nodes)
    files = files[:: max(1, len(files) // MOST + 1)]
    try:
        told = replies(count.program, image, [f"list {path or '/'}" for path in folders] + [f"stat {paths[number] or '/'}" for number in files])
    except ValueError as fault:
        return count.say(f"scripts on {what}", [str(fault)], "")
    faults = []
    for path, reply in zip(folders, told):
        names = [units_of(name) for name in reply[2:]]
        meant = children.get("/".join(units_of(part) for part in path.split("/")), set())
        if reply[0] != "names" or int(reply[1]) != len(names) or set(names) != meant or len(set(names)) != len(names):
            faults.append(f"{path or '/'} has {sorted(names)[:3]}, by fls {sorted(meant)[:3]}")
    for number, reply in zip(files, told[len(folders):]):
        if reply != nodes[number]:
            faults.append(f"{paths[number]} is {reply}, by the dump {nodes[number]}")
    count.say(f"scripts on {what}", faults[:3], f"{len(folders)} directories listed, {len(files)} paths asked")
