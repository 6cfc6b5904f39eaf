"""Scans, checks and dumps of an image, compared with what the tools of sleuthkit and of ntfs-3g tell of it.

Each volume that is scanned is checked too: the numbers of nodes and links must be those that the dump prints, and the free clusters
those of `ntfsinfo`. Of the dump the sequence, the number of links and the four times of a record, and the size and the initialised size
of its unnamed data, must be those of `istat`; records are taken by samples where there are many. Where a cluster has eight sectors,
scripts list the directories and ask for the nodes.
"""
from real_peers import free_clusters, peer_names, peer_node, runs_of
from real_printed import program_names, program_tree
from real_scripts import compare_scripts

# From 1601 to 1970, in units of 100 ns.
EPOCH = 116444736000000000


def told(time):
    """A time as istat tells it, which counts the seconds since 1970 in 32 bits."""
    return EPOCH + (time - EPOCH) % 2**64 // 10**7 % 2**32 * 10**7 + time % 10**7


def node_faults(image, nodes, links):
    """What istat tells otherwise of a sample of the nodes."""
    numbers = sorted(nodes)
    step = max(1, len(numbers) // 200)
    sample = {number for place, number in enumerate(numbers) if number < 90 or place % step == 0}
    faults = []
    for number in sorted(sample):
        sequence, kind, size, valid, times = nodes[number]
        times = [told(time) for time in times]
        peer = peer_node(image, number)
        shown = (size, valid) if kind in ("file", "fixed", "opaque") and peer[3] is not None else (peer[3], peer[4])
        if (sequence, links.get(number, 0), times, *shown) != peer:
            faults.append(f"{number} is {(sequence, links.get(number, 0), times, *shown)}, by istat {peer}")
    return faults


def compare_tree(count, what, image):
    """The image is checked, and dumped as ntfsinfo and istat tell of it."""
    (status, line), (dumped, text) = count.command(image, "check"), count.command(image, "dump")
    if status != 0 or dumped != 0:
        return count.say(f"tree of {what}", [f"statuses {status} and {dumped}, {line.strip()}, {text.strip()[-200:]}"], "")
    try:
        nodes, links, number, room = program_tree(text)
        faults = node_faults(image, nodes, links)
    except ValueError as fault:
        return count.say(f"tree of {what}", [str(fault)], "")
    if line != f"ok nodes {len(nodes)} links {number} room {room} journal -\n":
        faults.append(f"the check says {line.strip()}")
    if room != free_clusters(image):
        faults.append(f"the room is {room}, by ntfsinfo {free_clusters(image)}")
    count.say(f"tree of {what}", faults[:3], line.strip())


def compare_names(count, what, image, cluster):
    """The image is scanned with the names that fls prints, and then checked and dumped."""
    status, text = count.command(image, "scan")
    if status != 0:
        return count.say(what, [f"status {status}, {text.strip()[-200:]}"], "")
    try:
        own, peer = program_names(text), peer_names(image)
    except ValueError as fault:
        return count.say(what, [str(fault)], "")
    faults = [f"{word} {sorted(some)[:3]}" for word, some in [
        ("only the program has", set(own) - peer),
        ("only fls has", peer - set(own)),
        ("twice", {name for name in own if own.count(name) > 1} if len(own) != len(set(own)) else set()),
    ] if some]
    count.say(what, faults, f"{len(own)} names, the file table in {runs_of(image, 0, cluster)} runs")
    compare_tree(count, what, image)
    if cluster == 4096:
        compare_scripts(count, what, image, peer)


def compare_refusal(count, what, image, line):
    """A scan and a check refuse the image by this line."""
    for command in ("scan", "check"):
        status, text = count.command(image, command)
        faults = [] if (status, text) == (3, line + "\n") else [f"status {status}, {text.strip()[-200:]}, not {line}"]
        count.say(f"{command}: {what}", faults, line)
