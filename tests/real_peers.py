"""What the tools of sleuthkit and of ntfs-3g tell of an image.

A line of `fls -r -p` is `KIND NUMBER-TYPE-ID:<tab>PATH`, with `:STREAM` behind the path of a named stream. Lines with a `*` are of
deleted names, and the line of kind V is fls's own. Of the rest the record number and the path are taken.
"""
import datetime
import re

from volumes import run

RECORD = 1024
TIMES = ["Created", "File Modified", "MFT Modified", "Accessed"]


def free_clusters(image):
    text = run("ntfsinfo", "-f", "-m", image).stdout.decode(errors="replace")
    return int(re.search(r"Free Clusters: (\d+)", text).group(1))


def clusters_of(image, number, cluster, stream="$DATA", name="N/A"):
    """The clusters of a stream of a record up to its size, by istat: numbers under the line of its type and name. istat
    prints the clusters past the size as 0."""
    text = run("istat", image, number).stdout.decode(errors="replace")
    head = rf"^Type: {re.escape(stream)} \(\d+-\d+\)   Name: {re.escape(name)} .* size: (\d+).*\n((?:[\d ]+\n)*)"
    found = re.search(head, text, re.M)
    return [int(word) for word in found.group(2).split()[: -(-int(found.group(1)) // cluster)]] if found else []


def record_place(image, number, cluster):
    """Where a file record stands, in bytes."""
    at = number * RECORD
    return clusters_of(image, 0, cluster)[at // cluster] * cluster + at % cluster


def runs_of(image, number, cluster):
    clusters = clusters_of(image, number, cluster)
    return 1 + sum(1 for one, other in zip(clusters, clusters[1:]) if other != one + 1)


def is_cut(clusters, each):
    """One of the blocks of so many clusters lies in two places."""
    blocks = [clusters[place : place + each] for place in range(0, len(clusters), each)]
    return any(other != one + 1 for block in blocks for one, other in zip(block, block[1:]))


def cut_record(image, cluster):
    """The least number of the file table or a directory that has a file record or an index block in two places, or None."""
    listed = run("fls", "-r", "-p", "-D", image).stdout.decode()
    numbers = {int(found) for found in re.findall(r"^d/d (\d+)", listed, re.M)} | {5}
    if is_cut(clusters_of(image, 0, cluster), RECORD // cluster or 1):
        return 0
    blocks = {number: clusters_of(image, number, cluster, "$INDEX_ALLOCATION", "$I30") for number in numbers}
    return min((number for number in numbers if is_cut(blocks[number], 4096 // cluster)), default=None)


def has_list(image, number):
    return b"$ATTRIBUTE_LIST" in run("istat", image, number).stdout


def peer_names(image):
    """(record number, path) of each name that fls prints."""
    listed = run("fls", "-r", "-p", image)
    if listed.returncode != 0:
        raise OSError(f"fls: {listed.stderr.decode(errors='replace')}")
    names = set()
    for line in listed.stdout.decode().splitlines():
        head, path = line.split("\t", 1)
        if " * " in head or head.startswith("V/V"):
            continue
        number = int(re.match(r"./. (\d+)", head).group(1))
        names.add((number, path.split(":")[0]))
    return names


def time_of(text):
    """A time that istat prints, in units of 100 ns since 1601."""
    whole, fraction = text.split(".")
    since = datetime.datetime.strptime(whole, "%Y-%m-%d %H:%M:%S") - datetime.datetime(1601, 1, 1)
    return (since.days * 86400 + since.seconds) * 10**7 + int(fraction[:7])


def peer_node(image, number):
    """(sequence, links, times, size, initialised size) of a record; the sizes are None where it has no unnamed data."""
    text = run("istat", "-z", "UTC", image, number).stdout.decode(errors="replace")
    head = re.search(r"Sequence: (\d+)", text), re.search(r"^Links: (\d+)", text, re.M)
    times = [re.search(rf"^{name}:\t([\d .:-]+) \(UTC\)", text, re.M) for name in TIMES]
    if not all(head) or not all(times):
        raise ValueError(f"istat says nothing of {number}")
    data = re.search(r"^Type: \$DATA \(128-\d+\)   Name: N/A .* size: (\d+)(?:  init_size: (\d+))?", text, re.M)
    size = int(data.group(1)) if data else None
    valid = int(data.group(2)) if data and data.group(2) else size
    return int(head[0].group(1)), int(head[1].group(1)), [time_of(found.group(1)) for found in times], size, valid
