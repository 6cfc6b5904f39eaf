"""File records and the clusters of their streams, read from an image in clusters of 4,096 bytes, as far as tests need them.

The layouts are those of the Linux-NTFS documentation, "FILE Record" and "Attribute Header". What is read is taken to be sound: a check has said so.
"""
import os
import struct
from collections import namedtuple

CLUSTER, RECORD = 4096, 1024

# An attribute: its type, its first byte in its record and how many it has, its mapping pairs by the places of their first byte and their end, and its
# clusters, None for sparse ones; of a resident one the last three are None.
Attribute = namedtuple("Attribute", "kind at size pairs end clusters")


def unprotected(raw):
    """The record with its update sequence undone."""
    made = bytearray(raw)
    array, count = struct.unpack_from("<HH", raw, 4)
    for sector in range(count - 1):
        made[512 * sector + 510 : 512 * sector + 512] = raw[array + 2 + 2 * sector : array + 4 + 2 * sector]
    return bytes(made)


def clusters_of(body, at):
    """(the clusters that mapping pairs name, the place behind them)"""
    found, place = [], 0
    while body[at]:
        length, offset = body[at] & 15, body[at] >> 4
        count = int.from_bytes(body[at + 1 : at + 1 + length], "little")
        place += int.from_bytes(body[at + 1 + length : at + 1 + length + offset], "little", signed=True)
        found += range(place, place + count) if offset else [None] * count
        at += 1 + length + offset
    return found, at + 1


def attributes(body):
    at = struct.unpack_from("<H", body, 0x14)[0]
    while struct.unpack_from("<I", body, at)[0] != 0xFFFFFFFF:
        kind, size = struct.unpack_from("<II", body, at)
        if body[at + 8]:
            pairs = at + struct.unpack_from("<H", body, at + 0x20)[0]
            clusters, end = clusters_of(body, pairs)
            yield Attribute(kind, at, size, pairs, end, clusters)
        else:
            yield Attribute(kind, at, size, None, None, None)
        at += size


class Parsed:
    """An image, by its clusters as `held` gives them."""

    def __init__(self, image):
        self.image = image
        self.table = [struct.unpack_from("<Q", self.read(0, 512), 0x30)[0]]
        self.table = self.stream(0)

    def read(self, place, count):
        """Bytes of one cluster."""
        at = place % CLUSTER
        return self.image.get(place // CLUSTER, bytes(CLUSTER))[at : at + count]

    def place(self, number):
        """Where a file record stands, in bytes."""
        at = number * RECORD
        return self.table[at // CLUSTER] * CLUSTER + at % CLUSTER

    def records(self):
        """(number, its record with the update sequence undone) of those in use"""
        for number in range(len(self.table) * CLUSTER // RECORD):
            raw = self.read(self.place(number), RECORD)
            if raw[:4] == b"FILE" and raw[0x16] & 1:
                yield number, unprotected(raw)

    def attributes(self, number):
        return list(attributes(unprotected(self.read(self.place(number), RECORD))))

    def stream(self, number, kind=0x80):
        """The clusters of the first stream of this type in a record, the sparse ones left out."""
        found = [it.clusters for it in self.attributes(number) if it.kind == kind and it.clusters is not None]
        return [cluster for cluster in found[0] if cluster is not None] if found else []

    def is_free(self, cluster):
        """Whether its bit is clear."""
        held = self.stream(6)[cluster // 8 // CLUSTER]
        return not self.read(held * CLUSTER + cluster // 8 % CLUSTER, 1)[0] >> cluster % 8 & 1


def held(path):
    """{cluster: its bytes} of an image but for its holes."""
    found = {}
    with open(path, "rb", buffering=0) as file:
        size, end = os.fstat(file.fileno()).st_size, 0
        while end < size:
            try:
                begin = os.lseek(file.fileno(), end, os.SEEK_DATA)
            except OSError:
                break
            end = os.lseek(file.fileno(), begin, os.SEEK_HOLE)
            data = os.pread(file.fileno(), end - begin, begin)
            found.update((place // CLUSTER, data[place - begin : place - begin + CLUSTER]) for place in range(begin, end, CLUSTER))
    return found


def lay(path, before, after):
    """Writes the clusters of one image over those of another that differ."""
    with open(path, "r+b", buffering=0) as file:
        for cluster in differing(before, after):
            file.seek(cluster * CLUSTER)
            file.write(after.get(cluster, bytes(CLUSTER)))


def differing(before, after):
    """The clusters in which two images differ, as `held` gives them."""
    blank = bytes(CLUSTER)
    return {cluster for cluster in before.keys() | after.keys() if before.get(cluster, blank) != after.get(cluster, blank)}
