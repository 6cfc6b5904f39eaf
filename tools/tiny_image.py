#!/usr/bin/env python3
"""Makes the tiny NTFS image that the program's stored run scans.

Run it at the top of the repository:

    python3 tools/tiny_image.py crates/ntfshost/data/tiny.img

The image has 65 sectors of 512 bytes: a boot sector (clusters of one sector, 64 sectors in all, the file table at
cluster 8, its mirror at 56), 16 file records of two sectors at sectors 8 to 39, a log of FF at sectors 40 to 55, and
copies of the first four records at sectors 56 to 63. Records 0, 2 and 5 are in use, with the names $MFT, $LogFile and
`.`, all in directory 5. All times are 0.
"""
import struct
import sys

SECTOR = 512
CHECK = 1  # the check word of the update sequence
ROOT = 5 | 5 << 48  # record 5, sequence 5
FILE_NAME, DATA, END = 0x30, 0x80, 0xFFFFFFFF


def padded(data):
    return data + bytes(-len(data) % 8)


def resident(kind, number, value, indexed):
    length = 0x18 + len(padded(value))
    head = struct.pack("<IIBBHHHIHBB", kind, length, 0, 0, 0x18, 0, number, len(value), 0x18, indexed, 0)
    return head + padded(value)


def mapped(number, clusters, pairs, sectors=1):
    size = clusters * sectors * SECTOR
    length = 0x40 + len(padded(pairs))
    head = struct.pack("<IIBBHHHQQHHIQQQ", DATA, length, 1, 0, 0x40, 0, number, 0, clusters - 1, 0x40, 0, 0, size, size, size)
    return head + padded(pairs)


def file_name(name, flags):
    units = name.encode("utf-16-le")
    head = struct.pack("<QQQQQQQIIBB", ROOT, 0, 0, 0, 0, 0, 0, flags, 0, len(name), 3)
    return head + units


def record(number, sequence, flags, attributes, base=0):
    body = b"".join(attributes) + struct.pack("<II", END, 0)
    used = 0x38 + len(body)
    head = b"FILE" + struct.pack(
        "<HHQHHHHIIQHHI", 0x30, 3, 0, sequence, 1, 0x38, flags, used, 1024, base, len(attributes), 0, number
    )
    raw = bytearray((head + bytes(0x38 - len(head)) + body).ljust(1024, b"\0"))
    struct.pack_into("<H", raw, 0x30, CHECK)
    for sector in range(2):  # the true words go into the array, the check word to the sectors' ends
        end = SECTOR * sector + 510
        raw[0x32 + 2 * sector : 0x34 + 2 * sector] = raw[end : end + 2]
        struct.pack_into("<H", raw, end, CHECK)
    return bytes(raw)


def boot():
    raw = bytearray(SECTOR)
    raw[3:11] = b"NTFS    "
    struct.pack_into("<H", raw, 0x0B, SECTOR)
    raw[0x0D] = 1
    struct.pack_into("<QQQ", raw, 0x28, 64, 8, 56)
    raw[0x40], raw[0x44] = 2, 8
    raw[510:512] = b"\x55\xAA"
    return bytes(raw)


def tiny():
    records = [bytes(1024)] * 16
    records[0] = record(
        0, 1, 1, [resident(FILE_NAME, 0, file_name("$MFT", 0), 1), mapped(1, 32, bytes([0x11, 32, 8, 0]))]
    )
    records[2] = record(
        2, 2, 1, [resident(FILE_NAME, 0, file_name("$LogFile", 0), 1), mapped(1, 16, bytes([0x11, 16, 40, 0]))]
    )
    records[5] = record(5, 5, 3, [resident(FILE_NAME, 0, file_name(".", 0x10000000), 1)])
    image = boot() + bytes(7 * SECTOR) + b"".join(records) + b"\xFF" * (16 * SECTOR) + b"".join(records[:4])
    return image + bytes(65 * SECTOR - len(image))


if __name__ == "__main__":
    if len(sys.argv) != 2:
        sys.exit(__doc__)
    with open(sys.argv[1], "wb") as out:
        out.write(tiny())
