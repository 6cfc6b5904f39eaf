"""Volumes of ntfs-3g, which are scanned, checked and dumped, or refused."""
import os

from real_compare import compare_names, compare_refusal
from real_peers import clusters_of, cut_record, has_list
from real_volumes import ASKED, copied, kinds, scattered, tree
from volumes import MEBIBYTE, blank, library, put

CLUSTERS = [512, 1024, 2048, 4096]


def copies(count, folder):
    for cluster in CLUSTERS:
        compare_names(count, f"copied, clusters of {cluster}", copied(folder, cluster), cluster)


def refusals(count, folder):
    """Volumes of mkntfs that a scan refuses, or a check alone."""
    image = blank(folder, "large", 8192, 16 * MEBIBYTE)
    compare_refusal(count, "clusters of 8,192 bytes", image, "refused 2 Geometry 13 16")
    image = blank(folder, "cut", 4096, 16 * MEBIBYTE)
    os.truncate(image, 8 * MEBIBYTE)
    compare_refusal(count, "half a volume", image, "refused 4 Short 32767 16384")
    image = blank(folder, "moved", 4096, 16 * MEBIBYTE)
    whole = count.command(image, "scan")
    mirror = clusters_of(image, 1, 4096)[0]
    put(image, 0x30, mirror.to_bytes(8, "little"))
    found = [count.command(image, "scan"), count.command(image, "check")]
    meant = [whole, (3, "refused 15 BadVolume 4 0\n")]
    count.say("a file table that begins at the mirror by the boot sector", [] if found == meant else [str(found)[:200]], meant[1][1].strip())
    image = blank(folder, "logged", 1024, 16 * MEBIBYTE)
    log = clusters_of(image, 2, 1024)
    with open(image, "r+b") as file:
        for cluster in (log[0], log[7]):
            file.seek(1024 * cluster)
            file.write(b"\xfe")
    compare_refusal(count, "a log whose first two pages are neither restart pages nor all FF", image, "refused 11 NoRestart")


def trees(count, folder):
    """Volumes that the library of ntfs-3g filled. It puts file records and index blocks in two places where clusters are
    smaller than they, and gives a much scattered file table an attribute list; such a volume is refused, by what istat tells
    of it."""
    calls = library()
    for cluster in CLUSTERS:
        for what, image in [
            ("kinds", kinds(calls, folder, cluster, ASKED if cluster == 4096 else 16 * MEBIBYTE)),
            ("tree", tree(calls, folder, cluster)),
            ("gaps of 16 KiB", scattered(calls, folder, cluster, 16384, 500)),
            ("gaps of 4 KiB", scattered(calls, folder, cluster, 4096, 1500)),
            ("gaps of 1 KiB", scattered(calls, folder, cluster, 1024, 600)),
        ]:
            what = f"{what}, clusters of {cluster}"
            cut = cut_record(image, cluster)
            if has_list(image, 0):
                compare_refusal(count, what, image, "refused 7 MftList")
            elif cut is not None:
                compare_refusal(count, what, image, f"refused 6 BadRecord {cut} 9")
            else:
                compare_names(count, what, image, cluster)
            image.unlink()
