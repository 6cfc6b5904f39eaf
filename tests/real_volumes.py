"""Volumes that ntfs-3g makes: files go in by `ntfscp`, and by its library for directories, further links and deleted names."""
from real_peers import free_clusters
from volumes import MEBIBYTE, Volume, blank, run

FOLDERS = 17
NAMES = [
    "a",
    "UPPER and lower.TXT",
    ".hidden",
    "two  spaces",
    "back\\slash",
    "plus+[brackets]{braces}~'quotes';=,&",
    "é漢字ß.txt",
    "\U0001f600 beyond the plane",
    "x" * 255,
    "ü" * 255,
    "\U0001f600" * 127,
]

# Of this size on mkntfs makes logs that are large enough for volumes on which scripts run.
ASKED = 448 * MEBIBYTE


def copied(folder, cluster):
    """Names of every kind, put in by ntfscp, with data of several sizes."""
    image, source = blank(folder, f"copied-{cluster}", cluster, 16 * MEBIBYTE), folder / "source"
    for place, name in enumerate(NAMES):
        source.write_bytes(b"\x5a" * (place * 997))
        put = run("ntfscp", "-q", image, source, name)
        if put.returncode != 0:
            raise OSError(f"ntfscp: {put.stderr.decode(errors='replace')}")
    return image


def tree(calls, folder, cluster):
    """Directories in directories, one of 1,500 names, files with many names (their records have attribute lists), and
    deleted names."""
    image = blank(folder, f"tree-{cluster}", cluster, ASKED if cluster == 4096 else 16 * MEBIBYTE)
    with Volume(calls, image) as volume:
        path = "/"
        for depth in range(12):
            for name in NAMES:
                volume.make(path, f"{name[:200]}{depth}", data=b"\xa5" * (depth * 700))
            volume.make(path, f"folder {depth}", kind=0o040000)
            path = f"{path.rstrip('/')}/folder {depth}"
        volume.make("/", "many", kind=0o040000)
        for place in range(1500):
            volume.make("/many", f"{place:04} {'n' * (place % 60)}")
        for place in range(0, 1500, 7):
            volume.delete("/many", f"{place:04} {'n' * (place % 60)}")
        volume.make("/many", "named often")
        for place in range(150):
            volume.link("/many/named often", path if place % 3 else "/many", f"link {place} {'é' * (place % 40)}")
    return image


def kinds(calls, folder, cluster, size=16 * MEBIBYTE, names=2000):
    """A file of each kind: with hard links, a short name, named streams, an attribute list, sparse and compressed data, and
    symlinks of both forms; and a directory of so many names."""
    image = blank(folder, f"kinds-{cluster}", cluster, size)
    with Volume(calls, image) as volume:
        done = [volume.make("/", "folder", kind=0o040000), volume.make("/folder", "Long name of a file.text", data=b"x" * 5000)]
        done.append(volume.short("/folder", "Long name of a file.text", "LONGNA~1.TEX"))
        done.append(volume.make("/", "linked", data=b"abc"))
        done += [volume.link("/linked", "/folder" if place % 2 else "/", f"link {place}") for place in range(5)]
        done += [volume.make("/", "streams", data=b"abc"), volume.stream("/streams", "small", b"y" * 30)]
        done += [volume.stream("/streams", f"stream {place}", b"y" * 3000) for place in range(20)]
        done += [volume.make("/", "sparse", data=b"z" * 8192), volume.write("/sparse", b"hello", 900000)]
        done += [volume.make("/", "packed", kind=0o040000), volume.compress("/packed"), volume.make("/packed", "file")]
        done.append(volume.write("/packed/file", b"abcd" * 20000, 0))
        done += [volume.symlink("/", "pointer", "folder/link 1"), volume.make("/", "reparse"), volume.reparse("/reparse", "folder")]
        done.append(volume.make("/", "many", kind=0o040000))
        done += [volume.make("/many", f"{place:04} {'n' * (place % 60)}", data=b"d" * (place % 900)) for place in range(names)]
    if not all(done):
        raise OSError(f"the library can't make step {done.index(False)} of {image}")
    return image


def free_bytes(image, cluster):
    return cluster * free_clusters(image)


def scattered(calls, folder, cluster, gap, names):
    """A volume that is nearly full but for gaps of so many bytes, into which the file table grows."""
    image = blank(folder, f"scattered-{cluster}-{gap}", cluster, 16 * MEBIBYTE)
    made = (free_bytes(image, cluster) - MEBIBYTE // 2) // (gap + 1200)
    with Volume(calls, image) as volume:
        for place in range(FOLDERS):
            volume.make("/", f"folder {place}", kind=0o040000)
        for place in range(made):
            volume.make(f"/folder {place % FOLDERS}", f"gap {place}", data=b"\x11" * gap)
        for place in range(made):
            if place // FOLDERS % 2:
                volume.delete(f"/folder {place % FOLDERS}", f"gap {place}")
        for place in range(made // 2 + names):
            volume.make(f"/folder {place % FOLDERS}", f"name {place}")
    return image
