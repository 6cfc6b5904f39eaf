"""Volumes that the program makes, read by others.

They are listed by `ntfsls`, read by `fsstat`, mounted read-only by `ntfs-3g` where /dev/fuse can be used, which must tell the same free
clusters, and then scanned, checked and dumped like the others.
"""
import os
import shutil

from real_compare import compare_names
from volumes import run

# The sectors of a device, and the clusters and the free clusters of the volume that is made on it.
SIZES = [(4537, 567, 0), (16384, 2047, 1480), (131072, 16383, 15815), (1310727, 163840, 163256)]


def mounted_room(folder, image):
    """The free clusters of a read-only mount by ntfs-3g and how many names its root shows; None where nothing can be mounted."""
    place = folder / "mounted"
    place.mkdir(exist_ok=True)
    if not os.path.exists("/dev/fuse") or not shutil.which("ntfs-3g"):
        return None
    if run("ntfs-3g", "-o", "ro,show_sys_files", image, place).returncode != 0:
        return None
    try:
        return os.statvfs(place).f_bfree, len(os.listdir(place))
    finally:
        run("umount", place)


def reader_faults(image):
    """Why ntfsls or fsstat can't read it."""
    listed = run("ntfsls", "-s", "-x", image)
    names = {line.split("/")[-1].strip() for line in listed.stdout.decode().splitlines()}
    faults = []
    if listed.returncode != 0 or not {"$MFT", "$LogFile", "$UpCase", "$Extend"} <= names:
        faults.append(f"ntfsls: {sorted(names)[:20]}")
    if run("fsstat", image).returncode != 0:
        faults.append("fsstat can't read it")
    return faults


def made(count, folder, sectors, clusters, room):
    image, what = folder / "made", f"made on {sectors} sectors"
    status, text = count.format(image, sectors)
    faults = [] if (status, text) == (0, f"formatted {clusters} {room}\n") else [text.strip()]
    faults += reader_faults(image)
    mounted = mounted_room(folder, image)
    if mounted is None:
        count.skip("mounts of volumes that the program makes")
    elif mounted[0] != room:
        faults.append(f"mounted it has {mounted[0]} free clusters")
    count.say(what, faults, "not mounted" if mounted is None else f"mounted with {mounted[1]} names")
    compare_names(count, f"names of what was {what}", image, 4096)
    image.unlink()


def formats(count, folder):
    for sectors, clusters, room in SIZES:
        made(count, folder, sectors, clusters, room)
