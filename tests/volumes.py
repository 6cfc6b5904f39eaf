# What the scripts on volumes of other programs share: the program, blank volumes of mkntfs, and the library of ntfs-3g.
import ctypes
import os
import shutil
import subprocess
from pathlib import Path

TOP = Path(__file__).resolve().parent.parent
MEBIBYTE = 1 << 20


def run(*words, cwd=None):
    return subprocess.run([str(word) for word in words], cwd=cwd, capture_output=True)


def put(image, place, data):
    """Writes bytes into an image."""
    with open(image, "r+b") as file:
        file.seek(place)
        file.write(data)


def built():
    """The program as the gate left it in this checkout; None where it isn't there."""
    program = TOP / "crates" / "ntfshost" / "out" / "ntfshost"
    return program if program.exists() else None


def build():
    """The program, built by rt; None where that fails."""
    crate = TOP / "crates" / "ntfshost"
    if not shutil.which("rt"):
        print("rt is missing")
        return None
    built = run("rt", "run", "--", "data/tiny.img", "scan", cwd=crate)
    program = crate / "out" / "ntfshost"
    if built.returncode == 0 and program.exists():
        return program
    print((built.stdout + built.stderr).decode(errors="replace")[-2000:])
    return None


def blank(folder, name, cluster, size, *more):
    image = folder / f"{name}.img"
    with open(image, "wb") as file:
        file.truncate(size)
    made = run("mkntfs", "-F", "-Q", "-s", 512, "-c", cluster, "-p", 0, "-H", 16, "-S", 63, *more, image)
    if made.returncode != 0:
        raise OSError(f"mkntfs: {made.stderr.decode(errors='replace')}")
    return image


# ---- the library of ntfs-3g


def library():
    """The library, or None. Its names have carried a new number with each release."""
    try:
        names = sorted(path.name for folder in Path("/").glob("[lu]*/lib*/*linux*") for path in folder.glob("libntfs-3g.so.*"))
    except OSError:
        names = []
    for name in [*names, "libntfs-3g.so"]:
        try:
            found = ctypes.CDLL(name)
        except OSError:
            continue
        pointer, text, number = ctypes.c_void_p, ctypes.c_char_p, ctypes.c_uint32
        for call, result, arguments in [
            ("ntfs_mount", pointer, [text, ctypes.c_ulong]),
            ("ntfs_umount", ctypes.c_int, [pointer, ctypes.c_int]),
            ("ntfs_pathname_to_inode", pointer, [pointer, pointer, text]),
            ("ntfs_create", pointer, [pointer, number, text, ctypes.c_uint8, number]),
            ("ntfs_link", ctypes.c_int, [pointer, pointer, text, ctypes.c_uint8]),
            ("ntfs_delete", ctypes.c_int, [pointer, text, pointer, pointer, text, ctypes.c_uint8]),
            ("ntfs_inode_close", ctypes.c_int, [pointer]),
            ("ntfs_attr_open", pointer, [pointer, number, pointer, number]),
            ("ntfs_attr_pwrite", ctypes.c_int64, [pointer, ctypes.c_int64, ctypes.c_int64, text]),
            ("ntfs_attr_pread", ctypes.c_int64, [pointer, ctypes.c_int64, ctypes.c_int64, pointer]),
            ("ntfs_attr_close", None, [pointer]),
            ("ntfs_attr_pclose", ctypes.c_int, [pointer]),
            ("ntfs_attr_remove", ctypes.c_int, [pointer, number, pointer, number]),
            ("ntfs_attr_add", ctypes.c_int, [pointer, number, text, ctypes.c_uint8, text, ctypes.c_int64]),
            ("ntfs_create_symlink", pointer, [pointer, number, text, ctypes.c_uint8, text, ctypes.c_int]),
            ("ntfs_set_ntfs_attrib", ctypes.c_int, [pointer, text, ctypes.c_size_t, ctypes.c_int]),
            ("ntfs_set_ntfs_dos_name", ctypes.c_int, [pointer, pointer, text, ctypes.c_size_t, ctypes.c_int]),
            ("ntfs_set_ntfs_reparse_data", ctypes.c_int, [pointer, text, ctypes.c_size_t, ctypes.c_int]),
        ]:
            getattr(found, call).restype = result
            getattr(found, call).argtypes = arguments
        return found
    return None


class Volume:
    """An open volume. Paths are folders from the root, and names are UTF-16 units."""

    def __init__(self, calls, image):
        self.calls = calls
        self.handle = calls.ntfs_mount(os.fsencode(image), 0)
        if not self.handle:
            raise OSError(f"{image} can't be opened")

    def __enter__(self):
        return self

    def __exit__(self, *_):
        if self.calls.ntfs_umount(self.handle, 0) != 0:
            raise OSError("the volume can't be closed")

    def folder(self, path):
        return self.calls.ntfs_pathname_to_inode(self.handle, None, path.encode())

    def make(self, path, name, kind=0o100000, data=b""):
        """A new file or directory; False where there is no room."""
        folder, units = self.folder(path), name.encode("utf-16-le")
        node = self.calls.ntfs_create(folder, 0, units, len(units) // 2, kind)
        # The folder is closed first: the library opens it again when it closes the file.
        self.calls.ntfs_inode_close(folder)
        done = bool(node)
        if node and data:
            stream = self.calls.ntfs_attr_open(node, 0x80, None, 0)
            done = self.calls.ntfs_attr_pwrite(stream, 0, len(data), data) == len(data)
            self.calls.ntfs_attr_close(stream)
        if node:
            done = self.calls.ntfs_inode_close(node) == 0 and done
        return done

    def link(self, of, path, name):
        node, folder, units = self.folder(of), self.folder(path), name.encode("utf-16-le")
        done = self.calls.ntfs_link(node, folder, units, len(units) // 2) == 0
        self.calls.ntfs_inode_close(folder)
        self.calls.ntfs_inode_close(node)
        return done

    def delete(self, path, name):
        full = f"{path.rstrip('/')}/{name}"
        node, folder, units = self.folder(full), self.folder(path), name.encode("utf-16-le")
        # The folder is opened last, so that the library has one copy of it; the call closes both.
        return self.calls.ntfs_delete(self.handle, full.encode(), node, folder, units, len(units) // 2) == 0

    def write(self, path, data, at):
        """Writes the data of a file from there on; what lies before it, past the file's end, becomes sparse."""
        node = self.folder(path)
        stream = self.calls.ntfs_attr_open(node, 0x80, None, 0)
        done = self.calls.ntfs_attr_pwrite(stream, at, len(data), data) == len(data)
        done = self.calls.ntfs_attr_pclose(stream) == 0 and done
        self.calls.ntfs_attr_close(stream)
        return self.calls.ntfs_inode_close(node) == 0 and done

    def read(self, path, count, at):
        """At most so many bytes of the data of a file from there on."""
        node, front = self.folder(path), ctypes.create_string_buffer(count)
        stream = self.calls.ntfs_attr_open(node, 0x80, None, 0)
        got = self.calls.ntfs_attr_pread(stream, at, count, front)
        self.calls.ntfs_attr_close(stream)
        self.calls.ntfs_inode_close(node)
        return front.raw[: max(got, 0)]

    def stream(self, path, name, data):
        node, units = self.folder(path), name.encode("utf-16-le")
        done = self.calls.ntfs_attr_add(node, 0x80, units, len(units) // 2, data, len(data)) == 0
        return self.calls.ntfs_inode_close(node) == 0 and done

    def write_stream(self, path, name, data, at):
        """Writes the data of a named stream from there on; what lies before it, past the stream's end, becomes sparse."""
        node, units = self.folder(path), name.encode("utf-16-le")
        stream = self.calls.ntfs_attr_open(node, 0x80, units, len(units) // 2)
        done = self.calls.ntfs_attr_pwrite(stream, at, len(data), data) == len(data)
        self.calls.ntfs_attr_close(stream)
        return self.calls.ntfs_inode_close(node) == 0 and done

    def without_data(self, path):
        """Takes the unnamed data from a file."""
        node = self.folder(path)
        done = self.calls.ntfs_attr_remove(node, 0x80, None, 0) == 0
        return self.calls.ntfs_inode_close(node) == 0 and done

    def short(self, path, name, short):
        """Gives a name its short one."""
        # The file is opened first, so that the library has one copy of the folder; the call closes both.
        node, folder = self.folder(f"{path.rstrip('/')}/{name}"), self.folder(path)
        return self.calls.ntfs_set_ntfs_dos_name(node, folder, short.encode(), len(short), 0) == 0

    def compress(self, path):
        """What is made in the folder from now on is compressed. That is a flag of the open volume too, which stands behind
        two pointers."""
        ctypes.cast(self.handle + 2 * ctypes.sizeof(ctypes.c_void_p), ctypes.POINTER(ctypes.c_ulong))[0] |= 1 << 6
        node = self.folder(path)
        done = self.calls.ntfs_set_ntfs_attrib(node, (0x800).to_bytes(4, "little"), 4, 0) == 0
        return self.calls.ntfs_inode_close(node) == 0 and done

    def symlink(self, path, name, target):
        """A symlink as this library makes it: a file of the system that names its target."""
        folder, units, behind = self.folder(path), name.encode("utf-16-le"), target.encode("utf-16-le")
        node = self.calls.ntfs_create_symlink(folder, 0, units, len(units) // 2, behind, len(behind) // 2)
        self.calls.ntfs_inode_close(folder)
        return bool(node) and self.calls.ntfs_inode_close(node) == 0

    def reparse(self, path, target):
        """Makes a file a symlink by a reparse point."""
        node, units = self.folder(path), target.encode("utf-16-le")
        size = len(units).to_bytes(2, "little")
        body = b"\0\0" + size + size + size + (1).to_bytes(4, "little") + units + units
        value = (0xA000000C).to_bytes(4, "little") + len(body).to_bytes(2, "little") + b"\0\0" + body
        done = self.calls.ntfs_set_ntfs_reparse_data(node, value, len(value), 0) == 0
        return self.calls.ntfs_inode_close(node) == 0 and done
