"""Scripts that change files of volumes that mkntfs made, ntfscp filled and the library of ntfs-3g filled, and what other programs read of them then.

A model in memory says what each file holds behind each command; the replies of reads are compared with it, and behind a run each file as ntfscat
reads it, the free clusters of ntfsinfo with those of a dump, and what ntfsfix and a check say.
"""
import random
import subprocess

from real_peers import free_clusters
from real_reads import put_in
from real_volumes import ASKED
from volumes import Volume, blank, library, run

# The most that a command may write behind what stands in a file.
STEP = 65536
SIZES = {"/empty": 0, "/small": 10, "/record": 650, "/page": 4096, "/pages": 40_000, "/many": 300_000}
COMMANDS = 400


def written(data, offset, piece):
    """What a file holds behind a write."""
    if not piece:
        return data
    made = data.ljust(offset, b"\0")
    return made[:offset] + piece + made[offset + len(piece) :]


def end_of(data, chosen):
    """An offset in the file, or a little behind its end."""
    return chosen.randrange(len(data) + chosen.choice([1, 50, 5000]))


def command_on(name, files, chosen):
    """A command on a file, with the reply that is meant and what the file holds then."""
    data, kind = files[name], chosen.choice(["write", "write", "fill", "truncate", "read", "read"])
    offset = end_of(data, chosen)
    if kind == "read":
        count = chosen.choice([0, 1, 600, 4096])
        return f"read {name} {offset} {count}", f"bytes {data[offset : offset + count].hex() or '-'}", data
    if kind == "truncate":
        size = min(chosen.randrange(2 * len(data) + 900), len(data) + STEP)
        return f"truncate {name} {size}", f"size {size}", data[:size].ljust(size, b"\0")
    most = STEP - max(0, offset - len(data))
    if kind == "fill":
        count, byte = min(chosen.choice([1, 700, 4096, 30_000]), most), chosen.randrange(256)
        return f"fill {name} {offset} {count} {byte:02x}", f"wrote {count}", written(data, offset, bytes([byte]) * count)
    piece = chosen.randbytes(min(chosen.choice([0, 1, 30, 900, 5000]), most))
    return f"write {name} {offset} {piece.hex() or '-'}", f"wrote {len(piece)}", written(data, offset, piece)


def a_script(files, chosen, syncs):
    """Commands with the replies that are meant; the files are changed as they go."""
    made = []
    for turn in range(COMMANDS):
        if chosen.random() < syncs:
            made.append(("sync", f"synced {turn}"))
            continue
        name = chosen.choice(sorted(files))
        asked, reply, files[name] = command_on(name, files, chosen)
        made.append((asked, reply))
    return made


def told_by(program, image, made):
    """The first line that isn't as meant, or None."""
    text = "".join(f"1 {asked}\n" for asked, _ in made)
    ended = subprocess.run([program, image, "run"], input=text.encode(), capture_output=True)
    lines = ended.stdout.decode().splitlines()
    if ended.returncode != 0 or len(lines) != len(made):
        return f"status {ended.returncode}, {len(lines)} lines, {ended.stdout[-200:]}"
    for place, (line, (asked, reply)) in enumerate(zip(lines, made), 1):
        if line != f"1 {place} {place} 0 {reply}":
            return f"{asked[:60]}: {line[:90]}, not {reply[:60]}"
    return None


def compared(count, image, files):
    """What other programs read, where it isn't what the model says."""
    faults = [f"{name} by ntfscat" for name, data in files.items() if run("ntfscat", image, name).stdout != data]
    if run("ntfsfix", "-n", image).returncode != 0:
        faults.append("ntfsfix finds a fault")
    status, text = count.command(image, "check")
    free = free_clusters(image)
    if status != 0 or f" room {free} " not in text:
        faults.append(f"the check says {text!r}, ntfsinfo {free} free clusters")
    return faults


def one_run(count, what, image, files, seed, syncs):
    chosen = random.Random(seed)
    made = a_script(files, chosen, syncs)
    fault = told_by(count.program, image, made)
    count.say(what, [fault] if fault else compared(count, image, files)[:3], f"{COMMANDS} commands, {sum(map(len, files.values()))} bytes in {len(files)} files")


def by_ntfscp(folder):
    """A volume whose files ntfscp put in."""
    image, chosen = blank(folder, "written", 4096, ASKED), random.Random(11)
    return image, {name: put_in(image, folder / "source", name, chosen.randbytes(size)) for name, size in SIZES.items()}


def by_library(folder):
    """A volume with directories and files of many runs, which the library of ntfs-3g made."""
    image, chosen, files = blank(folder, "made", 4096, ASKED), random.Random(12), {}
    with Volume(library(), image) as volume:
        done = [volume.make("/", "folder", kind=0o040000)]
        for place in range(20):
            files[f"/folder/{place}"] = chosen.randbytes(997 * place)
            done.append(volume.make("/folder", str(place), data=files[f"/folder/{place}"]))
        for turn in range(8):
            for place in (7, 9):
                piece = chosen.randbytes(4096)
                name = f"/folder/{place}"
                done.append(volume.write(name, piece, len(files[name])))
                files[name] += piece
    if not all(done):
        raise OSError(f"the library can't make step {done.index(False)} of {image}")
    return image, files


def opened_again(image, files):
    """The library of ntfs-3g writes behind a run, and makes a file."""
    with Volume(library(), image) as volume:
        done = [volume.write("/folder/7", b"again", 3), volume.make("/folder", "new", data=b"n" * 5000)]
    files["/folder/7"] = written(files["/folder/7"], 3, b"again")
    files["/folder/new"] = b"n" * 5000
    return all(done)


def writes(count, folder):
    image, files = by_ntfscp(folder)
    one_run(count, "a script changes files of ntfscp", image, files, 1, 0.02)
    one_run(count, "another one, with many syncs", image, files, 2, 0.3)
    image, files = by_library(folder)
    one_run(count, "a script changes files of the library", image, files, 3, 0.05)
    done = opened_again(image, files)
    count.say("the library writes behind it", compared(count, image, files) if done else ["it can't"], "a file changed and one made")
    one_run(count, "a script changes what it left", image, files, 4, 0.05)
