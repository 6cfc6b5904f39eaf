# What the benches share: an image of 100,000 names, the folder of a small program, the times of commands, and a table of their ratios.
import re
import shutil
import sys
from pathlib import Path

sys.path.insert(0, str(Path(__file__).resolve().parent.parent / "tests"))
from programs import made
from volumes import MEBIBYTE, Volume, blank, library, run

DIRECTORIES = 100
FILES = 1000


def missing(tools):
    """What can't be had of the tools and the library of ntfs-3g, in words; None where all is there."""
    absent = [tool for tool in tools if not shutil.which(tool)]
    return ", ".join(absent) or (None if library() else "the library of ntfs-3g")


def filled(folder):
    """256 MiB in clusters of 4,096 bytes, with 100,000 empty files in 100 directories. It is read once here, so that no
    command that is timed waits for the disk."""
    image = blank(folder, "many", 4096, 256 * MEBIBYTE)
    with Volume(library(), image) as volume:
        for place in range(DIRECTORIES):
            volume.make("/", f"directory {place}", kind=0o040000)
            for file in range(FILES):
                if not volume.make(f"/directory {place}", f"file {place * FILES + file} of some length"):
                    raise OSError("the volume is full")
    image.read_bytes()
    return image


def timed(folder, *words):
    """(wall time in seconds, peak memory in MiB, what was written)"""
    report = folder / "report"
    ended = run("/usr/bin/time", "-v", "-o", report, *words)
    text = report.read_text()
    if ended.returncode != 0:
        raise OSError(f"{words}: status {ended.returncode}, {ended.stdout[-200:]}")
    clock = re.search(r"Elapsed \(wall clock\) time .*: ([\d:.]+)$", text, re.M).group(1)
    seconds = 0.0
    for part in clock.split(":"):
        seconds = 60 * seconds + float(part)
    return seconds, int(re.search(r"Maximum resident set size \(kbytes\): (\d+)", text).group(1)) / 1024, ended.stdout


def table(rows, others):
    """A line for each (name, seconds, MiB), with the ratios of its time to those of the others."""
    print("| Command | Wall time | Peak memory |" + "".join(f" Time of {other} |" for other in others))
    print("|---|---|---|" + "---|" * len(others))
    by_name = {name: seconds for name, seconds, _ in rows}
    for name, seconds, peak in rows:
        ratios = "".join(f" {seconds / max(by_name[other], 0.01):.2f} times |" for other in others)
        print(f"| {name} | {seconds:.2f} s | {peak:.1f} MiB |{ratios}")
