# Volumes on block devices, which are as long as one can go in them; and other things that are no regular file.
import os
import tempfile

from images import TINY, WHOLE
from row import IMAGE, TINY_TEXT, Row
from row_streams import FORMAT, SECTORS


def a_volume_on_a_device_is_read():
    """It is read in place, as from a file, and nothing of it is written."""
    yield Row(TINY, (IMAGE, "scan"), (0,), TINY_TEXT, left=lambda image: image == TINY, device=True)
    for command in ["scan", "check", "dump"]:
        said = []
        yield Row(WHOLE, (IMAGE, command), (0,), lambda text: said.append(text) is None)
        yield Row(WHOLE, (IMAGE, command), (0,), lambda text: text == said[0], left=lambda image: image == WHOLE, device=True)


def a_device_too_short_is_refused():
    """By the sectors that it has."""
    yield Row(WHOLE[: 512 * 100], (IMAGE, "scan"), (3,), lambda text: text.startswith("refused 4 Short ") and text.endswith(" 100\n"), device=True)
    yield Row(bytes(512 * 100), FORMAT, (3,), f"refused 4 Short {SECTORS} 100\n", device=True)


def a_device_is_formatted():
    """As a file of its size."""
    made = []
    yield Row(bytes(512 * SECTORS), FORMAT, (0,), "formatted 567 0\n", left=lambda image: made.append(image) is None)
    yield Row(bytes(512 * SECTORS), FORMAT, (0,), "formatted 567 0\n", left=lambda image: image == made[0], device=True)


def a_device_of_characters_has_no_sectors():
    """It counts as a file without bytes."""
    for command in ["scan", "check", "dump", "journal"]:
        yield Row(TINY, ("/dev/zero", command), (3,), "refused 4 Short 1 0\n")


def a_pipe_counts_as_shut():
    """Its length can't be had, so each call of it fails."""
    with tempfile.TemporaryDirectory() as folder:
        pipe = f"{folder}/pipe"
        os.mkfifo(pipe)
        for command in ["scan", "check", "dump", "journal"]:
            yield Row(TINY, (pipe, command), (8,), "")


TABLES = [
    a_volume_on_a_device_is_read,
    a_device_too_short_is_refused,
    a_device_is_formatted,
    a_device_of_characters_has_no_sectors,
    a_pipe_counts_as_shut,
]
