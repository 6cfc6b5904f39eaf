# Standard streams that are closed when the program begins: the image isn't taken for one of them.
from images import TINY
from row import IMAGE, Row

SECTORS = 4537
FORMAT = (IMAGE, "format", "--time", "1000", "--seed", "7")


def a_closed_output_leaves_the_image():
    """A command whose text can be written nowhere ends with 7, and the text is not in the image."""
    for command in ["scan", "check", "dump", "journal"]:
        yield Row(TINY, (IMAGE, command), (7,), "", b"", lambda image: image == TINY, 1)


def a_closed_output_leaves_a_new_volume():
    """The volume is made all the same, and is the one that is made where the text can be written."""
    made = []
    yield Row(bytes(512 * SECTORS), FORMAT, (0,), "formatted 567 0\n", b"", lambda image: made.append(image) is None)
    yield Row(bytes(512 * SECTORS), FORMAT, (7,), "", b"", lambda image: image == made[0], 1)


def a_closed_input_has_no_script():
    """The image isn't read as its own script."""
    yield Row(TINY, (IMAGE, "run"), (5,), "", b"", lambda image: image == TINY, 0)


def a_closed_error_stream_changes_nothing():
    """The error stream isn't written."""
    yield Row(TINY, (IMAGE, "scan"), (0,), lambda text: text.endswith("links 3\n"), b"", lambda image: image == TINY, 2)


TABLES = [
    a_closed_output_leaves_the_image,
    a_closed_output_leaves_a_new_volume,
    a_closed_input_has_no_script,
    a_closed_error_stream_changes_nothing,
]
