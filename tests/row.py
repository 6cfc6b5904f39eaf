# A row of a table: an image, a command on it, and what it answers.
from collections import namedtuple

# Stands among the words for the path of the image.
IMAGE = object()

# The image's bytes; None for the image as the row before left it, or a function from those bytes. The words behind the program's name; the
# statuses that are right; the text, or a function that judges it; what is read from the standard input; a function that judges the bytes of
# the image that is left, or None; the standard stream that is closed, by its number, or None; whether the image is given as a block device.
Row = namedtuple("Row", "image words statuses text script left closed device", defaults=(b"", None, None, False))

USAGE = "usage: ntfshost IMAGE COMMAND [--time N] [--seed N] [--journal N]\n"
TINY_TEXT = "0 1 5 5 $MFT\n2 2 5 5 $LogFile\n5 5 5 5 .\nlinks 3\n"


def done(command, image, text):
    """A command that ends well."""
    return Row(image, (IMAGE, command), (0,), text)


def refused(command, image, line):
    """A command that refuses the image by this line."""
    return Row(image, (IMAGE, command), (3,), f"refused {line}\n")


def run(image, script, status, text):
    """A run of a script."""
    return Row(image, (IMAGE, "run"), (status,), text, script)
