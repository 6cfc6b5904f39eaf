"""What the scripts on the program's texts share: lines with their numbers, names and times.

A name is printed unit by unit, each of 16 bits: the characters `!` to `~` but `\\` and `/` as they are, every other unit as `\\u` and four
hexadecimal digits. A time counts units of 100 ns since 1601-01-01.
"""
import argparse
import functools
import gc
import re
import signal
import sys

# A printed name, as a part of a regular expression.
NAME = r"(?=.)[!-.0-\[\]-~]*(?:\\u[0-9A-F]{4}[!-.0-\[\]-~]*)*"
# What no cell of a line of text shows: controls, the ends of lines and paragraphs, and halves of pairs.
HIDDEN = re.compile("[\0-\x1f\x7f-\x9f\u2028\u2029\ud800-\udfff]")
TICKS = 10**7
# From 1601 to 1970, in units of 100 ns.
EPOCH = 116444736000000000
# From 0000-03-01 to 1601-01-01 in days, and the days of 400 years.
FIRST_DAY, FOUR_CENTURIES = 584694, 146097


class TextError(Exception):
    """What is wrong with a text, at the line of this number."""

    def __init__(self, number, what):
        super().__init__(f"line {number}: {what}")


# ---- names


def name_of(text):
    """The name that is printed so. A unit that is half of a pair stays one."""
    if "\\" not in text:
        return text
    units = text.encode().decode("unicode_escape")
    if "\\uD" not in text:
        return units
    return units.encode("utf-16-le", "surrogatepass").decode("utf-16-le", "surrogatepass")


def cell(name):
    """The cell of a table for a name: what can't be shown is written as it is printed, and a name with commas or quotes stands in quotes."""
    shown = HIDDEN.sub(lambda found: f"\\u{ord(found.group()):04X}", name)
    return '"' + shown.replace('"', '""') + '"' if "," in shown or '"' in shown else shown


# ---- times


@functools.lru_cache(maxsize=4096)
def day_of(days):
    """The day so many days after 1601-01-01, by the calendar of today also where it is far away."""
    cycle, day = divmod(days + FIRST_DAY, FOUR_CENTURIES)
    # Years begin with March here, so that a leap day ends one.
    year = (day - day // 1460 + day // 36524 - day // 146096) // 365
    day -= 365 * year + year // 4 - year // 100
    month = (5 * day + 2) // 153
    day -= (153 * month + 2) // 5
    year, month = (year, month + 3) if month < 10 else (year + 1, month - 9)
    return f"{400 * cycle + year:04}-{month:02}-{day + 1:02}"


@functools.lru_cache(maxsize=4096)
def moment_of(seconds):
    """The day and the time of day so many seconds after 1601-01-01."""
    days, second = divmod(seconds, 86400)
    return f"{day_of(days)}T{second // 3600:02}:{second // 60 % 60:02}:{second % 60:02}"


def date(time):
    """A time as a date, `YYYY-MM-DDThh:mm:ss.fffffffZ`; nothing for 0, which is no time."""
    return f"{moment_of(time // TICKS)}.{time % TICKS:07}Z" if time else ""


# ---- lines


def lines_of(data):
    """Each line with its number, from 1 on. All bytes are ASCII, and the last line ends too."""
    try:
        text = data.decode("ascii")
    except UnicodeDecodeError as fault:
        raise TextError(data.count(b"\n", 0, fault.start) + 1, "the program prints ASCII alone, and here is another byte") from None
    if text and not text.endswith("\n"):
        raise TextError(text.count("\n") + 1, "the line doesn't end: the text is cut off")
    return enumerate(text.split("\n")[:-1], 1)


def misfit(number, line, what):
    """The error for a line that isn't one of the text."""
    if line.startswith("refused "):
        return TextError(number, f"the image was refused, `{line}`: tools/explain says what that means")
    return TextError(number, f"no line of {what}: {line[:100]!r}")


def table(head, rows):
    """The text of a table of cells, which are parted by commas."""
    return "".join(",".join(row) + "\n" for row in [head, *rows])


# ---- scripts


def words_of(doc):
    """The words that each script takes: its file. A script adds its own."""
    parser = argparse.ArgumentParser(description=doc, formatter_class=argparse.RawDescriptionHelpFormatter)
    parser.add_argument("file", nargs="?", default="-", metavar="FILE", help="the program's text; the standard input where there is none")
    return parser


def read(path):
    if path == "-":
        return sys.stdin.buffer.read()
    with open(path, "rb") as file:
        return file.read()


def answer(parser, path, make):
    """Writes what is made of the file's lines; the status is 0, or 1 where there is an error, and then nothing else is written."""
    # A reader that has enough, like `head`, ends the script without a word.
    signal.signal(signal.SIGPIPE, signal.SIG_DFL)
    # What is made of the lines has no cycles, and all of it is kept: looking for what could be freed would take a third of the time.
    gc.disable()
    try:
        text = make(lines_of(read(path)))
    except (TextError, OSError) as fault:
        print(f"{parser.prog}: {fault}", file=sys.stderr)
        return 1
    sys.stdout.buffer.write(text.encode())
    sys.stdout.buffer.flush()
    return 0
