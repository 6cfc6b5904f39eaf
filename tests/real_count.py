"""The program under test, and the count of what passed, failed and was skipped."""
from volumes import run

# A time of 2026, in units of 100 ns since 1601.
TIME = 134_200_000_000_000_000


def numbered(checks):
    return f"{checks} check" + ("s" if checks != 1 else "")


class Count:
    """What was said of each check. What was skipped is kept by its name, with the number of checks that it has, or 0 where it is
    a part of checks that were made."""

    def __init__(self, program):
        self.program, self.passed, self.failed, self.skipped = program, 0, 0, {}

    def say(self, what, faults, done):
        self.passed, self.failed = self.passed + (not faults), self.failed + bool(faults)
        print(f"{what}: " + (f"FAILED: {'; '.join(faults)}" if faults else done), flush=True)

    def skip(self, what, checks=0):
        self.skipped[what] = checks

    def command(self, image, command):
        ended = run(self.program, image, command)
        return ended.returncode, ended.stdout.decode()

    def format(self, image, sectors):
        """Lets the program make a volume in a new image of so many sectors; its status and its text."""
        with open(image, "wb") as file:
            file.truncate(512 * sectors)
        ended = run(self.program, image, "format", f"--time={TIME}", "--seed=7")
        return ended.returncode, ended.stdout.decode()

    def closing(self):
        """How many checks passed and which were skipped, and on the last line the numbers."""
        names = [f"{what} ({numbered(checks)})" if checks else what for what, checks in self.skipped.items()]
        number = sum(self.skipped.values())
        told = f"{numbered(self.passed)} passed; skipped: {', '.join(names) or 'none'}"
        return f"{told}\n{self.passed} passed, {self.failed} failed" + (f", {number} skipped" if number else "")
