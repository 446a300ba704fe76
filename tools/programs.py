"""Builds and runs the programs that the tools here ask."""
import subprocess
import sys
import tempfile
import time
from pathlib import Path
from threading import Thread

ROOT = Path(__file__).resolve().parent.parent


def made(crate, file):
    """Where rt leaves what it makes of a crate."""
    return ROOT / "crates" / crate / "out" / file


def build(names, wanted):
    """Builds the programs, or, where they are not wanted built, sees that they are there."""
    for name in names:
        if wanted:
            # `rt run` proves and builds a program and runs it, here on no input
            subprocess.run(["rt", "run"], cwd=ROOT / "crates" / name, stdin=subprocess.DEVNULL, stdout=sys.stderr, check=True)
        if not made(name, name).exists():
            sys.exit(f"there is no {made(name, name)}: run `rt run` in crates/{name}")


def build_library(name):
    """Proves and builds a static library."""
    subprocess.run(["rt", "lib"], cwd=ROOT / "crates" / name, stdout=sys.stderr, check=True)


def command_of(name, other):
    """A program's command: the one that rt has built, or another that was named in its place."""
    return other.split() if other else [str(made(name, name))]


def write_all(pipe, pieces):
    """Writes an input piece by piece, as far as the program reads it."""
    try:
        for piece in pieces:
            pipe.write(piece)
            pipe.flush()
        pipe.close()
    except BrokenPipeError:
        pass


def replies(command, *pieces):
    """What a program says to an input, as lines; how it ended stands as a last line where it did not end well."""
    with tempfile.TemporaryFile() as errors:
        process = subprocess.Popen(command, stdin=subprocess.PIPE, stdout=subprocess.PIPE, stderr=errors)
        writer = Thread(target=write_all, args=(process.stdin, pieces))
        writer.start()
        lines = process.stdout.read().decode(errors="backslashreplace").split("\n")
        writer.join()
        code = process.wait()
        errors.seek(0)
        complaint = errors.read(200)
    last = lines.pop()
    if last:
        lines.append(f"(without a newline) {last}")
    if code:
        lines.append(f"(exit code {code}: {complaint!r})")
    return lines


class Progress:
    """Says how far a long run has come, every few seconds, on standard error."""

    def __init__(self, what, total):
        self.what, self.total, self.start = what, total, time.time()
        self.next = self.start + 5

    def at(self, count):
        now = time.time()
        if now >= self.next:
            print(f"  {self.what}: {count:,} of {self.total:,}, {now - self.start:.0f} s", file=sys.stderr, flush=True)
            self.next = now + 10

    def seconds(self):
        return time.time() - self.start
