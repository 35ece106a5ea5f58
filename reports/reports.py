"""Runs the proved program on a log, and reads its reports."""
import os
import re
import subprocess
import sys
import tempfile
from pathlib import Path

# The greatest heap, on which a page is made where no option is given.
GREATEST = {"pool": 1073741808, "pools": 1, "records": 65535}
UNIT = 16
KINDS = (b"too long", b"not a line", b" is not held", b" is already held", b" refused: ",
         b"half of a reallocation", b"no < before >")
TOO_LONG, NOT_A_LINE, NOT_HELD, ALREADY_HELD, REFUSED, HALF, STRAY = range(len(KINDS))
DIAGNOSTIC = re.compile(rb"line \d+: ")
# What `fit` may read again, in seconds of one processor by the estimate below.
SECONDS_TO_FIT = 3


def give_up(text, status=1):
    """Says why there is no page, or what else was asked for, and ends."""
    tool = Path(sys.argv[0]).name.removeprefix("tlsf-")
    print(f"tlsf-{tool}: {text}", file=sys.stderr)
    sys.exit(status)


class Differs(Exception):
    """The reports don't agree with each other, or with what was read beside them."""


def program_beside(folder):
    """The program: as TLSF names it, or beside the installed command, or above the repository's."""
    if os.environ.get("TLSF"):
        return os.environ["TLSF"]
    installed = folder / "tlsf"
    return str(installed if installed.exists() else folder.parent / "tlsf")


class Report:
    """One run of the program, which goes on beside others until its text is asked for."""

    def __init__(self, program, words, given=None):
        self.words, self.stopped = words, False
        self.out, self.said = tempfile.TemporaryFile(), tempfile.TemporaryFile()
        try:
            self.run = subprocess.Popen([program, *words], stdin=given or subprocess.DEVNULL,
                                        stdout=self.out, stderr=self.said,
                                        env={**os.environ, "TLSF_CAUSES": "1"})
        except OSError as error:
            give_up(f"the program doesn't run: {error}", 2)

    def text(self):
        """The report's bytes. What isn't answered with a report ends the page."""
        status = self.run.wait()
        self.out.seek(0)
        self.said.seek(0)
        if self.stopped:
            sys.exit(1)
        if status not in (0, 1):
            said = self.said.read().decode("utf-8", "replace").strip()
            give_up(f"`tlsf {self.words[0]}` ended with status {status}: {said}",
                    2 if status < 0 else status)
        return self.out.read()

    def stop(self):
        """Ends the run, where it goes on."""
        self.stopped = True
        if self.run.poll() is None:
            self.run.kill()
            self.run.wait()


def heap_words(heap):
    """The options of a heap."""
    return [word for name, value in heap.items() for word in (f"--{name}", str(value))]


def end_of_diagnostics(text):
    """Where the diagnostics end, which stand in front of a report."""
    at = 0
    while DIAGNOSTIC.match(text, at):
        newline = text.find(b"\n", at)
        at = len(text) if newline < 0 else newline + 1
    return at


def diagnostics(text, end):
    """Line number, kind and text of each diagnostic, in order."""
    at = 0
    while at < end:
        newline = text.index(b"\n", at)
        head, _, said = text[at:newline].partition(b": ")
        yield int(head[5:]), kind_of(said), said
        at = newline + 1


def kind_of(said):
    """The kind of a diagnostic, by its text."""
    for kind, words in enumerate(KINDS):
        if said == words or words.startswith(b" ") and words in said:
            return kind
    raise Differs(f"a diagnostic of an unknown kind: {said.decode('utf-8', 'replace')}")


def split_lines(text):
    """The lines of a text whose locations may have any byte."""
    lines = text.split(b"\n")
    return lines[:-1] if lines and not lines[-1] else lines


def body(text):
    """The lines of a report behind its diagnostics."""
    return split_lines(text[end_of_diagnostics(text):])


def read_peak(text):
    """Lines, line of the peak and the rest, by the names that stand in front."""
    return dict(line.split(b": ", 1) for line in body(text))


# The first line of a timeline, without a heap and with one; a row of the first kind, and what a
# location holds.
LINES, HEAP_LINES = b"line bytes blocks", b"line bytes blocks reach free largest"
ROW = re.compile(rb"^\d+ \d+ \d+$", re.M)
HELD_AT = re.compile(rb"^(\d+) bytes in (\d+) blocks(?: at (.*))?$", re.M)


def read_timeline(text):
    """Each row of a timeline on a heap: line, bytes, blocks, reach, free, largest."""
    lines = body(text)
    if not lines or lines[0] != HEAP_LINES:
        raise Differs("the timeline has no header")
    return [tuple(map(int, line.split())) for line in lines[1:]]


def rows_by_site(text):
    """Each row of a timeline by location: line, bytes and blocks."""
    if not text.startswith(LINES + b"\n", end_of_diagnostics(text)):
        raise Differs("the timeline has no header")
    return [tuple(map(int, row.split())) for row in ROW.findall(text)]


def changes_by_site(text):
    """For each row of a timeline by location the locations whose bytes or blocks changed since the
    row before, with what they hold then."""
    rows = list(ROW.finditer(text))
    ends = [row.start() for row in rows[1:]] + [len(text)]
    for row, end in zip(rows, ends):
        yield {location: (int(held), int(blocks))
               for held, blocks, location in HELD_AT.findall(text, row.end(), end)}


def read_sites(text):
    """Who holds the memory at the peak and at the end, for each location bytes and blocks; and who
    asks, calls, bytes and temporary blocks."""
    parts = []
    for line in body(text):
        if line.startswith((b"Held at the ", b"Asked over the log: ")):
            parts.append({})
        elif found := HELD_AT.fullmatch(line):
            parts[-1][found[3] or b""] = int(found[1]), int(found[2])
        elif found := re.fullmatch(rb"(\d+) bytes in (\d+) calls, (\d+) temporary(?: at (.*))?",
                                   line, re.S):
            parts[-1][found[4] or b""] = int(found[2]), int(found[1]), int(found[3])
    if len(parts) != 3:
        raise Differs("the report of sites has no three parts")
    return parts


def read_leaks(text):
    """What isn't freed: size, line and location of each block."""
    return [(int(found[1]), int(found[2]), found[3] or b"")
            for line in body(text)
            if (found := re.fullmatch(rb"0x[0-9a-f]+ (\d+) line (\d+)(?: at (.*))?", line, re.S))]


def read_walk(text):
    """Each pool: its base, its bytes, and its blocks by place: their sizes, below zero for a free
    one."""
    pools = []
    for line in body(text):
        if found := re.fullmatch(rb"pool (\d+): (\d+) bytes", line):
            place = int(found[1])
            pools.append((place, int(found[2]), []))
            continue
        start, size, state = line.split()
        if int(start) != place:
            raise Differs(f"the numbers differ in the walk: a block at {int(start)}, and not at "
                          f"{place}")
        place += int(size)
        pools[-1][2].append(int(size) if state == b"used" else -int(size))
    return pools


def read_fit(text):
    """The lines of the report, name and value."""
    return [tuple(line.decode().split(": ", 1)) for line in body(text)]


def coarse_step(lines, blocks, peak):
    """The step of `fit` for a long log, so that it tries as few sizes as its time allows; nothing
    where its own will do.

    A line takes some tenths of a microsecond, more where many blocks are held (docs/SPEED.md)."""
    seconds = lines * (0.12 + 0.07 * (blocks / 1000) ** 0.5) / 1_000_000
    tries = int(SECONDS_TO_FIT / seconds) if seconds else 64
    if tries >= 64:
        return None
    step = -(-peak // max(tries, 3))
    return min(GREATEST["pool"], max(UNIT, -(-step // UNIT) * UNIT))


def first_lines(path, count):
    """A file with so many first lines of the log."""
    kept = tempfile.TemporaryFile()
    with open(path, "rb") as log:
        while count > 0 and (piece := log.read(1 << 20)):
            newlines = piece.count(b"\n")
            if newlines >= count:
                piece = piece[:place_behind(piece, count)]
            kept.write(piece)
            count -= newlines
    kept.seek(0)
    return kept


def place_behind(piece, count):
    """The place behind so many newlines."""
    at = 0
    for _ in range(count):
        at = piece.index(b"\n", at) + 1
    return at
