"""The snapshots of a program that is followed: what each process held, with names, while it ran,
and what grew. It isn't proved."""
import ctypes
import os
import re
from collections import defaultdict
from dataclasses import dataclass

import as_json
import following
from baseline import Row, Sum
from index import entries_of
from naming import Report, Site, stacks_for
from processes import AT_ONCE, AT_THE_END, CUT, HEAD, IN_TITLE, RUNNING, WHOLE, Process
from reports import DIAGNOSTIC
from stacks import text_of

HEADING = re.compile(rb"At line ([0-9]+), ([0-9]+) ms:")
BLOCKS = re.compile(rb"[0-9]+ bytes in ([0-9]+) blocks")
NOW = "Held now: "
STATES = {following.WHOLE: WHOLE, following.ENDED: AT_ONCE, following.CUT: CUT,
          following.LOST: CUT}
PUNCH_HOLE, KEEP_SIZE = 2, 1


@dataclass
class Snapshot:
    """What was held: at a line and after milliseconds, or at the end. Its first line has sums."""
    line: int
    milliseconds: int
    lines: list
    is_last: bool


class Snapshots:
    """Finds the snapshots in what tlsf writes, as far as it has written. One is whole once its
    blocks are all told."""

    def __init__(self):
        self.rest, self.place, self.lines = b"", None, None
        self.missing, self.diagnostics = 0, 0

    def take(self, text):
        """The snapshots that this text makes whole."""
        *lines, self.rest = (self.rest + text).split(b"\n")
        for line in lines:
            yield from self.take_line(line)

    def take_line(self, line):
        """The snapshot that this line makes whole, if it does."""
        heading = HEADING.fullmatch(line)
        if heading:
            self.place, self.lines = (int(heading[1]), int(heading[2])), None
        elif line.startswith(AT_THE_END):
            self.lines, self.missing = [line], int(HEAD.fullmatch(text_of(line))[2])
        elif self.lines is not None:
            self.lines.append(line)
            self.missing -= int(BLOCKS.match(line)[1])
        elif DIAGNOSTIC.match(line + b"\n"):
            self.diagnostics += 1
        if self.lines is not None and self.missing == 0:
            yield Snapshot(*(self.place or (0, 0)), self.lines, self.place is None)
            self.place = self.lines = None


class Followed(Process):
    """A process that is followed, whose reports come while it runs. Its log has the lines of
    modules and stacks alone."""

    # pylint: disable=super-init-not-called
    def __init__(self, number, report, program):
        self.number, self.program, self.path = number, program, report
        self.log, self.at = report.removesuffix("report") + "told", 0
        self.list = report.removesuffix("report") + "reachable"
        self.snapshots, self.before, self.last = Snapshots(), None, None
        self.end, self.is_traced, self.is_apart, self.asked_for = RUNNING, True, False, b""
        self.requests, self.doubts, self.names, self.entries = [], [], None, []

    def read(self):
        """The snapshots that came; what is read is given back to the disk, where it can be."""
        try:
            with open(self.path, "rb+") as file:
                file.seek(self.at)
                while text := file.read(1 << 20):
                    yield from self.snapshots.take(text)
                    punch(file, self.at, len(text))
                    self.at += len(text)
        except FileNotFoundError:
            pass

    def named(self, snapshot, asked, suppressions):
        """The entries of a snapshot, with names."""
        text = text_of(b"".join(line + b"\n" for line in snapshot.lines))
        return list(Report(text, stacks_for(text, self.log), asked, suppressions).entries())

    def told(self, snapshot, asked, suppressions):
        """A snapshot as text, with what grew since the one before."""
        entries = self.named(snapshot, asked, suppressions)
        where = f"At line {snapshot.line}, {snapshot.milliseconds} ms"
        yield f"{where}: {self.program}, process {self.number}:"
        yield from (str(entry).replace("Held at the end: ", NOW, 1) for entry in entries)
        sums = sums_of(entries)
        yield from grew(self.before, sums) if self.before is not None else ()
        self.before = sums

    def close(self, state, has_calls):
        """Takes how it ended, and what it holds then."""
        last = self.last.lines if self.last else [AT_THE_END + b"0 blocks, 0 bytes."]
        self.end, self.is_traced = STATES[state] if self.last else CUT, has_calls
        self.title = f"{self.program}, process {self.number}{IN_TITLE[self.end]}"
        self.lines, self.held = last, HEAD.fullmatch(text_of(last[0]))
        self.diagnostics = [b"line"] * self.snapshots.diagnostics


def punch(file, at, length):
    """Gives bytes that were read back to the disk. On a file system that can't they stay."""
    libc = ctypes.CDLL(None)
    libc.fallocate(file.fileno(), PUNCH_HOLE | KEEP_SIZE, ctypes.c_long(at), ctypes.c_long(length))


def sums_of(entries):
    """Bytes and blocks of sites by their functions."""
    sums = defaultdict(Sum)
    for site in (entry for entry in entries if isinstance(entry, Site)):
        told = as_json.site(site)
        sums[as_json.functions(told)].add(told)
    return sums


def grew(before, sums):
    """A line for each site that holds more than in the snapshot before, most bytes first."""
    rows = [Row(key, now.text, before.get(key, Sum()), now) for key, now in sums.items()]
    more = [(row.new.bytes - row.old.bytes, row.new.blocks - row.old.blocks, row.text)
            for row in rows if row.grew]
    for number, blocks, text in sorted(more, key=lambda one: (-one[0], -one[1], one[2])):
        yield f"Grew: {number} bytes in {blocks} blocks at {text}"


class Session:
    """The processes that are followed into a folder, as the index names them."""

    def __init__(self, folder, index, asked, suppressions):
        self.folder, self.index, self.asked, self.suppressions = folder, index, asked, suppressions
        self.processes, self.seen = {}, 0

    def look(self):
        """The processes that came, by their rings."""
        size = os.path.getsize(self.index)
        if size == self.seen:
            return
        self.seen = size
        for number, ring, program in entries_of(self.index):
            if ring and ring not in self.processes:
                report = following.report_in(self.folder, ring)
                self.processes[ring] = Followed(number, report, program)

    def snapshots(self):
        """The text of each snapshot that came."""
        self.look()
        for process in [process for process in self.processes.values() if not process.last]:
            for snapshot in process.read():
                if snapshot.is_last:
                    process.last = snapshot
                else:
                    yield list(process.told(snapshot, self.asked, self.suppressions))

    def close(self, run):
        """All processes, once they have ended, with names of what they hold. What is lost of it is
        told apart by the run."""
        states = following.states_in(self.folder)
        for ring, process in self.processes.items():
            how, has_calls = states.get(os.path.basename(ring), (following.LOST, True))
            process.close(how, has_calls)
            if not process.is_cut:
                run.tell_apart(process)
                process.name(self.asked, self.suppressions)
        return list(self.processes.values())
