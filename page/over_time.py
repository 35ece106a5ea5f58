"""What the snapshots of a program tell: who held its memory at each of them, by function and by
stack, and who grew. It isn't proved."""
import os
import re
from collections import namedtuple

import ends
import following
from functions import NO_NAME, Functions
from reports import Differs
from snapshots import Snapshots
from stacks import Stacks, stacks_of

KNOWN = re.compile(
    rb"At line \d+, \d+ ms:|Held at the (?:peak, line \d+|end): \d+ blocks, \d+ bytes\.|"
    rb"\d+ bytes in \d+ calls, \d+ temporary(?: at .*)?|Asked over the log: .*|"
    rb"line \d+: .*", re.S)
SITE = re.compile(rb"(\d+) bytes in (\d+) blocks(?: at (.*))?", re.S)
HEAD = re.compile(rb"Held at the end: (\d+) blocks, (\d+) bytes\.")
# A snapshot of bin/leaks, which leaves out what is known.
OF_LEAKS = re.compile(rb"At line \d+, \d+ ms: .*, process \d+:", re.S)
PIECE = 1 << 20
NONE = (0, 0)
# How the states of bin/trace --follow are told of a log.
HOW = {following.WHOLE: ends.WHOLE, following.ENDED: ends.ENDED, following.CUT: ends.LEFT,
       following.LOST: ends.LEFT}
# What was held at a line, after milliseconds, in all: bytes and blocks.
Point = namedtuple("Point", "line milliseconds bytes blocks")


class Wrong(Exception):
    """Why a file isn't a report of snapshots."""


def added(one, other):
    """Bytes and blocks of two together."""
    return one[0] + other[0], one[1] + other[1]


def taken(one, other):
    """Bytes and blocks of one without those of another."""
    return one[0] - other[0], one[1] - other[1]


def sums_of(lines):
    """Bytes and blocks of each location in the lines of a snapshot, and of all together, which its
    first line tells."""
    head, sums, whole = HEAD.fullmatch(lines[0]), {}, NONE
    for line in lines[1:]:
        found = SITE.fullmatch(line)
        location, numbers = found[3] or b"", (int(found[1]), int(found[2]))
        sums[location] = added(sums.get(location, NONE), numbers)
        whole = added(whole, numbers)
    if whole != (int(head[2]), int(head[1])):
        raise Wrong(f"its sites hold {whole[0]} bytes in {whole[1]} blocks, and not {int(head[2])} "
                    f"in {int(head[1])}")
    return sums, whole


def why_unknown(number, line):
    """Why a line is none of a report."""
    if OF_LEAKS.fullmatch(line):
        return "bin/leaks wrote it; bin/trace --follow FOLDER writes one for each process"
    return f"line {number} isn't of a report of `tlsf sites`"


def check(found, number, line, is_over):
    """Whether a line, which is no site's, can stand behind the snapshots that were found."""
    is_heading, is_head = line.startswith(b"At line "), HEAD.fullmatch(line)
    if not KNOWN.fullmatch(line):
        raise Wrong(why_unknown(number, line))
    if is_over and (is_heading or is_head):
        raise Wrong("it goes on behind its end")
    if found.lines is not None or (is_heading and found.place is not None):
        raise Wrong("a snapshot isn't whole, and others stand behind it")


class Report:
    """The first bytes of a report, which may still be written."""

    def __init__(self, path):
        self.path, self.length = path, os.stat(path).st_size
        self.is_cut, self.diagnostics = False, 0

    def lines(self):
        """Its whole lines."""
        left, rest = self.length, b""
        with open(self.path, "rb") as file:
            while left > 0 and (piece := file.read(min(left, PIECE))):
                left -= len(piece)
                *lines, rest = (rest + piece).split(b"\n")
                yield from lines
        self.is_cut = bool(rest)

    def snapshots(self):
        """Each snapshot that is whole: its place, bytes and blocks by location, and both in all. At
        last what is held at the end, which has no place. Each line is of a report, or there is no
        page."""
        found, place, is_over = Snapshots(), (0, 0), False
        for number, line in enumerate(self.lines(), 1):
            if not SITE.fullmatch(line):
                check(found, number, line, is_over)
            for snapshot in found.take_line(line):
                now, is_over = (snapshot.line, snapshot.milliseconds), snapshot.is_last
                if not is_over and (now[0] < place[0] or now[1] < place[1]):
                    raise Wrong(f"a snapshot of line {now[0]} stands behind one of line {place[0]}")
                place = now
                yield (None if is_over else now), *sums_of(snapshot.lines)
        self.is_cut |= found.place is not None or found.lines is not None
        self.diagnostics = found.diagnostics


def log_beside(report):
    """The lines of modules and stacks that bin/trace --follow writes beside a report, or
    nothing."""
    told = report.removesuffix(".report") + ".told"
    return told if report.endswith(".report") and os.path.exists(told) else None


def end_beside(report, log):
    """How the log ended that a report is of, where that is told beside it, or by the log; or
    nothing."""
    name = os.path.basename(report).removesuffix("report") + "ring"
    told = following.states_in(os.path.dirname(report) or ".").get(name)
    if told:
        return HOW[told[0]]
    return ends.how_it_ends(log) if log and log != log_beside(report) else None


class OverTime:
    """A report of snapshots: all sums, and names of files in places, if any. The log is the one
    that has its stacks."""

    def __init__(self, report, log, places):
        self.report, log = Report(report), log or log_beside(report)
        self.points, self.at_end = [], None
        self.first, self.before, self.last, self.end = {}, {}, {}, None
        locations = self.read()
        self.how = end_beside(report, log)
        self.functions = Functions(stacks_of(log) if log else Stacks(), locations, places)
        self.sites = dict(zip(locations, self.functions.sites))
        self.series = self.read_series()

    def read(self):
        """Reads what is held at the first, the last two, and the end. Returns all locations, in the
        order in which they came."""
        locations = {}
        for place, sums, whole in self.report.snapshots():
            locations.update(dict.fromkeys(sums))
            if place is None:
                self.end, self.at_end = sums, whole
                continue
            if not self.points:
                self.first = sums
            self.before, self.last = self.last, sums
            self.points.append(Point(*place, *whole))
        return list(locations)

    def read_series(self):
        """Bytes of each function at each snapshot."""
        series, at = {}, 0
        for place, sums, whole in self.report.snapshots():
            if place is None:
                break
            for location, (held, _) in sums.items():
                series.setdefault(self.function(location), [0] * len(self.points))[at] += held
            if sum(values[at] for values in series.values()) != whole[0]:
                raise Differs(f"the numbers differ at line {place[0]}")
            at += 1
        return series

    def doubts(self, log):
        """What can make names wrong or leaves them out: files that changed behind a log, other
        builds, and files without lines."""
        newer = [f"{module} is newer than {log}: its source lines may be others"
                 for module in self.functions.newer_than(os.stat(log).st_mtime_ns)]
        bare = self.functions.without_lines()
        return [*newer, *self.functions.of_others(), *([bare] if bare else [])]

    def stack(self, location):
        """A location by its calls, innermost first."""
        return " < ".join(self.sites[location].frames) or NO_NAME

    def function(self, location):
        """A location by its function."""
        return self.functions.label(self.sites[location].function)

    def parts(self):
        """What is told of each name, as far as it is known: the last snapshot but one, the first,
        the last, and the end."""
        count = len(self.points)
        parts = [self.before, self.first] if count > 1 else []
        return [*parts, *([self.last] if count else []), *([self.end] if self.at_end else [])]

    def rows(self, name_of):
        """Bytes and blocks of each name: grown between the last two snapshots, at the first, at the
        last, and at the end. Those that grew most stand first; without growth those that hold
        most."""
        parts, sums = self.parts(), {}
        for at, part in enumerate(parts):
            for location, numbers in part.items():
                row = sums.setdefault(name_of(location), [NONE] * len(parts))
                row[at] = added(row[at], numbers)
        rows = [(name, self.grown(row)) for name, row in sums.items()]
        return sorted(rows, key=lambda row: (
            [(-held, -blocks) for held, blocks in (row[1][0], *row[1][::-1])], row[0]))

    def grown(self, row):
        """A row with what grew in place of what was held at the last snapshot but one."""
        return [taken(row[2], row[0]), *row[1:]] if len(self.points) > 1 else row

    @property
    def sums(self):
        """The same of all together, by the report."""
        whole = [(point.bytes, point.blocks) for point in self.points]
        parts = [whole[-2], whole[0]] if len(whole) > 1 else []
        return self.grown([*parts, *whole[-1:], *([self.at_end] if self.at_end else [])])
