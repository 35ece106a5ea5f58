"""Reads a log for what no report tells: what each site holds, asks for and gives back between the
points."""
import sys
import time
from array import array
from itertools import islice

from reports import ALREADY_HELD, HALF, NOT_A_LINE, NOT_HELD, STRAY, TOO_LONG

NIL = b"(nil)"
# Numbers of a change: site, bytes and blocks held more, calls, bytes asked for, temporary blocks.
CHANGE = 6
# Counts of a site between two points.
ASKED, CALLS, FREED, FREES, TEMPORARY = range(5)


class Numbers(dict):
    """Sizes by their digits, each with the calls and bytes of its power of two."""

    def __init__(self):
        super().__init__()
        self.powers = [[0, 0] for _ in range(65)]

    def __missing__(self, digits):
        number = int(digits, 16)
        entry = self[digits] = number, self.powers[number.bit_length()]
        return entry


class Sites(dict):
    """What happened at each site since the last point, by its location; the empty one is that of
    lines without any."""

    def __missing__(self, location):
        counts = self[location] = [0, 0, 0, 0, 0]
        return counts


class Progress:
    """Tells on a terminal how far the page is."""

    def __init__(self):
        self.on = sys.stderr.isatty()
        self.told = 0.0

    def tell(self, text, often=False):
        """Writes a line over the one before; of lines that come often at most ten a second."""
        if self.on and not (often and time.monotonic() - self.told < 0.1):
            self.told = time.monotonic()
            print(f"\r\033[Ktlsf-page: {text}", end="", file=sys.stderr, flush=True)

    def end(self):
        """Clears the line."""
        if self.on:
            print("\r\033[K", end="", file=sys.stderr, flush=True)


def parts_of(words):
    """Location, form, address and size of a line's words; what a form lacks is something else."""
    if words[0] == b"@":
        return words[1], words[2], words[3], words[-1]
    return b"", words[0], words[1], words[-1]


class Reading:
    """A log that is read line by line. Lines that a report found something wrong with are read by
    what it says."""

    def __init__(self):
        self.held, self.sites, self.numbers, self.aligned = {}, Sites(), Numbers(), set()
        self.last = self.taken = None

    def take_whole(self, lines):
        """Reads lines without a diagnostic: each is well formed, and served. The two frequent forms
        come first."""
        held, sites, numbers, free, last = (self.held, self.sites, self.numbers, self.held.pop,
                                            self.last)
        for line in lines:
            words = line.split()
            if len(words) == 4 and words[2] == b"-":
                number, location = free(words[3])
                counts = sites[location]
                counts[2] += number
                counts[3] += 1
                if words[3] == last:
                    counts[4] += 1
                last = None
                continue
            if len(words) == 5:
                _, location, form, address, size = words
            else:
                location, form, address, size = parts_of(words)
                if form == b"*":
                    self.aligned.add((words[-2], size))
            if form != b"+" and not self.gives(form, address, last) or address == NIL:
                last = None
                continue
            number, power = numbers[size]
            power[0] += 1
            power[1] += number
            counts = sites[location]
            counts[0] += number
            counts[1] += 1
            held[address] = number, location
            last = address
        self.last = last

    def requests(self):
        """Alignment and size of all that was asked for, in the digits of the log."""
        return self.aligned | {(b"0x1", size) for size in self.numbers}

    def gives(self, form, address, last):
        """Whether a line of another form gives a block; what it takes is taken."""
        if form == b"<":
            self.taken = address
        if form == b"-" or form == b">":
            old = address if form == b"-" else self.taken
            number, location = self.held.pop(old)
            counts = self.sites[location]
            counts[FREED] += number
            counts[FREES] += 1
            counts[TEMPORARY] += form == b"-" and old == last
        return form == b">" or form == b"*"

    def take_faulty(self, line, kinds):
        """Reads a line with diagnostics. What is held after it is as docs/FORMATS.md, "What a line
        does", has it."""
        self.last = None
        if not kinds.isdisjoint((TOO_LONG, NOT_A_LINE, HALF, STRAY, ALREADY_HELD)):
            return
        words = line.split()
        place = words[:2] if words[0] == b"@" else []
        form, *rest = words[len(place):]
        if form == b">" and NOT_HELD not in kinds:
            self.take_whole([b"- " + self.taken])
        if form == b">":
            self.take_whole([b" ".join([*place, b"+", *rest])])


def snapshot(reading, indices):
    """What has changed at each site since the snapshot before."""
    changes = []
    for location, (asked, calls, freed, frees, temporary) in reading.sites.items():
        index = indices.setdefault(location, len(indices))
        changes += (index, asked - freed, calls - frees, calls, asked, temporary)
    reading.sites.clear()
    try:
        return array("q", changes)
    except OverflowError:
        return changes


def faulty_lines(found):
    """The numbers of lines with diagnostics, each with the kinds of these, and one behind all at
    the end."""
    number, kinds = 0, set()
    for line, kind, _ in found:
        if line != number and kinds:
            yield number, kinds
            kinds = set()
        number = line
        kinds.add(kind)
    if kinds:
        yield number, kinds
    yield 1 << 64, set()


def read_up_to(log, reading, number, point, faulty, bad):
    """Reads on from a line number to a point, and returns the faulty line that is next."""
    while number < point:
        if bad[0] > point:
            reading.take_whole(islice(log, point - number))
            number = point
        else:
            reading.take_whole(islice(log, bad[0] - 1 - number))
            reading.take_faulty(log.readline(), bad[1])
            number, bad = bad[0], next(faulty)
    return bad


def read_log(path, points, found, progress):
    """The locations of a log in order of appearance, and for each point the changes since the one
    before: by site, and by power of two the calls and bytes. And what was asked for."""
    reading, indices = Reading(), {}
    faulty = faulty_lines(found)
    bad = next(faulty)
    changes, powers = [], []
    with open(path, "rb", buffering=1 << 20) as log:
        for before, point in zip([0, *points], points):
            progress.tell(f"{before:,} of {points[-1]:,} lines are read", often=True)
            bad = read_up_to(log, reading, before, point, faulty, bad)
            changes.append(snapshot(reading, indices))
            powers.append([tuple(power) for power in reading.numbers.powers])
    return list(indices), changes, powers, reading.requests()


def points_of(lines, peak, count):
    """The lines that the timeline tells: 0, that of the peak, and so many in even steps."""
    return sorted({0, peak, *(-(-step * lines // count) for step in range(1, count + 1))})
