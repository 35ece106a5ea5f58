"""A report of tlsf with names: its sites with their calls, those that are told alike as one, and
known sites left out. It isn't proved."""
import os
import re
from collections import Counter
from dataclasses import dataclass
from pathlib import Path

import stacks
from names import Names, told_bare, told_others
from suppress import by_symbols, is_known, read_suppressions
from told import calls_of, told_apart, told_calls, told_frames

HERE = Path(__file__).resolve().parent
SITE = re.compile(r"(\d+) bytes in (\d+) blocks", re.A)
LEAK = re.compile(r"0x[0-9a-f]+ (\d+) line \d+", re.A)
HEAD = re.compile(r"(.+): (\d+) blocks, (\d+) bytes\.", re.A)
IN_REPORT = re.compile(r" (?:at|by) (s[0-9]+)(?= by |$)", re.M)
LED = re.compile(r"(s[0-9]+) by (s[0-9]+)")
AT_THE_END = "Held at the end: "
# The kinds of valgrind's. What isn't told apart is held; for suppressions it counts as lost.
HELD, LOST, INDIRECT, POSSIBLE, REACHABLE = "held", "definite", "indirect", "possible", "reachable"
KINDS = {"Lost: ": LOST, "Possibly lost: ": POSSIBLE, "Still reachable: ": REACHABLE}
INDIRECTLY = "Indirectly lost"


class Line:
    """A line of a report: what stands in front of its location, the location, or nothing, and its
    frames."""

    def __init__(self, text, known):
        self.text = text
        self.head, _, self.location = text.partition(" at ")
        # A lost block that others lead to has the stack of their first behind its own.
        led = LED.fullmatch(self.location)
        self.location, self.leader = led.groups() if led else (self.location, "")
        self.led_by = known.frames(self.leader)
        self.frames = (known.frames(self.location)
                       or stacks.frames_of(self.location)) if self.location else []
        self.is_stack = len(self.frames) > 1 or bool(stacks.NUMBER.fullmatch(self.location)
                                                     and self.frames)


@dataclass(frozen=True)
class Site:
    """What is held by calls that are told alike: how, its bytes and blocks, the calls as text, each
    call with whether it stands for several of the standard library, the frames of one such stack,
    and blocks and bytes that are lost with it, since only it leads there."""
    kind: str
    bytes: int
    blocks: int
    told: tuple
    frames: tuple
    stack: tuple
    led: tuple = (0, 0)

    def __str__(self):
        name = " < ".join(self.told)
        led = f"\n    with it {self.led[1]} bytes in {self.led[0]} blocks" if self.led[0] else ""
        return f"{self.bytes} bytes in {self.blocks} blocks{' at ' if name else ''}{name}{led}"


class LeftOut:
    """Known sites of a part of a report, and their bytes."""

    def __init__(self):
        self.sites, self.bytes = set(), 0

    def add(self, location, number):
        """Adds a site by its location, and its bytes."""
        self.sites.add(location)
        self.bytes += number

    def __str__(self):
        count = len(self.sites)
        return f"{count} known site{'s' if count > 1 else ''}, {self.bytes:,} bytes left out"


class Sites:
    """The sites of a part of a report. Those that are told alike are one, but for functions that
    have one name and other arguments: these are asked for by a line."""

    def __init__(self, report, kind, led):
        self.report, self.kind, self.led, self.alike = report, kind, led, {}

    def add(self, line, number, blocks):
        """Adds bytes and blocks of a line."""
        self.alike.setdefault(tuple(self.report.told_of(line)), []).append((line, number, blocks))

    def apart(self, told, entries):
        """The sites that are told alike: bytes, blocks, what is lost with them, calls, and a line
        of each."""
        sums, lines = {}, {}
        for line, number, blocks in entries:
            names = tuple(told if len(entries) == 1 else self.report.wholes(line))
            lines.setdefault(names, line)
            sums[names] = added(sums.get(names, (0, 0, 0, 0)),
                                (number, blocks, *self.led.get(line.location, (0, 0))))
        return zip(sums.values(), told_apart(told, list(sums)), lines.values())

    def in_order(self):
        """Each: most bytes, most blocks, no location, the text."""
        sites = [Site(self.kind, number, blocks, tuple(calls), tuple(self.report.frames(line)),
                      tuple(line.frames), tuple(led)) for told, entries in self.alike.items()
                 for (number, blocks, *led), calls, line in self.apart(told, entries)]
        return sorted(sites, key=lambda site: (-site.bytes, -site.blocks, " < ".join(site.told)))


class Report:
    """A report whose locations are told by names. What is asked for are the options of
    source-lines."""

    def __init__(self, text, known, asked, suppressions):
        # A location may have any byte, so lines end with a newline alone.
        self.lines = [Line(line, known) for line in text.split("\n")]
        if not self.lines[-1].text:
            self.lines.pop()
        self.asked, self.told, self.known = asked, {}, {}
        self.has_stacks = any(line.is_stack for line in self.lines)
        self.names = Names({frame for line in self.lines for frame in [*line.frames, *line.led_by]},
                           known.build_ids, asked.places)
        self.suppressions = by_symbols(suppressions, [module.file
                                                      for module in self.names.modules.values()
                                                      if module.is_object])

    def calls(self, line):
        """A location as it is told: its calls, innermost first."""
        if line.location not in self.told:
            self.told[line.location] = told_calls(calls_of(self.names, line.frames),
                                                  self.asked.all_frames, self.asked.paths)
        return self.told[line.location]

    def frames(self, line):
        """The same as calls, each with whether it stands for several; none where the location is no
        stack."""
        return told_frames(calls_of(self.names, line.frames),
                           self.asked.all_frames) if line.frames else []

    def told_of(self, line):
        """The calls of a line; its location, where that is no stack."""
        return self.calls(line) if line.frames else [line.location] if line.location else []

    def wholes(self, line):
        """The same with the whole names of the functions, where sites aren't joined."""
        if self.asked.join or not line.frames:
            return self.told_of(line)
        return told_calls(calls_of(self.names, line.frames), self.asked.all_frames,
                          self.asked.paths, whole=True)

    def is_left_out(self, line, kind):
        """Whether a line is of a known site, whose memory is held in this way; or of memory that
        such a site's leads to."""
        if line.led_by:
            return self.is_known(line.location, line.frames, INDIRECT) or self.is_known(line.leader,
                                                                                        line.led_by,
                                                                                        kind)
        return line.is_stack and self.is_known(line.location, line.frames, kind)

    def is_known(self, location, frames, kind):
        """Whether a stack is of a known site."""
        kind = LOST if kind == HELD else kind
        key = location, kind
        if key not in self.known:
            self.known[key] = is_known(self.suppressions, calls_of(self.names, frames), kind)
        return self.known[key]

    def named(self, line):
        """A line with names: a stack in place of its location, or the lines of a location of glibc
        behind it."""
        if not line.frames:
            return line.text
        if self.has_stacks:
            return f"{line.head} at {' < '.join(self.calls(line))}"
        places = [f"{call.file}:{call.line}" for call in calls_of(self.names, line.frames)
                  if call.file]
        return f"{line.text} ({' < '.join(places)})" if places else line.text

    def parts(self):
        """The lines of the report's parts: in front of each its first line, or none."""
        part = [None]
        for line in self.lines:
            if SITE.fullmatch(line.head) or LEAK.fullmatch(line.head):
                part.append(line)
            else:
                yield part
                part = [line]
        yield part

    def part(self, kind, lines, led):
        """What is told of the lines of a part: leaks as texts, its sites in order, and what is left
        out. By location these others are lost with them."""
        sites, known = Sites(self, kind, sums_of(led)), LeftOut()
        for line in lines:
            site = SITE.fullmatch(line.head) if self.has_stacks else None
            number = int((site or SITE.fullmatch(line.head) or LEAK.fullmatch(line.head))[1])
            if (site or LEAK.fullmatch(line.head)) and self.is_left_out(line,
                                                                        LOST if kind == INDIRECT
                                                                        else kind):
                known.add(line.location, number)
            elif site:
                sites.add(line, number, int(site[2]))
            else:
                yield self.named(line)
        yield from sites.in_order()
        if known.sites:
            yield known

    def entries(self):
        """The report, in order: texts, sites, and what is left out. Sites that follow each other
        are merged where they are told alike. What lost blocks lead to is a part of its own."""
        for head, *lines in self.parts():
            led = [line for line in lines if line.leader]
            sums = added((0, 0), *sums_of(led).values())
            if head is not None:
                yield without(head, sums, self) if led else self.named(head)
            yield from self.part(kind_of(head.text) if head else HELD,
                                 [line for line in lines if not line.leader], led)
            if led:
                yield f"{INDIRECTLY}: {sums[0]} blocks, {sums[1]} bytes."
                yield from self.part(INDIRECT, led, [])

    def report(self):
        """The lines with names."""
        return map(str, self.entries())

    def folded(self):
        """The bytes of each stack, outermost call first. Of a report of sites these are the bytes
        at the peak."""
        sums = Counter()
        for line in self.lines:
            if line.text.startswith(AT_THE_END):
                break
            found = SITE.fullmatch(line.head) or LEAK.fullmatch(line.head)
            if found and not self.is_left_out(line, HELD):
                calls = self.calls(line) if line.frames else [line.location or "without a location"]
                sums[";".join(call.replace(";", ",") for call in reversed(calls))] += int(found[1])
        return sorted(f"{stack} {number}" for stack, number in sums.items())

    def doubts(self, log):
        """What is said, once, of what can make names wrong or leaves them out: files that changed
        behind the log, and those without lines."""
        modules = self.names.modules.values()
        written = os.stat(log).st_mtime_ns if log else None
        newer = [f"{module.path} is newer than {log}: its names may be others"
                 for module in modules if written and module.is_object and not module.is_same
                 and os.stat(module.file).st_mtime_ns > written]
        return [*told_others(modules), *newer, *filter(None, [told_bare(modules)])]


def added(*sums):
    """Sums of numbers, each of its kind."""
    return tuple(map(sum, zip(*sums)))


def sums_of(led):
    """Blocks and bytes of lines by the location of the first block that leads to them."""
    sums = {}
    for line in led:
        found = SITE.fullmatch(line.head)
        sums[line.leader] = added(sums.get(line.leader, (0, 0)), (int(found[2]), int(found[1])))
    return sums


def without(head, sums, report):
    """The first line of a part, without blocks and bytes that are told apart."""
    found = HEAD.fullmatch(head.text)
    return (f"{found[1]}: {int(found[2]) - sums[0]} blocks, {int(found[3]) - sums[1]} bytes."
            if found else report.named(head))


def kind_of(head):
    """How the memory of a part of a report is held, by its first line."""
    return next((kind for name, kind in KINDS.items() if head.startswith(name)), HELD)


def stacks_for(text, log):
    """The stacks of a log that the text of a report has."""
    return stacks.stacks_of(log, set(IN_REPORT.findall(text)))


def suppressions_of(names, all_sites=False):
    """What is left out: known sites, and those of the files that are named; or nothing. Malformed
    tells file and line that is none, an OSError a file that can't be read."""
    found = []
    for name in [] if all_sites else [HERE / "known.supp", *names]:
        found += read_suppressions(Path(name).read_text(errors="surrogateescape"), name)
    return found
