"""An own reading of a log, for the test modules of tests/page.d."""
import re
from pathlib import Path

from cases import expect
from pages import (GREATEST, report)


LINE = re.compile(rb"(?:@ (\S+) )?([-+<>*!=]) (\S+)(?: (\S+))?(?: (\S+))?")


class Model:
    """What a log without faults holds after each line, by site, read line by line."""

    def __init__(self, log):
        self.held, self.last, self.line, self.states, self.calls, self.sizes = ({}, None, 0, [], [],
                                                                                [])
        taken = None
        self.states.append({})
        for number, line in enumerate(log.split(b"\n")[:-1], 1):
            site, form, address, *numbers = LINE.fullmatch(line).groups()
            if form == b"-":
                self.free(number, address)
            elif form == b"<":
                taken = address
            elif form in b"+>*" and address != b"(nil)":
                if form == b">":
                    self.free(number, taken, False)
                self.give(number, site or b"", address, int([size for size in numbers if size][-1],
                                                            16))
            self.states.append(self.state())

    def give(self, number, site, address, size):
        self.calls.append([number, site, size, False])
        self.held[address] = site, size, self.calls[-1]
        self.last, self.line = address, number

    def free(self, number, address, temporary=True):
        self.held.pop(address)[2][3] = temporary and (address, number) == (self.last,
                                                                           self.line + 1) and number

    def state(self):
        sums = {}
        for site, size, _ in self.held.values():
            before = sums.get(site, (0, 0))
            sums[site] = before[0] + size, before[1] + 1
        return sums

    def between(self, first, last):
        """For each site: grown, before, after, blocks before and after; calls and bytes asked for;
        temporary blocks."""
        grown = {site: (self.states[last].get(site, (0, 0)), self.states[first].get(site, (0, 0)))
                 for site in {**self.states[last], **self.states[first]}}
        calls, temporary = {}, {}
        for number, site, size, freed in self.calls:
            if first < number <= last:
                before = calls.get(site, (0, 0))
                calls[site] = before[0] + 1, before[1] + size
                grown.setdefault(site, ((0, 0), (0, 0)))
            if freed and first < freed <= last:
                temporary[site] = temporary.get(site, 0) + 1
        return grown, calls, temporary

    def sizes_between(self, first, last):
        sums = {}
        for number, _, size, _ in self.calls:
            if first < number <= last:
                before = sums.get(size.bit_length(), (0, 0))
                sums[size.bit_length()] = before[0] + 1, before[1] + size
        return sums


def size_name(power):
    return str(power) if power < 2 else f"{2 ** (power - 1)} to {2 ** power - 1}"


def site_text(location):
    return location.decode("latin-1") if location else "(no location)"


def sites_of(log):
    """The two parts of the report of sites: text, bytes and blocks."""
    parts = []
    for line in report("sites", *GREATEST, log):
        if line.startswith("Held at"):
            parts.append([])
        elif found := re.fullmatch(r"(\d+) bytes in (\d+) blocks(?: at (.*))?", line):
            parts[-1].append([found[3] or "(no location)", found[1], found[2]])
    return parts


def expect_range(name, log, dom, first, last):
    """What the tables show of a range of lines is what an own reading finds."""
    model = Model(Path(log).read_bytes())
    grown, calls, temporary = model.between(first, last)
    expect(f"{name}: grown", sorted(dom.rows("table-grown")),
           sorted([site_text(site), *map(str, (after[0] - before[0], before[0], after[0], before[1],
                                               after[1]))]
                  for site, (after, before) in grown.items()))
    expect(f"{name}: calls", sorted(dom.rows("table-calls")),
           sorted([site_text(site), *map(str, told)] for site, told in calls.items()))
    expect(f"{name}: temporary", sorted(row[:2] for row in dom.rows("table-temporary")),
           sorted([site_text(site), str(count)] for site, count in temporary.items()))
    expect(f"{name}: no share above all", [row for row in dom.rows("table-temporary")
                                           if float(row[3].removesuffix(" %")) > 100], [])
    expect(f"{name}: sizes", dom.rows("table-sizes"), [[size_name(power), *map(str, told)]
                                                       for power, told in sorted(
                                                           model.sizes_between(first,
                                                                               last).items())])
