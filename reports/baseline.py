"""What grew since an older report of bin/leaks: sites by their functions, not by lines or
addresses. It isn't proved."""
import os
from collections import defaultdict
from dataclasses import dataclass

import as_json


@dataclass
class Sum:
    """Bytes and blocks of all sites of a program that have the same functions, and how the largest
    is told."""
    bytes: int = 0
    blocks: int = 0
    text: str = ""
    most: int = -1

    def add(self, site):
        """Adds a site of a report in JSON."""
        self.bytes += site["bytes"]
        self.blocks += site["blocks"]
        if site["bytes"] > self.most:
            self.most, self.text = site["bytes"], site["text"]


@dataclass(frozen=True)
class Row:
    """A site that one of two reports has: by what it is known, its text, and its sums in the old
    and in the new one."""
    key: tuple
    text: str
    old: Sum
    new: Sum

    @property
    def state(self):
        """How it changed, in the words of SARIF."""
        if self.grew:
            return "updated" if self.old.blocks else "new"
        return "unchanged" if self.is_same else "updated" if self.new.blocks else "absent"

    @property
    def grew(self):
        """Whether it is new, or holds more bytes or blocks."""
        return self.new.bytes > self.old.bytes or self.new.blocks > self.old.blocks

    @property
    def is_same(self):
        """Whether it holds as much."""
        return (self.new.bytes, self.new.blocks) == (self.old.bytes, self.old.blocks)


def key_of(program, site):
    """What a site of a process's report in JSON is known by: its program's name, and its
    functions."""
    return os.path.basename(program), as_json.functions(site)


def programs_of(report):
    """The names of a report's programs."""
    return {os.path.basename(process["program"]) for process in report["processes"]}


def renamed(old, new):
    """By the name of an older report's program that which it has now. Where each report has one
    program these are the same one, as of two versions."""
    one, other = programs_of(old), programs_of(new)
    return dict(zip(one, other)) if len(one) == len(other) == 1 else {}


def leaks_of(report, names):
    """The sums of a report by program and functions. What is still reachable is no leak, and of a
    log that was cut nothing is known. Programs with another name among `names` are told by that."""
    sums = defaultdict(Sum)
    for process in report["processes"]:
        for site in process["sites"] if process["end"] != "cut" else []:
            if site["kind"] != as_json.NO_LEAK:
                program, functions = key_of(process["program"], site)
                sums[names.get(program, program), functions].add(site)
    return sums


def rows_of(old, new):
    """The sites that one of two reports has; those that grew most first."""
    one, other = leaks_of(old, renamed(old, new)), leaks_of(new, {})
    rows = [Row(key, (other.get(key) or one[key]).text, one.get(key, Sum()), other.get(key, Sum()))
            for key in {**one, **other}]
    return sorted(rows, key=lambda row: (row.old.bytes - row.new.bytes,
                                         row.old.blocks - row.new.blocks, row.text))


def grew(rows):
    """Those that are new, or hold more."""
    return [row for row in rows if row.grew]


def counted(count):
    """A number of sites as text."""
    return f"{count} site{'' if count == 1 else 's'}"


def told(rows, old):
    """A comparison as text: what is new or holds more, and how many sites hold less or are gone."""
    more = grew(rows)
    less = [row for row in rows if not row.grew and not row.is_same]
    yield f"New or larger than in {old}: {counted(len(more))}." if more else f"No site is new or holds more than in {old}."
    for row in more:
        was = f"was {row.old.bytes} bytes in {row.old.blocks} blocks" if row.old.blocks else "new"
        yield f"{row.new.bytes} bytes in {row.new.blocks} blocks, {was}, at {row.text}"
    if less:
        yield f"Less or gone: {counted(len(less))}."
