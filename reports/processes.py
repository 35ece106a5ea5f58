"""A process that was traced: how it ended, and what it holds, by names. It isn't proved."""
import os
import re
from pathlib import Path

import ends
import reports
from naming import HELD, REACHABLE, LeftOut, Report, Site, stacks_for
from stacks import text_of

AT_THE_END = b"Held at the end: "
NONE_HELD = AT_THE_END + b"0 blocks, 0 bytes."
AT_THE_CUT = b"Held where the log is cut: "
ASKED = re.compile(rb"^([0-9]+ bytes in [0-9]+) calls, [0-9]+ temporary", re.M)
HEAD = re.compile(r"(.+): (\d+) blocks, (\d+) bytes\.", re.A)
# How a process ended: at once by a signal or a system call, so that its log has no end.
WHOLE, AT_ONCE, RUNNING, CUT = "whole", "at once", "running", "cut"
IN_TITLE = {WHOLE: "", AT_ONCE: ", which ended at once, as by a signal",
            RUNNING: ", which still runs", CUT: ""}


def has_calls(log):
    """Whether a log has a line of a call."""
    with open(log, "rb") as lines:
        return any(line[:1] != b"=" and not line.endswith(b" ! (nil) 0\n") for line in lines)


def end_of(number, how):
    """How a process ended, by its log. A daemon is no child that anyone waits for."""
    if how == ends.ENDED:
        return RUNNING if os.path.exists(f"/proc/{number}") else AT_ONCE
    return CUT if how == ends.LEFT else WHOLE


class Process:
    """What the log of a process tells. With `calls` that is who asks for memory, too."""

    def __init__(self, folder, number, log, program, tlsf, calls=False):
        self.number, self.log, self.program = number, log, program
        self.list = f"{log}.reachable"
        if ends.has_zeros(log):
            # It is still written: its whole lines are told.
            self.log = os.path.join(folder, f"{number}.lines")
            ends.copy_lines(log, self.log)
        self.is_traced = has_calls(self.log)
        self.end = end_of(number, ends.how_it_ends(self.log))
        self.title = f"{program}, process {number}{IN_TITLE[self.end]}"
        text = reports.Report(tlsf, ["sites", *(["--calls"] if calls else []), self.log]).text()
        end = reports.end_of_diagnostics(text)
        self.diagnostics = reports.split_lines(text[:end])
        held, _, self.asked_for = text[text.index(AT_THE_END):].partition(b"Asked over the log: ")
        self.lines = reports.split_lines(held)
        self.held = HEAD.fullmatch(text_of(self.lines[0]))
        if self.is_cut:
            self.lines[0] = self.lines[0].replace(AT_THE_END, AT_THE_CUT)
        self.is_apart = False
        self.entries, self.requests, self.doubts, self.names = ([text_of(line)
                                                                 for line in self.lines[:1]], [],
                                                                [], None)

    @property
    def is_cut(self):
        """Whether its log is cut, and it went on."""
        return self.end == CUT

    def tell_apart(self):
        """Takes what is lost and what is reachable in place of what is held, where its process told
        it: whether it did."""
        try:
            told = Path(self.list).read_bytes()
        except FileNotFoundError:
            return False
        self.is_apart = True
        if self.lines != [NONE_HELD]:
            self.lines = [self.lines[0], *reports.split_lines(told)]
        return True

    def name(self, asked, suppressions):
        """Names what it holds, and who asked for memory, where that was read."""
        if self.lines != [NONE_HELD] and not (self.is_cut and len(self.lines) == 1):
            report = self.report(b"".join(line + b"\n" for line in self.lines), asked, suppressions)
            self.entries, self.names, self.doubts = (list(report.entries()), report.names,
                                                     report.doubts(self.log))
        if self.asked_for:
            text = ASKED.sub(rb"\1 blocks", self.asked_for.partition(b"\n")[2])
            self.requests = [entry for entry in self.report(text, asked, suppressions).entries()
                             if isinstance(entry, Site)]

    def report(self, text, asked, suppressions):
        """A report with names."""
        text = text_of(text)
        return Report(text, stacks_for(text, self.log), asked, suppressions)

    @property
    def sites(self):
        """What it holds, but for known sites."""
        return [entry for entry in self.entries if isinstance(entry, Site)]

    @property
    def left_out(self):
        """What is left out as known, of each part."""
        return [entry for entry in self.entries if isinstance(entry, LeftOut)]

    @property
    def leaks(self):
        """The sites that count as leaks: all that isn't reachable. Of a log that is cut there are
        none."""
        return [] if self.is_cut else [site for site in self.sites if site.kind != REACHABLE]

    @property
    def sums(self):
        """Blocks and bytes of each kind that its sites have, without those left out."""
        sums = {}
        for site in self.sites:
            before = sums.get(site.kind, (0, 0))
            sums[site.kind] = before[0] + site.blocks, before[1] + site.bytes
        return sums or {HELD: (0, 0)}
