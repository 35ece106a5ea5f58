"""All that is told of one log: the reports, side by side with a reading of its own, and whether
both agree."""
import json
import os
import sys
from collections import Counter
from concurrent.futures import ThreadPoolExecutor
from itertools import accumulate

import ends
import reports
import sizing
from functions import Functions, plain_site
from log import CHANGE, points_of, read_log
from reachable import Wrong, read_reachable
from reports import Differs, Report, give_up
from stacks import stacks_of, text_of, times_of
from texts import shown

# So many sites are told one by one, with so many bytes of names; and of the greatest of these so
# many changes between the points.
MOST_SITES, MOST_TEXT, MOST_CHANGES = 5000, 700_000, 40_000
MOST_DIAGNOSTICS = 500


class Study:
    """One log. Its sums are those of the reports without a heap; a heap is told beside them. Names
    are of files in places, if any."""

    def __init__(self, program, places, log, heap, count, progress):
        # A name that begins with a dash is no option, nor standard input.
        self.path = os.path.join(".", log) if log.startswith("-") else log
        self.name, self.heap = shown(os.fsencode(os.path.basename(log))), reports.heap_words(heap)
        self.program, self.progress = program, progress
        self.running, self.limits, self.fit, self.parts = [], None, [], []
        self.walk_at_peak = self.walk_at_end = self.first_refused = self.step = None
        before = self.state()
        try:
            self.read(count, places)
            self.agree()
        except Differs as told:
            give_up(str(told) if self.state() == before
                    else f"{log} changed while it was read: copy it first")
        finally:
            for report in self.running:
                report.stop()
        self.look_for_lost()
        self.keep_greatest()
        self.tell_of_modules()

    def state(self):
        """What tells whether the log has changed."""
        told = os.stat(self.path)
        return told.st_size, told.st_mtime_ns

    def report(self, *words, given=None):
        """Begins a run of the program on the log, or on what is given."""
        self.running.append(Report(self.program, [*words, "-" if given else self.path], given))
        return self.running[-1]

    def read(self, count, places):
        """Runs the reports, and reads the log beside them."""
        self.progress.tell("the peak is looked for")
        sums, sites = self.report("peak", "--no-heap"), self.report("sites", "--calls")
        leaks = self.report("leaks", "--no-heap")
        timeline = self.report("timeline", "--points", str(count), "--sites")
        on_heap = self.report("peak", *self.heap)
        text = sums.text()
        end = reports.end_of_diagnostics(text)
        told = reports.read_peak(text)
        self.end, self.missed = ends.how_file_ends(self.path), ends.missed_calls(self.path)
        self.lines, self.peak = int(told[b"lines"]), int(told[b"peak"].split()[-1])
        self.kinds = Counter()
        self.first_diagnostics, self.unserved = [], set()
        points = points_of(self.lines, self.peak, count)
        workers = ThreadPoolExecutor(2)
        heap = workers.submit(self.look_at_heap, on_heap, timeline, points)
        names = workers.submit(self.look_for_names, sites, places)
        try:
            self.locations, self.changes, self.powers, requests = read_log(self.path, points,
                                                                           self.counted(text, end),
                                                                           self.progress)
        except (IndexError, KeyError, ValueError) as error:
            raise Differs(f"{self.path} isn't what the reports say of it") from error
        self.progress.tell("names of functions are looked for")
        names.result()
        self.progress.tell("the pools that the log needs are looked for")
        heap.result()
        if self.fits:
            self.limits = sizing.limits_of(self.path, requests, self.unserved, dict(self.fit))
        self.leaks = reports.read_leaks(leaks.text())

    def counted(self, text, end):
        """The diagnostics, counted by kind as they are read; the first are kept."""
        for line, kind, said in reports.diagnostics(text, end):
            self.kinds[kind] += 1
            if kind in sizing.ASKS_NOTHING:
                self.unserved.add(line)
            if len(self.first_diagnostics) < MOST_DIAGNOSTICS:
                self.first_diagnostics.append((line, said))
            yield line, kind, said

    def look_for_names(self, sites, places):
        """The report of sites, and the functions of all that it names."""
        self.at_peak, self.at_end, self.by_calls = reports.read_sites(sites.text())
        self.functions = Functions(stacks_of(self.path), list(self.by_calls), places)

    @property
    def fits(self):
        """Whether the heap serves each line of the log."""
        return self.first_refused is None

    def look_at_heap(self, on_heap, timeline, points):
        """The timeline by location. Where the heap refuses no line: what it holds at the peak and
        at the end, and the pools that the log needs. Else heaps by size."""
        self.by_location = timeline.text()
        self.rows = reports.rows_by_site(self.by_location)
        if [row[0] for row in self.rows] != points:
            raise Differs(f"the timeline has other lines than {', '.join(map(str, points[:9]))}..")
        text, self.refused = on_heap.text(), 0
        for line, kind, _ in reports.diagnostics(text, reports.end_of_diagnostics(text)):
            if kind == reports.REFUSED:
                self.first_refused, self.refused = self.first_refused or line, self.refused + 1
        if not self.fits:
            self.parts = reports.read_fit(self.report("fit", "--heaps", "4").text())
            return
        at_peak = next(row for row in self.rows if row[0] == self.peak)
        self.step = reports.coarse_step(self.lines, at_peak[2], at_peak[1])
        fit = self.report("fit", *(["--step", str(self.step)] if self.step else []))
        timeline = self.report("timeline", *timeline.words[1:3], *self.heap)
        with reports.first_lines(self.path, self.peak) as kept:
            walk, last = self.report("walk", *self.heap, given=kept), self.report("walk",
                                                                                  *self.heap)
            self.walk_at_peak, self.walk_at_end = reports.read_walk(walk.text()), reports.read_walk(
                last.text())
        self.heap_rows = reports.read_timeline(timeline.text())
        self.fit = reports.read_fit(fit.text())

    # ---- whether all agree

    def agree(self):
        """What was reckoned here is what the proved reports tell, or there is no page."""
        self.progress.tell("the numbers are compared with the reports")
        self.most, self.asked = [0] * len(self.locations), [0] * len(self.locations)
        self.changed, self.calls = [0] * len(self.locations), [0] * len(self.locations)
        self.temporary = [0] * len(self.locations)
        held, blocks = self.agree_on_rows()
        del self.by_location
        expect_same("by site at the end", self.by_site(held, blocks), self.at_end)
        expect_same("by site over the log", {location: (self.calls[site], self.asked[site],
                                                        self.temporary[site])
                                             for site, location in enumerate(self.locations)
                                             if self.calls[site]}, self.by_calls)
        expect_same("not freed", (sum(leak[0] for leak in self.leaks), len(self.leaks)),
                    self.rows[-1][1:3])
        if not self.fits:
            return
        expect_same("over the lines with a heap", tuple(self.rows),
                    tuple(row[:3] for row in self.heap_rows))
        self.rows = self.heap_rows
        for name, pools, line in (("peak", self.walk_at_peak, self.peak),
                                  ("end", self.walk_at_end, self.lines)):
            row = next(row for row in self.rows if row[0] == line)
            expect_same(f"reach, free and largest free block at the {name}", measures(pools),
                        row[3:])

    def agree_on_rows(self):
        """Counts what each site asks for, and compares what is held after each point, in all and by
        site. It returns the bytes and blocks of each site at the end."""
        held, blocks = [0] * len(self.locations), [0] * len(self.locations)
        all_bytes = all_blocks = 0
        by_location = reports.changes_by_site(self.by_location)
        for row, changes, told in zip(self.rows, self.changes, by_location):
            changed = {}
            for at in range(0, len(changes), CHANGE):
                site, more, more_blocks, calls, asked, temporary = changes[at:at + CHANGE]
                held[site] += more
                blocks[site] += more_blocks
                all_bytes += more
                all_blocks += more_blocks
                self.asked[site] += asked
                self.calls[site] += calls
                self.temporary[site] += temporary
                self.changed[site] += 1
                self.most[site] = max(self.most[site], held[site])
                if more or more_blocks:
                    changed[self.locations[site]] = held[site], blocks[site]
            expect_same(f"after line {row[0]}", (all_bytes, all_blocks), row[1:3])
            expect_same(f"by site after line {row[0]}", changed, told)
            if row[0] == self.peak:
                expect_same(f"by site at the peak, line {row[0]}", self.by_site(held, blocks),
                            self.at_peak)
        return held, blocks

    def by_site(self, held, blocks):
        """Bytes and blocks of each location that holds any."""
        return {location: (held[site], blocks[site]) for site, location in enumerate(self.locations)
                if blocks[site]}

    def look_for_lost(self):
        """What of the end is lost, possibly lost and still reachable, where that stands beside the
        log."""
        self.lost = None
        try:
            self.lost = read_reachable(self.path, self.at_end)
        except Wrong:
            self.say(f"{self.path}.reachable isn't of this log's end, so what is lost isn't told "
                     f"apart")
        except OSError as error:
            self.say(f"{self.path}.reachable: {error.strerror}")

    def say(self, text):
        self.progress.end()
        print(f"tlsf-page: {text}", file=sys.stderr)

    # ---- the sites that are told one by one

    def tell_by(self, general):
        """The functions of the sites, where those that only ask for memory are known by more than
        this log."""
        if general != self.functions.general:
            self.functions.tell_by(list(self.by_calls), general)
            self.find_functions()

    def find_functions(self):
        """The function of each site, and each function's number."""
        place = {location: row for row, location in enumerate(self.by_calls)}
        self.sites = [self.functions.sites[place[location]] if location in place
                      else plain_site(location) for location in self.locations]
        self.function_ids = {}
        self.function_of = [self.function_ids.setdefault(site.function, len(self.function_ids))
                            for site in self.sites]

    def keep_greatest(self):
        """The greatest sites that are told one by one, and how many of them also between the
        points."""
        self.progress.tell("the greatest sites are looked for")
        self.find_functions()
        order = sorted(range(len(self.locations)), key=lambda site: (-self.most[site],
                                                                     -self.asked[site],
                                                                     self.locations[site]))
        # Of a log of less than a second no time is told.
        times = times_of(self.path)
        self.times = times if times and times[-1][1] >= 1000 else []
        kept, text, seen = [], 0, set()
        for site in order[:MOST_SITES]:
            frames = self.sites[site].frames
            text += 5 * len(frames) + sum(len(json.dumps(frame)) for frame in {*frames} - seen) + 16
            seen.update(frames)
            if text > MOST_TEXT:
                break
            kept.append(site)
        changes = accumulate(self.changed[site] for site in kept)
        self.kept, self.followed = kept, sum(count <= MOST_CHANGES for count in changes)
        self.row = {site: row for row, site in enumerate(kept)}

    @property
    def cut_stacks(self):
        """How many sites have more calls than their stacks tell."""
        return sum(self.functions.stacks.is_cut(text_of(location)) for location in self.locations)

    def short_name(self, location):
        """A location by its function."""
        return self.functions.label(self.sites[self.locations.index(location)].function)

    def tell_of_modules(self):
        """Says which programs and libraries were changed after the log was written, and which have
        no lines."""
        for module in self.functions.newer_than(os.stat(self.path).st_mtime_ns):
            self.say(f"{module} is newer than {self.name}: its source lines may be others")
        for other in self.functions.of_others():
            self.say(other)
        bare = self.functions.without_lines()
        if bare:
            self.say(bare)


def measures(pools):
    """The greatest end of a live block, the free bytes, and the largest free block."""
    reach, free = 0, [0]
    for base, _, sizes in pools:
        place = base
        for size in sizes:
            place += abs(size)
            if size > 0:
                reach = place
            else:
                free.append(-size)
    return reach, sum(free), max(free)


def expect_same(what, reckoned, told):
    """There is no page where both differ."""
    if reckoned != told:
        told_as = (f": {', '.join(map(str, told))} by the reports, {', '.join(map(str, reckoned))} "
                   f"as the page reckons" if isinstance(told, tuple) else "")
        raise Differs(f"the numbers differ {what}{told_as}")
