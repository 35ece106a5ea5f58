"""Makes the page of what the reports and the reading tell."""
import json
from collections import defaultdict
from itertools import accumulate

from drawing import draw_chart, reach_of, whole_picture
from grouping import groups_of, stacked
from log import CHANGE
from reports import KINDS
from template import json_text, page_text
from texts import escaped, shown

# So many changes of functions are told whose sites aren't followed. Those of the others are told by
# this name.
MOST_REST_CHANGES = 25_000
OTHERS = ["other functions", "", "other files", "other modules"]


# ---- sites

def sites_data(log):
    """Names of frames, long and brief; of each site that is told one by one its function and
    frames; and its location, where that is told in other words."""
    names, briefs, rows, raw = {}, [], [], []
    for site in log.kept:
        told, frames = log.sites[site], []
        for frame, brief in zip(told.frames, told.briefs):
            if frame not in names:
                names[frame] = len(names)
                briefs.append(0 if brief == frame else brief)
            frames.append(names[frame])
        rows.append([log.function_of[site], *frames])
        location = shown(log.locations[site])
        raw.append(location if log.locations[site] and location != told.frames[0] and len(location)
                   < 60 else 0)
    return list(names), briefs, rows, raw


def functions_data(log):
    """Short name, whole name, file and module of each function; and of those that share a row."""
    return [[log.functions.label(told), told.name, told.file or told.module, told.module]
            for told in log.function_ids] + [OTHERS]


def rest_rows(log, sites, first, told=None):
    """A row for each function that has some of these sites, from a first row on: which function,
    how many sites, and which row each site has. Where the functions to tell are given all others
    share a row."""
    rests, rows = {}, {}
    for site in sites:
        of = log.function_of[site]
        of = of if told is None or of in told else len(log.function_ids)
        at, count = rests.get(of, (first + len(rests), 0))
        rests[of] = at, count + 1
        rows[site] = at
    return [[of, count] for of, (_, count) in rests.items()], rows


def functions_to_follow(log, sites):
    """The functions of these sites, those first that held most, for whose changes there is room."""
    points, most = defaultdict(int), defaultdict(int)
    for site in sites:
        points[log.function_of[site]] += log.changed[site]
        most[log.function_of[site]] += log.most[site]
    order = sorted(points, key=lambda of: (-most[of], of))
    room = accumulate(min(points[of], len(log.rows)) for of in order)
    return {of for of, taken in zip(order, room) if taken <= MOST_REST_CHANGES}


def changes_data(log):
    """For each site that is followed, and for the others of each function together, the points at
    which it changed, with what changed there: bytes and blocks held, calls, bytes asked for,
    temporary blocks. And these others."""
    followed = log.kept[:log.followed]
    others = [site for site in range(len(log.locations))
              if log.row.get(site, log.followed) >= log.followed]
    rests, rows = rest_rows(log, others, len(followed), functions_to_follow(log, others))
    rows.update({site: row for row, site in enumerate(followed)})
    sums = [{} for _ in range(len(followed) + len(rests))]
    for point, changes in enumerate(log.changes):
        for at in range(0, len(changes), CHANGE):
            site, *numbers = changes[at:at + CHANGE]
            row = sums[rows[site]]
            before = row.get(point)
            row[point] = numbers if before is None else [one + other
                                                         for one, other in zip(before, numbers)]
    return [[number for point, numbers in row.items() for number in (point, *numbers)]
            for row in sums], rests


def totals_data(log):
    """For each site that is told, and for the others of each function together: bytes and blocks at
    the peak and at the end, calls, bytes asked for, temporary blocks. And these others, and which
    row each site has."""
    rests, rows = rest_rows(log, [site for site in range(len(log.locations)) if site
                                  not in log.row], len(log.kept))
    rows.update(log.row)
    sums = [[0] * 7 for _ in range(len(log.kept) + len(rests))]
    for site, location in enumerate(log.locations):
        numbers = (*log.at_peak.get(location, (0, 0)), *log.at_end.get(location, (0, 0)),
                   log.calls[site], log.asked[site], log.temporary[site])
        sums[rows[site]] = [one + other for one, other in zip(sums[rows[site]], numbers)]
    return sums, rests, rows


def sizes_data(log):
    """For each power of two that is asked for, the points at which calls and bytes grew, with how
    many."""
    rows = []
    for power in range(65):
        numbers, calls, asked = [], 0, 0
        for point, powers in enumerate(log.powers):
            if powers[power][0] != calls:
                numbers += [point, powers[power][0] - calls, powers[power][1] - asked]
                calls, asked = powers[power]
        if numbers:
            rows.append([power, numbers])
    return rows


def leaks_data(log, row_of):
    """For each row what isn't freed: bytes, blocks, first and last line, least and greatest size;
    and where that is known the bytes that are lost, possibly lost and still reachable."""
    index = {location: site for site, location in enumerate(log.locations)}
    rows = {}
    for size, line, location in log.leaks:
        row = rows.setdefault(row_of[index[location]], [0, 0, line, line, size, size])
        row[:] = [row[0] + size, row[1] + 1, min(row[2], line), max(row[3], line),
                  min(row[4], size), max(row[5], size)]
    lost = {row: [0] * len(log.lost) for row in rows} if log.lost else {}
    for place, part in enumerate(log.lost or ()):
        for location, (held, _) in part.items():
            lost[row_of[index[location]]][place] += held
    return [[row, *numbers, *lost.get(row, ())] for row, numbers in rows.items()]


def lost_data(log):
    """Bytes and blocks that are lost, possibly lost and still reachable, where that is known."""
    return log.lost and [[sum(column) for column in zip((0, 0), *part.values())]
                         for part in log.lost]


def head_data(log):
    """What the head tells beside the numbers: how many sites, how many of their stacks are cut, how
    the log ends, calls that it lost, which programs have no lines, diagnostics of each kind, lines
    that the heap refused, and what the sure pool rests on."""
    limits = log.limits and {"blocks": log.limits.blocks, "bytes": log.limits.whole_bytes,
                             "line": log.limits.largest.line, "size": log.limits.largest.size,
                             "align": log.limits.largest.align,
                             "classSize": log.limits.largest.class_size,
                             "at": log.short_name(log.limits.largest.location)}
    return {"sites": len(log.locations), "cutStacks": log.cut_stacks, "end": log.end,
            "missed": log.missed, "bare": log.functions.without_lines(),
            "kinds": [log.kinds[kind] for kind in range(len(KINDS))], "refused": log.refused,
            "firstRefused": log.first_refused, "limits": limits}


# ---- the page

def legend_entries(drawn):
    """Class and text of each series, the topmost first."""
    return [(band.name, band.told) for band in drawn][::-1]


def heaps_data(log):
    """The blocks of the heap at the peak and at the end, where it serves the log."""
    return [[[base, size, [block // 16 for block in blocks]] for base, size, blocks in pools]
            for pools in ((log.walk_at_peak, log.walk_at_end) if log.fits else ())]


def page_data(log):
    """What the script of the page needs, as JSON."""
    names, briefs, sites, raw = sites_data(log)
    changes, change_rests = changes_data(log)
    totals, rests, row_of = totals_data(log)
    return {"log": log.name, "lines": log.lines, "points": log.rows,
            "peak": [row[0] for row in log.rows].index(log.peak), "ages": log.times,
            "functions": functions_data(log), "names": names, "briefs": briefs, "sites": sites,
            "raw": raw, "totals": totals, "rests": rests, "changes": changes,
            "changeRests": change_rests, "followed": log.followed,
            "named": bool(log.functions.names), "head": head_data(log), "sizes": sizes_data(log),
            "leaks": leaks_data(log, row_of), "lost": lost_data(log), "heaps": heaps_data(log),
            "fit": log.fit or log.parts, "step": log.step, "fits": log.fits,
            "diagnostics": [[line, shown(said)] for line, said in log.first_diagnostics],
            "faulty": sum(log.kinds.values())}


def write_document(folder, name, title, data, parts):
    """The file's text."""
    return page_text(folder, name, {"title": escaped(title), "data": json_text(data), **parts})


def drawn_chart(log, bands):
    """The chart's drawing."""
    return draw_chart(log.rows, log.peak, bands, log.times)


def page_of(folder, log):
    """The page of one log."""
    return write_document(folder, "page.html", f"{log.name}: who holds its memory", page_data(log),
                          {})


def names_of(log):
    """What is known of each location, by its bytes, for tlsf.html: its function with file and
    module, the line in it, and its frames."""
    sites = {location.decode("latin-1"): {"name": site.function.name, "short": site.function.short,
                                          "file": site.function.file,
                                          "module": site.function.module, "line": site.line,
                                          "frames": site.frames, "briefs": site.briefs}
             for location, site in zip(log.locations, log.sites)}
    return json.dumps({"sites": sites}, separators=(",", ":"))


def picture_of(log):
    """The drawing alone."""
    bands = stacked(log, groups_of(log))
    heaps = [("The heap at the peak: used blocks by place", log.walk_at_peak),
             ("The heap at the end", log.walk_at_end)] if log.fits else []
    reach = "; dashed: the heap's reach" if log.fits else ""
    return whole_picture(f"{log.name}: bytes held after each line, by function{reach}",
                         drawn_chart(log, bands), legend_entries(bands), heaps,
                         max((reach_of(pools) for _, pools in heaps), default=0))
