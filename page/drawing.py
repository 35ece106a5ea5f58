"""The picture that `bin/page --svg` writes: bytes held over the lines, stacked by function, and the
heap's blocks by place."""
from bisect import bisect_right
from pathlib import Path

from texts import counted, escaped, shortened

WIDTH, HEIGHT = 960, 340
LEFT, RIGHT, TOP, BOTTOM = 80, 944, 16, 300
ROW, GAP, MOST_ROWS, LEVELS = 16, 4, 8, 4
LEGEND_ROW = 18
STYLE = "\n" + (Path(__file__).parent / "drawing.css").read_text(encoding="utf-8")


def number(value):
    """A place in a drawing, to a tenth."""
    return f"{value:.1f}".removesuffix(".0")


def ticks(most, count=6):
    """Even numbers from 0 to the last that isn't above the most, at most so many behind 0."""
    step = 1
    while most / step > count:
        for factor in (2, 5, 10):
            if most / (step * factor) <= count:
                break
        step *= factor
    return list(range(0, most + 1, step))


def short_bytes(value, most):
    """Bytes at a tick, in millions or more where there are many."""
    for unit, name in ((10 ** 18, "EB"), (10 ** 15, "PB"), (10 ** 12, "TB"), (10 ** 9, "GB"),
                       (10 ** 6, "MB")):
        if most >= 10 * unit:
            return f"{value / unit:g} {name}"
    return f"{value:,}"


class Chart:
    """Where lines and bytes stand in the drawing."""

    def __init__(self, lines, most):
        self.lines, self.most = max(lines, 1), max(most, 1)

    def x(self, line):
        return LEFT + (RIGHT - LEFT) * line / self.lines

    def y(self, value):
        return BOTTOM - (BOTTOM - TOP) * value / self.most

    def steps(self, lines, values):
        """A path from each value to the next, which begins at the first."""
        parts, last = [f"{number(self.x(lines[0]))} {number(self.y(values[0]))}"], values[0]
        for line, value in zip(lines[1:], values[1:]):
            if value != last:
                parts.append(f"H{number(self.x(line))}V{number(self.y(value))}")
            last = value
        return "".join(parts) + f"H{number(self.x(lines[-1]))}"

    def back(self, lines, values):
        """The same path from its end to its begin."""
        parts = [f"V{number(self.y(values[-1]))}"]
        for line, value, before in zip(lines[:0:-1], values[:0:-1], values[-2::-1]):
            if value != before:
                parts.append(f"H{number(self.x(line))}V{number(self.y(before))}")
        return "".join(parts) + f"H{number(self.x(lines[0]))}Z"


def byte_ticks(chart):
    """Bytes, with a line across for each tick."""
    return "".join(f'<path class="grid" d="M{LEFT} {number(chart.y(value))}H{RIGHT}"/><text '
                   f'x="{LEFT - 6}" y="{number(chart.y(value))}" '
                   f'dy="4" text-anchor="end">{short_bytes(value, chart.most)}</text>'
                   for value in ticks(chart.most))


def seconds_at(times, line):
    """When a line was written, in seconds since the log began, by the times that the log tells: in
    between as if lines came evenly."""
    told = [(0, 0), *times]
    at = max(1, min(bisect_right(told, (line, 0)), len(told) - 1))
    (first, before), (second, after) = told[at - 1], told[at]
    share = min(1, (line - first) / max(1, second - first))
    return (before + share * (after - before)) / 1000


def line_ticks(chart, times=()):
    """Line numbers, with seconds where the log tells times."""
    parts = []
    for line in ticks(chart.lines):
        x = chart.x(line)
        anchor, text_x = ("middle", x) if x < RIGHT - 20 else ("end", WIDTH - 1)
        seconds = f" · {seconds_at(times, line):.1f} s" if times else ""
        parts.append(f'<path class="grid" d="M{number(x)} {BOTTOM}v5"/><text x="{number(text_x)}" '
                     f'y="{BOTTOM + 18}" ' f'text-anchor="{anchor}">{line:,}{seconds}</text>')
    return "".join(parts)


def below_axis(text):
    """What the ticks below count."""
    return (f'<text class="soft" x="{(LEFT + RIGHT) / 2:g}" y="{BOTTOM + 35}" '
            f'text-anchor="middle">{text}</text>')


def areas(chart, lines, bands):
    """The bands, one on the other: the first is lowest. Each is named on hovering."""
    below, parts = [0] * len(lines), []
    for band in bands:
        above = [low + value for low, value in zip(below, band.values)]
        if any(band.values):
            parts.append(f'<path class="{band.name}" '
                         f'd="M{chart.steps(lines, above)}{chart.back(lines, below)}">'
                         f'<title>{escaped(band.told)}</title></path>')
        below = above
    return "".join(parts)


def peak_mark(chart, line, value):
    """A line at the peak, with its bytes."""
    x = chart.x(line)
    side, shift = ("end", -6) if x > (LEFT + RIGHT) / 2 else ("start", 6)
    return (f'<path class="mark" d="M{number(x)} {TOP}V{BOTTOM}"/><text class="marked" '
            f'x="{number(x + shift)}" y="{TOP + 10}" '
            f'text-anchor="{side}">peak, line {line:,}: {counted(value, "byte")}</text>')


def draw_chart(rows, peak, bands, times=()):
    """Bytes held after each row's line, by function; the greatest end of a live block is a dashed
    line, where a heap serves the log."""
    lines, has_reach = [row[0] for row in rows], len(rows[0]) > 3
    chart = Chart(lines[-1], int(1.08 * max(max(row[1:4:2]) for row in rows)))
    held = dict((row[0], row[1]) for row in rows)[peak]
    reach = (f'<path class="reach" d="M{chart.steps(lines, [row[3] for row in rows])}"/>'
             if has_reach else "")
    axes = byte_ticks(chart) + line_ticks(chart, times)
    axes += below_axis("line of the log, and seconds since it began" if times
                       else "line of the log")
    return axes + areas(chart, lines, bands) + reach + (peak_mark(chart, peak, held) if held
                                                        else "")


# ---- the heap

def runs_of(pools):
    """Place and end of each row of used blocks without a gap, over all pools; and the places where
    blocks meet in them."""
    runs, meets = [], []
    for base, _, sizes in pools:
        place = base
        for size in sizes:
            if size > 0 and runs and runs[-1][1] == place:
                runs[-1][1] = place + size
                meets.append(place)
            elif size > 0:
                runs.append([place, place + size])
            place += abs(size)
    return runs, meets


def reach_of(pools):
    """The greatest end of a live block."""
    runs, _ = runs_of(pools)
    return max((end for _, end in runs), default=0)


def cover(runs, width, dots):
    """How much of each dot is used."""
    shares = [0.0] * dots
    for start, end in runs:
        first, last = int(start // width), int((end - 1) // width)
        for dot in range(first, min(last + 1, dots)):
            shares[dot] += (min(end, (dot + 1) * width) - max(start, dot * width)) / width
    return shares


def shade_paths(shares, across, rows):
    """For each shade the path of its dots, neighbours as one."""
    paths = [[] for _ in range(LEVELS + 1)]
    for row in range(rows):
        levels = [-(-round(share * 1000) * LEVELS // 1000)
                  for share in shares[row * across:(row + 1) * across]]
        begin = 0
        for dot in range(1, across + 1):
            if dot == across or levels[dot] != levels[begin]:
                level = min(levels[begin], LEVELS)
                if level:
                    paths[level].append(f"M{begin} "
                                        f"{row * (ROW + GAP)}h{dot - begin}v{ROW}h{begin - dot}z")
                begin = dot
    return paths


def rows_for(extent):
    """In how many rows so many bytes are drawn."""
    return max(1, min(MOST_ROWS, extent // 2048))


def draw_heap(pools, extent):
    """The places up to the extent, row by row: used bytes in colour, the fainter the fewer of a
    dot, over free ones."""
    across = RIGHT - LEFT
    rows = rows_for(extent)
    width = max(extent, 1) / (across * rows)
    runs, meets = runs_of(pools)
    parts = [f'<rect class="free" y="{row * (ROW + GAP)}" width="{across}" height="{ROW}"/>'
             for row in range(rows)]
    for level, path in enumerate(shade_paths(cover(runs, width, across * rows), across, rows)):
        if path:
            parts.append(f'<path class="used" fill-opacity="{0.25 + 0.75 * level / LEVELS:g}" '
                         f'd="{"".join(path)}"/>')
    if len(meets) <= across * rows / 8:
        edges = "".join(f"M{number(place / width % across)} "
                        f"{int(place / width // across) * (ROW + GAP)}v{ROW}" for place in meets)
        parts.append(f'<path class="edge" d="{edges}"/>')
    labels = "".join(f'<text x="{LEFT - 6}" y="{row * (ROW + GAP) + 12}" '
                     f'text-anchor="end">{round(row * across * width):,}</text>'
                     for row in range(rows))
    return f'{labels}<g transform="translate({LEFT} 0)">{"".join(parts)}</g>'


def height_of_heap(extent):
    """How high a heap's drawing is."""
    return rows_for(extent) * (ROW + GAP)


# ---- a picture alone

def legend(entries, y):
    """The colours and what they stand for, the topmost first."""
    parts = []
    for row, (name, told) in enumerate(entries):
        at = y + row * LEGEND_ROW
        parts.append(f'<rect class="{name}" x="{LEFT}" y="{at}" width="12" height="12"/>'
                     f'<text x="{LEFT + 20}" y="{at + 10}">{escaped(shortened(told, 120))}</text>')
    return "".join(parts)


def whole_picture(title, chart, entries, heaps, extent):
    """Chart, legend and heaps as one SVG file, in the reader's light or dark colours."""
    y = 24 + HEIGHT
    parts = [f'<text x="{LEFT}" y="18" class="title">{escaped(shortened(title, 120))}</text>',
             f'<g transform="translate(0 24)">{chart}</g>', legend(entries, y)]
    y += len(entries) * LEGEND_ROW + 22
    for told, pools in heaps:
        parts.append(f'<text x="{LEFT}" y="{y}">{escaped(told)}</text><g transform="translate(0 '
                     f'{y + 8})">' f"{draw_heap(pools, extent)}</g>")
        y += height_of_heap(extent) + 34
    return (f'<svg class="drawing" xmlns="http://www.w3.org/2000/svg" viewBox="0 0 {WIDTH} '
            f'{y - 14}" width="{WIDTH}" '
            f'height="{y - 14}"><style>{STYLE}</style><rect width="100%" height="100%" '
            f'style="fill: var(--ground)"/>' f'{"".join(parts)}</svg>\n')
