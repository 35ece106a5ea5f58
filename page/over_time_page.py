"""The page of a program's snapshots: a chart of what was held over time, by function, and tables of
who grew. It isn't proved."""
import re

from comparison import head_html
from drawing import BOTTOM, HEIGHT, Chart, number, short_bytes, ticks
from ends import ENDED, LEFT
from grouping import TOP as MOST_BANDS
from grouping import Band
from template import STYLES, filled, text_of
from texts import counted, escaped, shown

# For each width of a window a drawing: its class, its width, the place left of it, and the most
# times below it.
DRAWINGS = (("narrow", 340, 74, 3), ("middle", 700, 80, 5), ("wide", 1060, 80, 8))
# From so many bytes on their numbers take more place; so wide is the bar of a single snapshot, and
# half a letter.
MANY_BYTES, MORE, BAR, HALF = 10 ** 15, 40, 24, 4
# So many snapshots are drawn. So many rows a table has, with so many bytes of names.
MOST_DRAWN, MOST_ROWS, MOST_TEXT = 400, 2000, 700_000
STATES = {ENDED: "Its process was ended at once, as by a signal.",
          LEFT: "It is cut: its process went on without being traced, so what it freed later isn't "
          "known."}
NO_END = "It has no end: its process still ran, or the report isn't whole."
CUT = "A last snapshot that isn't whole is left out."
POLICY = "default-src 'none'; style-src 'unsafe-inline'"


def seconds(milliseconds):
    """Milliseconds as seconds."""
    whole, rest = divmod(milliseconds, 1000)
    return f"{whole:,}" + (f".{rest:03}".rstrip("0") if rest else "")


def signed(value):
    """A number that tells how another changed."""
    return f"{value:+,}" if value else "0"


def isolated(name):
    """A name by itself, whatever its script's direction, which may break behind `::` and `/`."""
    parts = re.split("(?<=::)|(?<=/)", name)
    return f"<bdi>{'<wbr>'.join(map(escaped, parts))}</bdi>"


# ---- the chart

class TimeChart(Chart):
    """Where times and bytes stand in a drawing of some width."""

    def __init__(self, span, most, drawing):
        super().__init__(span, most)
        self.name, self.width, left, self.times = drawing
        self.left, self.right = left + (MORE if most >= MANY_BYTES else 0), self.width - 16

    def x(self, line):
        return self.left + (self.right - self.left) * line / self.lines

    def places(self, times):
        """Where snapshots stand. A single one is a bar."""
        places = [self.x(time) for time in times]
        if len(places) > 1:
            return places
        return [max(places[0] - BAR, self.left), max(places[0], self.left + BAR)]

    def axes(self):
        """Bytes at the left, and seconds below."""
        parts = []
        for value in ticks(self.most):
            y = number(self.y(value))
            parts.append(f'<path class="grid" d="M{self.left} {y}H{self.right}"/>'
                         f'<text x="{self.left - 6}" y="{y}" dy="4" text-anchor="end">'
                         f"{short_bytes(value, self.most)}</text>")
        for time in ticks(self.lines, self.times):
            told = seconds(time)
            at_end = self.x(time) + HALF * len(told) > self.width
            x, anchor = (self.width - 1, "end") if at_end else (number(self.x(time)), "middle")
            parts.append(f'<path class="grid" d="M{number(self.x(time))} {BOTTOM}v5"/><text '
                         f'x="{x}" ' f'y="{BOTTOM + 18}" text-anchor="{anchor}">{told}</text>')
        parts.append(f'<text class="soft" x="{number((self.left + self.right) / 2)}" '
                     f'y="{BOTTOM + 35}" text-anchor="middle">seconds since the log began</text>')
        return "".join(parts)

    def areas(self, times, bands):
        """The bands, one on the other: the first is lowest. Each is named on hovering."""
        places, parts = self.places(times), []
        below = [0] * len(places)
        for band in bands:
            values = band.values if len(band.values) > 1 else 2 * band.values
            above = [low + value for low, value in zip(below, values)]
            corners = [*zip(places, above), *reversed([*zip(places, below)])]
            path = "L".join(f"{number(x)} {number(self.y(value))}" for x, value in corners)
            parts.append(f'<path class="{band.name}" d="M{path}Z">'
                         f"<title>{escaped(band.told)}</title></path>")
            below = above
        return "".join(parts)


def drawn_of(points):
    """The snapshots that are drawn, by their places: all, or of many some in even steps, with the
    first that holds most."""
    count = len(points)
    if count <= MOST_DRAWN:
        return range(count)
    most = max(range(count), key=lambda at: points[at].bytes)
    return sorted({most, *(step * (count - 1) // (MOST_DRAWN - 1) for step in range(MOST_DRAWN))})


def bands_of(over_time, drawn):
    """The functions that hold most at any snapshot, the greatest first, and the others together:
    their bytes at those that are drawn."""
    order = sorted(over_time.series, key=lambda name: (-max(over_time.series[name]), name))
    series = {name: [over_time.series[name][at] for at in drawn] for name in order}
    bands = [Band(f"s{at}", name, series[name]) for at, name in enumerate(order[:MOST_BANDS])]
    rest = order[MOST_BANDS:]
    if rest:
        values = [sum(held) for held in zip(*(series[name] for name in rest))]
        told = f"{counted(len(rest), 'other function')}, the greatest {rest[0]}"
        bands.append(Band("rest", told, values))
    return bands


def drawing_of(points, bands, drawing):
    """The chart for one width of the window."""
    most = int(1.08 * max(point.bytes for point in points))
    chart = TimeChart(points[-1].milliseconds, most, drawing)
    told = (f"Bytes held at {counted(len(points), 'snapshot')}, stacked by function. "
            "The tables below have its numbers.")
    areas = chart.areas([point.milliseconds for point in points], bands)
    return (f'<svg class="drawing {chart.name}" viewBox="0 0 {chart.width} {HEIGHT}" role="img" '
            f'aria-label="{told}">{chart.axes()}{areas}</svg>')


def legend_of(bands):
    """The colours and what they stand for, the topmost first."""
    return "".join(f'<li><span class="key {band.name}"></span>&nbsp;{isolated(band.told)}</li>'
                   for band in reversed(bands))


def hints_of(over_time, points):
    """What the chart doesn't show."""
    yield "Between two snapshots the lines are straight: what was held there isn't known."
    if len(points) < len(over_time.points):
        yield f"Of {len(over_time.points):,} snapshots {len(points):,} are drawn."
    if over_time.end is not None:
        yield "The end isn't drawn, since its time isn't told."


def chart_of(over_time):
    """The section of the chart."""
    drawn = drawn_of(over_time.points)
    points, bands = [over_time.points[at] for at in drawn], bands_of(over_time, drawn)
    drawings = "\n".join(drawing_of(points, bands, drawing) for drawing in DRAWINGS)
    return (f'<section>\n<h2>Bytes held over time</h2>\n<div id="chart">{drawings}</div>\n'
            f'<ul id="legend">{legend_of(bands)}</ul>\n'
            f'<p class="hint">{escaped(" ".join(hints_of(over_time, points)))}</p>\n'
            f"<details><summary>The chart's "
            f"numbers</summary>{point_table(points, bands)}</details>\n" "</section>\n")


# ---- tables

def cells_of(row, first, is_marked):
    """The cells of a row, which are text already: the first is of this class, the others are
    numbers."""
    head, *numbers = row
    bold = " marked" if is_marked else ""
    return (f'<td class="{first}{bold}">{isolated(head)}</td>' +
            "".join(f'<td class="number{bold}">{cell}</td>' for cell in numbers))


def table_of(name, title, columns, rows, first):
    """A table as HTML. Where its first column is text its first row is that of all others
    together."""
    head = "".join(f'<th scope="col" class="{"number" if at else first}">{isolated(column)}</th>'
                   for at, column in enumerate(columns))
    body = "".join(f"<tr>{cells_of(row, first, first == 'text' and at == 0)}</tr>\n"
                   for at, row in enumerate(rows))
    return (f'<div id="table-{name}" class="scroll" tabindex="0" role="group" '
            f'aria-label="{escaped(title)}"><table><caption>{escaped(title)}</caption>'
            f"<thead><tr>{head}</tr></thead>\n<tbody>{body}</tbody></table></div>\n")


def columns_of(over_time):
    """What the numbers of a row are."""
    has_grown = len(over_time.points) > 1
    names = ["first", "last"] if has_grown else ["held"][:len(over_time.points)]
    names += ["end"] if over_time.end is not None else []
    grown = ["Bytes grown", "Blocks grown"] if has_grown else []
    return [*grown, *(f"{what}, {name}" for name in names for what in ("Bytes", "Blocks"))]


def numbers_of(over_time, numbers):
    """The numbers of a row as text."""
    count = 1 if len(over_time.points) > 1 else 0
    return [*(signed(value) for pair in numbers[:count] for value in pair),
            *(f"{value:,}" for pair in numbers[count:] for value in pair)]


def sums_of(numbers):
    """The numbers of some rows, bytes and blocks each, together."""
    return [tuple(map(sum, zip(*pairs))) for pairs in zip(*numbers)]


def kept_rows(rows, what):
    """The rows for which there is room, and the others as one."""
    text, count = 0, 0
    while count < min(len(rows), MOST_ROWS) and text <= MOST_TEXT:
        text += len(rows[count][0])
        count += 1
    rest = rows[count:]
    if not rest:
        return rows
    sums = sums_of([numbers for _, numbers in rest])
    return [*rows[:count], (f"{counted(len(rest), f'other {what}')} together", sums)]


def is_still(over_time, numbers):
    """Whether what a row tells is the same at all times."""
    return (len(over_time.points) > 1 and numbers[0] == (0, 0)
            and all(held == numbers[1] for held in numbers[2:]))


def grown_table(over_time, what, name_of):
    """Who grew between the last two snapshots, and what they hold. In front stands the sum of all,
    which is the report's. Those without a change stand apart, folded."""
    title = "Held"
    if len(over_time.points) > 1:
        before, last = (seconds(point.milliseconds) for point in over_time.points[-2:])
        title = f"Grown from {before} to {last} seconds"
    rows, columns = over_time.rows(name_of), [what.capitalize(), *columns_of(over_time)]
    changed, still = ([row for row in rows if is_still(over_time, row[1]) == which]
                      for which in (False, True))

    def table(name, words, first, part):
        told = [[of, *numbers_of(over_time, numbers)]
                for of, numbers in [first, *kept_rows(part, what)]]
        return table_of(name, words, columns, told, "text")

    grown = table(f"{what}s", title, ("In all", over_time.sums), changed)
    if not still:
        return grown
    words = f"{counted(len(still), what)} without a change"
    folded = table(f"still-{what}s", words, ("Together", sums_of([row[1] for row in still])), still)
    return f"{grown}<details><summary>{words}</summary>{folded}</details>\n"


def point_table(points, bands):
    """The chart's numbers."""
    columns = ["Seconds", "Line", "Bytes", "Blocks", *(band.told for band in bands)]
    rows = []
    for at, point in enumerate(points):
        numbers = (point.line, point.bytes, point.blocks, *(band.values[at] for band in bands))
        rows.append([seconds(point.milliseconds), *(f"{value:,}" for value in numbers)])
    return table_of("points", "At each snapshot that is drawn", columns, rows, "number")


# ---- the page

def read_words(over_time):
    """What was read."""
    points, parts = over_time.points, ["No snapshot."]
    if points:
        times = [seconds(point.milliseconds) for point in (points[0], points[-1])][:len(points)]
        parts = [f"{counted(len(points), 'snapshot')}, at {' to '.join(times)} seconds."]
    parts += [CUT] if over_time.report.is_cut else []
    parts.append(NO_END if over_time.end is None else STATES.get(over_time.how, ""))
    if over_time.report.diagnostics:
        parts.append(f"{counted(over_time.report.diagnostics, 'diagnostic')} of the log.")
    return " ".join(filter(None, parts))


def held_words(over_time):
    """What is held in all."""
    whole = [(point.bytes, point.blocks) for point in over_time.points]
    parts = [("At first", whole[0]), ("At last", whole[-1])] if len(whole) > 1 else [
        ("At the snapshot", one) for one in whole]
    parts += [("At the end", over_time.at_end)] if over_time.at_end else []
    told = [f"{name} {held:,} bytes in {counted(blocks, 'block')}."
            for name, (held, blocks) in parts]
    return " ".join(told) or "Nothing is known."


def grew_words(over_time):
    """What grew between the last two snapshots, and who did so most."""
    if len(over_time.points) < 2:
        return "That takes two snapshots."
    held, blocks = over_time.sums[0]
    name, ((most, more), *_) = next(iter(over_time.rows(over_time.function)), ("", [(0, 0)]))
    told = f"Most: {name}, {signed(most)} bytes in {signed(more)} blocks."
    return (f"In all {signed(held)} bytes in {signed(blocks)} blocks from the last but one to the "
            f"last. " f"{told if most > 0 else 'No function grew.'}")


def body_of(over_time):
    """The chart and the tables, as far as there is something to tell."""
    parts = [chart_of(over_time)] if over_time.points else []
    if over_time.points or over_time.end is not None:
        stacks = grown_table(over_time, "stack", over_time.stack)
        parts.append(f"<section>\n<h2>Who grew</h2>\n"
                     f"{grown_table(over_time, 'function', over_time.function)}"
                     f"<details><summary>Their stacks</summary>{stacks}</details>\n</section>\n")
    return "".join(parts)


def page_of_snapshots(folder, name, over_time):
    """The page of a report of this name."""
    head = [("Read", read_words(over_time)), ("Held", held_words(over_time)),
            ("Grew", grew_words(over_time))]
    return filled(text_of(folder, ["over_time.html"]), {
        "policy": escaped(POLICY), "style": text_of(folder, STYLES), "head": head_html(head),
        "title": escaped(f"{shown(name)}: what was held over time"), "body": body_of(over_time)})
