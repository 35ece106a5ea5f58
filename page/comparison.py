"""The page of two logs: what grew by function."""
from document import write_document
from functions import NO_NAME
from texts import counted, escaped

MOST_SITES, MOST_TEXT = 5000, 1_200_000


def name_of(log, site):
    """What a site is compared by: its function and file, and no line, since a line that is inserted
    moves those behind it."""
    function = log.sites[site].function
    return " ".join(filter(None, (function.short, function.file))) or NO_NAME


def sums_by_name(log):
    """Bytes at the end and at the peak, and calls, of the sites of each function."""
    sums = {}
    for site, location in enumerate(log.locations):
        numbers = (log.at_end.get(location, (0, 0))[0], log.at_peak.get(location, (0, 0))[0],
                   log.calls[site])
        name = name_of(log, site)
        sums[name] = tuple(one + other for one, other in zip(sums.get(name, (0, 0, 0)), numbers))
    return sums


def rows_of(old, new):
    """For each name what grew at the end and at the peak, and calls: each as growth, old, new;
    those that grew most first."""
    one, other = sums_by_name(old), sums_by_name(new)
    rows = []
    for name in {**one, **other}:
        numbers = zip(one.get(name, (0, 0, 0)), other.get(name, (0, 0, 0)))
        rows.append((name, [number for before, after in numbers
                            for number in (after - before, before, after)]))
    return sorted(rows, key=lambda row: (-row[1][0], -row[1][3], row[0]))


def kept_rows(rows):
    """The rows for which there is room, and the rest as one: those that changed least."""
    order = sorted(rows, key=lambda row: max(abs(row[1][0]), abs(row[1][3]), abs(row[1][6])),
                   reverse=True)
    kept, text = [], 0
    for name, numbers in order[:MOST_SITES]:
        text += len(name)
        if text > MOST_TEXT:
            break
        kept.append([name, *numbers])
    rest = order[len(kept):]
    if rest:
        kept.append([f"{counted(len(rest), 'other function')} together",
                     *map(sum, zip(*(numbers for _, numbers in rest)))])
    return kept


def all_rows(old, new):
    """What both logs come out as, in all."""
    def row_at(log, line):
        return next(row for row in log.rows if row[0] == line)

    pairs = [("Lines", old.lines, new.lines), ("Sites", len(old.locations), len(new.locations)),
             ("Functions", len(old.function_ids), len(new.function_ids)),
             ("Calls", sum(old.calls), sum(new.calls)), ("Bytes asked for", sum(old.asked),
                                                         sum(new.asked))]
    for name, line in (("at the peak", lambda log: log.peak),
                       ("at the end", lambda log: log.lines)):
        one, other = row_at(old, line(old)), row_at(new, line(new))
        pairs += [(f"Bytes {name}", one[1], other[1]), (f"Blocks {name}", one[2], other[2])]
        pairs += [(f"Reach {name}", one[3], other[3])] if old.fits and new.fits else []
    return [[name, before, after, after - before] for name, before, after in pairs]


def head_of(old, new, rows):
    """Plain lines: what was read, what grew, and what a heap refused."""
    told = {row[0]: row[1:] for row in all_rows(old, new)}
    yield "Read", f"{old.name}: {counted(old.lines, 'line')}; {new.name}: {counted(new.lines, 'line')}."
    yield "Peak", change_words(told["Bytes at the peak"])
    yield "Not freed", change_words(told["Bytes at the end"])
    grew = [(name, numbers) for name, numbers in rows if numbers[0] > 0 or numbers[3] > 0]
    most = max(grew, key=lambda row: row[1][0]) if grew else None
    at_peak = max(grew, key=lambda row: row[1][3]) if grew else None
    yield "Grew at the end", grown_words(most, 0)
    yield "Grew at the peak", grown_words(at_peak, 3)
    for log in (old, new):
        if not log.fits:
            yield "Refused", f"{log.name}: one heap refuses {counted(log.refused, 'line')}, the first is line {log.first_refused:,}. " "The sums here are those without a heap."


def change_words(numbers):
    """A number that was another."""
    before, after, grown = numbers
    return f"{before:,} bytes, now {after:,} ({grown:+,})."


def grown_words(row, at):
    """The function that grew most, in words."""
    if not row or row[1][at] <= 0:
        return "No function."
    name, numbers = row
    return f"most at {name}: {numbers[at + 1]:,} bytes, now {numbers[at + 2]:,} ({numbers[at]:+,})."


def head_html(lines):
    """The head's lines."""
    return "".join(f'<p><b>{escaped(name)}</b> <span '
                   f'id="{name.lower().replace(" ", "-")}"><bdi>{escaped(text)}</bdi></span></p>\n'
                   for name, text in lines)


def comparison_of(folder, old, new):
    """The page. What only asks for memory in one log does so in the other."""
    for log in (old, new):
        log.tell_by(old.functions.general | new.functions.general)
    rows = rows_of(old, new)
    data = {"rows": kept_rows(rows), "all": all_rows(old, new),
            "points": [[list(row[:3]) for row in log.rows] for log in (old, new)]}
    title = f"{old.name} and {new.name}: what grew"
    return write_document(folder, "comparison.html", title, data,
                          {"head": head_html(head_of(old, new, rows)),
                           "old": escaped(f"{old.name} (old)"),
                           "new": escaped(f"{new.name} (new)")})
