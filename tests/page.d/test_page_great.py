"""bin/page: numbers above 2^53, to which JavaScript doesn't count, are shown as the reports tell
them."""
import json
import re
from pathlib import Path

import pytest

from cases import expect
from pages import (ALL_ROWS, ROOM, SHOW_ALL, browse, driven, expect_page, page, report)
from reading import expect_range

MOST = 2 ** 53
# Bytes of blocks that a log holds: sums of them end in digits that no number of JavaScript has.
SIZES = (2 ** 63 - 1, 2 ** 63 - 1, 2 ** 64 - 1, MOST + 1, MOST - 1, 7, 3 * MOST + 5, 12)


def write_great(path):
    """Blocks of such sizes, of which some grow, are given back, or are freed at once."""
    lines = ["= Start"]
    for turn in range(3):
        for at, size in enumerate(SIZES):
            place = f"0x{0x1000 * turn + 16 * at + 16:x}"
            lines.append(f"@ ./great:[0x{at % 5:x}] + {place} 0x{size - turn:x}")
            if at == 2 + turn:
                lines.append(f"@ ./great:[0x9] - {place}")
    lines += ["@ ./great:[0x7] < 0x10", f"@ ./great:[0x7] > 0x9000 0x{2 ** 64 - 3:x}",
              f"@ ./great:[0x8] * 0xa000 0x40 0x{MOST + 3:x}",
              "@ ./great:[0x8] + (nil) 0x7fffffffffffffff", "= End", ""]
    path.write_text("\n".join(lines))


def parts_of_sites(log):
    """The three parts of the report of sites: each location with its digits."""
    parts = []
    for line in report("sites", "--calls", log):
        found = re.fullmatch(r"(\d+) bytes in (\d+) \w+(?:, (\d+) temporary)? at (.*)", line)
        if found:
            parts[-1].append([found[4], *filter(None, found.groups()[:3])])
        else:
            parts.append([])
    return [sorted(part) for part in parts]


def leaks_of(log):
    """What isn't freed by site: bytes, blocks, first and last line, least and greatest size."""
    sites = {}
    for line in report("leaks", "--no-heap", log):
        if found := re.fullmatch(r"0x\w+ (\d+) line (\d+) at (.*)", line):
            sites.setdefault(found[3], []).append((int(found[1]), int(found[2])))
    return sorted([name, *map(str, (sum(size for size, _ in held), len(held),
                                    min(line for _, line in held), max(line for _, line in held),
                                    min(held)[0], max(held)[0]))] for name, held in sites.items())


@pytest.mark.needs("chromium")
def test_great_sums():
    """Each number of a page whose sums are above 2^53, and above 2^64, by the reports' digits."""
    log = ROOM / "great.log"
    write_great(log)
    to, dom = expect_page("great sums", log)
    at_peak, at_end, calls = parts_of_sites(log)
    expect("great sums: they are above 2^64", max(int(row[1]) for row in at_end) > 2 ** 64, True)
    whole = {line.split(",")[0].partition(":")[0]: re.findall(r"\d+", line)
             for line in report("sites", "--calls", log) if re.match("Held|Asked", line)}
    expect("great sums: the head", (dom.texts["peak"].split(".")[0],
                                    dom.texts["not-freed"].split(".")[0]),
           tuple(f"{int(held):,} bytes in {blocks} blocks{after}"
                 for blocks, held, after in ((*whole["Held at the peak"][1:],
                                              f", after line {whole['Held at the peak'][0]}"),
                                             (*whole["Held at the end"], ""))))
    dom, said = browse(driven(to, ALL_ROWS))
    expect("great sums: nothing on the console", said, [])
    expect("great sums: at the peak", sorted(row[:3] for row in dom.rows("table-peak")), at_peak)
    expect("great sums: not freed", sorted(row[:3] for row in dom.rows("table-leaks")), at_end)
    expect("great sums: each leak", sorted(dom.rows("table-leaks")), leaks_of(log))
    expect("great sums: calls", sorted([name, asked, count]
                                       for name, count, asked in dom.rows("table-calls")),
           sorted(row[:3] for row in calls))
    expect("great sums: the timeline", dom.rows("table-points"),
           [row.split() for row in report("timeline", "--points", "200", log)[1:]])
    lines = len(log.read_text().splitlines())
    for first, last in ((0, lines), (3, lines - 5)):
        dom, _ = browse(driven(to, ALL_ROWS), f"#{first}-{last}")
        expect_range(f"great sums, lines {first} to {last}", log, dom, first, last)


# The numbers of the tree, of its greatest frame in the flame graph, and of the readout.
SHOWN_SUMS = SHOW_ALL + """document.title = JSON.stringify([
    [...document.querySelectorAll("#tree tbody tr")].map((row) => [...row.cells].map(
        (cell) => cell.textContent.trim())),
    document.querySelectorAll("#flame g")[1].getAttribute("aria-label"),
    document.getElementById("readout").textContent,
    [...document.querySelectorAll("#chart path, #flame rect")].some((part) =>
        /NaN|Infinity/.test(part.outerHTML))]);"""


@pytest.mark.needs("chromium")
def test_great_drawings():
    """The same sums in the tree, the flame graph and below the chart; what is drawn has places."""
    log, to = ROOM / "great.log", ROOM / "great.html"
    write_great(log)
    page("--plain", str(log), str(to))
    at_peak, at_end, calls = parts_of_sites(log)
    sums = {name: (next((held for other, held, _ in at_peak if other == name), 0),
                   next((held for other, held, _ in at_end if other == name), 0), count, temporary)
            for name, _, count, temporary in calls}
    order = sorted(sums, key=lambda name: -int(sums[name][0]))
    dom, said = browse(driven(to, SHOWN_SUMS))
    tree, flame, readout, is_wrong = json.loads(dom.texts["title"])
    expect("great drawings: the tree", (said, tree[:len(order)]),
           ([], [[name, *(f"{int(number):,}" for number in sums[name])] for name in order]))
    expect("great drawings: the flame graph", flame.split(": ")[1].split(", ")[0].endswith(" bytes")
           and flame.startswith(f"{order[0]}: {int(sums[order[0]][0]):,} bytes"), True)
    expect("great drawings: the readout",
           f"; {int(sums[order[1]][0]):,} at {order[1]}; " in readout, True)
    expect("great drawings: places", is_wrong, False)


@pytest.mark.needs("chromium")
def test_great_and_lost():
    """What is lost of such a log, by LOG.reachable."""
    log, to = ROOM / "lost.log", ROOM / "lost.html"
    log.write_text(f"= Start\n@ a + 0x10 0x{MOST + 1:x}\n@ a + 0x20 0x{2 ** 64 - 1:x}\n"
                   f"@ b + 0x30 0x{2 ** 64 - 1:x}\n= End\n")
    both = MOST + 2 ** 64
    Path(f"{log}.reachable").write_text(
        f"Lost: 2 blocks, {both} bytes.\n{both} bytes in 2 blocks at a\n"
        "Possibly lost: 0 blocks, 0 bytes.\n"
        f"Still reachable: 1 blocks, {2 ** 64 - 1} bytes.\n{2 ** 64 - 1} bytes in 1 blocks at b\n")
    run = page("--plain", str(log), str(to))
    dom, said = browse(to)
    expect("great and lost", (run.returncode, run.stderr, said,
                              [row[:4] for row in dom.rows("table-leaks")]),
           (0, "", [], [["b", "0", "0", str(2 ** 64 - 1)], ["a", str(both), "0", "0"]][::-1]))
    expect("great and lost: the head", f"Lost: {both:,} bytes in 2 blocks, a: {both:,} (100 %)."
           in dom.texts["not-freed"], True)


@pytest.mark.needs("chromium")
def test_great_growth():
    """Two logs with such sums: what grew, and who grows in one of them."""
    old, new, to = ROOM / "old.log", ROOM / "new.log", ROOM / "two.html"
    old.write_text(f"= Start\n@ a + 0x10 0x{MOST + 1:x}\n@ same + 0x20 0x{MOST + 1:x}\n= End\n")
    new.write_text(f"= Start\n@ same + 0x20 0x{MOST + 1:x}\n@ a + 0x10 0x{2 ** 64 - 1:x}\n"
                   "= End\n")
    page("--plain", str(old), str(new), str(to))
    dom, said = browse(driven(to, SHOW_ALL))
    grown = [str(2 ** 64 - MOST - 2), str(MOST + 1), str(2 ** 64 - 1)]
    same = ["0", str(MOST + 1), str(MOST + 1)]
    expect("great growth: by function", (said, dom.rows("table-two"), dom.folds("table-two")),
           ([], [["a", *grown, *grown, "0", "1", "1"], ["same", *same, *same, "0", "1", "1"]],
            ["1 function without a change"]))
    expect("great growth: in all", [row for row in dom.rows("table-all") if "Bytes" in row[0]],
           [[name, str(2 * MOST + 2), str(2 ** 64 + MOST), str(2 ** 64 - MOST - 2)]
            for name in ("Bytes asked for", "Bytes at the peak", "Bytes at the end")])
    log = ROOM / "grows.log"
    log.write_text("".join(f"@ more + 0x{16 * number:x} 0x{MOST + number:x}\n"
                           for number in range(1, 81)))
    page("--plain", str(log), str(to))
    last = 80 * MOST + 80 * 81 // 2
    # A tenth of the 80 lines is over at line 8.
    expect("great growth: who grows steadily", browse(to)[0].texts["grows-steadily"],
           f"more: from {8 * MOST + 36:,} bytes early on to {last:,} at the end.")
