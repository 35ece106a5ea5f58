"""bin/page: the numbers on its pages are the program's reports, in a real browser."""
import io
import random
import re
import resource
from pathlib import Path

import pytest

from cases import expect
from pages import (ALL_ROWS, BROWSER, GREATEST, HOSTILE, LOGS, MOST_BYTES, MOST_SECONDS, NO_END,
                   ROOM, SHOWN, browse, drawn, driven, expect_page, head_in, head_of, page,
                   picture_of, report, write_hostile, write_long)
from reading import (Model, expect_range, sites_of)
import stacks as page_stacks


def leaks_of(log):
    """What isn't freed by site, as the page tells it."""
    rows = {}
    for line in report("leaks", *GREATEST, log):
        if found := re.fullmatch(r"0x\w+ (\d+) line (\d+)(?: at (.*))?", line):
            rows.setdefault(found[3] or "(no location)", []).append((int(found[1]), int(found[2])))
    return sorted([name, *map(str, (sum(size for size, _ in held), len(held),
                                    min(line for _, line in held), max(line for _, line in held),
                                    min(size for size, _ in held), max(size for size, _ in held)))]
                  for name, held in rows.items())


def blocks_of(*words):
    return [line.split() for line in report("walk", *GREATEST, *words) if re.match(r"\d", line)]


def timeline_of(log, points=200):
    return [line.split() for line in report("timeline", "--points", str(points), *GREATEST, log)
            if re.fullmatch(r"[\d ]+", line)]


def expect_numbers(name, log, dom):
    """What the page of a log shows in its tables, all rows shown, is what the reports say."""
    at_peak, at_end = sites_of(log)
    expect(f"{name}: the sites at the peak", sorted(row[:3] for row in dom.rows("table-peak")),
           sorted(at_peak))
    expect(f"{name}: what isn't freed", sorted(dom.rows("table-leaks")), leaks_of(log))
    expect(f"{name}: the same at the end by sites", sorted(row[:3]
                                                           for row in dom.rows("table-leaks")),
           sorted(at_end))
    points = timeline_of(log)
    expect(f"{name}: the timeline", dom.rows("table-points"), points)
    peak = next(line for line in report("peak", *GREATEST, log) if line.startswith("peak: "))
    line = int(peak.split()[-1])
    lines = Path(log).read_bytes().split(b"\n")
    head = Path(log).with_suffix(".head") if Path(log).parent != LOGS else ROOM / "head"
    head.write_bytes(b"".join(text + b"\n" for text in lines[:line]))
    expect(f"{name}: blocks at the peak", dom.rows("table-blocks-peak"), blocks_of(str(head)))
    expect(f"{name}: blocks at the end", dom.rows("table-blocks-end"), blocks_of(str(log)))
    expect(f"{name}: the report of fit", [": ".join(row) for row in dom.tables["table-fit"][1:]],
           [line for line in report("fit", str(log)) if not line.startswith("line ")])
    expect(f"{name}: the head's peak", f"{int(peak.split()[1]):,} byte" in dom.texts["peak"], True)


def whole_page(name, log):
    """A log whose numbers are all compared, over all lines and over a range."""
    to, dom = expect_page(name, log)
    if not dom:
        return
    dom, said = browse(driven(to, ALL_ROWS))
    expect(f"{name}: all rows: nothing on the console", said, [])
    expect_numbers(name, log, dom)
    lines = Path(log).read_bytes().count(b"\n")
    expect_range(f"{name}, all lines", log, dom, 0, lines)
    # Each line is a point here, and so may begin a range.
    for first, last in ((lines // 3, 2 * lines // 3), (lines - 2, lines), (0, 3)):
        dom, _ = browse(driven(to, ALL_ROWS), f"#{first}-{last}")
        expect_range(f"{name}, lines {first} to {last}", log, dom, first, last)


def write_stacks(path):
    """Stacks of two modules, in the form that bin/trace writes; and locations that are none."""
    chance = random.Random(5)
    held, lines = [], [b"= Start"]
    for number in range(150):
        inner = chance.randrange(4)
        stack = b"/usr/lib/lib%%20c.so:[0x%x]<[0x%x]<./main:[0x%x]<[0x99]" % (16 * inner + 1,
                                                                              16 * (inner // 2) + 5,
                                                                              7 + inner)
        place = b"@ %b " % stack if number % 10 else b""
        if held and chance.random() < 0.4:
            lines.append(place + b"- 0x%x" % held.pop(chance.randrange(len(held))))
        elif held and chance.random() < 0.2:
            lines += [place + b"< 0x%x" % held[-1], place + b"> 0x%x 0x%x"
                      % (held[-1], chance.randrange(1, 3000))]
        else:
            held.append(0x1000 + 16 * number)
            lines.append(place + (b"* 0x%x 0x40 0x%x" if number % 7 == 0 else b"+ 0x%x 0x%x")
                         % (held[-1], chance.randrange(1, 500)))
    path.write_bytes(b"\n".join(lines) + b"\n+ (nil) 0x10\n! (nil) 0x20\n+ 0x10 0\n= End\n")


def write_faulty(path, seed):
    """A log with each kind of diagnostic, some amid reallocations."""
    chance = random.Random(seed)
    addresses = [b"0x%x" % (16 * k) for k in range(1, 9)]

    def line():
        address, size = chance.choice(addresses), b"0x%x" % chance.randrange(1, 400)
        place = chance.choice([b"", b"@ a:[0x1] ", b"@ b "])
        return chance.choice([place + b"+ " + address + b" " + size, place + b"- " + address,
                              place + b"< " + address, place + b"< " + address + b"\n" + place
                              + b"> " + chance.choice(addresses) + b" " + size,
                              place + b"> " + address + b" " + size,
                              place + b"* " + address + b" 0x40 " + size,
                              place + b"* " + address + b" 0x30 " + size, b"- 0X1", b"",
                              b"@ " + b"y" * 400, b"+ (nil) 0x8", b"= End", b"! (nil) 0x8",
                              b"+ " + address + b" 0"])

    path.write_bytes(b"\n".join(line() for _ in range(120)) + chance.choice([b"\n", b""]))


def test_hostile_page():
    """Nothing in a location is run, all of it is shown."""
    log = ROOM / "<b>&'x.log"
    write_hostile(log)
    to, dom = expect_page("hostile locations", log, ())
    expect("hostile locations: the picture", len(drawn(picture_of(log))) > 0, True)
    if not dom:
        return
    dom, said = browse(driven(to, ALL_ROWS))
    expect("hostile locations: nothing on the console", said, [])
    wanted = sorted([SHOWN.get(location, location.decode("latin-1")), str(number)]
                    for number, location in enumerate(HOSTILE, 1))
    for table in ("table-peak", "table-leaks", "table-calls"):
        column = 2 if table == "table-calls" else 1
        expect(f"hostile locations: {table}", sorted([row[0], row[column]]
                                                     for row in dom.rows(table)), wanted)
    expect("hostile locations: the title", dom.texts["title"], "<b>&'x.log: who holds its memory")
    expect("hostile locations: no element of theirs", (dom.counts.get("img", 0),
                                                       dom.counts["script"], dom.counts["b"]),
           (0, 3, 6))
    intruder = Path(to).with_suffix(".intruder.html")
    intruder.write_text(Path(to).read_text().replace("</body>",
                                                     "<script>document.title = "
                                                     "'run'</script></body>"))
    dom, said = browse(intruder)
    expect("another script: isn't run", dom.texts["title"], "<b>&'x.log: who holds its memory")
    expect("another script: the console tells", len(said) > 0, True)


@pytest.mark.needs("chromium")
def test_drawn_heaps():
    """Of both heaps as much is drawn as used as blocks are by the report of walk, in each row below
    how far the heap reaches."""
    log, to = LOGS / "words.log", ROOM / "heaps.html"
    page("--plain", str(log), str(to))
    dom, said = browse(driven(to,
                              """const used = (heap) =>
                                  [...heap.querySelectorAll(".used")]
                              .map((path) => path.getAttribute("fill-opacity") *
            [...path.getAttribute("d").matchAll(/h(\\d+)v/g)].reduce((sum, [,
            dots]) => sum + Number(dots), 0)).reduce((sum, dots) => sum + dots, 0);
        const all = (heap) => [...heap.querySelectorAll(".free")].reduce((sum,
        row) => sum + Number(row.getAttribute("width")), 0);
        document.title = [...document.querySelectorAll("#heaps svg")]
        .map((heap) => used(heap) / all(heap)).join(" ");"""))
    (ROOM / "peak.log").write_bytes(b"".join(log.read_bytes().splitlines(True)[:136]))
    held = [[(int(place), int(size)) for place, size, state in blocks_of(str(of)) if state
             == "used"] for of in (ROOM / "peak.log", log)]
    reach = max(place + size for heap in held for place, size in heap)
    shares = [sum(size for _, size in heap) / reach for heap in held]
    found = [float(share) for share in dom.texts["title"].split()]
    expect("drawn heaps", (said, len(found), [abs(one - other) < 0.01
                                              for one, other in zip(found, shares)]),
           ([], 2, [True, True]))


def test_empty_and_faulty():
    """Logs without a line, and with faulty ones alone."""
    log = ROOM / "empty.log"
    log.write_bytes(b"")
    to, dom = expect_page("an empty log", log)
    if dom:
        expect_numbers("an empty log", log, dom)
        expect("an empty log: the head", (dom.texts["not-freed"], dom.texts["peak"]),
               ("Nothing is known: no line of the log asks for memory.",
                "0 bytes in 0 blocks, after line 0."))
        expect("an empty log: no diagnostics", "faults" in dom.hidden, True)
    log = ROOM / "diagnostics.log"
    log.write_bytes(b"x\n- 0x10\n> 0x20 0x1\n< 0x30\n@ <b> + 0x0 0x1\n" + b"z" * 400)
    to, dom = expect_page("diagnostics alone", log)
    if dom:
        wanted = [line[5:].split(": ", 1) for line in report("leaks", str(log))
                  if re.match(r"line \d", line)]
        expect("diagnostics alone: told", dom.rows("table-diagnostics"), wanted)
        expect("diagnostics alone: counted", (dom.texts["no-end"], dom.texts["read"]),
               (NO_END, "diagnostics.log: 6 lines, 0 sites, 6 diagnostics, the first of line 1 (1 "
                "too long, 2 not a line, 1 not held, 1 half of a reallocation, 1 no < before >)."))
        expect_numbers("diagnostics alone", log, dom)


@pytest.mark.long
def test_faulty_logs():
    """Logs with each kind of fault, on heaps that refuse some lines: what the page reckons agrees
    with the reports."""
    for seed in range(12):
        log = ROOM / "faulty.log"
        write_faulty(log, seed)
        run = page("--plain", "--points", str(1 + 3 * seed), "--pool", "2048", "--records",
                   str(5 + seed), str(log), str(ROOM / "faulty.html"))
        expect(f"faulty log {seed}", (run.returncode, run.stderr), (0, ""))


def processor_seconds():
    """What all runs so far took of a processor, so that a busy machine fails no test."""
    used = resource.getrusage(resource.RUSAGE_CHILDREN)
    return used.ru_utime + used.ru_stime


@pytest.mark.alone
def test_long_log():
    """A million lines: the time, the length, and the site that grows."""
    log = ROOM / "long.log"
    write_long(log, 1_000_000)
    begun = processor_seconds()
    to, _ = expect_page("a million lines", log)
    took = processor_seconds() - begun
    expect(f"a million lines: {took:.1f} seconds", took < MOST_SECONDS, True)
    expect("a million lines: the page's length", to.stat().st_size <= MOST_BYTES, True)
    if BROWSER:
        dom, said = browse(driven(to, ALL_ROWS))
        expect("a million lines: nothing on the console", said, [])
        expect("a million lines: who grows", "server:[0xbad]" in dom.texts["grows-steadily"], True)
        at_peak, at_end = sites_of(log)
        for name, table, wanted in (("the sites at the peak", "table-peak", at_peak),
                                    ("what isn't freed", "table-leaks", at_end)):
            expect(f"a million lines: {name}", sorted(row[:3] for row in dom.rows(table)),
                   sorted([told_as(location), held, blocks] for location, held, blocks in wanted))


def test_stacks():
    """A log of stacks: the flame graph has a frame for each, and shows one alone."""
    log = ROOM / "stacks.log"
    write_stacks(log)
    to, dom = expect_page("stacks", log)
    if not dom:
        return
    model = Model(log.read_bytes())
    dom, said = browse(driven(to, ALL_ROWS))
    expect("stacks: nothing on the console", said, [])
    end = {site: told for site, told in model.states[-1].items() if told[1]}
    names = {site: " < ".join(frames(site)) for site in end}
    expect("stacks: what isn't freed", sorted(row[:3] for row in dom.rows("table-leaks")),
           sorted([names[site] or "(no location)", *map(str, told)] for site, told in end.items()))
    sums = {}
    for site, (size, _) in end.items():
        for depth, frame in enumerate(frames(site)[::-1] or ["(no location)"]):
            sums[depth, frame] = sums.get((depth, frame), 0) + size
    by_end = """const flame = document.querySelector("#flame .flame"),
    measure = document.querySelector("#flame select");
        measure.value = "1"; measure.dispatchEvent(new Event("change"));"""
    flames, _ = browse(driven(to,
                              by_end
                              + """document.title = [...flame.querySelectorAll("g")].map((frame) =>
        frame.getAttribute("aria-label")).join("|");"""))
    outermost = [f"{frame}: {size:,} bytes" for (depth, frame), size in sums.items() if depth == 0]
    for words in outermost:
        expect(f"stacks: {words}", words in flames.texts["title"], True)
    flames, said = browse(driven(to, by_end + """const press = (key) =>
            document.activeElement.dispatchEvent(
                new KeyboardEvent("keydown", { key, bubbles: true }));
        flame.querySelector("g").focus(); press("ArrowDown"); press("Enter");
        document.title = document.activeElement.getAttribute("aria-label")
        + "|" + flame.querySelectorAll("g")[1].querySelector("rect")
        .getAttribute("width") / flame.clientWidth;"""))
    largest = max((size, frame) for (depth, frame), size in sums.items() if depth == 0)
    expect("stacks: one frame alone",
           (said, flames.texts["title"].startswith(f"{largest[1]}: {largest[0]:,} bytes"),
            flames.texts["title"].endswith("|1")), ([], True, True))


def frames(site):
    """The frames of a stack as the page names them."""
    told, module = [], ""
    for part in site.decode().split("<") if site else []:
        found = re.fullmatch(r"(?:(.*):)?(\[\w+\])", part)
        module = found[1] or module
        told.append(module.rpartition("/")[2] + found[2])
    return told


def told_as(location):
    """A location as the page names it."""
    told = frames(location.encode()) if re.fullmatch(r"\S+:\[\w+\](<(\S+:)?\[\w+\])+",
                                                     location) else [location]
    return " < ".join(told)


def test_pieces():
    """Lines without effect are found with their numbers, in whatever pieces a log is read: behind
    empty lines, without a newline at its end, and beside locations that hold what they end with."""
    effect, whole = b" ! (nil) 0", page_stacks.PIECE
    log = b"\n".join([b"= Start", b"@ t7" + effect, b"", b"", b"@ a + 0x10 0x8",
                      b"@ m1=/lib/a" + effect, b"@ s1=1:5" + effect, b"- 0x10", effect,
                      b"@ x! (nil) 0", b"@ s1 + 0x20 0x9", b"@ t99" + effect, b"- 0x20",
                      b"@ t100" + effect, b"@ t101" + effect])
    wanted = [(number, line.removesuffix(effect))
              for number, line in enumerate(log.split(b"\n")[:-1], 1) if line.endswith(effect)]
    try:
        for size in (*range(1, 40), len(log), whole):
            page_stacks.PIECE = size
            expect(f"lines without effect, in pieces of {size}",
                   list(page_stacks.lines_without_effect(io.BytesIO(log))), wanted)
    finally:
        page_stacks.PIECE = whole


@pytest.mark.needs("chromium")
def test_sure_pools():
    """The numbers that a sure pool rests on: of lines that ask for nothing, and with an
    alignment."""
    log = ROOM / "sure.log"
    log.write_bytes(b"@ n + (nil) 0x405\n@ a + 0x10 0x405\n@ b * 0x20 0x40 0x3f0\n@ b + 0x10 "
                    b"0x1000\n@ c > 0x30 0x2000\n- 0x20\n@ c + 0x40 0x0")
    # 1,029 bytes are of class size 1,056; 1,008 and 48 more for the alignment, too. Lines 1, 4 and
    # 5 ask for nothing.
    head = head_of(log)[4]
    expect("a sure pool: its bytes, 2,048 + 3 (1,056 - 16) + 16", head.partition(";")[0],
           "sure 5,184 bytes")
    expect("a sure pool: the lines that ask", head.partition(". ")[2],
           "The sure pool serves any log of at most 2 blocks and 2,048 bytes in units of 16, "
           "with no request above that of line 2: 1,029 bytes (class size 1,056) at a.")
    log.write_bytes(b"@ a + 0x10 0x3f0\n@ b * 0x20 0x40 0x3f0\n")
    expect("a sure pool: an alignment",
           "of line 2: 1,008 bytes at a multiple of 64 (class size 1,056) at b." in head_of(log)[4],
           True)
    log.write_bytes(b"@ a + 0x10 0x20000010\n")
    expect("no sure pool", head_of(log)[4].partition("records. ")[2],
           "The log holds 1 block, and its largest request is that of line 1: 536,870,928 bytes "
           "(class size 553,648,128) at a.")
    log.write_bytes(b"@ a + 0x10 0x20000010\n@ a + 0x20 0x20000010\n")
    expect("a log for two pools", head_of(log, "--pools", "2")[4],
           "none is sure; no single pool serves this log, as the largest refuses lines.")


def test_no_heap_serves():
    """A log that no single heap serves: its sums are whole, and heaps by size are told."""
    log = ROOM / "refused.log"
    log.write_bytes(b"@ a + 0x10 0x10\n@ b + 0x20 0x7fffffff\n@ c + 0x30 0x8\n")
    to, dom = expect_page("no heap serves", log)
    if dom:
        head = head_in(to)
        expect("no heap serves: the head", [dom.texts["refused"], *head[:2], head[4]],
               ["One heap refuses 1 line, the first is line 2: sums here are those without a heap.",
                "refused.log: 3 lines, 3 sites, no diagnostic.",
                "2,147,483,671 bytes in 3 blocks, after line 3. b: 2,147,483,647 (100 %); a: 16 (0 "
                "%); c: 8 (0 %).",
                "No single heap serves this log. No heaps by size serve it."])
        expect("no heap serves: the peak", dom.rows("table-peak")[0][:3], ["b", "2147483647", "1"])
        expect("no heap serves: heaps by size", [": ".join(row)
                                                 for row in dom.tables["table-fit"][1:]],
               report("fit", "--heaps", "4", str(log)))
        expect("no heap serves: no reach", dom.tables["table-points"][0],
               ["Line", "Bytes", "Blocks"])
    other = ROOM / "served.log"
    other.write_bytes(b"@ a + 0x10 0x10\n")
    page("--plain", str(other), str(log), str(to))
    expect("two logs: refused lines",
           "refused.log: one heap refuses 1 line, the first is line 2." in to.read_text(), True)


@pytest.mark.long
@pytest.mark.needs("chromium")
def test_heaps_by_size():
    """A log of more blocks than a heap has: four heaps by size serve it, and the page tells them as
    the report does."""
    log, to = ROOM / "blocks.log", ROOM / "blocks.html"
    log.write_bytes(b"".join(b"@ a + 0x%x 0x%x\n" % (16 * number, 16 + number % 50)
                             for number in range(1, 70001)))
    told = dict(line.split(": ", 1) for line in report("fit", "--heaps", "4", str(log))
                if ": " in line)
    page("--plain", str(log), str(to))
    expect("heaps by size", head_of(log)[4].rpartition(". ")[2],
           f"{told['heaps']} heaps by size serve it, with {int(told['sum'].split()[0]):,} bytes in "
           f"all.")
    expect("heaps by size: the peak",
           head_of(log)[1].startswith(f"{sum(16 + number % 50 for number in range(1, 70001)):,} "
                                      f"bytes in 70,000 blocks"), True)


@pytest.mark.parametrize("name", ["sensor.log", "words.log"])
def test_whole_page(name):
    whole_page(name, LOGS / name)
