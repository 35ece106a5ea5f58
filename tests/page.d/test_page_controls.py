"""bin/page: what keys, mouse, search and choices do, and how a page is laid out."""
import json
import re
import subprocess
from pathlib import Path

import pytest

from cases import expect
from pages import (BROWSER, CHOOSE, HOME, LOGS, ROOM, SHOW_ALL, browse, driven, framed, head_in,
                   page)
from reading import expect_range
import functions as page_functions
import names as names_of_page


KEYS = """
const box = document.getElementById("chart-box");
const press = (key, shiftKey) => box.dispatchEvent(new KeyboardEvent("keydown", { key, shiftKey,
    bubbles: true }));
"""


@pytest.mark.needs("chromium")
def test_by_hand():
    """Keys, mouse, search and sorting."""
    to = ROOM / "words.log.html"
    page("--plain", str(LOGS / "words.log"), str(to))
    dom, said = browse(driven(to,
                              KEYS
                              + 'press("Home"); press("ArrowRight"); press("ArrowRight"); for (let '
                              'k = 0; k < 5; k++) press("ArrowRight", true);'))
    expect("keys: the range", (said, dom.texts["caption of table-grown"]),
           ([], "Grown by return address, lines 3 to 7"))
    expect("keys: what is told", dom.texts["readout"].startswith("Line 7: "), True)
    expect_range("keys", LOGS / "words.log", dom, 2, 7)
    dom, _ = browse(driven(to, KEYS + 'press("End", true); press("Escape");'))
    expect("Escape: all lines", dom.texts["caption of table-grown"],
           "Grown by return address, lines 1 to 163")
    dom, _ = browse(driven(to, KEYS + 'press("p");'))
    expect("P: the peak",
           dom.texts["readout"].startswith("Line 136 (peak): 8,208 bytes in 39 blocks, reach "
                                           "9,760, "), True)
    dom, said = browse(driven(to, """
        Element.prototype.setPointerCapture = () => {};
        const chart = document.getElementById("chart"), edges = chart.getBoundingClientRect();
        const at = (line) => edges.left + 80 + (edges.width - 96) * line / 163;
        const move = (name, line) => chart.dispatchEvent(new PointerEvent(name, {
        clientX: at(line), clientY: edges.top + 50, bubbles: true }));
        move("pointerdown", 120); move("pointermove", 60); move("pointermove", 40);
        move("pointerup", 40); move("pointermove", 80);"""))
    expect("mouse: the range", (said, dom.texts["caption of table-calls"]),
           ([], "Calls by return address, lines 41 to 120"))
    expect("mouse: what is told", dom.texts["readout"].startswith("Line 80: "), True)
    dom, said = browse(driven(to, """
        const home = document.getElementById("table-calls"), search = home.querySelector("input");
        search.value = "0x14"; search.dispatchEvent(new Event("input"));
        home.querySelectorAll("th button")[2].click();
        home.querySelectorAll("th button")[2].click();"""))
    expect("search and sorting", (said, dom.rows("table-calls")),
           ([], [["./words:[0x1432]", "1", "0"], ["./words:[0x1447]", "1", "200"],
                 ["./words:[0x14be]", "10", "3750"], ["./words:[0x1475]", "20", "5040"]]))


@pytest.mark.needs("chromium")
def test_choices():
    """Charts, heads and tables tell by function, file, module or stack."""
    log, to = ROOM / "choices.log", ROOM / "choices.html"
    log.write_bytes(b"@ /a/one:[0x1]<[0x5] + 0x10 0x10\n@ /a/one:[0x1]<[0x6] + 0x20 0x20\n@ "
                    b"/a/one:[0x2]<[0x5] + 0x30 0x40\n@ /a/two:[0x1]<[0x5] + 0x40 0x80\n")
    page("--plain", str(log), str(to))
    for what, wanted, legend in (("function", [["one[0x1]", "48", "2"], ["one[0x2]", "64", "1"],
                                               ["two[0x1]", "128", "1"]],
                                  ["one[0x1]", "one[0x2]", "two[0x1]"]),
                                 ("module", [["one", "112", "3"], ["two", "128", "1"]],
                                  ["one", "two"]), ("namespace",
                                                    [["one", "112", "3"], ["two", "128", "1"]],
                                                    ["one", "two"]),
                                 ("file", [["one", "112", "3"], ["two", "128", "1"]],
                                  ["one", "two"])):
        dom, said = browse(driven(to, CHOOSE + f'choose("{what}");' + SHOW_ALL))
        expect(f"by {what}: the peak", (said, sorted(row[:3] for row in dom.rows("table-peak"))),
               ([], wanted))
        expect(f"by {what}: what isn't freed", sorted(row[:3] for row in dom.rows("table-leaks")),
               wanted)
        expect(f"by {what}: the legend", all(name in dom.texts["legend"] for name in legend), True)
        expect(f"by {what}: the head", f"{wanted[-1][0]}: 128 (53 %)" in dom.texts["peak"], True)
        expect(f"by {what}: what is told below the chart",
               dom.texts["readout"].endswith(f" {wanted[-1][1]} at {wanted[-1][0]}; "
                                             + "; ".join(f"{held} at {name}"
                                                         for name, held, _ in wanted[-2::-1])),
               True)
    dom, said = browse(driven(to,
                              CHOOSE
                              + """choose("stack");
                              document.querySelector("#table-peak button.site").click();
        document.title = [...document.querySelectorAll("#table-peak ol.stack li")]
        .map((frame) => frame.textContent).join("|");"""))
    expect("a stack opens on a click", (said, dom.texts["title"]), ([], "two[0x1]|two[0x5]"))


def test_namespaces():
    """Functions of C++ and Rust by their outermost namespace or crate; those of C by their file."""
    names = {"net::Pool::accept": 1, "net::serve": 2, "<net::Pool as core::clone::Clone>::clone": 4,
             "<&mut shop::Cart>::add": 8, "cache::Lru::get": 16, "{anonymous}::f": 32, "plain": 64,
             "operator new": 128}
    log, to = ROOM / "namespaces.log", ROOM / "namespaces.html"
    log.write_text("".join(f"@ p:[0x{size:x}] + 0x{16 * size:x} 0x{size:x}\n"
                           for size in names.values()))
    page("--plain", str(log), str(to))
    text = to.read_text()
    for name, size in names.items():
        text, count = re.subn(rf'\["p:\[0x{size:x}\]","p:\[0x{size:x}\]","p"',
                              lambda _: re.sub("[<>&]", lambda found: f"\\u{ord(found[0]):04x}",
                                               f'["{name}","{name}","a.c"'), text)
        expect(f"namespaces: {name} stands once", count, 1)
    to.write_text(text.replace('"named":false', '"named":true'))
    if BROWSER:
        dom, said = browse(driven(to, CHOOSE + 'choose("namespace");'))
        expect("by namespace", (said, dom.tables["table-peak"][0][0],
                                [row[:3] for row in dom.rows("table-peak")]),
               ([], "Namespace or crate", [["a.c", "224", "3"], ["cache", "16", "1"],
                                           ["shop", "8", "1"], ["net", "7", "3"]]))


def test_callers_without_itself():
    """A function isn't its own caller."""
    call, one, two = (names_of_page.Call("", "", 0, "m", 0, start) for start in (16, 32, 48))
    deeper = names_of_page.Call("", "", 0, "m", 4, 16)

    class OfOne:
        def own(self):
            return iter([call, deeper, one, two])

    expect("callers of a function that calls itself", page_functions.callers_of(call, OfOne()),
           {("m", 32)})
# Opens the whole tree, and tells of its lines: how deep the deepest is, how many lines of text a
# name takes at most, how far a name begins below its sign, and where the first numbers end.
OPEN_TREE = """for (let closed; (closed = document.querySelector("#tree [aria-expanded=false]"));)
        closed.click();
    const lines = [...document.querySelectorAll("#tree tbody tr")];
    const names = lines.map((line) => line.querySelector("bdi").getBoundingClientRect());
    const signs = lines.map((line) => line.querySelector(".sign").getBoundingClientRect());
    const height = parseFloat(getComputedStyle(document.querySelector("#tree bdi")).lineHeight);
    document.title = [Math.max(...lines.map((line) => line.getAttribute("aria-level"))),
        Math.max(...names.map((name) => Math.round(name.height / height))),
        Math.max(...names.map((name, at) => Math.round(name.top - signs[at].top))),
        Math.max(...lines.map((line) => Math.ceil(line.cells[1].getBoundingClientRect().right)))
        <= document.documentElement.clientWidth].join("|");"""


@pytest.mark.needs("chromium")
def test_narrow_tree():
    """At 400 points names in the tree stand beside their signs in at most two lines, however deep
    they are, and the first numbers beside them."""
    log, to = ROOM / "deep.log", ROOM / "deep.html"
    told = [f"@ m{number}=/lib/PersistentOrderedIndex_of_{number} ! (nil) 0"
            for number in range(1, 19)]
    stacks = ["<".join(f"{number}:{number + at:x}" for number in range(1, 19)) for at in (0, 1)]
    told += [f"@ s{at}={stack} ! (nil) 0" for at, stack in enumerate(stacks, 1)]
    log.write_text("\n".join(["= Start", *told, "@ s1 + 0x10 0x1000", "@ s2 + 0x20 0x1000",
                              "= End", ""]))
    page("--plain", str(log), str(to))
    dom, said = browse(framed(driven(to, OPEN_TREE), 400))
    expect("a narrow tree", (said, dom.texts["title"]), ([], "18|2|0|true"))


# Tells of a table its rows' first cells, the words below it, and whether the fold has the focus.
TOLD_TABLE = """
const home = document.getElementById("%s"), told_ = [];
const tell = () => told_.push([[...home.querySelectorAll("tbody tr")].map((row) =>
    row.cells[0].textContent), home.querySelector("output").textContent,
    document.activeElement.className]);
const fold = () => home.querySelector("button.fold");
const search = (text) => { const input = home.querySelector("input");
    input.value = text; input.dispatchEvent(new Event("input")); };
"""


@pytest.mark.needs("chromium")
def test_folds():
    """Rows without a change are one row, which opens and closes and keeps the focus. A search finds
    them, and more than the first are there where they are asked for."""
    old, new, to = ROOM / "old.log", ROOM / "new.log", ROOM / "folds.html"
    same = [f"@ same{number:02} + 0x{16 * number + 16:x} 0x10" for number in range(20)]
    for log, size in ((old, 0x20), (new, 0x30)):
        log.write_text("\n".join(["= Start", *same, f"@ grows + 0x1000 0x{size:x}",
                                  "@ called + 0x2000 0x8", "- 0x2000",
                                  *(["@ called + 0x2000 0x8", "- 0x2000"] if log == new else []),
                                  "= End", ""]))
    page("--plain", str(old), str(new), str(to))
    script = TOLD_TABLE % "table-two" + """tell(); fold().click(); tell();
        home.querySelector(".tools button").click(); tell(); fold().click(); tell();
        search("same07"); tell(); search("grows"); tell(); search(""); tell();
        document.title = JSON.stringify(told_);"""
    dom, said = browse(driven(to, script))
    changed, names = ["grows", "called"], [f"same{number:02}" for number in range(20)]
    folded = [*changed, "20 functions without a change"]
    expect("folds", (said, json.loads(dom.texts["title"])),
           ([], [[folded, "2 rows", ""], [folded + names[:15], "17 of 22 rows", "fold"],
                 [folded + names, "22 rows", ""], [folded, "2 rows", "fold"],
                 [["same07"], "1 row", ""], [["grows"], "1 row", ""], [folded, "2 rows", ""]]))
    page("--plain", str(old), str(to))
    script = CHOOSE + TOLD_TABLE % "table-grown" + """tell(); choose("module"); tell();
        document.title = JSON.stringify(told_);"""
    dom, said = browse(driven(to, script), "#21-24")
    expect("folds: of one log", (said, [rows for rows, *_ in json.loads(dom.texts["title"])]),
           ([], [["grows", "21 return addresses without a change"],
                 ["grows", "21 modules without a change"]]))


# Tells what stands beyond the window, but for what scrolls in itself; how wide the chart is drawn;
# and what paper has.
LAYOUT = (
    """const wide = document.documentElement.clientWidth, box = document.getElementById("chart");
    const beyond = [...document.querySelectorAll("body *")].filter((each) =>
        !each.closest(".scroll, svg") && each.getBoundingClientRect().right > wide + 1);
    const rules = [...document.styleSheets].flatMap((sheet) =>
        [...sheet.cssRules]).filter((rule) => rule.media && rule.media.mediaText === "print")
        .flatMap((rule) => [...rule.cssRules]).map((rule) => rule.cssText).join(" ");
    window.dispatchEvent(new Event("beforeprint"));
    document.title = [beyond.map((each) => each.tagName).join(),
    Math.round(box.viewBox.baseVal.width - box.getBoundingClientRect().width),
        document.documentElement.scrollWidth > wide,
        /h2[^}]*break-after: avoid/.test(rules) && /#range[^}]*display: none/.test(rules),
        document.querySelectorAll("#table-calls tbody tr").length,
        getComputedStyle(document.body).backgroundColor].join("|");""")


@pytest.mark.needs("chromium")
def test_screens():
    """At 320, 800 and 1,280 points and in both colours nothing stands beyond the window, and the
    chart is drawn for it. On paper headings keep to what follows, and 50 rows are there."""
    log, to = ROOM / "screens.log", ROOM / "screens.html"
    log.write_bytes(b"".join(b"@ ./a_long_name_of_a_program::with_parts/and_a_folder:[0x%x] + 0x%x "
                             b"0x%x\n" % (number, 16 * number, 40000 * number)
                             for number in range(1, 71)))
    page("--plain", str(log), str(to))
    old = ROOM / "screens-two.html"
    page("--plain", str(log), str(LOGS / "words.log"), str(old))
    for width in (320, 800, 1280):
        for colour, ground in (("light", "rgb(255, 255, 255)"), ("dark", "rgb(20, 23, 27)")):
            dom, said = browse(framed(driven(to, LAYOUT), width), "", colour)
            expect(f"{width} points, {colour}", (said, dom.texts["title"]),
                   ([], f"|0|false|true|50|{ground}"))
        dom, said = browse(framed(driven(old, LAYOUT), width))
        expect(f"{width} points, two logs", (said, dom.texts["title"].split("|")[:4]),
               ([], ["", "0", "false", "true"]))
# Tells what stands beyond paper of the window's width: the rules for print are put into the page as
# if they were for a screen.
ON_PAPER = """const rules = [...document.styleSheets].flatMap((sheet) =>
        [...sheet.cssRules]).filter((rule) => rule.media && rule.media.mediaText === "print")
        .flatMap((rule) => [...rule.cssRules]).map((rule) => rule.cssText).join(" "),
        style = document.createElement("style");
    style.textContent = rules;
    document.head.append(style);
    window.dispatchEvent(new Event("beforeprint"));
    document.title = [...document.querySelectorAll("table")].filter((table) =>
        !table.closest("details:not([open])") && table.getBoundingClientRect()
    .right > document.documentElement.clientWidth + 1)
        .map((table) => table.caption.textContent).join("|");"""


@pytest.mark.needs("chromium")
def test_on_paper():
    """The widest table, of what is lost, with great numbers and long names, stays on paper 19
    centimetres wide."""
    log, to = ROOM / "paper.log", ROOM / "paper.html"
    names = [f"a_rather_long_name_of_a_function_of_a_program_number_{number}"
             for number in range(3)]
    log.write_text("= Start\n"
                   + "".join(f"@ {name} + 0x{16 * number + 16:x} 0x{500_000_000 + number:x}\n"
                             for number, name in enumerate(names)) + "= End\n")
    Path(f"{log}.reachable").write_text("".join(f"{part}: 1 blocks, {500_000_000 + number} bytes.\n"
                                                f"{500_000_000 + number} bytes in 1 blocks at "
                                                f"{names[number]}\n"
                                                for number, part in enumerate(("Lost",
                                                                               "Possibly lost",
                                                                               "Still reachable"))))
    run = page("--plain", str(log), str(to))
    dom, said = browse(framed(driven(to, ON_PAPER), 718))
    expect("on paper", (run.returncode, run.stderr, said, dom.texts["title"]), (0, "", [], ""))


def test_lists_of_others():
    """A list that isn't of the log's end is told, and left out: another sum, another location, a
    part that is missing, no list at all."""
    log, to = ROOM / "listed.log", ROOM / "listed.html"
    log.write_bytes(b"= Start\n@ a + 0x10 0x40\n@ b + 0x20 0x10\n= End\n")
    good = (b"Lost: 1 blocks, 64 bytes.\n64 bytes in 1 blocks at a\nPossibly lost: 0 blocks, 0 "
            b"bytes.\nStill reachable: 1 blocks, 16 bytes.\n" b"16 bytes in 1 blocks at b\n")
    wrong = [good.replace(b"16 bytes", b"17 bytes"), good.replace(b" at b", b" at c"),
             good.replace(b"Possibly", b"Probably"), good.replace(b"1 blocks, 64", b"2 blocks, 64"),
             good[:good.index(b"Still")], good + b"more\n", b"\xff\n"]
    for text, is_good in [(good, True), *((text, False) for text in wrong)]:
        Path(f"{log}.reachable").write_bytes(text)
        run = page("--plain", str(log), str(to))
        wanted = ("" if is_good
                  else f"tlsf-page: {log}.reachable isn't of this log's end, so what is lost isn't "
                  f"told apart\n")
        told = '"lost":[[64,1],[0,0],[16,1]]' in to.read_text()
        expect(f"a list beside a log: {text[:60]}", (run.returncode, run.stderr, told),
               (0, wanted, is_good))


@pytest.mark.needs("c++", "chromium")
def test_first_screen():
    """Of a server of about twenty sites the head names who holds the peak, who rises, and who
    leaks."""
    subprocess.run(["c++", "-g", "-O1", "-fno-inline", "-o", ROOM / "leaking",
                    HOME / "tests/trace.d/leaking.cpp"], check=True)
    subprocess.run([HOME / "bin/trace", "-o", ROOM / "leaking.log", ROOM / "leaking"], check=False,
                   stdout=subprocess.DEVNULL, stderr=subprocess.DEVNULL)
    to = ROOM / "leaking.html"
    page(str(ROOM / "leaking.log"), str(to))
    head = head_in(to)
    expect("the first screen: who holds the peak", [name in head[1]
                                                    for name in ("Pages::render",
                                                                 "Sessions::open")], [True, True])
    expect("the first screen: who leaks",
           re.match(r"2,000 bytes in 80 blocks\. shop::remember_name leaking\.cpp:\d+: 2,000 \(100 "
                    r"%\)\. To see which of it is lost, trace it by tlsf-trace --reachable\.$",
                    head[2]) is not None, True)
    expect("the first screen: who rises",
           re.match(r"shop::remember_name leaking\.cpp:\d+: from .* at the end\. Until line "
                    r"[\d,]+, .*: Sessions::open leaking\.cpp", head[3]) is not None, True)
