"""bin/page: the tree of calls, the flame graph and functions."""
import re
import shutil

import pytest

from cases import expect, skip
from pages import (BROWSER, MOST_BYTES, ROOM, SHOW_ALL, browse, driven, expect_page, head_of, page,
                   picture_of, traced)


def write_calls(path):
    """Two functions that call a third, which one of them calls more often."""
    path.write_bytes(b"@ m:[0x1]<[0x5]<[0x9] + 0x10 0x10\n@ m:[0x1]<[0x6]<[0x9] + 0x20 0x20\n"
                     b"@ m:[0x1]<[0x6]<[0x9] + 0x30 0x8\n- 0x30\n"
                     b"@ m:[0x2]<[0x6]<[0x9] + 0x30 0x100\n- 0x30\n"
                     b"@ m:[0x1]<[0x5]<[0x9] + 0x40 0x3\n")


def page_of_calls():
    """The page of these."""
    log, to = ROOM / "calls.log", ROOM / "calls.html"
    write_calls(log)
    page("--plain", str(log), str(to))
    return to


TREE = """const lines = () => [...document.querySelectorAll("#tree tbody tr")],
    tell = () => lines().map((line) =>
        line.getAttribute("aria-level") + " " + [...line.querySelectorAll("td")]
        .map((cell) => cell.textContent.replace(/[▸▾]/, "")).join(" ")).join("|");
    const press = (key) => document.activeElement.dispatchEvent(new KeyboardEvent("keydown", { key,
    bubbles: true }));
    const direct = (way) => { const select = document.querySelector("#tree select");
    select.value = way; select.dispatchEvent(new Event("change")); };
    const seek = (words) => { const search = document.querySelector("#tree input");
    search.value = words; search.dispatchEvent(new Event("input")); };
    """


@pytest.mark.needs("chromium")
def test_trees():
    """The tree of calls, by clicks and keys, down and up, and by search. Each function has bytes at
    the peak and at the end, calls and temporary blocks."""
    to = page_of_calls()
    root = "1 m[0x9] 304 51 5 2"
    six, five = "2 m[0x6] 288 32 3 2", "2 m[0x5] 16 19 2 0"
    below = "3 m[0x2] 256 0 1 1|3 m[0x1] 32 32 2 1"
    for name, script, wanted in (("closed", "", root), ("a click", "lines()[0].click();",
                                                        f"{root}|{six}|{five}"),
                                 ("two clicks", "lines()[0].click(); lines()[0].click();", root),
                                 ("keys",
                                  'lines()[0].focus(); press("ArrowRight"); press("ArrowRight"); '
                                  'press("Enter");', f"{root}|{six}|{below}|{five}"),
                                 ("keys that close",
                                  'lines()[0].focus(); press("Enter"); press("ArrowDown"); '
                                  'press("ArrowUp"); press("ArrowLeft");', root),
                                 ("up", 'direct("up");', "1 m[0x2] 256 0 1 1|1 m[0x1] 48 51 4 1"),
                                 ("a search", 'seek("M[0X2]");',
                                  f"{root}|{six}|3 m[0x2] 256 0 1 1".replace("304 51 5 2",
                                                                             "256 0 1 1").replace(
                                                                                 "288 32 3 2",
                                                                                 "256 0 1 1")),
                                 ("a search for none", 'seek("nothing");', "")):
        dom, said = browse(driven(to, TREE + script + "document.title = tell();"))
        expect(f"the tree: {name}", (said, dom.texts["title"]), ([], wanted))


@pytest.mark.needs("chromium", "libunwind8")
def test_recursion():
    """A function that calls itself is a node for each of its calls, with the bytes of its sites
    once. A search finds parts of names that the tree doesn't show."""
    log, to = ROOM / "recursion.log", ROOM / "recursion.html"
    log.write_bytes(b"@ m:[0x1]<[0x5]<[0x5]<[0x9] + 0x10 0x10\n@ m:[0x5]<[0x5]<[0x9] + 0x20 0x8\n")
    page("--plain", str(log), str(to))
    dom, said = browse(driven(to, TREE + 'lines()[0].click(); document.title = tell();'))
    expect("recursion in the tree", (said, dom.texts["title"]),
           ([], "1 m[0x9] 24 24 2 0|2 m[0x5] 24 24 2 0|3 m[0x5] 24 24 2 0|4 m[0x1] 16 16 1 0"))
    dom, said = browse(driven(to, TREE + 'direct("up"); document.title = tell();'))
    expect("recursion in the tree, bottom up", (said, dom.texts["title"]),
           ([], "1 m[0x1] 16 16 1 0|1 m[0x5] 8 8 1 0"))
    if not shutil.which("c++"):
        skip("a search for what isn't shown", "no c++")
        return
    traced("deep_names",
           """namespace shop { namespace inner { struct Shelf { __attribute__((noinline)) void \
add() { new char[7]; } };
        struct Cart { __attribute__((noinline)) void add() { new char[9]; } }; } }
        int main() { shop::inner::Shelf().add(); shop::inner::Cart().add(); }""", language="c++")
    page(str(ROOM / "deep_names.log"), str(to))
    dom, said = browse(driven(to, TREE + 'seek("inner::Cart::"); document.title = tell();'))
    expect("a search for what isn't shown", (said, [line.split(" ")[-4:]
                                                    for line in dom.texts["title"].split("|")][:1]),
           ([], [["9", "9", "1", "0"]]))
# Of each rectangle of the flame graph its name and its width in thousandths of the widest.
FLAME_WIDTHS = """const groups = [...document.querySelectorAll("#flame g")],
    width = (group) => Number(group.querySelector("rect").getAttribute("width"));
    const widest = Math.max(...groups.map(width));
    document.title = groups.map((group) => group.getAttribute("aria-label").split(":")[0] + " "
        + Math.round(1000 * width(group) / widest)).join("|");"""


@pytest.mark.needs("chromium")
def test_flame_parts():
    """The rectangles of a flame graph are as wide as their part of the one above, also where one is
    seen alone."""
    to = page_of_calls()
    dom, said = browse(driven(to, FLAME_WIDTHS))
    expect("parts of a flame graph", (said, dom.texts["title"].split("|")),
           ([], ["all sites 1000", "m[0x9] 1000", "m[0x6] 947", "m[0x2] 842", "m[0x1] 105",
                 "m[0x5] 53", "m[0x1] 53"]))
    six = ('[...document.querySelectorAll("#flame g")].find((group) => '
           'group.getAttribute("aria-label").startsWith("m[0x6]"))')
    dom, said = browse(driven(to, f'{six}.dispatchEvent(new MouseEvent("click")); {FLAME_WIDTHS}'))
    expect("parts of one function alone", (said, dom.texts["title"].split("|")),
           ([], ["all sites 1000", "m[0x9] 1000", "m[0x6] 1000", "m[0x2] 889", "m[0x1] 111"]))


@pytest.mark.needs("chromium")
def test_flame_measures():
    """Flame graphs by bytes at the peak, at the end, by calls and by temporary blocks."""
    to = page_of_calls()
    for measure, wanted in enumerate(("304 bytes", "51 bytes", "5 calls", "2 temporary blocks")):
        dom, said = browse(driven(to,
                                  f"""const select = document.querySelector("#flame select");
                                  select.value = "{measure}";
            select.dispatchEvent(new Event("change"));
            document.title = document.querySelector("#flame g").getAttribute("aria-label");"""))
        expect(f"a flame graph of {wanted}", (said, dom.texts["title"]),
               ([], f"all sites: {wanted}, 100.0 %"))


def test_scripts_of_names():
    """Names stand by themselves, whatever their direction, and a log's name is no markup in a
    label."""
    log, to = ROOM / 'a "quoted" onload=x.log', ROOM / "quoted.html"
    log.write_bytes("@ ./שלום:[0x1] + 0x10 0x10\n@ ./a::b/c:[0x1] + 0x20 0x10\n".encode())
    page("--plain", str(log), str(to))
    if BROWSER:
        dom, said = browse(driven(to,
                                  """document.title = document.getElementById("chart")
                                  .getAttribute("aria-label") + "|" +
            document.querySelector("#legend bdi").textContent;"""))
        expect("a name with quotes in a label, and a legend of isolated names",
               (said, dom.texts["title"]),
               ([],
                f"Bytes held after each line of {log.name}, stacked by return address, with the "
                f"peak at line 2. The tables below have its numbers.|./שלום:[0x1]"))
        dom, said = browse(driven(to, """
            const cells = [...document.querySelectorAll("#table-peak td.text")];
            document.title = cells.map((cell) => cell.querySelectorAll("bdi").length
            + " " + cell.querySelectorAll("wbr").length).join("|");"""))
        expect("names in a table are isolated, and break",
               (said, sorted(dom.texts["title"].split("|"))), ([], ["1 1", "1 3"]))
        dom, said = browse(driven(to,
                                  """const home = document.getElementById("table-peak"),
                                  search = home.querySelector("input");
            search.value = "A::B"; search.dispatchEvent(new Event("input"));"""))
        expect("a search heeds no case", (said, [row[0] for row in dom.rows("table-peak")]),
               ([], ["./a::b/c:[0x1]"]))


@pytest.mark.long
def test_many_functions():
    """The chart has at most ten functions, with the greatest share of the peak, and the grey rest
    names its greatest. Above 5,000 sites the others are one row of a comparison."""
    log, to = ROOM / "many.log", ROOM / "many.html"
    log.write_bytes(b"".join(b"@ early%d + 0x%x 0x1000\n- 0x%x\n"
                             % (number, 16 * number, 16 * number) for number in range(1, 13))
                    + b"".join(b"@ late%d + 0x%x 0x%x\n" % (number, 16 * number, 2000 - 10 * number)
                               for number in range(1, 13)))
    picture = picture_of(log)
    drawn_names = re.findall(r'<path class="(s\d|rest)"[^>]*><title>([^<]*)', picture)
    expect("ten functions of the peak", [name for _, name in drawn_names
                                         if name.startswith("late")],
           [f"late{number}" for number in range(1, 11)])
    expect("the rest names its greatest", [name for of, name in drawn_names if of == "rest"],
           ["14 others, with 16 % of the peak, the greatest early1"])
    if BROWSER:
        page("--plain", str(log), str(to))
        dom, said = browse(driven(to, """
            const titles = [...document.querySelectorAll("#chart .rest title")];
            document.title = titles.map((title) => title.textContent).join("|");"""))
        expect("the rest is named on hovering", (said, dom.texts["title"]),
               ([], "14 others, with 16 % of the peak, the greatest early1"))
    old = ROOM / "many-old.log"
    old.write_bytes(b"@ a + 0x10 0x40\n")
    log.write_bytes(b"".join(b"@ f%d + 0x%x 0x%x\n" % (number, 16 * number, 7000 - number)
                             for number in range(1, 5101)))
    run = page("--plain", str(old), str(log), str(to))
    others = re.search(r'\["101 other functions together",[^\]]*\]', to.read_text())
    rest = sum(7000 - number for number in range(5001, 5101))
    expect("two logs: other functions", (run.returncode, others and others[0]),
           (0,
            f'["101 other functions '
            f'together",{rest - 0x40},{0x40},{rest},{rest - 0x40},{0x40},{rest},{99},1,100]'))


@pytest.mark.long
def test_many_changes():
    """Of more changes than a page has room for those of the lesser functions share a row, and no
    byte is missing. What a function grew to has also its stacks that share one."""
    log, to = ROOM / "changes.log", ROOM / "changes.html"
    log.write_bytes(b"".join(b"@ f%d + 0x%x 0x10\n" % (number % 2500, 16 * (number + 1))
                             for number in range(150_000)))
    page("--plain", str(log), str(to))
    if BROWSER:
        more = log.with_name("more.log")
        with open(more, "wb") as lines:
            for number, line in enumerate(log.read_bytes().splitlines(True), 1):
                lines.write(line)
                if number % 500 == 0:
                    lines.write(b"@ m:[0x1]<[0x2] + 0x%x8 0x1000\n@ m:[0x1]<[0x3] + 0x%x4 0x1\n"
                                % (number, number))
        expect("many changes: what a function grew to",
               re.search(r"m\[0x1\]: from [\d,]+ bytes early on to ([\d,]+) at the end",
                         head_of(more)[3])[1], f"{300 * 0x1001:,}")
    expect("many changes: the page's length", to.stat().st_size <= MOST_BYTES, True)
    if BROWSER:
        dom, said = browse(driven(to, SHOW_ALL), "#0-75000")
        rows = dom.rows("table-grown")
        expect("many changes: bytes in the middle", (said, sum(int(row[3]) for row in rows)),
               ([], 75_000 * 16))
        expect("many changes: the others", [row[0] for row in rows
                                            if not re.fullmatch(r"f\d+", row[0])],
               ["other functions"])
        expect("many changes: the others aren't drawn by themselves",
               "other functions" in dom.texts["legend"] or "and more, with"
               not in dom.texts["legend"], False)
        expect("many changes: all functions at the peak", len(dom.rows("table-peak")), 2500)


@pytest.mark.needs("cc", "chromium", "libunwind8")
def test_by_function():
    """Two lines of a function are one site; the tree has it once."""
    traced("two_lines",
           "#include <stdlib.h>\nvoid *one(int k) {\n    if (k)\n        return malloc(10);\n    "
           "return malloc(20);\n}\n" "int main(void) { return one(0) == one(1); }\n")
    to, dom = expect_page("by function", ROOM / "two_lines.log", ())
    expect("by function: one row", [row[:3] for row in dom.rows("table-peak")],
           [["one two_lines.c", "30", "2"]])
    if shutil.which("c++"):
        traced("pooled",
               "#include <cstdlib>\nstruct Item {\n    static void *operator new(std::size_t size) "
               "{ return std::malloc(size); }\n    char room[40];\n};\n"
               "static Item *volatile last;\nstatic void fill() { last = new Item; }\nint main() { "
               "fill(); }\n", language="c++")
        to, dom = expect_page("an operator new of its own", ROOM / "pooled.log", ())
        expect("an operator new of its own: who calls it",
               [row[:3] for row in dom.rows("table-peak") if "pooled" in row[0]],
               [["fill pooled.c:7", "40", "1"]])


@pytest.mark.needs("chromium")
def test_labels_of_tables():
    """Each table that scrolls, and its search, are told by name to who can't see them."""
    dom, said = browse(driven(page_of_calls(),
                              """document.title = ["peak", "leaks", "calls"].map((name) => {
        const table = document.getElementById(`table-${name}`);
        const label = (part) => table.querySelector(part).getAttribute("aria-label");
        return `${label(".scroll")}; ${label("input")}`; }).join("|");"""))
    told = dom.texts["title"].split("|")
    expect("labels of tables", (said, [bool(label.split("; ")[0].strip()) and label.split("; ")[1]
                                       == f"Search: {label.split('; ')[0]}" for label in told],
                                told[1].split(";")[0]), ([], [True] * 3, "Not freed"))
