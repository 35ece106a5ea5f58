"""bin/page: pages of snapshots."""
import os
import random
import re
import shutil
import subprocess

import pytest

from cases import expect, skip
from pages import (BROWSER, Dom, HOME, HOSTILE, PROGRAM, ROOM, SHOWN, browse, driven, framed, page,
                   write_hostile)


def write_snapshots(name, log, every=1000):
    """A log, and what the program tells of its snapshots."""
    path, report_of = ROOM / f"{name}.log", ROOM / f"{name}.txt"
    path.write_bytes(log)
    with open(report_of, "wb") as told:
        subprocess.run([PROGRAM, "sites", "--every", str(every), path], stdout=told, check=False)
    return report_of


def over_time(name, log, every=1000):
    """The page of a log's snapshots, as it is without a browser."""
    to = ROOM / f"{name}.html"
    run = page("--snapshots", "--plain", str(write_snapshots(name, log, every)), str(to))
    expect(f"snapshots, {name}", (run.returncode, run.stdout, run.stderr),
           (0, f"tlsf-page: {to}\n", ""))
    return to, Dom(to.read_text())
GROWN = (b"= Start\n@ a + 0x10 0x64\n@ b + 0x20 0x10\n@ t1000 ! (nil) 0\n@ a + 0x30 0x64\n@ c + "
         b"0x40 0x8\n@ t2000 ! (nil) 0\n"
         b"@ a + 0x50 0x64\n- 0x20\n@ t3100 ! (nil) 0\n- 0x10\n= End\n")


def corners_of(path, width, left, last, top):
    """The corners of an area, as milliseconds and bytes, by what the drawing's sides stand for."""
    places = [tuple(map(float, place.split()))
              for place in path.removeprefix("M").removesuffix("Z").split("L")]
    return [(round((x - left) * last / (width - 16 - left)), round((300 - y) * top / 284))
            for x, y in places]


def test_snapshots_by_hand():
    """Three snapshots and the end of a log: the numbers are worked out by its lines. The chart is
    as high as 1.08 times the most that is held, 308."""
    to, dom = over_time("by hand", GROWN)
    expect("snapshots by hand: functions", dom.rows("table-functions"),
           [["In all", "84", "0", "116", "2", "308", "4", "208", "3"],
            ["a", "100", "1", "100", "1", "300", "3", "200", "2"],
            ["c", "0", "0", "0", "0", "8", "1", "8", "1"],
            ["b", "-16", "-1", "16", "1", "0", "0", "0", "0"]])
    expect("snapshots by hand: stacks", dom.rows("table-stacks"), dom.rows("table-functions"))
    expect("snapshots by hand: the title of the table", dom.texts["caption of table-functions"],
           "Grown from 2 to 3.1 seconds")
    expect("snapshots by hand: the chart's numbers", (dom.tables["table-points"][0][4:],
                                                      dom.rows("table-points")),
           (["a", "b", "c"], [["1", "4", "116", "2", "100", "16", "0"],
                              ["2", "7", "224", "4", "200", "16", "8"],
                              ["3.1", "10", "308", "4", "300", "0", "8"]]))
    expect("snapshots by hand: the head", [dom.texts[name] for name in ("read", "held", "grew")],
           ["3 snapshots, at 1 to 3.1 seconds.",
            "At first 116 bytes in 2 blocks. At last 308 bytes in 4 blocks. At the end 208 bytes "
            "in 3 blocks.",
            "In all +84 bytes in 0 blocks from the last but one to the last. Most: a, +100 bytes "
            "in +1 blocks."])
    paths = re.findall(r'<path class="s(\d)" d="([^"]+)"><title>([abc])</title>', to.read_text())
    expect("snapshots by hand: three areas for each width", [(at, name) for at, _, name in paths],
           3 * [("0", "a"), ("1", "b"), ("2", "c")])
    wide = [corners_of(path, 1060, 80, 3100, 332) for _, path, _ in paths[6:]]
    times, sums = [1000, 2000, 3100], [[0, 0, 0], [100, 200, 300], [116, 216, 300], [116, 224, 308]]
    wanted = [[*zip(times, above), *zip(times[::-1], below[::-1])]
              for below, above in zip(sums, sums[1:])]
    far = [max(abs(one[0] - other[0]) / 3 + abs(one[1] - other[1]) for one, other in zip(got, want))
           for got, want in zip(wide, wanted)]
    expect("snapshots by hand: the areas", [len(area) for area in wide] == [6, 6, 6] and max(far)
           < 1.5, True)


def test_still_snapshots():
    """What is the same at all snapshots, and at the end, stands apart, and is folded: neither what
    grew before the last two, nor what is given back at the end."""
    to, dom = over_time("still", b"= Start\n@ keep + 0x10 0x64\n@ have + 0x20 0x8\n"
                        b"@ give + 0x30 0x9\n@ t1000 ! (nil) 0\n@ early + 0x40 0x5\n"
                        b"@ t2000 ! (nil) 0\n@ t3000 ! (nil) 0\n- 0x30\n= End\n")
    expect("still: who changed", [row[0] for row in dom.rows("table-functions")],
           ["In all", "early", "give"])
    expect("still: who didn't", dom.rows("table-still-functions"),
           [["Together", "0", "0", *3 * ["108", "2"]], ["keep", "0", "0", *3 * ["100", "1"]],
            ["have", "0", "0", *3 * ["8", "1"]]])
    expect("still: folded", "</div>\n<details><summary>2 functions without a change</summary>"
           '<div id="table-still-functions"' in to.read_text(), True)


def test_few_snapshots():
    """None, one, an empty report, and one without an end."""
    _, dom = over_time("none", GROWN, 100_000)
    expect("no snapshot", (dom.texts["read"], dom.rows("table-functions"),
                           dom.counts.get("svg", 0)), ("No snapshot.",
                                                       [["In all", "208", "3"], ["a", "200", "2"],
                                                        ["c", "8", "1"]], 0))
    to, dom = over_time("one", GROWN, 3000)
    expect("one snapshot", (dom.texts["read"], dom.texts["grew"], dom.rows("table-functions")),
           ("1 snapshot, at 3.1 seconds.", "That takes two snapshots.",
            [["In all", "308", "4", "208", "3"], ["a", "300", "3", "200", "2"],
             ["c", "8", "1", "8", "1"]]))
    expect("one snapshot: a bar", len(set(re.findall(r"[ML](\S+) ",
                                                     re.findall(r'class="s0" d="([^"]+)"',
                                                                to.read_text())[-1]))), 2)
    to, dom = over_time("nothing",
                        b"= Start\n@ a + 0x10 0x64\n- 0x10\n@ t1000 ! (nil) 0\n@ t2000 ! (nil) 0\n"
                        b"= End\n")
    expect("nothing held", (dom.rows("table-functions"), dom.texts["grew"]),
           ([["In all", "0", "0", "0", "0", "0", "0", "0", "0"]],
            "In all 0 bytes in 0 blocks from the last but one to the last. No function grew."))
    empty = ROOM / "empty.txt"
    empty.write_bytes(b"")
    run = page("--snapshots", str(empty), str(to))
    expect("an empty report", (run.returncode, run.stderr, Dom(to.read_text()).texts["read"]),
           (0, "", "No snapshot. It has no end: its process still ran, or the report isn't whole."))


@pytest.mark.long
def test_cut_snapshots():
    """A report that ends anywhere tells its whole snapshots: those whose last line it has. A byte
    less of one is none."""
    whole = write_snapshots("cut", GROWN).read_bytes()
    cut, to = ROOM / "cut off.txt", ROOM / "cut.html"
    ends_of = [whole.index(heading) for heading in (b"At line 7,", b"At line 10,")]
    ends_of.append(whole.rindex(b"Held at the peak"))
    for length in range(len(whole)):
        cut.write_bytes(whole[:length])
        run = (page("--snapshots", "--plain", str(cut), str(to)) if length % 7 == 0
               or any(abs(length - end) < 2 for end in ends_of) else None)
        count = sum(length >= end for end in ends_of)
        if run:
            told = Dom(to.read_text()).texts["read"]
            expect(f"a report of {length} bytes", (run.returncode, run.stderr, told.split(" ")[0]),
                   (0, "", str(count) if count else "No"))
            expect(f"a report of {length} bytes: no end", "It has no end: " in told, True)
    cut.write_bytes(whole[:ends_of[1] + 40])
    page("--snapshots", "--plain", str(cut), str(to))
    dom = Dom(to.read_text())
    expect("a report that is cut", (dom.texts["read"], dom.rows("table-functions")[:2]),
           ("2 snapshots, at 1 to 2 seconds. A last snapshot that isn't whole is left out. It has "
            "no end: its process still ran, or the report isn't whole.",
            [["In all", "108", "2", "116", "2", "224", "4"],
             ["a", "100", "1", "100", "1", "200", "2"]]))


def test_great_snapshots():
    """Sums beyond 2 to the power of 53, and of 64, to the last digit."""
    log = (b"@ a + 0x10 0x20000000000001\n@ t1000 ! (nil) 0\n@ a + 0x20 0xffffffffffffffff\n@ b + "
           b"0x30 0xffffffffffffffff\n@ t2000 ! (nil) 0\n")
    _, dom = over_time("great", log)
    expect("great numbers", dom.rows("table-functions"),
           [["In all", "36893488147419103230", "2", "9007199254740993", "1", "36902495346673844223",
             "3", "36902495346673844223", "3"], ["a", "18446744073709551615", "1",
                                                 "9007199254740993", "1", "18455751272964292608",
                                                 "2", "18455751272964292608", "2"],
            ["b", "18446744073709551615", "1", "0", "0", "18446744073709551615", "1",
             "18446744073709551615", "1"]])


def test_many_snapshots():
    """Of 1,000 snapshots 400 are drawn, from the first to the last, and the one that holds most,
    between two of these. The tables are of all."""
    log = [b"@ a + 0x10 0x1\n"] + [b"@ a + 0x%x 0x64\n@ t%d ! (nil) 0\n%b"
                                   % (16 * number, 10 * number, b"- 0x%x\n" % (16 * number))
                                   for number in range(2, 1002)]
    log[500] = log[500].replace(b" 0x64\n", b" 0x3e8\n")
    _, dom = over_time("many", b"".join(log), 10)
    rows = dom.rows("table-points")
    expect("many snapshots: those that are drawn", (len(rows), rows[0][0], rows[-1][0]),
           (401, "0.02", "10.01"))
    expect("many snapshots: the greatest is drawn", [row[:3] for row in rows if row[2] != "101"],
           [["5.01", str(3 * 500), "1001"]])
    expect("many snapshots: the head", dom.texts["read"].split(".")[0], "1,000 snapshots, at 0")
    said = f"Of 1,000 snapshots {len(rows)} are drawn."
    expect("many snapshots: it is said", said in (ROOM / "many.html").read_text(), True)


def test_many_functions_of_snapshots():
    """Of 2,100 functions those that grew most have a row, and the others share one: no byte is
    missing."""
    log = b"@ t10 ! (nil) 0\n" + b"".join(b"@ f%d + 0x%x 0x%x\n"
                                          % (number, 16 * number, 3000 - number)
                                          for number in range(1, 2101)) + b"@ t20 ! (nil) 0\n"
    _, dom = over_time("many functions", log, 10)
    rows = dom.rows("table-functions")
    expect("many functions of snapshots: rows", ([row[0] for row in rows[:2]], len(rows),
                                                 rows[-1][0]),
           (["In all", "f1"], 2002, "100 other functions together"))
    expect("many functions of snapshots: the others", rows[-1][1:3],
           [str(sum(3000 - number for number in range(2001, 2101))), "100"])
    expect("many functions of snapshots: all", rows[0][1:],
           [str(sum(int(row[at]) for row in rows[1:])) for at in range(1, 9)])
    points = dom.rows("table-points")
    expect("many functions of snapshots: the rest of the chart", points[1][-1],
           str(sum(3000 - number for number in range(11, 2101))))


def test_hostile_snapshots():
    """Nothing in a location or a name is run, all of it is shown, and no script runs at all."""
    log = ROOM / "hostile.log"
    write_hostile(log)
    to, dom = over_time("<i>&'\"", log.read_bytes() + b"@ t1000 ! (nil) 0\n")
    wanted = sorted([SHOWN.get(location, location.decode("latin-1")), str(number)]
                    for number, location in enumerate(HOSTILE, 1))
    for table in ("table-functions", "table-stacks"):
        expect(f"hostile snapshots: {table}", sorted([row[0], row[1]]
                                                     for row in dom.rows(table)[1:]), wanted)
    expect("hostile snapshots: no element of theirs", (dom.counts.get("img", 0),
                                                       dom.counts.get("script", 0),
                                                       dom.counts.get("i", 0)), (0, 0, 0))
    expect("hostile snapshots: the title", dom.texts["title"],
           "<i>&'\".txt: what was held over time")
    if BROWSER:
        dom, said = browse(to)
        expect("hostile snapshots: in a browser", (said,
                                                   sorted([row[0], row[1]]
                                                          for row in dom.rows("table-stacks")[1:])),
               ([], wanted))
        to.write_text(to.read_text().replace("</body>",
                                             "<script>document.title = 'run'</script></body>"))
        dom, said = browse(to)
        expect("hostile snapshots: a script isn't run", (dom.texts["title"], len(said) > 0),
               ("<i>&'\".txt: what was held over time", True))


def test_sums_of_snapshots():
    """Of 90 sites, of which 79 share an area, each number of the tables is the report's, and so are
    all sums."""
    chance, lines, held = random.Random(3), [b"= Start"], []
    for number in range(4000):
        if held and chance.random() < .45:
            lines.append(b"- 0x%x" % held.pop(chance.randrange(len(held))))
        else:
            held.append(16 * number + 16)
            lines.append(b"@ f%d + 0x%x 0x%x" % (min(chance.randrange(90), chance.randrange(90)),
                                                 held[-1], chance.randrange(3000)))
        if number % 100 == 99:
            lines.append(b"@ t%d ! (nil) 0" % (10 * number))
    lines += [b"- 0x%x" % held.pop() for _ in range(20)]
    _, dom = over_time("sums", b"\n".join(lines) + b"\n= End\n", 1)
    parts, heads = [], []
    for line in (ROOM / "sums.txt").read_text().split("\n"):
        if found := re.fullmatch(r"Held at the end: (\d+) blocks, (\d+) bytes\.", line):
            heads.append((int(found[2]), int(found[1])))
            parts.append({})
        elif line.startswith(("At line", "Held at the peak")):
            parts.append({})
        elif found := re.fullmatch(r"(\d+) bytes in (\d+) blocks at (\w+)", line):
            parts[-1][found[3]] = int(found[1]), int(found[2])
    states = [part for part in parts if part][1::2]
    expect("sums of snapshots: there are 40 and the end", (len(states), len(heads)), (41, 41))
    first, before, last, end = states[0], *states[-3:]
    names = {*first, *before, *last, *end}
    wanted = {name: [last.get(name, (0, 0))[at] - before.get(name, (0, 0))[at] for at in (0, 1)]
              + [state.get(name, (0, 0))[at] for state in (first, last, end) for at in (0, 1)]
              for name in names}
    rows = dom.rows("table-functions")
    expect("sums of snapshots: each function", {row[0]: [int(cell) for cell in row[1:]]
                                                for row in rows[1:]}, wanted)
    expect("sums of snapshots: those that grew most first", [int(row[1]) for row in rows[1:]],
           sorted((int(row[1]) for row in rows[1:]), reverse=True))
    expect("sums of snapshots: in all", [int(cell) for cell in rows[0][1:]],
           [heads[-2][0] - heads[-3][0], heads[-2][1] - heads[-3][1], *heads[0], *heads[-2],
            *heads[-1]])
    points = [[int(cell) for cell in row[2:]] for row in dom.rows("table-points")]
    expect("sums of snapshots: at each", [(row[0], row[1], sum(row[2:])) for row in points],
           [(*head, head[0]) for head in heads[:-1]])
    expect("sums of snapshots: ten functions and the rest", len(points[0]), 13)


def test_wrong_snapshots():
    """What isn't a report of snapshots, or differs from its own sums, has no page; and words that
    don't go together."""
    good = write_snapshots("good", GROWN).read_bytes()
    wrong, to = ROOM / "wrong.txt", ROOM / "wrong.html"
    for name, text, said in (("of bin/leaks",
                              b"At line 4, 1000 ms: /bin/ls, process 5:\nHeld now: 0 blocks, 0 "
                              b"bytes.\n", "bin/leaks wrote it"),
                             ("a log", GROWN, "line 1 isn't of a report"),
                             ("a byte", b"\xff\n", "line 1 isn't of a report"),
                             ("another sum", good.replace(b"300 bytes in 3", b"301 bytes in 3"),
                              "its sites hold"), ("another head",
                                                  good.replace(b"4 blocks, 308", b"4 blocks, 307"),
                                                  "its sites hold"),
                             ("a block less", good.replace(b"300 bytes in 3", b"300 bytes in 2"),
                              "isn't whole"), ("a block more",
                                               good.replace(b"300 bytes in 3", b"300 bytes in 4"),
                                               "its sites hold"),
                             ("two reports", good + good, "goes on behind its end"),
                             ("an older snapshot", good.replace(b"At line 10, 3100",
                                                                b"At line 10, 1999"),
                              "stands behind")):
        wrong.write_bytes(text)
        run = page("--snapshots", "--plain", str(wrong), str(to))
        expect(f"wrong snapshots, {name}", (run.returncode, run.stdout, to.exists(),
                                            said in run.stderr and "Traceback" not in run.stderr),
               (2, "", False, True))
    for words in (["--svg"], ["--names"], ["--points", "5"], ["--pool", "1024"],
                  [str(wrong), str(wrong)]):
        run = page("--snapshots", *words, str(ROOM / "good.txt"))
        expect(f"wrong words of snapshots, {words[0]}", (run.returncode,
                                                         run.stderr.startswith("usage: ")),
               (2, True))


@pytest.mark.needs("cc", "libunwind8")
def test_named_snapshots():
    """Of a program that is followed stacks have names: by what stands beside its report, or by a
    log that is named."""
    source, folder = ROOM / "slow.c", ROOM / "followed"
    source.write_text("""#include <stdlib.h>
#include <unistd.h>
__attribute__((noinline)) void *keep(void) { return malloc(1000); }
__attribute__((noinline)) void *grow(void) { return malloc(10); }
int main(void) { keep(); for (int k = 0; k < 40; k++) { grow(); usleep(40000); } return 0; }
""")
    subprocess.run(["cc", "-g", "-O0", "-fno-builtin", "-w", "-o", ROOM / "slow", source],
                   check=True)
    subprocess.run([HOME / "bin/trace", "--follow", folder, "--tee", "--every", "500ms",
                    ROOM / "slow"], check=False, env={**os.environ, "TLSF": PROGRAM},
                   stdout=subprocess.DEVNULL, stderr=subprocess.DEVNULL)
    report_of = next(folder.glob("*.report"), None)
    if not report_of or b"At line" not in report_of.read_bytes():
        skip("bin/page: names of snapshots",
             "nothing can be followed, or the program has no --every")
        return
    to, apart = ROOM / "named.html", ROOM / "apart.txt"
    run = page("--snapshots", str(report_of), str(to))
    dom = Dom(to.read_text())
    rows = [row for name in ("functions", "still-functions") for row in dom.rows(f"table-{name}")]
    expect("names of snapshots", (run.returncode, run.stderr, [row[0] for row in rows]),
           (0, "", ["In all", "grow slow.c:4", "Together", "keep slow.c:3"]))
    expect("names of snapshots: at the end", ([row[-2:] for row in rows], rows[3][1:3]),
           ([["1400", "41"], ["400", "40"], ["1000", "1"], ["1000", "1"]], ["0", "0"]))
    shutil.copy(report_of, apart)
    log = report_of.with_suffix(".log")
    for words, wanted in (([str(log)], "grow slow.c:4 < main slow.c:5"), ([], "s2")):
        page("--snapshots", str(apart), *words, str(to))
        expect(f"names of snapshots: with {len(words)} log",
               Dom(to.read_text()).rows("table-stacks")[1][0], wanted)
    default = page("--snapshots", report_of.name, cwd=folder)
    expect("names of snapshots: the name of the page", default.stdout,
           f"tlsf-page: {report_of.name}.html\n")
    states = folder / "states"
    for how, told in (("ended", "Its process was ended at once"),
                      ("cut", "It is cut: its process went on without being traced"),
                      ("whole", None)):
        states.write_text(f"{report_of.stem}.ring {how} calls\n")
        page("--snapshots", str(report_of), str(to))
        said = Dom(to.read_text()).texts["read"]
        expect(f"names of snapshots: {how}", told in said if told else said.endswith(" seconds."),
               True)


@pytest.mark.needs("chromium")
def test_screens_of_snapshots():
    """At 320, 800 and 1,280 points nothing stands beyond the window, and one drawing is shown,
    whose letters have their size."""
    log = b"".join(b"@ ./a_long_name_of_a_program::with_parts/and_a_folder:[0x%x] + 0x%x 0x%x\n%b"
                   % (number, 16 * number, 40000 * number,
                      b"@ t%d ! (nil) 0\n" % (3_600_000 * number) if number % 5 == 0 else b"")
                   for number in range(1, 71))
    to, _ = over_time("screens of snapshots", log)
    for width in (320, 400, 800, 1280):
        for colour, ground in (("light", "rgb(255, 255, 255)"), ("dark", "rgb(20, 23, 27)")):
            dom, said = browse(framed(driven(to, LAYOUT_OVER_TIME), width), "", colour)
            beyond, scrolls, drawings, letters, shown_on = dom.texts["title"].split("|")
            expect(f"snapshots, {width} points, {colour}",
                   (said, beyond, scrolls, drawings, 9.5 <= float(letters) <= 14, shown_on),
                   ([], "", "false", "1", True, ground))
LAYOUT_OVER_TIME = """const wide = document.documentElement.clientWidth,
    drawings = [...document.querySelectorAll("#chart svg")].filter((each) =>
        each.getBoundingClientRect().width > 0);
    const beyond = [...document.querySelectorAll("body *")].filter((each) =>
        !each.closest(".scroll, svg") && each.getBoundingClientRect().right > wide + 1);
    document.title = [beyond.map((each) => each.tagName).join(),
    document.documentElement.scrollWidth > wide, drawings.length,
        (12 * drawings[0].getBoundingClientRect().width / drawings[0]
        .viewBox.baseVal.width).toFixed(1), getComputedStyle(document.body)
        .backgroundColor].join("|");"""
