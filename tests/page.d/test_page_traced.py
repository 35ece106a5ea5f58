"""bin/page: pages of programs that bin/trace ran, with names of their sources."""
import os
import shutil
import subprocess
from pathlib import Path

import pytest

from cases import expect, skip
from pages import (ALL_ROWS, BROWSER, CHOOSE, HOME, LOGS, ROOM, SHOW_ALL, browse, driven,
                   expect_page, page, traced)


@pytest.mark.long
@pytest.mark.needs("libunwind8")
def test_source_lines():
    """Where a program has lines, the page names them."""
    if not all(map(shutil.which, ("cc", "addr2line", "readelf", "nm", "make"))):
        skip("bin/page: source lines", "no cc, make or binutils")
        return
    subprocess.run(["cc", "-g", "-o", ROOM / "server", *sorted((HOME
                                                                / "tests/trace.d/server").glob(
                                                                    "*.c"))], check=True)
    subprocess.run([HOME / "bin/trace", "-o", ROOM / "server.log", ROOM / "server"], check=False,
                   stdout=subprocess.DEVNULL, stderr=subprocess.DEVNULL)
    to, dom = expect_page("source lines", ROOM / "server.log", ())
    if dom:
        expect("source lines: functions that aren't given back",
               [row[:3] for row in dom.rows("table-leaks")],
               [["serve main.c", "100", "1"], ["close_session session.c:21", "40", "1"],
                ["parse_request parse.c", "19", "3"]])
        dom, _ = browse(driven(to, ALL_ROWS))
        expect("source lines: what isn't freed", [row[:3] for row in dom.rows("table-leaks")],
               [["xmalloc util.c:16 < serve main.c:8 < main main.c:20", "100", "1"],
                ["xmalloc util.c:16 < close_session session.c:21 < serve main.c:14 < main "
                 "main.c:20", "40", "1"],
                ["xmalloc util.c:16 < xstrdup util.c:22 < parse_request parse.c:15 < serve "
                 "main.c:10 < main main.c:20", "19", "3"]])
    later = (ROOM / "server.log").stat().st_mtime + 1
    os.utime(ROOM / "server", (later, later))
    run = page(str(ROOM / "server.log"), str(to))
    expect("source lines: of a program that is newer, but the same build",
           (run.returncode, run.stdout, run.stderr), (0, f"tlsf-page: {to}\n", ""))
    subprocess.run(["cc", "-O1", "-o", ROOM / "server", *sorted((HOME
                                                                 / "tests/trace.d/server").glob(
                                                                     "*.c"))], check=True)
    run = page(str(ROOM / "server.log"), str(to))
    expect("source lines: of a program that was built again",
           (run.returncode, run.stdout, run.stderr), (0, f"tlsf-page: {to}\n",
                                                      f"tlsf-page: {ROOM / 'server'} is another "
                                                      f"build than the one that ran: its names "
                                                      f"aren't told\n"))
    subprocess.run(["cc", "-g", "-o", ROOM / "server", *sorted((HOME
                                                                / "tests/trace.d/server").glob(
                                                                    "*.c"))], check=True)
    subprocess.run(["strip", "-o", ROOM / "bare", ROOM / "server"], check=True)
    subprocess.run([HOME / "bin/trace", "-o", ROOM / "bare.log", ROOM / "bare"], check=False,
                   stdout=subprocess.DEVNULL, stderr=subprocess.DEVNULL)
    for words, said in (((),
                         "tlsf-page: no lines are known of bare: compile with -g, or install their "
                         "debug information\n"), (("--plain",), "")):
        run = page(*words, str(ROOM / "bare.log"), str(to))
        expect(f"source lines: of a program that has none, {words}", (run.returncode, run.stderr),
               (0, said))
        if BROWSER:
            told = ("No lines are known of bare: compile with -g, or install their debug "
                    "information." if said else None)
            expect(f"source lines: the head of a program that has none, {words}",
                   browse(to)[0].texts.get("without-lines"), told)


@pytest.mark.needs("libunwind8")
def test_named_callers():
    """A function of a stripped library is told by its next caller there that has a name, and not by
    the program's."""
    if not all(map(shutil.which, ("cc", "strip", "make"))) or not BROWSER:
        return
    library = ROOM / "libnamed.so"
    (ROOM
     / "named.c").write_text("#include <stdlib.h>\nstatic void *take(void) { return malloc(33); }\n"
                             "static void *ask(void) { return take(); }\n"
                             "void *entry(void) { return ask(); }\n")
    subprocess.run(["cc", "-O0", "-shared", "-fPIC", "-o", library, ROOM / "named.c"], check=True)
    subprocess.run(["strip", library], check=True)
    traced("calls_named", "void *entry(void);\nint main(void) { return entry() == 0; }\n",
           with_library=library)
    run = page(str(ROOM / "calls_named.log"), str(ROOM / "named.html"))
    dom, said = browse(ROOM / "named.html")
    expect("a named caller", (run.returncode, said, [row[:3] for row in dom.rows("table-peak")]),
           (0, [], [["entry", "33", "1"]]))


@pytest.mark.needs("libunwind8")
def test_stripped_wrappers():
    """Of a stripped program the functions that ask for memory on behalf of many are passed over,
    one above the other: each of nine that call them is told."""
    if not all(map(shutil.which, ("cc", "strip", "make"))) or not BROWSER:
        return
    (ROOM
     / "wrapped.c").write_text("#include <stdlib.h>\nstatic void *inner(size_t size) { return "
                               "malloc(size); }\nstatic void *outer(size_t size) { return "
                               "inner(size); }\n"
                               + "".join(f"static void *asks{number}(void) {{ return "
                                         f"outer({100 + number}); }}\n" for number in range(9))
                               + "int main(int count, char **words) { return "
                               + " + ".join(f"({number} < 3 || count < 2 ? asks{number}() == 0 : 0)"
                                            for number in range(9)) + "; }\n")
    subprocess.run(["cc", "-O0", "-o", ROOM / "wrapped", ROOM / "wrapped.c"], check=True)
    subprocess.run(["strip", ROOM / "wrapped"], check=True)
    subprocess.run([HOME / "bin/trace", "-o", ROOM / "wrapped.log", ROOM / "wrapped"], check=False,
                   stdout=subprocess.DEVNULL, stderr=subprocess.DEVNULL)
    page(str(ROOM / "wrapped.log"), str(ROOM / "wrapped.html"))
    dom, said = browse(ROOM / "wrapped.html")
    expect("stripped wrappers", (said, sorted(row[1:3] for row in dom.rows("table-peak"))),
           ([], [[str(100 + number), "1"] for number in range(9)]))
    # What only asks for memory is known by either of two logs.
    subprocess.run([HOME / "bin/trace", "-o", ROOM / "few.log", ROOM / "wrapped", "few"],
                   check=False, stdout=subprocess.DEVNULL, stderr=subprocess.DEVNULL)
    for pair in (("few", "wrapped"), ("wrapped", "few")):
        page(*(str(ROOM / f"{name}.log") for name in pair), str(ROOM / "both.html"))
        dom, said = browse(driven(ROOM / "both.html", SHOW_ALL))
        expect(f"stripped wrappers in two logs, {pair}", (said, len(dom.rows("table-two"))),
               ([], 9))


@pytest.mark.needs("libunwind8")
def test_libraries_that_free():
    """Of a library without lines that asks for nothing, and only frees, nothing is said."""
    if not all(map(shutil.which, ("cc", "make"))):
        return
    library = ROOM / "libfrees.so"
    (ROOM
     / "frees.c").write_text("#include <stdlib.h>\nvoid give_back(void *block) { free(block); }\n")
    subprocess.run(["cc", "-O0", "-shared", "-fPIC", "-o", library, ROOM / "frees.c"], check=True)
    traced("calls_frees",
           "#include <stdlib.h>\nvoid give_back(void *);\nint main(void) { give_back(malloc(5)); "
           "return 0; }\n", with_library=library)
    run = page(str(ROOM / "calls_frees.log"), str(ROOM / "frees.html"))
    expect("a library that frees", (run.returncode, run.stderr), (0, ""))
SHOP = """#include <stdlib.h>
void *keep(size_t bytes)
{
    return malloc(bytes);
}
%s
int main(void)
{
    for (int number = 0; number < %d; number++) {
        keep(1000);
    }
    return malloc(50) == NULL;
}
"""
# Three blocks are lost, two are pointed to by a variable, and one is by a pointer amid it.
LOSES = """#include <stdlib.h>
static char *kept[2], *amid;
static void lose(void) { for (int k = 0; k < 3; k++) (void)!malloc(100); }
static void keep(void) { for (int k = 0; k < 2; k++) kept[k] = malloc(500); }
static void keep_amid(void) { amid = (char *)malloc(70) + 40; }
static void wipe(void) { volatile char room[4000]; for (int k = 0; k < 4000; k++) room[k] = 0; }
int main(void) { lose(); keep(); keep_amid(); wipe(); return 0; }
"""
LOST_HEAD = ["Function", "Lost", "Possibly lost", "Still reachable", "Bytes", "Blocks",
             "First line", "Last line", "Least size", "Greatest size"]


@pytest.mark.needs("cc", "chromium", "libunwind8")
def test_lost_apart():
    """What is lost, possibly lost and still reachable stands apart in head and table, as the source
    has it."""
    traced("loses", LOSES, "--reachable")
    to = ROOM / "loses.html"
    run = page(str(ROOM / "loses.log"), str(to))
    dom, said = browse(to)
    expect("what is lost", (run.returncode, run.stderr, said, dom.tables["table-leaks"][0]),
           (0, "", [], LOST_HEAD))
    expect("what is lost: the table", [row[:6] for row in dom.rows("table-leaks")],
           [["lose loses.c:3", "300", "0", "0", "300", "3"],
            ["keep loses.c:4", "0", "0", "1000", "1000", "2"],
            ["keep_amid loses.c:5", "0", "70", "0", "70", "1"]])
    expect("what is lost: the head", dom.texts["not-freed"],
           "1,370 bytes in 6 blocks. Lost: 300 bytes in 3 blocks, lose loses.c:3: 300 (100 %). "
           "Possibly lost: 70 bytes in 1 block, "
           "keep_amid loses.c:5: 70 (100 %). Still reachable: 1,000 bytes in 2 blocks, keep "
           "loses.c:4: 1,000 (100 %).")
    dom, _ = browse(driven(to, CHOOSE + 'choose("file");'))
    expect("what is lost: by file", [row[:6] for row in dom.rows("table-leaks")],
           [["loses.c", "300", "70", "1000", "1370", "6"]])


@pytest.mark.long
@pytest.mark.needs("chromium", "libunwind8")
def test_lost_of_others():
    """Many sites by hand, of which the last ones share a row: each has as many bytes lost as its
    number, and twice that reachable."""
    def place(site):
        return f"./others:[0x{site % 7 + 1:x}]<[0x{site:x}]"

    log, count = ROOM / "others.log", 5200
    log.write_text("= Start\n"
                   + "".join(f"@ {place(site)} + 0x{16 * (2 * site + half):x} 0x{site << half:x}\n"
                             for site in range(1, count) for half in (0, 1)) + "= End\n")
    parts = [[f"{site << half} bytes in 1 blocks at {place(site)}" for site in range(1, count)]
             for half in (0, 1)]
    sums = [sum(range(1, count)) << half for half in (0, 1)]
    Path(f"{log}.reachable").write_text("\n".join([f"Lost: {count - 1} blocks, {sums[0]} bytes.",
                                                   *parts[0], "Possibly lost: 0 blocks, 0 bytes.",
                                                   f"Still reachable: {count - 1} blocks, "
                                                   f"{sums[1]} bytes.", *parts[1], ""]))
    to = ROOM / "others.html"
    run = page("--plain", str(log), str(to))
    dom, said = browse(driven(to, SHOW_ALL))
    rows = [list(map(int, row[1:5])) for row in dom.rows("table-leaks")]
    expect("many sites that are lost", (run.returncode, run.stderr, said), (0, "", []))
    expect("many sites that are lost: in each row", [row
                                                     for row in rows if row[1] or row[2] != 2
                                                     * row[0] or row[3] != 3 * row[0]], [])
    expect("many sites that are lost: in all", [sum(column) for column in zip(*rows)],
           [sums[0], 0, sums[1], 3 * sums[0]])
    expect("many sites that are lost: the head",
           dom.texts["not-freed"].count("Possibly lost: nothing."), 1)


@pytest.mark.needs("cc", "chromium", "libunwind8")
def test_inserted_line():
    """A comment that is inserted makes no function new. Logs of one name are told apart by their
    folders."""
    for folder, comment, count in (("before", "", 4), ("after", "/* a comment */\n", 6)):
        (ROOM / folder).mkdir()
        (ROOM / folder / "shop.c").write_text(SHOP % (comment, count))
        subprocess.run(["cc", "-g", "-O0", "-o", ROOM / folder / "shop", ROOM / folder / "shop.c"],
                       check=True)
        subprocess.run([HOME / "bin/trace", "-o", ROOM / folder / "shop.log",
                        ROOM / folder / "shop"], check=False, stdout=subprocess.DEVNULL,
                       stderr=subprocess.DEVNULL)
    to = ROOM / "inserted.html"
    run = page(str(ROOM / "before/shop.log"), str(ROOM / "after/shop.log"), str(to))
    dom, said = browse(to)
    expect("an inserted line", (run.returncode, said, dom.rows("table-two")), (0, [], [
        ["keep shop.c", "2000", "4000", "6000", "2000", "4000", "6000", "2", "4", "6"]]))
    dom, said = browse(driven(to, SHOW_ALL))
    expect("an inserted line: what didn't change", (said, dom.folds("table-two"),
                                                    dom.rows("table-two")[1:]),
           ([], ["1 function without a change"],
            [["main shop.c", "0", "50", "50", "0", "50", "50", "0", "1", "1"]]))
    expect("logs of one name", dom.texts["title"], "before/shop.log and after/shop.log: what grew")


@pytest.mark.needs("libunwind8")
def test_names_of_pages():
    """Where no page is named it has the names of its logs, so that the page of one log stays."""
    room = ROOM / "names"
    room.mkdir()
    for name in ("a.log", "b.log"):
        shutil.copy(LOGS / "words.log", room / name)
    said = [page("--plain", *words, cwd=room).stdout for words in (["b.log"], ["a.log", "b.log"])]
    expect("the names of pages", (said, sorted(path.name for path in room.glob("*.html"))),
           (["tlsf-page: b.log.html\n", "tlsf-page: a.log-b.log.html\n"],
            ["a.log-b.log.html", "b.log.html"]))
