"""bin/page: pictures, two logs, times, and words and reports that are refused."""
import os
import pty
import re
import shutil
import subprocess
from pathlib import Path

import pytest

from cases import expect
from pages import (BROWSER, HOME, LOGS, PAGE, PROGRAM, ROOM, browse, drawn, page, picture_of,
                   write_long)


def test_pictures():
    """docs/words.svg is the drawing of tests/logs/words.log; its heaps are drawn where the blocks
    are."""
    expect("docs/words.svg", picture_of(LOGS / "words.log")
           == (HOME / "docs/words.svg").read_text(), True)
    full = ROOM / "full.log"
    full.write_text("".join(f"+ 0x{16 * k:x} 0x10\n" for k in range(1, 2001)))
    picture = drawn(picture_of(full, "--pool", "32000", "--records", "2000"))
    bars = [picture.findall(f".//*[@fill-opacity='{share}']") for share in ("1", "0.75", "0.5")]
    expect("a heap whose blocks are all used", [len(bar) for bar in bars], [2, 0, 0])
    words = page("--svg", str(full), "picture.png")
    expect("a picture of another kind", (words.returncode, words.stdout), (2, ""))


def test_times():
    """Seconds stand below the lines where the log tells its age; in between lines are told as if
    they came evenly."""
    log = ROOM / "times.log"
    lines = [f"+ 0x{16 * number:x} 0x10" for number in range(1, 401)]
    for place, told in ((99, 2000), (199, 2500), (398, 12345)):
        lines.insert(place, f"@ t{told} ! (nil) 0")
    log.write_text("\n".join(lines) + "\n")
    picture = picture_of(log)
    expect("times: seconds at the ticks", re.findall(r">(\d+) · ([\d.]+) s<", picture),
           [("0", "0.0"), ("100", "2.0"), ("200", "2.5"), ("300", "7.4"), ("400", "12.3")])
    expect("times: what the ticks count", "line of the log, and seconds since it began" in picture,
           True)
    log.write_text("\n".join(line for line in lines if "@" not in line) + "\n")
    expect("no times: no seconds", " s<" in picture_of(log) or "seconds" in picture_of(log), False)


def test_two_logs():
    """What grew between two logs."""
    old, new, to = ROOM / "old.log", ROOM / "new.log", ROOM / "two.html"
    old.write_bytes(b"@ a + 0x10 0x40\n@ b + 0x20 0x10\n@ c + 0x30 0x8\n- 0x20\n")
    new.write_bytes(b"@ a + 0x10 0x20\n@ <i> + 0x20 0x100\n@ c + 0x30 0x8\n@ c + 0x40 0x9\n")
    run = page(str(old), str(new), str(to))
    expect("two logs", (run.returncode, run.stderr), (0, ""))
    if BROWSER:
        dom, said = browse(to)
        expect("two logs: what grew", (said, dom.rows("table-two")),
               ([], [["<i>", "256", "0", "256", "256", "0", "256", "1", "0", "1"],
                     ["c", "9", "8", "17", "9", "8", "17", "1", "1", "2"],
                     ["b", "0", "0", "0", "-16", "16", "0", "-1", "1", "0"],
                     ["a", "-32", "64", "32", "-32", "64", "32", "0", "1", "1"]]))
        expect("two logs: in all", [row for row in dom.rows("table-all")
                                    if row[0].startswith("Bytes at")],
               [["Bytes at the peak", "88", "305", "217"],
                ["Bytes at the end", "72", "305", "233"]])


@pytest.mark.long
def test_spoiled_reports():
    """A report with one number that is wrong: there is no page."""
    log, to = LOGS / "words.log", ROOM / "spoiled.html"
    for name, report_name, change in (("bytes of the timeline", "timeline",
                                       "s/^66 \\([0-9]*\\)[0-9] /66 \\17 /"),
                                      ("its blocks", "timeline",
                                       "s/^66 \\([0-9]*\\) [0-9]* /66 \\1 1 /"),
                                      ("its last line", "timeline", "s/^163 /164 /"),
                                      ("what a site holds", "timeline",
                                       "s/^784 bytes in 1 /785 bytes in 1 /"),
                                      ("a site's change that is missing", "timeline",
                                       "/^784 bytes in 1 /d"),
                                      ("a changed site's location", "timeline",
                                       "s/(__strdup+1a)/(__strdup+1b)/"),
                                      ("a line of another form", "timeline",
                                       "s/^784 bytes in 1 blocks/784 bytes/"),
                                      ("its reach at the peak", "timeline", "s/ 9760 / 9761 /"),
                                      ("bytes of a site", "sites", "s/^4176 /4177 /"),
                                      ("blocks of a site", "sites",
                                       "s/ in 14 blocks/ in 13 blocks/"),
                                      ("a site's location", "sites", "s/0x14be/0x14bf/"),
                                      ("calls of a site", "sites", "s/ in 20 calls/ in 21 calls/"),
                                      ("temporary blocks of a site", "sites",
                                       "s/, 1 temporary at/, 2 temporary at/"),
                                      ("a leak's size", "leaks", "s/ 784 line/ 785 line/"),
                                      ("a leak that is missing", "leaks", "/ 784 line/d"),
                                      ("a block", "walk", "s/^656 16 used/656 32 used/"),
                                      ("the peak's line", "peak", "s/ line 136/ line 135/"),
                                      ("a diagnostic", "peak", "1i line 5: too long"),
                                      ("the sure pool", "fit", "s/: 60080 /: 70080 /")):
        spoiled = ROOM / "spoiled"
        to.unlink(missing_ok=True)
        spoiled.write_text(f'#!/bin/sh\nif [ "$1" = {report_name} ]; then "{PROGRAM}" "$@" | sed '
                           f'"{change}"\nelse exec "{PROGRAM}" "$@"; fi\n')
        spoiled.chmod(0o755)
        run = page("--plain", str(log), str(to), program=str(spoiled))
        expect(f"wrong: {name}", (run.returncode, run.stdout, to.exists()), (1, "", False))
        expect(f"wrong: {name}: it is said",
               re.fullmatch(r"tlsf-page: (the numbers differ .*|the timeline has other lines .*|.* "
                            r"isn't what the reports say of it)\n", run.stderr) is not None, True)


def test_growing_log():
    """A log to which a line is added while it is read: there is no page, and it is said why. A name
    may begin with a dash."""
    log, grows = ROOM / "-growing.log", ROOM / "grows"
    shutil.copy(LOGS / "sensor.log", log)
    run = page("--plain", "--", "-growing.log", "dash.html", cwd=ROOM)
    expect("a name with a dash", (run.returncode, run.stdout), (0, "tlsf-page: dash.html\n"))
    grows.write_text(f'#!/bin/sh\n[ "$1" != timeline ] || echo "+ 0x10 0x8" >>{log}\nexec '
                     f'"{PROGRAM}" "$@"\n')
    grows.chmod(0o755)
    run = page("--plain", str(log), str(ROOM / "growing.html"), program=str(grows))
    expect("a log that grows", (run.returncode, run.stderr, (ROOM / "growing.html").exists()),
           (1, f"tlsf-page: {log} changed while it was read: copy it first\n", False))


@pytest.mark.long
def test_refusals():
    """Words and files that don't serve."""
    log = str(LOGS / "sensor.log")
    copy = ROOM / "copy.html"
    shutil.copy(log, copy)
    folder = ROOM / "folder.html"
    folder.mkdir()
    for name, words, status, said in (("no words", [], 2, "the following arguments are required"),
                                      ("no log", [str(ROOM / "missing")], 3, "cannot open"),
                                      ("a folder", [str(ROOM)], 2, "can't be read twice"),
                                      ("a pipe", ["/dev/stdin"], 2, "can't be read twice"),
                                      ("the log as the page", [str(copy), str(copy)], 3,
                                       "is the log itself"),
                                      ("a folder as the page", [log, str(folder)], 3,
                                       "cannot write"), ("three logs", [log, log, log, "x.html"], 2,
                                                         "OLD NEW"),
                                      ("a page in front", [log, "x.html", log], 2,
                                       "LOG [PAGE.html]"),
                                      ("no points", ["--points", "0", log], 2, "1 to 2,000"),
                                      ("a bad pool", ["--pool", "17", log, str(ROOM / "x.html")], 2,
                                       "17 is no multiple of 16"),
                                      ("two pictures", ["--svg", log, log], 2, "LOG [PAGE.svg]"),
                                      ("names of two logs", ["--names", log, log], 2,
                                       "LOG [PAGE.names]"),
                                      ("names and a picture", ["--names", "--svg", log], 2,
                                       "stands alone")):
        run = page(*words, stdin=subprocess.PIPE)
        expect(f"{name}: status", run.returncode, status)
        expect(f"{name}: {said}", said in run.stderr and "Traceback" not in run.stderr, True)
    run = page(log, str(ROOM / "x.html"), program=str(ROOM / "no program"))
    expect("no program", (run.returncode, "Traceback" in run.stderr), (2, False))
    expect("the log stays", copy.read_bytes() == Path(log).read_bytes(), True)


def test_same_twice():
    """One log makes one page, byte for byte, also beside its own name."""
    room = ROOM / "twice"
    room.mkdir()
    shutil.copy(LOGS / "words.log", room)
    for name in ("one.html", "two.html"):
        page("--plain", "words.log", name, cwd=room)
    page("--plain", "words.log", cwd=room)
    plain = {**os.environ, "TLSF": PROGRAM, "LC_ALL": "C", "PYTHONUTF8": "0",
             "PYTHONCOERCECLOCALE": "0"}
    subprocess.run([PAGE, "--plain", "words.log", "two.html"], cwd=room, env=plain,
                   stdout=subprocess.DEVNULL, check=False)
    texts = {(room / name).read_bytes() for name in ("one.html", "two.html", "words.log.html")}
    expect("the same page twice, in another locale, and its name", len(texts), 1)
    expect("nothing else is left", sorted(path.name for path in room.iterdir()),
           ["one.html", "two.html", "words.log", "words.log.html"])
    expect("nothing is fetched", re.findall(rb"https?://(?!www.w3.org/2000/svg)", texts.pop()), [])


def said_on_terminal(log):
    """What the page of a log is told with on a terminal."""
    told, terminal = pty.openpty()
    subprocess.run([PAGE, log, ROOM / "terminal.html"], env={**os.environ, "TLSF": PROGRAM},
                   stdout=subprocess.DEVNULL, stderr=terminal, check=False)
    os.close(terminal)
    return os.read(told, 100_000).decode()


def test_on_terminal():
    """What it does, and how far it is, is told on a terminal alone."""
    said = said_on_terminal(LOGS / "words.log")
    expect("on a terminal: progress", said.startswith("\r\x1b[Ktlsf-page: ")
           and said.endswith("\r\x1b[K"), True)
    expect("on a terminal: what it does", re.findall(r"tlsf-page: ([a-z][^\r]*)", said),
           ["the peak is looked for", "names of functions are looked for",
            "the pools that the log needs are looked for",
            "the numbers are compared with the reports", "the greatest sites are looked for",
            "the page is written"])
    log = ROOM / "told.log"
    write_long(log, 60_000)
    expect("on a terminal: how far it is",
           re.search(r"tlsf-page: \d+,\d\d\d of 60,000 lines are read", said_on_terminal(log))
           is not None, True)
