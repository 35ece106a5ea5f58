"""Pages in a browser, for the test modules of tests/page.d."""
import html
import html.parser
import os
import re
import signal
import subprocess
import sys
import tempfile
from collections import defaultdict
from pathlib import Path
from xml.etree import ElementTree

import cases
from cases import expect

sys.path[1:1] = [str(cases.HOME / name) for name in ("tracer", "names", "reports", "page")]


class Room(os.PathLike):
    """The folder of the test that runs."""

    def __truediv__(self, name):
        return Path.cwd() / name

    def __fspath__(self):
        return os.getcwd()

    __str__ = __fspath__


ROOM = Room()
HOME, PAGE, LOGS = cases.HOME, cases.HOME / "bin/page", cases.TESTS / "logs"
PROGRAM, BROWSER = cases.program_of(), cases.browser()


GREATEST = ["--pool", "1073741808", "--records", "65535"]
# Of a page: its bytes, and the seconds of a processor for a million lines, with the browser.
MOST_BYTES, MOST_SECONDS = 3_000_000, 20
# What the head says of a log without its end.
NO_END = ("A signal ended the process, or lines are missing: so what isn't freed here may have "
          "been.")


def report(*words):
    """A report's lines, as text that has each byte."""
    return subprocess.run([PROGRAM, *words], stdout=subprocess.PIPE,
                          check=False).stdout.decode("latin-1").split("\n")[:-1]


def page(*words, program=PROGRAM, **more):
    """Runs bin/page."""
    return subprocess.run([PAGE, *words], env={**os.environ, "TLSF": program},
                          stdout=subprocess.PIPE, stderr=subprocess.PIPE, text=True, check=False,
                          **more)


class Dom(html.parser.HTMLParser):
    """What the browser made of a page: texts by id, tables by the id that they stand in, and how
    many elements of each name."""

    def __init__(self, text):
        super().__init__()
        self.open, self.counts, self.hidden = [], {}, set()
        self.texts, self.tables = defaultdict(str), defaultdict(list)
        self.feed(text)

    def handle_starttag(self, name, attributes):
        given = dict(attributes)
        self.counts[name] = self.counts.get(name, 0) + 1
        if "hidden" in given:
            self.hidden.add(given.get("id"))
        if name not in ("meta", "input", "link", "br", "img", "wbr"):
            self.open.append((name, given.get("id")))
        home = next((of for _, of in reversed(self.open) if of and of.startswith("table-")), None)
        if name == "table":
            self.tables[home] = []
        elif name == "tr":
            self.tables[home].append([])
        elif name in ("td", "th"):
            self.tables[home][-1].append("")
        elif name == "caption":
            self.texts[f"caption of {home}"] = ""

    def handle_endtag(self, name):
        while self.open and self.open.pop()[0] != name:
            pass

    def handle_data(self, text):
        home = next((of for _, of in reversed(self.open) if of and of.startswith("table-")), None)
        inside = [name for name, _ in self.open]
        if "td" in inside or "th" in inside:
            self.tables[home][-1][-1] += text
        elif "caption" in inside:
            self.texts[f"caption of {home}"] += text
        for name, of in self.open:
            if of or name == "title" and "svg" not in inside:
                self.texts[of or name] += text

    def rows(self, name):
        """The rows of a table, numbers without commas and plus signs."""
        return [[re.sub(r"(?<=\d),(?=\d\d\d)|^\+(?=\d)", "", cell) for cell in row]
                for row in self.tables[name][1:] if len(row) > 1]

    def folds(self, name):
        """The rows of a table that stand for others."""
        return [row[0] for row in self.tables[name][1:] if len(row) == 1]


def dumped(address, colour="light"):
    """A page's elements and what the browser says, where it ends in time and well. Each run has a
    profile of its own."""
    words = [BROWSER, "--headless", "--disable-gpu", "--no-sandbox", "--disable-dev-shm-usage",
             "--no-first-run", "--disable-sync", "--disable-background-networking",
             "--disable-component-update", "--disable-extensions", "--enable-logging=stderr",
             "--v=0", f"--blink-settings=preferredColorScheme={int(colour == 'light')}",
             "--virtual-time-budget=20000", "--dump-dom",
             f"--user-data-dir={tempfile.mkdtemp(dir=ROOM)}", address]
    run = subprocess.Popen(words, stdout=subprocess.PIPE, stderr=subprocess.PIPE,
                           start_new_session=True)
    try:
        elements, said = run.communicate(timeout=300)
    except subprocess.TimeoutExpired:
        os.killpg(run.pid, signal.SIGKILL)
        run.communicate()
        return "", ""
    return (elements if run.returncode == 0 else b"").decode(), said.decode("utf-8", "replace")


def browse(path, fragment="", colour="light"):
    """What a browser makes of a page, and what it says on the console. One that doesn't start, or
    hangs, is started once more."""
    address = Path(path).resolve().as_uri() + fragment
    elements, said = dumped(address, colour)
    if not elements:
        elements, said = dumped(address, colour)
    return Dom(elements), [line for line in said.split("\n") if "CONSOLE" in line]


def driven(path, script):
    """A copy of a page whose policy is taken out, and which runs a script at its end."""
    text = Path(path).read_text()
    text = re.sub(r'<meta http-equiv="Content-Security-Policy"[^>]*>', "", text)
    copy = Path(path).with_suffix(".driven.html")
    copy.write_text(text.replace("</body>", f"<script>{script}</script></body>"))
    return copy

# Tells by functions, files, modules or whole stacks.
CHOOSE = """const choose = (what) => { const select = document.querySelector("#choice select");
    select.value = what;
    select.dispatchEvent(new Event("change")); };"""
SHOW_ALL = """for (const fold of document.querySelectorAll(
        "button.fold[aria-expanded=false]")) fold.click();
    for (const button of document.querySelectorAll(".tools button"))
    while (!button.hidden) button.click();"""
# Tells by whole stacks, shows all rows of each table, and opens each stack, whose frames then stand
# in its cell.
ALL_ROWS = CHOOSE + """choose("stack");""" + SHOW_ALL + """
    for (const button of document.querySelectorAll("button.site")) {
        button.click();
        const frames = [...button.parentElement.querySelectorAll("ol.stack li")]
        .map((frame) => frame.textContent);
        button.closest("td").textContent = frames.join(" < ");
    }"""


def expect_page(name, log, options=("--plain",)):
    """The page of a log: it is written, whole, and says nothing on the console."""
    to = ROOM / f"{Path(log).name}.html"
    run = page(*options, str(log), str(to))
    expect(f"{name}: the page is written", (run.returncode, run.stdout, run.stderr),
           (0, f"tlsf-page: {to}\n", ""))
    if not BROWSER or run.returncode:
        return to, None
    dom, said = browse(to)
    expect(f"{name}: nothing on the console", said, [])
    expect(f"{name}: no failure", ("failure" in dom.hidden, dom.texts.get("failure", "")),
           (True, ""))
    return to, dom

# Their order is that of the bytes that they hold, and turned around that of the page: there the end
# of a script stands first.
HOSTILE = [b"<script>document.title='run'</script>",
           b"</script><script>document.title='run'</script>",
           b"\"><img/src=x/onerror=document.title='run'>", b"'onmouseover='document.title=1",
           b"{{script}}", b"<!--", b"<!--<script/x", b"]]>&amp;&lt;", b"\\u003c\\x41\\",
           b"\xff\xfe\x80", b"caf\xc3\xa9", b"\xe2\x80\xae\xe2\x80\xa8txt", b"%3Cb%3E", b"$&$1",
           b"__proto__", b"constructor", b"a:[0x1]<<[0x2]", b"<[0x1]", b"</script/x", b"x" * 255]
SHOWN = {b"\\u003c\\x41\\": "\\\\u003c\\\\x41\\\\", b"\xff\xfe\x80": "\\xff\\xfe\\x80",
         b"caf\xc3\xa9": "café", b"\xe2\x80\xae\xe2\x80\xa8txt": "\\u{202e}\\u{2028}txt"}


def write_hostile(path):
    """Each hostile location holds its number in bytes."""
    path.write_bytes(b"".join(b"@ %b + 0x%x 0x%x\n" % (location, 16 * number, number)
                              for number, location in enumerate(HOSTILE, 1)))


def write_long(path, lines):
    """A log of so many lines, with 400 sites of which one grows."""
    with open(path, "w") as log:
        log.write("= Start\n")
        for number in range(1, lines - 1):
            slot = number // 2 % 997
            if number % 100 == 99:
                log.write(f"@ ./server:[0xbad] + 0x{0x10000000 + 16 * number:x} 0x20\n")
            elif number % 2:
                log.write(f"@ ./server:[0x{slot * 7 % 400:x}]<[0x{slot % 5 + 9000:x}] + "
                          f"0x{0x1000 + slot * 16:x} 0x{slot + 1:x}\n")
            elif (number - 1) % 100 == 99:
                log.write("@ ./server:[0x2] + (nil) 0x7fffffffffff\n")
            else:
                log.write(f"@ ./server:[0x1] - 0x{0x1000 + (number - 1) // 2 % 997 * 16:x}\n")
        log.write("= End\n")


def picture_of(log, *options):
    """What `--svg` draws."""
    to = ROOM / "picture.svg"
    run = page("--svg", "--plain", *options, str(log), str(to))
    expect(f"the picture of {Path(log).name}", (run.returncode, run.stderr), (0, ""))
    return to.read_text()


def drawn(text):
    """The elements of a picture; of what isn't one there are none."""
    try:
        return ElementTree.fromstring(text)
    except ElementTree.ParseError:
        return ElementTree.Element("none")


def head_in(to):
    """The five lines of a page that is written."""
    dom, _ = browse(to)
    return [dom.texts[name] for name in ("read", "peak", "not-freed", "grows-steadily",
                                         "pools-to-give")]


def head_of(log, *options):
    """The five lines of the page of a log."""
    to = ROOM / "head.html"
    page("--plain", *options, str(log), str(to))
    return head_in(to)


def grown_in(to):
    """The line that tells who grows, or nothing."""
    return head_in(to)[3]


def framed(to, width):
    """A page that shows another in a window of such a width, and has its title."""
    frame = to.with_suffix(".framed.html")
    frame.write_text(f"""<!DOCTYPE html><title></title>
        <iframe style="width: {width}px; height: 900px; border: 0"
        srcdoc="{html.escape(to.read_text())}"
        onload="document.title = this.contentDocument.title"></iframe>""")
    return frame


def traced(name, text, *options, language="c", with_library=None):
    """A log of a program of this text."""
    (ROOM / f"{name}.c").write_text(text)
    subprocess.run(["c++" if language == "c++" else "cc", "-x", language, "-g", "-O0", "-o",
                    ROOM / name, ROOM / f"{name}.c", *(["-x", "none", with_library] if with_library
                                                       else [])], check=True)
    subprocess.run([HOME / "bin/trace", *options, "-o", ROOM / f"{name}.log", ROOM / name],
                   check=False, stdout=subprocess.DEVNULL, stderr=subprocess.DEVNULL)
