"""Runs of the program with standard error on a terminal, for tests/program.d/progress:
on_terminal.py PROGRAM PRELOADED.

Reads of the log wait where a case says so: the second one ends in the second second of the run, the
fourth one in the third. What the terminal was told is taken apart: each notice with its number has
to be cleared by what comes next, and what is left is the text that the case wants there. The last
line is `N passed, M failed`."""
import os
import pty
import re
import subprocess
import sys
import tempfile
import termios
from concurrent.futures import ThreadPoolExecutor
from pathlib import Path

PROGRAM, PRELOADED = sys.argv[1:3]
NOTICE = rb"\r\x1b\[Ktlsf: (\d+) lines, \d+ kB read(?:, \d+ of \d+ sizes tried)?"
KILOBYTES = rb" lines, (\d+) kB read"
SIZES = rb" kB read, (\d+) of (\d+) sizes tried"
PIECE = 4096

# Five pieces of lines of several lengths: with no effect, and with a diagnostic each, which are
# more than one buffer of output.
QUIET = b"".join(b"@ ./prog:[0x%x] ! 0x10 0x8\n" % (7 ** (k % 20)) for k in range(540))
LOUD = b"".join(b"x" * (k % 7 + 1) + b"\n" for k in range(3500))
assert all(4 * PIECE < len(log) < 5 * PIECE for log in (QUIET, LOUD)), (len(QUIET), len(LOUD))


def diagnostics(log):
    return b"".join(b"line %d: not a line\n" % (k + 1) for k in range(len(log.splitlines())))


REPORTS = {
    "leaks": b"No memory leaks.\n",
    "peak": b"lines: %d\nserved: 0\nrefused: 0\nlive: 0 bytes in 0 blocks\n"
    b"peak: 0 bytes at line 0\nhigh place: 0\nfree: 16777216 bytes in 1 blocks\n"
    b"largest free: 16777216\nspread: -\n",
    "walk": b"pool 0: 16777216 bytes\n0 16777216 free\n",
    "save": b"",
    "timeline": b"line bytes blocks\n" + b"".join(
        b"%d 0 0\n" % line for line in sorted({(k * 540 + 99) // 100 for k in range(101)})),
    "sites": b"Held at the peak, line 0: 0 blocks, 0 bytes.\nHeld at the end: 0 blocks, 0 bytes.\n",
}
# The words whose log may be a pipe.
ONCE = ("leaks", "peak", "walk", "save")


def report(word, log):
    """The report of a log that asks the heap for nothing."""
    text = REPORTS[word]
    return text % len(log.splitlines()) if b"%d" in text else text


def lines_in(log, pieces):
    return log[:PIECE * pieces].count(b"\n")


def new_terminal():
    """A terminal that shows nothing of what is typed, and adds no byte to what is written."""
    terminal, end = pty.openpty()
    modes = termios.tcgetattr(end)
    modes[1] &= ~termios.OPOST
    modes[3] &= ~termios.ECHO
    termios.tcsetattr(end, termios.TCSANOW, modes)
    return terminal, end


def read_all(terminal):
    """What was written to a terminal whose other end is closed by all."""
    said = b""
    try:
        while some := os.read(terminal, 65536):
            said += some
    except OSError:
        pass
    return said


def words_of(case):
    """The words, and the file that is standard input."""
    log = "-" if case["log"] in ("-", "pipe", "typed") else case["log"]
    if case["word"] == "check":
        return ["check", case["log"]]
    return [case["word"], *case.get("options", []), log] + ([case.get("image", "image")]
                                                            if case["word"] == "save" else [])


def started(case, folder, end):
    """The run of a case, in a folder of its own."""
    environment = {"LD_PRELOAD": PRELOADED, **case.get("how", {})}
    stdin = {"pipe": subprocess.PIPE, "typed": end}.get(case["log"], subprocess.DEVNULL)
    if case["log"] == "-":
        stdin = open(folder / "file", "rb")
    to = case.get("stdout", "stdout")
    stdout = end if to == "terminal" else open(folder / to if to == "stdout" else to, "wb")
    stderr = end if case.get("stderr", "terminal") == "terminal" else open(folder / "stderr", "wb")
    return subprocess.Popen([PROGRAM, *words_of(case)], cwd=folder, env=environment, stdin=stdin,
                            stdout=stdout, stderr=stderr)


def fed(case, folder, run, terminal):
    """Gives the log where it is no file."""
    if case["log"] == "pipe":
        run.stdin.write(case["text"])
        run.stdin.close()
    elif case["log"] == "fifo":
        (folder / "fifo").write_bytes(case["text"])
    elif case["log"] == "typed":
        os.write(terminal, case["text"] + b"\4")


def wrong(case):
    """What is wrong with the run of a case, or nothing."""
    with tempfile.TemporaryDirectory() as name:
        folder = Path(name)
        (folder / "file").write_bytes(case["text"])
        os.mkfifo(folder / "fifo")
        terminal, end = new_terminal()
        run = started(case, folder, end)
        os.close(end)
        fed(case, folder, run, terminal)
        said = read_all(terminal)
        status = run.wait()
        written = (folder / "stdout").read_bytes() if (folder / "stdout").exists() else b""
        errors = (folder / "stderr").read_bytes() if (folder / "stderr").exists() else b""
    told = [int(number) for number in re.findall(NOTICE, said)]
    cleared = len(re.findall(NOTICE + rb"(?=\r\x1b\[K)", said))
    clears = len(re.findall(rb"\r\x1b\[K(?!tlsf: \d+ lines, \d+ kB read)", said))
    rest = re.sub(rb"\r\x1b\[K", b"", re.sub(NOTICE, b"", said))
    for what, is_so, wanted in (("status", status, case["status"]),
                                ("notices", told, case.get("told", [])),
                                ("kilobytes", [int(number)
                                               for number in re.findall(KILOBYTES, said)],
                                 case.get("kilobytes", [])),
                                ("sizes", [(int(tried), int(all))
                                           for tried, all in re.findall(SIZES, said)],
                                 case.get("sizes", [])), ("notices cleared", cleared, len(told)),
                                ("clears without a notice", max(clears - len(told), 0), 0),
                                ("on the terminal", rest, case.get("on_terminal", b"")),
                                ("standard output", written, case.get("written", b"")),
                                ("standard error in a file", errors, b""),):
        if is_so != wanted:
            return f"{what}: {is_so!r:.200}, wanted {wanted!r:.200}"
    return None


def slow(text, **more):
    """A run in which the second and the fourth read wait."""
    told = [lines_in(text, 2), lines_in(text, 4)]
    return {"text": text, "how": {"IO_WAIT": "2,4"}, "told": told,
            "kilobytes": [2 * PIECE // 1000, 4 * PIECE // 1000], **more}


def served(word, text, noted, **more):
    """A slow run that ends well, with its output in a file or on the terminal."""
    output = noted + report(word, text)
    to = "on_terminal" if more.get("stdout") == "terminal" else "written"
    return slow(text, word=word, status=1 if noted else 0, **{to: output}, **more)


def slow_cases():
    """Each word and each kind of log; and where standard output is the terminal, too."""
    for word in ONCE:
        for log in ("file", "fifo", "pipe", "-"):
            yield f"{word} of a slow {log}", served(word, QUIET, b"", log=log)
    yield "sites of a slow file", served("sites", QUIET, b"", log="file")
    yield "a timeline of a slow file", served("timeline", QUIET, b"", log="file")
    # The log is read three times: with six reads, and then twice with five, which don't come to its
    # end. The first of the two sizes is tried then.
    yield "sizes of a slow file", {"word": "fit", "log": "file", "text": QUIET, "status": 0,
                                   "how": {"IO_WAIT": "2,13"}, "sizes": [(1, 2)],
                                   "told": [lines_in(QUIET, 2),
                                            2 * QUIET.count(b"\n") + lines_in(QUIET, 2)],
                                   "kilobytes": [2 * PIECE // 1000,
                                                 (2 * len(QUIET) + 2 * PIECE) // 1000],
                                   "written": b"peak: 0 bytes at line 0\nheld at most: 0 blocks\n"
                                   b"records: 3\ntable: 1744 bytes\n"
                                   b"least pool: 16 bytes\nsafe pool: 16 bytes\nsizes tried: 2, 0 "
                                   b"refused\nsure pool: 16 bytes\n"}
    # 201 sizes, with one read each behind two of the first reading: 150 are tried at the read of
    # the next one.
    yield "150 sizes of a slow file", {"word": "fit", "options": ["--step", "16"], "log": "file",
                                       "text": b"+ 0x10 0xc80\n", "status": 1,
                                       "how": {"IO_WAIT": "153"}, "sizes": [(150, 201)],
                                       "told": [152], "kilobytes": [152
                                                                    * len(b"+ 0x10 0xc80\n") // 1000],
                                       "written": b"peak: 3200 bytes at line 1\nheld at most: 1 "
                                       b"blocks\nrecords: 5\ntable: 1776 bytes\n"
                                       b"least pool: 3200 bytes\nsafe pool: 3200 bytes\nsizes "
                                       b"tried: 201, 0 refused\nsure pool: 9584 bytes\n"}
    # Two sizes are tried first, and one in each range behind: 6 of the 7 in the first six ranges,
    # when the next one is read. The log is read twice at first, and once for each size, up to the
    # line refused.
    yield "sizes in range after range", {"word": "fit", "options": ["--step", "16"], "log": "file",
                                         "text": b"* 0x10 0x1000 0x10\n", "status": 1,
                                         "how": {"IO_WAIT": "9"}, "sizes": [(6, 7)], "told": [8],
                                         "kilobytes": [0],
                                         "written": b"peak: 16 bytes at line 1\nheld at most: 1 "
                                         b"blocks\nrecords: 5\ntable: 1776 bytes\n"
                                         b"least pool: 4096 bytes\nsafe pool: 4096 bytes\nsizes "
                                         b"tried: 9, 8 refused\nsure pool: 8192 bytes\n"}
    # A line without an end is told by its bytes.
    yield "a line without an end", slow(b"= Start\n" + bytes(5 * PIECE - 100), word="leaks",
                                        log="file", status=1,
                                        written=b"line 2: too long\nNo memory leaks.\n")
    yield "a slow log with diagnostics", served("leaks", LOUD, diagnostics(LOUD), log="file")
    yield "a slow log with diagnostics, saved", served("save", LOUD, diagnostics(LOUD), log="fifo")
    for word in ONCE:
        yield f"{word}, all on the terminal", served(word, LOUD, diagnostics(LOUD), log="pipe",
                                                     stdout="terminal")


def quiet_cases():
    """Nothing is told: of what is typed, of a quick run, where standard error is a file, and of an
    image."""
    typed = b"= Start\nx\n= End\n"
    noted = b"line 2: not a line\n"
    for word in ("leaks", "save"):
        yield f"{word} of a typed log", {"word": word, "log": "typed", "text": typed, "status": 1,
                                         "written": noted + REPORTS[word],
                                         "how": {"IO_WAIT": "2,3"}}
    for log in ("file", "fifo", "pipe", "-"):
        yield f"a quick {log}", {"word": "leaks", "log": log, "text": LOUD, "status": 1,
                                 "written": diagnostics(LOUD) + REPORTS["leaks"]}
    yield "standard error in a file", {**served("leaks", QUIET, b"", log="file", stdout="terminal",
                                                stderr="file"), "told": [], "kilobytes": []}
    yield "a slow image", {"word": "check", "log": "file", "text": QUIET, "status": 1,
                           "written": b"broken: V1\n", "how": {"IO_WAIT": "2,4"}}


def failing_cases():
    """A notice is cleared before the line of a fault."""
    for word in ("leaks", "save"):
        yield f"{word} of a log that breaks off", {**slow(QUIET, word=word, log="file", status=3,
                                                          on_terminal=b"tlsf: read failed\ntlsf: "
                                                          b"file: Input/output error (os error 5)\n"
                                                          b""),
                                                   "how": {"IO_WAIT": "2,4", "IO_FAIL_READ": "5"}}
        yield f"{word} of a log and a full disk", {**slow(b"= Start\n" * 1024 + LOUD, word=word,
                                                          log="file", status=3, stdout="/dev/full",
                                                          on_terminal=b"tlsf: write failed\ntlsf: "
                                                          b"standard output: No space left on "
                                                          b"device (os error 28)\n"),
                                                   "told": [1024], "kilobytes": [2 * PIECE // 1000],
                                                   "how": {"IO_WAIT": "2"}}
    yield "an image on a full disk", slow(
        QUIET, word="save", log="file", image="/dev/full", status=3,
        on_terminal=b"tlsf: write failed\ntlsf: /dev/full: No space left on device (os error 28)\n")


def failures_of(cases):
    """Those of the cases that fail, side by side, each with what is wrong."""
    with ThreadPoolExecutor(len(cases) or 1) as pool:
        answers = pool.map(wrong, (case for _, case in cases))
        return [(name, case, answer) for (name, case), answer in zip(cases, answers) if answer]


def main():
    cases = [*slow_cases(), *quiet_cases(), *failing_cases()]
    failures = failures_of(cases)
    # A machine that is busy can hold a run up until the next second begins: what failed is tried
    # twice more.
    for _ in range(2):
        failures = failures_of([(name, case) for name, case, _ in failures])
    for name, _, answer in failures:
        print(f"FAILED: with standard error on a terminal: {name}: {answer}")
    print(f"{len(cases) - len(failures)} passed, {len(failures)} failed")


main()
