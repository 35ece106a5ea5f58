"""The cases of tests in Python, as tests/common has them for the shell: what passed and failed,
what is skipped, and the last line. tests/runner.py counts those of tests by pytest.

Where the first words of a script are `-k NAME`, the cases with this in their name are told and
counted, and no others; that none has it is a failure."""
import ctypes
import os
import re
import shutil
import subprocess
import sys
from pathlib import Path

TESTS = Path(__file__).resolve().parent
HOME = TESTS.parent
# How much is shown of what was found.
SHOWN = 300
BROWSERS = ("chromium", "chromium-browser", "google-chrome")
passed = 0
failures = []
skips = []
# Whether a failure is told at once; pytest tells those of a test together.
at_once = True
# The name that is asked for, and whether a case has it.
only_named = ""
any_named = False
# What stands in front of each name: the part of a script that runs.
in_front = ""


def read_words(others=""):
    """The words of a script behind `-k NAME`. OTHERS tells which it takes; else any is wrong."""
    global only_named
    words = sys.argv[1:]
    if words[:1] == ["-k"]:
        only_named = "".join(words[1:2])
        if not only_named:
            wrong_use(others)
        words = words[2:]
    if words and not others:
        wrong_use()
    return words


def wrong_use(others=""):
    """Tells how a script is used, and ends it."""
    print(f"usage: {sys.argv[0]} [-k NAME]{others}", file=sys.stderr)
    sys.exit(2)


def is_asked(name):
    """Whether the case of this name is to be tried."""
    global any_named
    asked = only_named in in_front + name
    any_named = any_named or asked
    return asked


def run_parts(parts, *words):
    """Runs functions, and puts the name of each in front of those of its cases. Where the name that
    is asked for begins with `PART:`, no other part is run."""
    global in_front
    only = [part for part in parts if only_named.startswith(f"{part.__name__}:")]
    for part in only or parts:
        in_front = f"{part.__name__}: "
        part(*words)
    in_front = ""


def begin():
    """A test of pytest begins: nothing was compared."""
    global passed, failures, skips, at_once
    passed, failures, skips, at_once = 0, [], [], False


def fail(text):
    """One case that failed, whether it was asked for or not."""
    failures.append(in_front + text)
    if at_once:
        print(f"FAILED: {in_front}{text}")


def expect(name, found, wanted):
    """One case."""
    global passed
    if not is_asked(name):
        return
    if found != wanted:
        fail(f"{name}: {difference(found, wanted)}")
        return
    passed += 1
    if only_named:
        print(f"ok: {in_front}{name}")


def expect_that(name, is_so):
    """One case, which passes where this is so."""
    expect(name, bool(is_so), True)


def difference(found, wanted):
    """What was found, and what was wanted; of texts of many lines the first that differ."""
    if isinstance(found, (str, bytes)) and type(found) is type(wanted) and len(wanted) > SHOWN:
        for number, pair in enumerate(zip(found.splitlines(), wanted.splitlines()), 1):
            if pair[0] != pair[1]:
                return f"line {number}: {pair[0]!r:.{SHOWN}}, and not {pair[1]!r:.{SHOWN}}"
        return f"{len(found)} bytes, and not {len(wanted)}"
    return f"{str(found)[:SHOWN]}, and not {str(wanted)[:SHOWN]}"


def failures_of(tests):
    """What these tests find wrong, apart from the test that asks."""
    global passed, failures
    kept = passed, failures
    passed, failures = 0, []
    try:
        for test in tests:
            test()
        return failures
    finally:
        passed, failures = kept


def skip(what, why):
    """This isn't tested, for want of a tool. Where CI is set that is a failure."""
    is_asked(what)
    if not at_once:
        skips.append(f"{what}: {why}")
    elif os.environ.get("CI"):
        fail(f"skipped: {what}: {why}")
    else:
        print(f"skipped: {what}: {why}")


def can_unwind():
    """Whether a stack has more than one call."""
    try:
        ctypes.CDLL("libunwind.so.8")
        return True
    except OSError:
        return False


def browser():
    """The browser of this machine, or nothing."""
    return next(filter(None, map(shutil.which, BROWSERS)), None)


# What is no command's name, with whether it is there.
TOOLS = {"chromium": browser, "libunwind8": can_unwind, "root": lambda: os.geteuid() == 0}


def lacking(*tools):
    """The first of these that this machine lacks, or nothing."""
    for tool in tools:
        if not (TOOLS[tool]() if tool in TOOLS else shutil.which(tool)):
            return tool
    return None


def program_of():
    """The program that is tried, as tests/common finds it."""
    words = ["sh", "-c", '. "$0/common"; program_of "$1"', TESTS, HOME]
    return subprocess.run(words, stdout=subprocess.PIPE, check=True).stdout.decode().strip()


def run_script(path, *words):
    """A script with cases of its own, as its last line counts them."""
    global passed
    ended = subprocess.run([path, *words], stdout=subprocess.PIPE, stderr=subprocess.STDOUT,
                           check=False)
    *lines, last = ended.stdout.decode(errors="replace").rstrip("\n").split("\n")
    counts = re.fullmatch(r"(\d+) passed, (\d+) failed", last)
    told = [part.strip() for part in re.split(r"^FAILED: ", "\n".join(lines), flags=re.M)[1:]]
    if counts:
        passed += int(counts[1])
        told += ["a case that isn't told"] * (int(counts[2]) - len(told))
    else:
        told.append(f"no last line, but {last[:SHOWN]}")
    for text in told:
        fail(text)
    for line in lines:
        if line.startswith("skipped: "):
            skips.append(line.removeprefix("skipped: "))


def end_cases():
    """Prints the last line, and ends with 1 where a case failed, or none has the name."""
    if only_named and not any_named and not failures:
        fail(f"no case has this name: {only_named}")
    print(f"{passed} passed, {len(failures)} failed")
    sys.exit(bool(failures))
