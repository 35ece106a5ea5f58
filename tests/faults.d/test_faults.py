"""Each read and each write of the program fails in turn, and each moves one byte; a log grows while
it is read. Status, standard output and standard error are what docs/FORMATS.md says."""
import collections
from pathlib import Path

import pytest

from cases import expect, expect_that
from runs import CAUSES, expect_run, preloaded, run, text_of
from told import LOGS, PIECE, pieces_of

pytestmark = pytest.mark.needs("cc")
# What the program says of the error of a call that fails.
INTERRUPTED, DEVICE, WAITS = 4, 5, 11
CAUSE_OF = {INTERRUPTED: ": Interrupted system call (os error 4)",
            DEVICE: ": Input/output error (os error 5)",
            WAITS: " is non-blocking, and has to wait"}
NO_RANDOM = b"""tlsf: read failed
tlsf: random bytes: Function not implemented (os error 38)
"""
# An image has so many bytes beside its records of 16, and is read up to the byte behind the
# greatest.
BESIDE_RECORDS, GREATEST = 1520, 1050360


@pytest.fixture(scope="session")
def library(tmp_path_factory):
    """The calls of tests/faulty_io.c, to be loaded in front of the program."""
    return preloaded("faulty_io", tmp_path_factory.mktemp("library"))


@pytest.fixture
def faulty(library):
    """Runs the program, with variables of tests/faulty_io.c. A log is given by name, or as standard
    input. The cause of each fault is told, as on a terminal."""
    def faulty_run(*words, stdin=None, **variables):
        variables = {name: str(value) for name, value in variables.items()}
        env = {**CAUSES, **variables, "LD_PRELOAD": library}
        if stdin is None:
            return run(*words, env=env)
        with open(stdin, "rb") as stream:
            return run(*words, env=env, stdin=stream)
    return faulty_run


def fault(what, of, error=DEVICE):
    """What is told of a fault, on standard error."""
    return text_of([f"tlsf: {what} failed", f"tlsf: {of}{CAUSE_OF[error]}"])


def counted():
    """How many reads and how many writes the last run made that counted them."""
    return tuple(map(int, Path("count").read_text().split()))


def expect_counted(name, found, reads, length):
    """One case: so many reads, and as many writes as so many bytes need by way of a buffer of
    8,192. It is written where the next text has no room in it, and no text put there at once has
    more than 400 bytes."""
    expect_that(f"{name}: {found[0]} reads and {found[1]} writes", found[0] == reads
                and pieces_of(length, 8192) <= found[1] <= pieces_of(length, 7792))


class Asked:
    """A report that is asked of a log, which has a name or is standard input."""

    def __init__(self, faulty, log, report, source):
        self.name = f"{log}-{report}-{source}"
        self.faulty = faulty
        self.log = LOGS[log]
        self.input = "standard input" if source == "stdin" else log
        self.words = [report, "-" if source == "stdin" else log]
        self.stdin = log if source == "stdin" else None
        self.whole = self.log.all_notes() if report == "save" else self.log.reports[report]
        self.told = b""
        if self.log.refused and report in ("leaks", "peak"):
            self.told = text_of([f"tlsf: {self.log.refused} requests were refused by the heap: "
                                 f"{report} --no-heap follows each"])
        Path(log).write_bytes(self.log.content)

    def run(self, *words, **variables):
        """What it leaves, with these variables of tests/faulty_io.c."""
        return self.faulty(*self.words, *words, stdin=self.stdin, **variables)

    def expect_whole(self, name, **variables):
        """One case: the whole report."""
        expect_run(f"{self.name}: {name}", self.run(**variables), 1, self.whole, self.told)

    def expect_cut(self, call, error, kinds):
        """One case: what is left where a call fails. It is counted in `kinds`: as a read, as a
        write, as that of what is told at the end, or as made again."""
        found = self.run(IO_FAIL=call, IO_ERROR=error)
        status, written, said = 3, self.whole[:len(found[1])], found[2]
        if said == fault("read", self.input, error):
            kind, written = "read", self.log.notes_of(kinds["read"])
        elif said == fault("write", "standard output", error):
            kind = "write"
        elif error == INTERRUPTED:
            kind, status, written, said = "again", 1, self.whole, self.told
        else:
            kind, status, written, said = "told", 1, self.whole, b""
        kinds[kind] += 1
        expect_run(f"{self.name}: call {call} fails with error {error}", found, status, written,
                   said)


@pytest.mark.parametrize("source", ["named", "stdin"])
@pytest.mark.parametrize("report", ["leaks", "peak", "walk"])
@pytest.mark.parametrize("log", LOGS)
def test_each_call(faulty, log, report, source):
    """With a fault of the device, a call that would have to wait, and one that is interrupted,
    which is made again where it writes."""
    asked = Asked(faulty, log, report, source)
    asked.expect_whole("all calls are counted", IO_COUNT="count")
    reads, writes = counted()
    calls, told, pulls = reads + writes, int(asked.told != b""), asked.log.pulls()
    expect_counted(asked.name, (reads, writes - told), pulls, len(asked.whole))
    for error in CAUSE_OF:
        kinds = collections.Counter()
        for call in range(1, calls + 1):
            asked.expect_cut(call, error, kinds)
        wanted = {"read": pulls, "write": calls - pulls - told, "told": told}
        if error == INTERRUPTED:
            wanted = {"read": pulls, "again": calls - pulls}
        expect(f"{asked.name}: calls that fail with error {error}", +kinds,
               +collections.Counter(wanted))
    asked.expect_whole(f"no call is call {calls + 1}", IO_FAIL=calls + 1)
    for call in range(1, calls + 2):
        asked.expect_whole(f"call {call} moves one byte", IO_SHORT=call)


@pytest.mark.parametrize("words", ["leaks --no-heap", "peak --no-heap", "sites", "timeline",
                                   "fit --heaps 2"])
def test_no_random_bytes(faulty, words):
    """Without random bytes there is no seed for the addresses and locations of a log that no heap
    is asked for, and nothing is read."""
    Path("few").write_bytes(LOGS["few"].content)
    found = faulty(*words.split(), "few", IO_NO_RANDOM=38, IO_COUNT="count")
    expect(words, (found, counted()[0]), ((3, b"", NO_RANDOM), 0))


@pytest.mark.parametrize("report", ["leaks", "peak", "walk"])
def test_random_bytes_on_a_heap(faulty, report):
    """None are needed."""
    Asked(faulty, "few", report, "named").expect_whole("no random bytes", IO_NO_RANDOM=38)


@pytest.mark.parametrize("source", ["named", "stdin"])
@pytest.mark.parametrize("call", [1, 2])
def test_grows(faulty, call, source):
    """A log of one line gets another behind the first read, which gave the line, and behind the
    second, which gave the end: what comes behind the first end is not read."""
    Path("grows").write_text("+ 0x10 0x8\n")
    lines = ["Memory not freed:", "0x10 8 line 1", "Total: 1 blocks, 8 bytes."]
    if call == 1:
        lines[2:] = ["0xfff0 8 line 2", "Total: 2 blocks, 16 bytes."]
    named, grows = source == "named", {"IO_GROW": "grows", "IO_GROW_AT": call}
    found = faulty("leaks", "grows" if named else "-", stdin=None if named else "grows", **grows)
    expect("what is left", (found, Path("grows").read_text().count("\n")),
           ((1, text_of(lines), b""), 2))


def save(faulty, records, **variables):
    """A heap of so many records is saved, at the end of an empty log."""
    Path("nothing").write_bytes(b"")
    return faulty("save", "--records", str(records), "nothing", "image", **variables)


@pytest.mark.parametrize("records", [1, 161, 162, 417, 418, 65535])
def test_save(faulty, records):
    """One read tells the end of an empty log, and then each 4,096 bytes of the image are one write.
    Where one fails the image that there was is kept, and nothing stays beside it."""
    length = BESIDE_RECORDS + 16 * records
    writes = pieces_of(length, PIECE)
    image = Path("image")
    found = save(faulty, records, IO_COUNT="count")
    whole = image.read_bytes()
    expect(f"{records} records", (found, len(whole), counted()),
           ((0, b"", b""), length, (1, writes)))
    if records == 65535:
        return
    for call in range(1, writes + 2):
        image.write_text("older\n")
        found = save(faulty, records, IO_FAIL=call)
        told = fault("read", "nothing") if call == 1 else fault("write", "image")
        expect(f"{records} records, call {call} fails",
               (found, image.read_text(), list(Path().glob(".tlsf*"))),
               ((3, b"", told), "older\n", []))
        found = save(faulty, records, IO_SHORT=call)
        expect(f"{records} records, call {call} moves one byte", (found, image.read_bytes()),
               ((0, b"", b""), whole))


@pytest.mark.parametrize("source", ["named", "stdin"])
@pytest.mark.parametrize("log", LOGS)
def test_save_log(faulty, log, source):
    """A heap is saved at the end of a log: all of it is read, and its diagnostics are written
    besides."""
    asked = Asked(faulty, log, "save", source)
    found = asked.run("image", IO_COUNT="count")
    reads, writes = counted()
    writes -= pieces_of(BESIDE_RECORDS + 16 * 8192, PIECE)
    if found != (1, asked.whole, b""):
        expect(asked.name, found, (1, asked.whole, b""))
    else:
        expect_counted(asked.name, (reads, writes), asked.log.pulls(), len(asked.whole))


@pytest.mark.parametrize("length", [0, 1, PIECE - 1, PIECE, PIECE + 1, 20000, 20001, 500000,
                                    GREATEST - 1, GREATEST, GREATEST + 1, 2000000])
def test_check_length(faulty, length):
    """An image is read in pieces of 4,096 bytes up to its end, or up to the byte behind the
    greatest, and the answer is one write."""
    Path("bytes").write_bytes(bytes(length))
    reads = pieces_of(length, PIECE) + 1
    if length > GREATEST:
        reads = pieces_of(GREATEST + 1, PIECE)
    found = faulty("check", "bytes", IO_COUNT="count")
    expect("what is said, and its calls", (found, counted()),
           ((1, b"broken: V1\n", b""), (reads, 1)))


def test_check(faulty):
    """An image that save wrote is checked: each read and the one write fail, or move one byte."""
    save(faulty, 418)
    faulty("check", "image", IO_COUNT="count")
    calls = sum(counted())
    for call in range(1, calls + 1):
        told = fault("read", "image") if call < calls else fault("write", "standard output")
        expect_run(f"call {call} of {calls} fails", faulty("check", "image", IO_FAIL=call), 3,
                   b"", told)
        expect_run(f"call {call} moves one byte", faulty("check", "image", IO_SHORT=call), 0,
                   b"ok\n")
