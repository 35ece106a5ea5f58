"""Names and words as they stand: names that begin with `-` or with a space, empty words, and
settings within their ranges."""
import re
from pathlib import Path

import pytest

from cases import expect, expect_that
from runs import expect_run, run, text_of
from test_usage import expect_wrong

pytestmark = pytest.mark.both
REPORTS = ["leaks log", "leaks -", "peak log", "peak -", "walk log", "walk -", "sites log",
           "save log", "save -"]


def held(address):
    """The report of a log that holds this address alone."""
    return text_of(["Memory not freed:", f"{address} 8 line 1", "Total: 1 blocks, 8 bytes."])


def run_with(stdin, *words, **more):
    """A run whose standard input is this file."""
    with open(stdin, "rb") as stream:
        return run(*words, stdin=stream, **more)


@pytest.mark.parametrize("words, address", [
    (["--", "-log"], "0x10"), (["--", "-h"], "0x30"), (["-"], "0x40"), (["--", "-"], "0x40"),
    (["./-"], "0x20")])
def test_names_with_a_dash(words, address):
    """Behind `--` each word is a name, `-` excepted, which is standard input as LOG."""
    for name, line in (("-log", "+ 0x10 0x8\n"), ("-", "+ 0x20 0x8\n"), ("-h", "+ 0x30 0x8\n"),
                       ("standard", "+ 0x40 0x8\n")):
        Path(name).write_text(line)
    expect_run(" ".join(words), run_with("standard", "leaks", *words), 1, held(address))


def expect_missing(name, *words):
    """No file of this name can be opened. It is told as it stands, but for a tab or a newline; the
    empty one as ''."""
    shown = (name or "''").replace("\t", "\\t").replace("\n", "\\n")
    expect_run(f"no such file: {name[:40]!r}: {words[0]}", run(*words), 3, b"",
               f"tlsf: cannot open {shown}\n".encode())


@pytest.mark.parametrize("name", [" bare", "bare ", " bare ", "\tbare", "bare\n"], ids=repr)
def test_names_with_spaces(name):
    """A name with spaces around it is that of no other file."""
    Path("bare").write_text("+ 0x10 0x8\n")
    for word in ("leaks", "peak", "walk", "check"):
        expect_missing(name, word, name)
    expect_missing(name, "save", name, "image")


LONG = "./" * 1000 + "image_7"


@pytest.mark.parametrize("name", [" image", "image ", " image ", " ", LONG],
                         ids=lambda name: repr(name[:12]))
def test_image_names(name):
    """The empty log is saved to an image of this name, which is checked, and to no other."""
    Path("empty").touch()
    run("save", "--pool", "64", "--records", "1", "empty", "vector")
    before = {path.name for path in Path().iterdir()}
    saved = run("save", "--pool", "64", "--records", "1", "empty", name)
    expect_run(f"an image named {name[:12]!r}", saved, 0)
    expect("its bytes", Path(name).read_bytes(), Path("vector").read_bytes())
    expect("no other file", {path.name for path in Path().iterdir()} - before, {Path(name).name})
    expect_run("checked", run("check", name), 0, b"ok\n")
    Path(name).write_text("x\n")
    expect_run("another file, checked", run("check", name), 1, b"broken: V1\n")


def test_image_names_that_are_too_long():
    Path("empty").touch()
    expect_missing(f"{LONG}x", "check", f"{LONG}x")
    expect_missing("0" * 256, "save", "empty", "0" * 256)


def test_an_image_named_dash():
    """IMAGE is a file's name, whatever it is."""
    Path("empty").touch()
    run("save", "--pool", "64", "--records", "1", "empty", "vector")
    expect_run("saved", run("save", "--pool", "64", "--records", "1", "empty", "-"), 0)
    expect("its bytes", Path("-").read_bytes(), Path("vector").read_bytes())
    expect_run("checked", run_with("empty", "check", "-"), 0, b"ok\n")


def test_empty_words():
    Path("empty").touch()
    for word in ("leaks", "peak", "walk", "check"):
        expect_missing("", word, "")
    expect_missing("", "save", "", "image")
    expect_missing("", "save", "empty", "")
    expect_wrong("unrecognized subcommand ''\n\nUsage: tlsf <COMMAND>", "", "leaks", "empty")
    of_leaks, of_check = "tlsf leaks [OPTIONS] <LOG>", "tlsf check <IMAGE>"
    for word, usage, words in (("", of_leaks, ["leaks", "empty", ""]),
                               ("empty", of_leaks, ["leaks", "", "empty"]),
                               ("", of_check, ["check", "empty", ""])):
        expect_wrong(f"unexpected argument '{word}' found\n\nUsage: {usage}", *words)


def expect_settings(name, settings, wanted):
    """Each word does its work on a heap of these settings, with the log in `log` and, where it may
    stand there, on standard input."""
    pool, pools, records = map(str, settings)
    for words in REPORTS:
        word, log = words.split()
        image = ["image"] if word == "save" else []
        found = run_with("log", word, "--pool", pool, "--pools", pools, "--records", records, log,
                         *image)
        length = Path("image").stat().st_size if image else None
        expect(f"{words}: {name}", (*found, length),
               (1, wanted.get(word, b""), b"", 1520 + 16 * settings[2] if image else None))


def sites_of(blocks, held_bytes):
    """What `sites` writes of a log that holds these at its end, its peak, and names no location."""
    return text_of(line for head in (f"the peak, line {blocks}", "the end")
                   for line in (f"Held at {head}: {blocks} blocks, {held_bytes} bytes.",
                                f"{held_bytes} bytes in {blocks} blocks"))


@pytest.mark.parametrize("pools", range(1, 9))
def test_numbers_of_pools(pools):
    """Each number of pools, each with a block that fills it."""
    numbers, total = range(1, pools + 1), 16 * pools
    Path("log").write_bytes(text_of(f"+ 0x{k:x} 0x10" for k in numbers))
    expect_settings(f"{pools} pools", (16, pools, pools), {
        "leaks": text_of(["Memory not freed:", *(f"0x{k:x} 16 line {k}" for k in numbers),
                          f"Total: {pools} blocks, {total} bytes."]),
        "peak": text_of([f"lines: {pools}", f"served: {pools}", "refused: 0",
                         f"live: {total} bytes in {pools} blocks",
                         f"peak: {total} bytes at line {pools}", f"high place: {total}",
                         "free: 0 bytes in 0 blocks", "largest free: 0", "spread: 1000"]),
        "walk": text_of(line for k in range(pools)
                        for line in (f"pool {16 * k}: 16 bytes", f"{16 * k} 16 used")),
        "sites": sites_of(pools, total)})


COUNTS = [*range(2, 21), *(k + more for k in (64 << n for n in range(10)) for more in (-1, 0, 1)),
          *range(1000, 65000, 3001), 999, 12345, 20001, 65534, 65535]


@pytest.mark.parametrize("part", range(4))
def test_counts_of_records(part):
    """Counts of records of all sizes."""
    Path("log").write_text("+ 0x10 0x8\n")
    wanted = {
        "leaks": held("0x10"), "sites": sites_of(1, 8),
        "peak": text_of(["lines: 1", "served: 1", "refused: 0", "live: 8 bytes in 1 blocks",
                         "peak: 8 bytes at line 1", "high place: 16", "free: 48 bytes in 1 blocks",
                         "largest free: 48", "spread: 2000"]),
        "walk": text_of(["pool 0: 64 bytes", "0 16 used", "16 48 free"])}
    for records in COUNTS[part::4]:
        expect_settings(f"{records} records", (64, 1, records), wanted)


@pytest.mark.parametrize("words", [*REPORTS[:6], "sites --pools=1 log", "save log image",
                                   "save - image"])
def test_default_settings(words):
    """Where no option is given there are 8,192 records, so that the 8,192nd block is refused. On a
    heap sites has 65,535."""
    records = 65535 if words.startswith("sites") else 8192
    Path("log").write_bytes(text_of(f"+ 0x{k:x} 0x10" for k in range(1, records + 1)))
    status, report, errors = run_with("log", *words.split())
    told = b"".join(re.findall(rb"^line .*\n", report, re.M))
    expect_run(words, (status, told, errors), 1,
               f"line {records}: 0x{records:x} refused: table full\n".encode())


@pytest.mark.parametrize("log", ["empty", "-"])
def test_default_pool(log):
    """One pool of 16 MiB, for a log that is named, and for one on standard input."""
    Path("empty").touch()
    expect_run("an empty log", run_with("empty", "walk", log), 0,
               b"pool 0: 16777216 bytes\n0 16777216 free\n")
    run_with("empty", "save", log, "image")
    expect_that("the length of an image", Path("image").stat().st_size == 1520 + 16 * 8192)
