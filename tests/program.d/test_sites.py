"""Who holds the memory of a log: `tlsf sites`. tests/golden has its reports, too."""
from pathlib import Path

import pytest

from runs import (LOGS, changes_while_read, each_call_fails, expect_run, named_pipe,
                  reads_standard_input, run, shell, shown_in_docs, text_of)

# Blocks of nine places, where each tenth line is none.
LOG = text_of(line for k in range(1, 401)
              for line in (f"@ ./prog:[0x{k % 7 + 1:x}] + 0x{16 * k:x} 0x8", "x")
              if line != "x" or k % 10 == 0)
# Of a report on a heap, and of one that needs none.
WORDS = [["sites"], ["sites", "--pools", "1"]]


@pytest.mark.both
@pytest.mark.parametrize("log", sorted(LOGS.glob("*.log")), ids=lambda log: log.stem)
def test_with_a_heap_and_without(log):
    """Where a heap refuses no line, there is one text with a heap and without."""
    status, report, _ = run("sites", "--pools", "1", log)
    assert b"refused: " not in report
    expect_run(log.name, run("sites", log), status, report)


@pytest.mark.both
def test_more_than_a_heap_holds():
    """300,000 blocks from as many places, and blocks of one place that come and go around the
    peak."""
    places = [k * 7919 % 300007 for k in range(1, 300001)]
    at_z = [16 * (k + 300000) for k in range(1, 1001)]
    Path("log").write_bytes(text_of([
        *(f"@ ./prog:[0x{place:06x}] + 0x{16 * k:x} 0x10" for k, place in enumerate(places, 1)),
        *(f"@ ./prog:[0xz] + 0x{address:x} 0x8" for address in at_z),
        *(f"- 0x{address:x}" for address in at_z[:999]),
        "@ ./prog:[0xz] < 0x10", "@ ./prog:[0xz] > 0x10 0x3"]))
    row = "16 bytes in 1 blocks at ./prog:[0x{:06x}]".format
    wanted = text_of([
        "Held at the peak, line 301000: 301000 blocks, 4808000 bytes.",
        "8000 bytes in 1000 blocks at ./prog:[0xz]", *sorted(map(row, places)),
        "Held at the end: 300001 blocks, 4799995 bytes.", *sorted(map(row, places[1:])),
        "11 bytes in 2 blocks at ./prog:[0xz]"])
    expect_run("a log in a file", run("sites", "log"), 1, wanted)
    expect_run("through a pipe", shell("cat log | tlsf sites -"), 1, wanted)


def twice(rows):
    """The report of a log of 65,535 blocks whose last line is the peak."""
    return text_of(line for head in ("the peak, line 65535", "the end")
                   for line in (f"Held at {head}: 65535 blocks, 1048560 bytes.", *rows))


@pytest.mark.both
@pytest.mark.parametrize("place, rows", [
    ("0x1".format, ["1048560 bytes in 65535 blocks at ./prog:[0x1]"]),
    (lambda k: f"0x{k * 7919 % 65536:05x}",
     [f"16 bytes in 1 blocks at ./prog:[0x{k:05x}]" for k in range(1, 65536)])],
    ids=["one_place", "each_a_place"])
def test_every_record(place, rows):
    """65,535 blocks from one place, or from as many places, the least first."""
    Path("log").write_bytes(text_of(f"@ ./prog:[{place(k)}] + 0x{k:x} 0x10"
                                    for k in range(1, 65536)))
    found = run("sites", "--pool", "1048560", "--records", "65535", "log")
    expect_run("65,535 blocks", found, 1, twice(rows))


@pytest.mark.both
def test_a_named_pipe():
    """What can be read once serves without a heap."""
    writer = named_pipe("stream", b"x\n+ 0x10 0x8\n")
    wanted = (LOGS.parent / "golden/sites-through-a-pipe/expected").read_bytes()
    expect_run("a named pipe", run("sites", "stream"), 1, wanted)
    writer.wait()


@pytest.mark.x86
@pytest.mark.needs("cc")
@pytest.mark.parametrize("words", WORDS, ids=" ".join)
def test_each_call_fails(words):
    each_call_fails(LOG, *words)


@pytest.mark.x86
@pytest.mark.needs("cc")
def test_log_changes():
    """The peak is at the last line of the first reading."""
    changes_while_read(b"x\n@ a + 0x10 0x400\n@ b + 0x20 0x8\n", "sites", "--pools", "1")


@pytest.mark.both
def test_shown_in_docs():
    expect_run("docs/LOG.md", run("sites", LOGS / "sensor.log"), 1, shown_in_docs("sites"))


@pytest.mark.both
def test_standard_input():
    reads_standard_input("sites", "--pools", "1")
