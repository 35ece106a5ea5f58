"""What is held over the lines of a log: `tlsf timeline`. tests/golden has its reports, too."""
import re
from pathlib import Path

import pytest

from runs import (LOGS, changes_while_read, each_call_fails, expect_run, reads_standard_input, run,
                  shown_in_docs, text_of)
from test_sites import LOG

# The words above the points, on a heap and without one.
HEAD, SHORT_HEAD = "line bytes blocks reach free largest", "line bytes blocks"
ON_A_HEAP = [[], ["--pools", "1"]]


@pytest.mark.both
@pytest.mark.parametrize("log", sorted(LOGS.glob("*.log")), ids=lambda log: log.stem)
def test_with_a_heap_and_without(log):
    """Where a heap refuses no line, the columns that need none are the same without a heap."""
    status, report, _ = run("timeline", "--pools", "1", "--points", "30", log)
    assert b"refused: " not in report
    report = re.sub(rb"^(\d+ \d+ \d+) \d+ \d+ \d+$", rb"\1", report, flags=re.M)
    report = re.sub(rb"^line bytes blocks .*$", b"line bytes blocks", report, flags=re.M)
    expect_run(log.name, run("timeline", "--points", "30", log), status, report)


def points_of(count):
    """The timeline in 10,000 parts of so many blocks of 16 bytes, held and then freed."""
    told = {0, count, 2 * count} | {(i * 2 * count + 9999) // 10000 for i in range(1, 10001)}
    for k in sorted(told):
        held = min(k, 2 * count - k)
        freed = max(0, k - count)
        reach = 16 * min(k, count) if k < 2 * count else 0
        free = 16 * (count - held)
        yield f"{k} {16 * held} {held} {reach} {free} {16 * freed if k > count else free}"


@pytest.mark.both
def test_many_points():
    """A line is told at each of 10,000 ends, of 65,535 blocks; and at an end and at the peak, where
    there is one part."""
    numbers = range(1, 65536)
    Path("log").write_bytes(text_of([*(f"+ 0x{k:x} 0x10" for k in numbers),
                                     *(f"- 0x{k:x}" for k in numbers)]))
    words = ["timeline", "--pool", "1048560", "log", "--points"]
    expect_run("10,000 points", run(*words, "10000"), 0, text_of([HEAD, *points_of(65535)]))
    expect_run("one part, and the peak", run(*words, "1"), 0, text_of([
        HEAD, "0 0 0 0 1048560 1048560", "65535 1048560 65535 1048560 0 0",
        "131070 0 0 0 1048560 1048560"]))


@pytest.mark.both
def test_more_than_a_heap_holds():
    """300,000 blocks are held at once, more than a heap has records."""
    sizes = [k % 1000 + 1 for k in range(1, 300001)]
    freed = range(1, 300001, 3)
    Path("log").write_bytes(text_of([*(f"+ 0x{16 * k:x} 0x{size:x}" for k, size
                                       in enumerate(sizes, 1)),
                                     *(f"- 0x{16 * k:x}" for k in freed)]))
    points, held, count = {0: (0, 0)}, 0, 0
    for line, change in enumerate([*sizes, *(-sizes[k - 1] for k in freed)], 1):
        held, count = held + change, count + (1 if change > 0 else -1)
        points[line] = (held, count)
    told = {300000} | {(i * 400000 + 69) // 70 for i in range(71)}
    wanted = [f"{line} {points[line][0]} {points[line][1]}" for line in sorted(told)]
    expect_run("300,000 blocks", run("timeline", "--points", "70", "log"), 1,
               text_of([SHORT_HEAD, *wanted]))


@pytest.mark.x86
@pytest.mark.needs("cc")
@pytest.mark.parametrize("heap", ON_A_HEAP, ids=["no_heap", "on_a_heap"])
def test_each_call_fails(heap):
    each_call_fails(LOG, "timeline", "--points", "400", *heap)


@pytest.mark.x86
@pytest.mark.needs("cc")
@pytest.mark.parametrize("heap", ON_A_HEAP, ids=["no_heap", "on_a_heap"])
def test_log_changes(heap):
    """The last line is read in both readings."""
    changes_while_read(b"x\n@ a + 0x10 0x400\n@ b + 0x20 0x8\n", "timeline", *heap)


@pytest.mark.both
def test_shown_in_docs():
    words = ["timeline", "--points", "5", "--pool", "1024", "--records", "16", LOGS / "sensor.log"]
    expect_run("docs/LOG.md", run(*words), 1, shown_in_docs("timeline"))


@pytest.mark.both
def test_standard_input():
    reads_standard_input("timeline", "--points", "7")
