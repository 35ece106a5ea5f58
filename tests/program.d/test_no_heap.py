"""The reports without a heap: `leaks --no-heap` and `peak --no-heap`; and memory refused to them,
to `sites` and to `timeline`. tests/golden has their texts, too."""
from collections import Counter
from pathlib import Path

import pytest

from cases import expect, expect_that
from runs import (LOGS, expect_run, log_of_400, preloaded, run, shell, text_of)

ALL_LOGS = pytest.mark.parametrize("log", sorted(LOGS.glob("*.log")), ids=lambda log: log.stem)
NEED_A_HEAP = (b"refused: ", b"high place: ", b"free: ", b"largest free: ", b"spread: ")
REPORTS = [["leaks", "--no-heap"], ["peak", "--no-heap"], ["sites", "--"], ["sites", "--calls"],
           ["timeline", "--points=7"], ["fit", "--heaps=4"]]
OUT_OF_MEMORY = b"tlsf: out of memory\n"


def test_a_log():
    log, wanted = log_of_400()
    Path("log").write_bytes(log)
    expect_run("a log in a file", run("leaks", "--no-heap", "log"), 1, wanted)
    expect_run("a log through a pipe", shell("cat log | tlsf leaks --no-heap -"), 1, wanted)


@ALL_LOGS
def test_leaks_with_a_heap_and_without(log):
    """Where a heap refuses no line, `leaks` has one text with a heap and without."""
    status, report, _ = run("leaks", log)
    assert b" refused: " not in report
    expect_run(log.name, run("leaks", "--no-heap", log), status, report)


@ALL_LOGS
def test_peak_with_a_heap_and_without(log):
    """`peak --no-heap` has the sums of `peak` that no heap is needed for."""
    status, report, _ = run("peak", log)
    assert b"\nrefused: 0\n" in report
    wanted = [line for line in report.splitlines(True) if not line.startswith(NEED_A_HEAP)]
    expect_run(log.name, run("peak", "--no-heap", log), status, b"".join(wanted))


def many():
    """The lines of 300,000 blocks, each address once; a third is freed, and a third moved by a
    realloc. And what is held at the end: address, bytes, line, place."""
    lines, held = [], []
    at = [16 * (k * 48271 % 300007) for k in range(300001)]
    for k in range(1, 300001):
        lines.append(f"@ ./prog:[0x{k % 7:x}] + 0x{at[k]:x} 0x{k % 1000 + 1:x}")
        if k % 3 == 0:
            held.append((at[k], k % 1000 + 1, k, k % 7))
    lines += [f"- 0x{at[k]:x}" for k in range(1, 300001, 3)]
    for k in range(2, 300001, 3):
        lines += [f"@ ./prog:[0x9] < 0x{at[k]:x}", f"@ ./prog:[0x9] > 0x{at[k] + 8:x} 0x5"]
        held.append((at[k] + 8, 5, len(lines), 9))
    return lines, sorted(held)


def test_more_than_a_heap_holds():
    lines, held = many()
    Path("many").write_bytes(text_of(lines))
    live = sum(size for _, size, _, _ in held)
    expect_run("leaks", run("leaks", "--no-heap", "many"), 1, text_of([
        "Memory not freed:",
        *(f"0x{address:x} {size} line {line} at ./prog:[0x{place:x}]"
          for address, size, line, place in held),
        f"Total: 200000 blocks, {live} bytes."]))
    peak = sum(k % 1000 + 1 for k in range(1, 300001))
    expect_run("peak", shell("tlsf peak --no-heap - <many"), 1, text_of([
        "lines: 600000", "served: 400000", f"live: {live} bytes in 200000 blocks",
        f"peak: {peak} bytes at line 300000"]))


def few():
    """200 blocks of nine places, where each ninth line is none, of which each second is freed."""
    lines = []
    for k in range(1, 201):
        lines += [f"@ ./prog:[0x{k % 9:x}] + 0x{16 * k:x} 0x10"] + ["x"] * (k % 9 == 0)
    return lines + [f"- 0x{16 * k:x}" for k in range(1, 201, 2)]


def counted(words, log, **listed):
    """What a run wrote, and the bytes of each of its calls for memory."""
    front = {"LD_PRELOAD": preloaded("counting_malloc"), "MALLOC_LIST": "listed", **listed}
    Path("listed").unlink(missing_ok=True)
    found = run(*words, log, env=front)
    return found[1], [int(line) for line in Path("listed").read_text().split()]


def refused(words, log, number):
    """A run to which this call for memory is refused."""
    front = {"LD_PRELOAD": "./counting_malloc.so", "MALLOC_REFUSE": str(number)}
    return run(*words, log, env=front)


@pytest.mark.needs("cc")
@pytest.mark.parametrize("words", REPORTS, ids=" ".join)
def test_each_refusal(words):
    """Each call for memory is refused in turn. What is wrong with the lines before is written, and
    nothing of the report."""
    Path("few").write_bytes(text_of(few()))
    whole, calls = counted(words, "few")
    told = [line for line in whole.splitlines(True) if line.startswith(b"line ")]
    for number in range(1, len(calls) + 1):
        found = refused(words, "few", number)
        wanted = b"".join(told[:found[1].count(b"\n")])
        expect_run(f"call {number} for memory is refused", found, 4, wanted, OUT_OF_MEMORY)
    expect_run("no call is refused", refused(words, "few", len(calls) + 1), 1, whole)
    expect_that("memory is asked for as lines come", len(calls) > 30)


@pytest.mark.needs("cc")
def test_each_refusal_of_snapshots():
    """What is told of the lines before is written, and no piece of a snapshot."""
    words, lines = ["leaks", "--no-heap", "--every", "1000"], []
    for number, line in enumerate(few(), 1):
        lines += [line] + [f"@ n{number} ! (nil) 0"] * (number % 40 == 0)
    Path("timed").write_bytes(text_of(lines))
    whole, calls = counted(words, "timed")
    expect("snapshots", whole.count(b"\nAt line "), 8)
    for number in range(1, len(calls) + 1):
        found = refused(words, "timed", number)
        name = f"call {number} for memory is refused"
        expect_run(name, found, 4, whole[:len(found[1])], OUT_OF_MEMORY)
        heads = found[1].startswith(b"At line ") + found[1].count(b"\nAt line ")
        expect(f"{name}: each is whole", heads, found[1].count(b"\nTotal: "))


def behind_words(*words):
    """How often a run asks for how many bytes behind what its words take, and its most bytes."""
    Path("none").touch()
    _, of_words = counted(words, "none")
    _, calls = counted(words, "held", MALLOC_MOST="most")
    return Counter(calls) - Counter(of_words), int(Path("most").read_text())


def rows(size):
    """The calls for a list that grows to 3,000 rows of so many bytes: it begins with four."""
    return Counter(size * 4 << doubled for doubled in range(11))


def bytes_of(calls):
    """All that these calls ask for."""
    return sum(size * times for size, times in calls.items())


@pytest.mark.needs("cc")
def test_memory_of_reports():
    """Without a heap memory is taken for what is held and its locations, and behind that for the
    report alone: nothing is taken in vain."""
    Path("held").write_bytes(text_of(f"@ ./prog:[0x{k:x}] + 0x{16 * k:x} 0x10"
                                     for k in range(1, 3001)))
    sums, most = behind_words("peak", "--no-heap")
    entries, most_of_entries = behind_words("leaks", "--no-heap")
    expect("leaks: 8 bytes more for each address", entries, sums + Counter([8 * 3000]))
    expect_that("leaks holds nothing else", most_of_entries < most + 8 * 3000 + 4096)
    places, _ = behind_words("sites")
    expect("sites: 48 bytes for each row of both lists", places, sums + rows(48) + rows(48))
    callers, _ = behind_words("sites", "--calls")
    expect("sites --calls: 64 bytes for each caller", callers, places + rows(64))
    told, most_told = behind_words("timeline")
    expect("timeline: once more, and its points", told, sums + sums + Counter([101 * 48]))
    expect_that("timeline gives back what it took first",
                most_told < most + 102 * 8 + 101 * 48 + 4096)
    # A list that doubles takes twice what it holds.
    heaps, most_of_heaps = behind_words("fit", "--heaps", "2")
    expect_that("fit --heaps: 48 bytes for each address", most_of_heaps < most + 48 * 3000)
    expect_that("fit --heaps takes twice that", bytes_of(heaps) < bytes_of(sums) + 96 * 3000)
