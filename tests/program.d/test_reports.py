"""The reports of logs in files, on standard input and through pipes, byte for byte. tests/golden
has those that can be shown."""
from pathlib import Path

import pytest

from cases import expect
from runs import LOGS, expect_run, log_of_400, run, shell, shown_in_docs, text_of

pytestmark = pytest.mark.both
SMALL = ["--pool", "1024", "--records", "16"]


def expect_streams(log, status, wanted, slow_at=None):
    """The leaks of a log in a file, on standard input, through a pipe, and through a slow one."""
    Path("log").write_bytes(log)
    lines = ["tlsf leaks log", "tlsf leaks - <log", "cat log | tlsf leaks -"]
    if slow_at:
        lines.append(f"{{ head -c {slow_at} log; sleep 1; tail -c +{slow_at + 1} log; }} |"
                     " tlsf leaks -")
    for line in lines:
        expect_run(line, shell(line), status, wanted)


def test_streams():
    expect_streams(*log_of_400()[:1], 1, log_of_400()[1], slow_at=5000)


def test_a_long_log():
    """60,000 blocks, each freed at once, behind each thousandth a line that is none, and one block
    at the end: 3 MB."""
    lines, wrong = [], []
    for k in range(1, 60001):
        lines += [f"@ ./prog:[0x1] + 0x{4096 + 16 * k:x} 0x18",
                  f"@ ./prog:[0x2] - 0x{4096 + 16 * k:x}"]
        if k % 1000 == 0:
            lines.append("x")
            wrong.append(f"line {len(lines)}: not a line")
    lines.append("@ ./prog:[0x3] + 0x10 0x7")
    expect_streams(text_of(lines), 1, text_of([
        *wrong, "Memory not freed:", f"0x10 7 line {len(lines)} at ./prog:[0x3]",
        "Total: 1 blocks, 7 bytes."]))


def expect_reports(log, options, **wanted):
    """Each report of a log."""
    Path("log").write_bytes(log)
    for report, text in wanted.items():
        expect_run(report, run(report, *options, "log"), 1, text)


@pytest.mark.parametrize("log, wrong", [
    (b"a" * 10_000_000, ["line 1: too long"]), (bytes(10_000_000), ["line 1: too long"]),
    (b"".join(bytes([byte]) + b"\n" for byte in range(256)),
     [f"line {k}: not a line" for k in range(1, 258)])],
    ids=["ten_million_bytes", "ten_million_zeros", "every_byte_a_line"])
def test_lines_that_are_none(log, wrong):
    """A line of 10,000,000 bytes, and each byte as a line: the heap is asked for none."""
    expect_reports(
        log, [], leaks=text_of([*wrong, "No memory leaks."]),
        peak=text_of([*wrong, f"lines: {len(wrong)}", "served: 0", "refused: 0",
                      "live: 0 bytes in 0 blocks", "peak: 0 bytes at line 0", "high place: 0",
                      "free: 16777216 bytes in 1 blocks", "largest free: 16777216", "spread: -"]),
        walk=text_of([*wrong, "pool 0: 16777216 bytes", "0 16777216 free"]))


def test_every_record_used():
    """Each of 65,535 records holds a block, and one more finds no place."""
    refused, all_but_one = "line 65536: 0x10000 refused: no fit", range(1, 65536)
    expect_reports(
        text_of(f"+ 0x{k:x} 0x10" for k in range(1, 65537)),
        ["--pool", "1048560", "--records", "65535"],
        leaks=text_of([refused, "Memory not freed:", *(f"0x{k:x} 16 line {k}" for k in all_but_one),
                       "Total: 65535 blocks, 1048560 bytes."]),
        peak=text_of([refused, "lines: 65536", "served: 65535", "refused: 1",
                      "live: 1048560 bytes in 65535 blocks", "peak: 1048560 bytes at line 65535",
                      "high place: 1048560", "free: 0 bytes in 0 blocks", "largest free: 0",
                      "spread: 1000"]),
        walk=text_of([refused, "pool 0: 1048560 bytes",
                      *(f"{16 * k} 16 used" for k in range(65535))]))


def test_every_second_freed():
    """Of 20,000 blocks in a row each second is freed. The last one of these, at place 319968, is
    given again."""
    refused = "line 30002: 0x3 refused: no fit"
    log = [*(f"+ 0x{k:x} 0x10" for k in range(1, 20001)),
           *(f"- 0x{k:x}" for k in range(1, 20001, 2)), "+ 0x1 0x10", "+ 0x3 0x20"]
    free = {place for place in range(0, 320000, 32) if place != 319968}
    expect_reports(
        text_of(log), ["--pool", "320000", "--records", "20000"],
        leaks=text_of([refused, "Memory not freed:", "0x1 16 line 30001",
                       *(f"0x{k:x} 16 line {k}" for k in range(2, 20001, 2)),
                       "Total: 10001 blocks, 160016 bytes."]),
        peak=text_of([refused, "lines: 30002", "served: 20001", "refused: 1",
                      "live: 160016 bytes in 10001 blocks", "peak: 320000 bytes at line 20000",
                      "high place: 320000", "free: 159984 bytes in 9999 blocks", "largest free: 16",
                      "spread: 1000"]),
        walk=text_of([refused, "pool 0: 320000 bytes",
                      *(f"{place} 16 {'free' if place in free else 'used'}"
                        for place in range(0, 320000, 16))]))


def blocks_of_400():
    """400 blocks of 1 to 400 bytes."""
    return [f"@ ./prog:[0x1] + 0x{4096 + 32 * k:x} 0x{k + 1:x}" for k in range(400)]


def test_frees_and_reallocations():
    """400 blocks, of which the first 300 move and double their size, and then the first 100 are
    freed. Behind each tenth of these a free of an address that is not held; the last line is half
    of a reallocation."""
    lines, wrong = ["= Start", *blocks_of_400()], []
    for k in range(300):
        lines += [f"@ ./prog:[0x2] < 0x{4096 + 32 * k:x}",
                  f"@ ./prog:[0x2] > 0x{65536 + 32 * k:x} 0x{2 * k + 2:x}"]
    for k in range(100):
        lines.append(f"@ ./prog:[0x3] - 0x{65536 + 32 * k:x}")
        if k % 10 == 9:
            lines.append(f"@ ./prog:[0x4] - 0x{4096 + 32 * k:x}")
            wrong.append(f"line {len(lines)}: 0x{4096 + 32 * k:x} is not held")
    lines += ["! 0x10 0x8", "@ ./prog:[0x5] < 0x3680"]
    held = [*((4096 + 32 * k, k + 1, k + 2, 1) for k in range(300, 400)),
            *((65536 + 32 * k, 2 * k + 2, 2 * k + 403, 2) for k in range(100, 300))]
    expect_streams(text_of(lines), 1, text_of([
        *wrong, f"line {len(lines)}: half of a reallocation", "Memory not freed:",
        *(f"0x{address:x} {size} line {line} at ./prog:[0x{place}]"
          for address, size, line, place in held),
        f"Total: 300 blocks, {sum(size for _, size, _, _ in held)} bytes."]), slow_at=20000)


@pytest.mark.parametrize("words", ["leaks --no-heap", "peak --pool 1024 --records 16",
                                   "walk --pool 1024 --records 16"])
def test_shown_in_docs(words):
    expect_run(words, run(*words.split(), LOGS / "sensor.log"), 1, shown_in_docs(words))


def test_all_freed():
    log = text_of([*blocks_of_400(), *(f"- 0x{4096 + 32 * k:x}" for k in reversed(range(400))),
                   "= End"])
    expect_streams(log, 0, b"No memory leaks.\n")
    Path("log").write_bytes(log + b"- 0x10\n")
    expect_run("and one that is not held", run("leaks", "log"), 1,
               b"line 802: 0x10 is not held\nNo memory leaks.\n")


def test_buffers():
    """A log whose last line begins in the first 4,096 bytes and ends behind them, and one of
    exactly 4,096 bytes."""
    Path("across").write_bytes(b"= Start\n" * 511 + b"+ 0x10 0x8")
    expect_run("a line across two buffers", run("leaks", *SMALL, "across"), 1,
               b"Memory not freed:\n0x10 8 line 512\nTotal: 1 blocks, 8 bytes.\n")
    Path("whole").write_bytes(b"= Start\n" * 512)
    assert Path("whole").stat().st_size == 4096
    expect_run("a log of one buffer", run("leaks", *SMALL, "whole"), 0, b"No memory leaks.\n")
    expect_run("through a pipe", shell(f"cat whole | tlsf leaks {' '.join(SMALL)} -"), 0,
               b"No memory leaks.\n")
    status, peak, errors = run("peak", *SMALL, "whole")
    expect("its peak", (status, peak.split(b"\n")[0], errors), (0, b"lines: 512", b""))
