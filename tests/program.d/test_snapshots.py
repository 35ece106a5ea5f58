"""Snapshots of reports without a heap: each is the report of the lines so far, as the program tells
it of these lines alone. When one is put is decided here anew."""
import os
import random
import re
import subprocess
import time

import pytest

from cases import expect, expect_that
from runs import PROGRAM, run

REPORTS = [["leaks", "--no-heap"], ["peak", "--no-heap"], ["sites"], ["sites", "--calls"]]
MARK = re.compile(rb"@ ([tn])([0-9]+) ! \(nil\) 0\n")
SECONDS = 20


def output(words, log):
    """What the program puts for a log on standard input, and its status."""
    status, text, _ = run(*words, "-", input=log)
    return text, status


def some_log(chance):
    """A log of blocks that come and go, with wrong lines, times that go on and back, and lines that
    ask."""
    lines, now = [b"= Start\n"], 0
    for _ in range(chance.randrange(5, 80)):
        address = b"%#x" % (16 * chance.randrange(1, 9))
        place = b"@ %s " % chance.choice([b"a", b"bc", b"/lib/x:[0x7]"])
        now += chance.choice([0, 1, 40, 99, 100, 101, 350])
        lines.append(chance.choice([
            place + b"+ %s %#x\n" % (address, chance.randrange(1, 300)),
            place + b"- %s\n" % address, b"< %s\n" % address, b"> %s 0x9\n" % address, b"odd\n",
            place + b"! (nil) 0\n", b"@ t%d ! (nil) 0\n" % now,
            b"@ t%d ! (nil) 0\n" % max(0, now - 150), b"@ n%d ! (nil) 0\n" % now,
            b"@ t%d ! (nil) 0x1\n" % (now + 5000), b"@ t%dx ! (nil) 0\n" % (now + 5000),
            b"@ t ! (nil) 0\n"]))
    return lines


def told_at(lines, every):
    """After how many lines a snapshot is put, and the time that it tells."""
    spans = [0]
    for count, line in enumerate(lines, 1):
        mark = MARK.fullmatch(line)
        if mark and mark[1] == b"n":
            yield count, int(mark[2])
        elif mark and int(mark[2]) // every > max(spans):
            spans.append(int(mark[2]) // every)
            yield count, int(mark[2])


def split(text):
    """What is wrong with lines, and the report behind that."""
    wrong = re.match(rb"(?:line [0-9]+: [^\n]*\n)*", text)[0]
    return wrong, text[len(wrong):]


def expected(words, lines, every):
    """The text of a run with snapshots, by runs without them, and the status."""
    text, before = b"", b""
    for count, now in told_at(lines, every):
        wrong, report = split(output(words, b"".join(lines[:count]))[0])
        text += wrong[len(before):] + b"At line %d, %d ms:\n" % (count, now) + report
        before = wrong
    whole, status = output(words, b"".join(lines))
    wrong, report = split(whole)
    return text + wrong[len(before):] + report, status


def some_logs():
    """Forty logs, and the milliseconds between snapshots of each."""
    chance = random.Random(20261130)
    return [(some_log(chance), chance.choice([1, 100, 250, 1000])) for _ in range(40)]


@pytest.mark.parametrize("number", range(40))
def test_random_log(number):
    """Each report of a random log."""
    lines, every = some_logs()[number]
    for words in REPORTS:
        found = output([*words, f"--every={every}"], b"".join(lines))
        expect(f"{' '.join(words)}, each {every} ms", found, expected(words, lines, every))


def test_some_snapshots_are_put():
    count = sum(len(list(told_at(lines, every))) for lines, every in some_logs())
    expect_that(f"{count} in each report", count * len(REPORTS) > 200)


def read_within(stream, wanted):
    """What comes from a stream until it ends with these bytes, or time is up."""
    os.set_blocking(stream.fileno(), False)
    text, end = b"", time.monotonic() + SECONDS
    while not text.endswith(wanted) and time.monotonic() < end:
        text += stream.read() or b""
        time.sleep(0.01)
    return text


def test_at_once():
    """A snapshot is there while the log goes on."""
    words = [PROGRAM, "leaks", "--no-heap", "--every=1000", "-"]
    with subprocess.Popen(words, stdin=subprocess.PIPE, stdout=subprocess.PIPE) as ended:
        ended.stdin.write(b"@ a + 0x10 0x64\n@ n5 ! (nil) 0\n")
        ended.stdin.flush()
        wanted = (b"At line 2, 5 ms:\nMemory not freed:\n0x10 100 line 1 at a\n"
                  b"Total: 1 blocks, 100 bytes.\n")
        expect("a snapshot is put before the log ends", read_within(ended.stdout, wanted), wanted)
        ended.stdin.close()
        ended.wait(SECONDS)
