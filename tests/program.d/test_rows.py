"""The rows of images by bin/image, beside those that `walk` writes of the same logs, and what it
says of bytes that are no heap."""
import random
import re
from pathlib import Path

import pytest

from cases import HOME, expect_that
from runs import LOGS, PROGRAM, expect_run, run, text_of

ROW = re.compile(rb"pool [0-9]+: [0-9]+ bytes|[0-9]+ [0-9]+ (used|free)")
SMALLER = ["--pools", "3", "--pool", "262144", "--records", "4000"]


def rows(*words):
    """As run, by bin/image."""
    return run(*words, program=HOME / "bin/image", env={"TLSF": PROGRAM})


def walked(log, *options):
    """The image of a log's end has the rows of `walk`, which are these."""
    report = run("walk", *options, log)[1]
    wanted = [line for line in report.splitlines(True) if not line.startswith(b"line ")]
    run("save", *options, log, "image")
    expect_run(f"{log}: the rows of walk", rows("image"), 0, b"".join(wanted))
    expect_that(f"{log}: there are {len(wanted)}",
                sum(bool(ROW.fullmatch(line.strip())) for line in wanted) >= 2)
    return wanted


@pytest.mark.parametrize("options", [[], SMALLER], ids=["default", "smaller"])
@pytest.mark.parametrize("log", sorted(LOGS.glob("*.log")), ids=lambda log: log.stem)
def test_rows_of_walk(log, options):
    walked(log, *options)


def test_rows_of_a_random_log():
    """3,000 calls whose blocks are freed in another order."""
    chance, held, lines = random.Random(7), {}, []
    for k in range(3000):
        slot = chance.randrange(400)
        if slot in held:
            lines.append(f"- {held.pop(slot)}")
        else:
            held[slot] = f"0x{65536 + 4096 * k:x}"
            lines.append(f"+ {held[slot]} 0x{chance.randint(1, 3000):x}")
    Path("random.log").write_bytes(text_of(lines))
    walked("random.log")
    free = [row for row in walked("random.log", *SMALLER) if row.endswith(b"free\n")]
    expect_that(f"{len(free)} free blocks lie between others", len(free) > 40)


def saved_words():
    """An image of words.log on a small heap, by the name `whole`."""
    run("save", "--pool", "4096", "--records", "20", LOGS / "words.log", "whole")
    return Path("whole").read_bytes()


def test_changed_bytes():
    """No row where a rule is broken, and that rule is told."""
    whole, broken = saved_words(), 0
    for k in range(1, 31):
        at = k * 61 * 31 % len(whole)
        Path("changed").write_bytes(whole[:at] + b"\x55" + whole[at + 1:])
        said = run("check", "changed")[1]
        if said != b"ok\n":
            broken += 1
            expect_run(f"byte {at} is another: {said}", rows("changed"), 1, b"",
                       b"tlsf-image: changed: " + said)
    expect_that(f"{broken} of 30 are broken", broken >= 20)


@pytest.mark.parametrize("words, says", [
    (["none"], "none: No such file or directory"),
    (["--at", "1840", "whole"], "the dump has 1840 bytes"),
    (["--at", "16", "whole"], "no heap of tlsf.h begins at 16"),
    (["--at", "0", "elsewhere"], "what lies at 0x0 is not in the dump")])
def test_refused(words, says):
    """No rows, and status 2."""
    saved_words()
    Path("elsewhere").write_bytes(b"FCLT\1\0\0\0" + bytes(100))
    expect_run(says, rows(*words), 2, b"", f"tlsf-image: {says}\n".encode())
