"""The program for 64-bit ARM, by QEMU: the reports of ten logs are those of the program for x86-64,
byte for byte."""
import os
import random
from pathlib import Path

import pytest

from cases import expect, program_of
from runs import LOGS, run, text_of

REPORTS = ["leaks", "leaks --no-heap", "sites", "timeline", "peak", "peak --no-heap", "walk", "fit"]
OF_GLIBC = ["sensor", "words", "aligned", "allocations-only"]


def random_log(seed):
    """A log of blocks that come, go and grow, with odd lines."""
    chance, held, lines = random.Random(seed), set(), ["= Start"]
    for _ in range(3000):
        slot = chance.randrange(200)
        site, place = f"@ ./prog:[0x{chance.randrange(9):x}]", f"0x{4096 + 65536 * slot:x}"
        if slot not in held:
            lines.append(f"{site} + {place} 0x{chance.randrange(3000):x}")
            held.add(slot)
        elif chance.random() < 0.3:
            lines += [f"{site} < {place}", f"{site} > {place} 0x{chance.randrange(9000):x}"]
        else:
            lines.append(f"{site} - {place}")
            held.remove(slot)
        lines += ["+ odd"] * (chance.random() < 0.01)
    return text_of(lines)


def write_log(name):
    """One of the ten logs, as `log`."""
    logs = {"empty": b"", **{f"random{seed}": random_log(seed) for seed in range(1, 6)}}
    Path("log").write_bytes(logs[name] if name in logs else (LOGS / f"{name}.log").read_bytes())


@pytest.mark.arm
@pytest.mark.parametrize("name", [*OF_GLIBC, "empty", *(f"random{seed}" for seed in range(1, 6))])
def test_same_reports(name, monkeypatch):
    """Each report of a log, and its image with what is told of it."""
    here = os.environ["TLSF"]
    monkeypatch.delenv("TLSF")
    shipped = program_of()
    assert here != shipped
    write_log(name)
    for words in REPORTS:
        expect(f"{words} as on x86-64", run(*words.split(), "log"),
               run(*words.split(), "log", program=shipped))
    run("save", "log", "image")
    run("save", "log", "image_here", program=shipped)
    expect("the image as on x86-64", Path("image").read_bytes(), Path("image_here").read_bytes())
