"""Which heaps by size serve a log: `tlsf fit --heaps`. tests/golden has its reports, too."""
import random
import re
from pathlib import Path

import pytest

from cases import TESTS, expect, expect_that
from runs import expect_run, run, shell, text_of


@pytest.mark.needs("xz")
def test_a_log_that_is_compressed():
    log = TESTS / "logs/words.log"
    expect_run("words.log", shell(f"xz -c {log} | xz -dc | tlsf fit --heaps 3 -"), 1,
               (TESTS / "golden/words-heaps-3/expected").read_bytes())


def test_too_many_blocks():
    """60,000 blocks of 16 bytes and 10,000 of 32, and then 65,000 of 32: one heap of 70,000 blocks
    has fewer bytes than two, but no heap has as many blocks."""
    Path("log").write_bytes(text_of([
        *(f"+ 0x{64 * k:x} {'0x10' if k <= 60000 else '0x20'}" for k in range(1, 70001)),
        *(f"- 0x{64 * k:x}" for k in range(1, 60001)),
        *(f"+ 0x{64 * k:x} 0x20" for k in range(1, 55001))]))
    peak = "peak: 2080000 bytes at line 185000"
    two, one = run("fit", "--heaps", "2", "log"), run("fit", "--heaps", "1", "log")
    expect_run("of heaps that can be built the least", two, 1, text_of([
        peak, "heaps: 2", "up to 16: 60000 blocks, 960000 bytes",
        "up to 32: 65000 blocks, 2080000 bytes", "sum: 3040000 bytes", "tables: 2003392 bytes"]))
    expect_run("no heap that can be built", one, 1, text_of([
        peak, "heaps: 1", "up to 32: 70000 blocks, -", "sum: -", "tables: -"]))


@pytest.mark.both
@pytest.mark.parametrize("front, sizes", [(0, (64, 2048)), (8, (80, 2112)), (16, (80, 2112)),
                                          (17, (96, 2112)), (4096, (4224, 6144))])
def test_sizes_with_a_front(front, sizes):
    """Blocks of 64 and of 2,048 bytes, each with so many more, and the heaps that `size` tells."""
    heaps = list(zip((2130, 20), sizes))
    pools = [blocks * size for blocks, size in heaps]
    expect_run(f"{front} bytes in front", run("size", "--front", str(front), "--part", "2130x64",
                                              "--part", "20x2048"), 0, text_of([
        *(f"up to {size}: {blocks} blocks, {blocks * size} bytes" for blocks, size in heaps),
        f"sum: {sum(pools)} bytes", "tables: 37792 bytes"]))


@pytest.mark.parametrize("heaps", ["0", "9", "-1", "four"])
def test_wrong_words(heaps):
    Path("empty").touch()
    expect(f"fit --heaps {heaps}", run("fit", "--heaps", heaps, "empty")[0], 2)


def random_log(seed):
    """A log of blocks that are asked for, at an alignment or at none, moved and freed."""
    chance = random.Random(seed)
    lines, held, address = [], [], 0
    for _ in range(chance.randrange(20, 200)):
        size = int(2 ** chance.uniform(0, 14))
        kind = chance.choice("++*>>-") if held else "+"
        if kind != "-":
            address += 0x40
        if kind in ">-":
            old = held.pop(chance.randrange(len(held)))
        if kind != "-":
            held.append(address)
        lines += {"+": [f"+ 0x{address:x} 0x{size:x}"],
                  "*": [f"* 0x{address:x} 0x{2 ** chance.randrange(12):x} 0x{size:x}"],
                  ">": [f"< 0x{old:x}", f"> 0x{address:x} 0x{size:x}"] if kind == ">" else [],
                  "-": [f"- 0x{old:x}"] if kind == "-" else []}[kind]
    return lines


def bytes_of(line):
    """How many bytes have to be in the block of a line, wherever it begins: those asked for, in
    whole units, and what an alignment above 16 adds."""
    mark, _, *numbers = line.split()
    size = -(-int(numbers[-1], 16) // 16) * 16
    return size + max(int(numbers[0], 16) - 16, 0) if mark == "*" else size


def logs_of_parts(lines, sizes):
    """By the size of each heap, in order, what a log asks of it: a block that moves from heap to
    heap is freed in one and asked for in the other."""
    logs, part_of, old = {size: [] for size in sizes}, {}, None
    for line in lines:
        mark, address = line.split()[:2]
        if mark == "<":
            old = address
        elif mark == "-":
            logs[part_of.pop(address)].append(line)
        else:
            to = next(size for size in sizes if size >= bytes_of(line))
            left = part_of.pop(old) if mark == ">" else None
            part_of[address] = to
            if left == to:
                logs[to] += [f"< {old}", f"> {address} 0x{to:x}"]
                continue
            logs[to].append(f"+ {address} 0x{to:x}")
            if left:
                logs[left].append(f"- {old}")
    return logs


def refusals(log, blocks, size):
    """How many lines are refused on a heap of so many blocks of one size."""
    Path("part.log").write_bytes(text_of(log))
    text = run("leaks", "--pool", str(blocks * size), "--records", str(blocks), "part.log")[1]
    return len(re.findall(rb"^line \d+: 0x[0-9a-f]+ refused: ", text, re.M))


@pytest.mark.parametrize("seed", range(40))
def test_the_heaps_serve_their_log(seed):
    """No heap that is told refuses a line of its part of a log. With a block less it does."""
    lines = random_log(seed)
    Path("log").write_bytes(text_of(lines))
    told = run("fit", "--heaps", str(1 + seed % 8), "log")[1].decode()
    pairs = re.findall(r"up to (\d+): (\d+) blocks", told)
    heaps = {int(size): int(blocks) for size, blocks in pairs}
    expect_that("heaps are told", heaps)
    for size, log in logs_of_parts(lines, sorted(heaps)).items():
        expect(f"{heaps[size]} blocks of {size}", refusals(log, heaps[size], size), 0)
        if heaps[size] > 1:
            expect_that(f"{heaps[size] - 1} blocks of {size}", refusals(log, heaps[size] - 1, size))
