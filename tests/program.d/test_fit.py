"""How large a pool a log needs: `tlsf fit`. tests/golden has its reports, too."""
import random
import re
from pathlib import Path

import pytest

from cases import expect_that
from runs import (LOGS, changes_while_read, each_call_fails, expect_run, named_pipe,
                  reads_standard_input, run, shown_in_docs, text_of)

GREATEST = 1073741808


def blocks(count):
    """The lines of so many blocks of 16 bytes."""
    return text_of(f"+ 0x{k:x} 0x10" for k in range(1, count + 1))


def with_front(log, front):
    """The log, where each line that asks for a block asks for so many bytes more: in lines `+`, `>`
    and `*` the last number."""
    lines = []
    for line in log.decode().split("\n"):
        *words, size = line.split(" ")
        asks = words[2:] if words[:1] == ["@"] else words
        if asks[:1] in (["+"], [">"], ["*"]) and asks[1] != "(nil)":
            more = min(int(size, 16) + front, 2**64 - 1)
            line = " ".join([*words, spelled(more)])
        lines.append(line)
    return "\n".join(lines).encode()


def spelled(number):
    """A number as a log has it."""
    return f"0x{number:x}" if number else "0"


def random_log(seed):
    """A log of lines of each form, with few addresses, so that some of them are wrong."""
    chance = random.Random(seed)
    lines = ["= Start"]
    for _ in range(120):
        address, other = (spelled(16 * chance.randrange(1, 30)) for _ in range(2))
        align = spelled(2 ** chance.randrange(1, 9))
        size = spelled(chance.choice([0, chance.randrange(1, 64), chance.randrange(1, 3000),
                                      2**20 - 4]))
        lines += chance.choice([[f"+ {address} {size}"], [f"* {address} {align} {size}"],
                                [f"- {address}"], [f"- {address}"], [f"! {address} {size}"],
                                [f"< {address}", f"> {other} {size}"], [f"+ (nil) {size}"]])
    return text_of(chance.choice(["", "@ ./a:[0x10] "]) + line for line in lines)


@pytest.mark.both
@pytest.mark.parametrize("front", [0, 1, 8, 4096, GREATEST])
@pytest.mark.parametrize("name", ["sensor", "words", "aligned", *range(1, 5)])
def test_front(name, front):
    """With a front a log needs what the log needs whose requests have so many bytes more. Where the
    front is 0 that is the log itself."""
    log = random_log(name) if isinstance(name, int) else (LOGS / f"{name}.log").read_bytes()
    Path("log").write_bytes(log)
    Path("more").write_bytes(with_front(log, front))
    for words in ([], ["--step", str(GREATEST // 2 + 8)], *(["--heaps", k] for k in "138")):
        status, wanted, errors = run("fit", *words, "more")
        expect_run(f"{name}, {front} bytes in front, {words}",
                   run("fit", "--front", str(front), *words, "log"), status, wanted, errors)


@pytest.mark.both
def test_front_at_the_greatest_number():
    """No size is more than 2^64 - 1, however many bytes stand in front."""
    Path("log").write_bytes(text_of(["+ 0x10 0xfffffffffffffff0", "* 0x20 0x10 0xffffffffffffffff",
                                     "+ 0x30 0x8", "< 0x30", "> 0x30 0xfffffffffffffff7"]))
    told = [f"line {line}: 0x{at}0 refused: no fit" for line, at in ((1, 1), (2, 2), (5, 3))]
    expect_run("fit", run("fit", "--front", "8", "log"), 1, text_of([
        *told, "peak: 16 bytes at line 3", "held at most: 1 blocks", "records: -", "table: -",
        "least pool: -", "safe pool: -", "sizes tried: 0", "sure pool: -", "refused: 3 lines"]))
    most = 3 * (2**64 - 1) - 7
    expect_run("fit --heaps", run("fit", "--heaps", "2", "--front", "8", "log"), 1, text_of([
        f"peak: {most} bytes at line 5", "heaps: -", "sum: -", "tables: -"]))


@pytest.mark.both
@pytest.mark.parametrize("size, serves", [(1536, True), (2032, True), (3008, True),
                                          (1520, False), (2016, False)])
def test_sizes_of_the_report_serve(size, serves):
    """A log that is served on the least size, and refused on some sizes above."""
    log = LOGS.parent / "golden/fit-refused-above/log"
    report = run("leaks", "--pool", str(size), "--records", "9", log)[1]
    expect_that(f"a pool of {size} bytes", (b"refused" not in report) == serves)


@pytest.mark.both
@pytest.mark.parametrize("step", [16, 32, 48, 64, 1008, 4096, 65536, 1048576, 536870896, GREATEST])
def test_steps(step):
    """A block of 1,000,000 bytes: as many sizes are tried as multiples of a step lie between the
    least that reaches the peak and twice that one, the greatest size at most."""
    Path("log").write_text("+ 0x10 0xf4240\n")
    first = (1000000 + step - 1) // step
    last = min(2 * first, GREATEST // step)
    status, report, errors = run("fit", "--step", str(step), "log")
    told = re.search(rb"^(sizes tried: \d+), ", report, re.M)
    expect_run(f"a step of {step} bytes", (status, told and told[1], errors), 1,
               b"sizes tried: %d" % (last - first + 1))


def spread_log(blocks, largest):
    """The log of a program that holds at most so many blocks, all of 16 bytes but one of the
    largest. Each of them lies behind a free block that is 16 bytes smaller than the largest
    request: a block of that size was in front of it when it was asked for."""
    lines = []
    for number in range(1, blocks + 1):
        front, kept = f"0x{2 * number:x}", f"0x{2 * number + 1:x}"
        lines += [f"+ {front} 0x{largest:x}", f"< {front}", f"> {front} 0x{largest - 16:x}",
                  f"+ {kept} 0x{largest:x}"]
        lines += [f"< {kept}", f"> {kept} 0x10"] if number < blocks else []
        lines.append(f"- {front}")
    return text_of([*lines, f"+ 0x1 0x{largest:x}"])


@pytest.mark.parametrize("largest", [32, 64, 528, 1024, 4096, 67584])
@pytest.mark.parametrize("blocks", [1, 2, 5, 60])
def test_the_sure_pool_is_least(blocks, largest):
    """With 16 bytes less than the sure pool a program within the numbers is refused its request."""
    Path("log").write_bytes(spread_log(blocks, largest))
    sure = (16 * (blocks - 1) + largest) + (blocks + 1) * (largest - 16) + 16
    told = run("size", "--blocks", str(blocks), "--largest", str(largest), "--bytes",
               str(16 * (blocks - 1) + largest))[1]
    expect_that(f"the sure pool has {sure} bytes: {told}",
                f"sure pool: {sure} bytes\n".encode() in told)
    for pool, is_refused in ((sure, False), (sure - 16, True)):
        text = run("leaks", "--pool", str(pool), "--records", str(2 * blocks + 3), "log")[1]
        expect_that(f"a pool of {pool} bytes", (b"refused: no fit" in text) == is_refused)


@pytest.mark.both
def test_records():
    """For each number of blocks held two records each and three more are enough, up to the most
    that there are."""
    for held in (*range(65), *range(100, 32001, 997), 6171, 16382, 32765, 32766, 32767, 40000,
                 65534):
        Path("log").write_bytes(blocks(held))
        status, report, errors = run("fit", "--step", "536870912", "log")
        told = b"".join(re.findall(rb"^(?:held|records).*\n", report, re.M))
        expect_run(f"{held} blocks held", (status, told, errors), int(held > 0),
                   b"held at most: %d blocks\nrecords: %d\n" % (held, min(2 * held + 3, 65535)))


@pytest.mark.both
def test_every_record():
    """The table serves 65,534 blocks with a rest behind them, and not one more."""
    Path("log").write_bytes(blocks(65535))
    expect_run("65,535 blocks", run("fit", "log"), 1, text_of([
        "line 65535: 0xffff refused: table full", "peak: 1048544 bytes at line 65534",
        "held at most: 65534 blocks", "records: -", "table: -", "least pool: -", "safe pool: -",
        "sizes tried: 0", "sure pool: -", "refused: 1 lines"]))
    Path("fewer").write_bytes(blocks(65534))
    expect_run("65,534 blocks", run("fit", "--step", "1048576", "fewer"), 1, text_of([
        "peak: 1048544 bytes at line 65534", "held at most: 65534 blocks", "records: 65535",
        "table: 1050256 bytes", "least pool: 1048576 bytes", "safe pool: 1048576 bytes",
        "sizes tried: 2, 0 refused", "sure pool: -"]))


@pytest.mark.both
@pytest.mark.parametrize("words", [["fit"], ["timeline"], ["sites", "--pools", "1"]], ids=" ".join)
def test_a_named_pipe_is_read_once(words):
    writer = named_pipe("pipe", b"x\n+ 0x10 0x8\n")
    expect_run(" ".join(words), run(*words, "pipe"), 2, b"", b"tlsf: pipe can't be read twice\n")
    writer.wait()


@pytest.mark.x86
@pytest.mark.needs("cc")
def test_each_call_fails():
    each_call_fails(b"x\n+ 0x10 0x400\n+ 0x20 0x8\n- 0x10\n", "fit", "--step", "512")


@pytest.mark.x86
@pytest.mark.needs("cc")
def test_log_changes():
    """Each size is tried with the lines that were read first."""
    changes_while_read(b"x\n+ 0x10 0x400\n- 0x10\n+ 0x20 0x8\n", "fit", "--step", "512")


@pytest.mark.both
def test_shown_in_docs():
    expect_run("docs/LOG.md", run("fit", LOGS / "sensor.log"), 1, shown_in_docs("fit"))


@pytest.mark.both
def test_standard_input():
    reads_standard_input("fit", "--step", "65536")
