"""Spoils images of a heap, and compares what `tlsf check` says of each with a scan of the twelve
rules: each byte changed to some values, each length, pairs of changes, small images that break
chosen rules or that a wrong loader would take, and images of many counts of records. The image of
hundreds of blocks is what `tlsf save` writes; of heaps of all sizes what it writes is compared with
the rows of `tlsf walk`."""
import itertools
import multiprocessing
import os
import random
import re
import struct
import subprocess
import tempfile
from pathlib import Path

import pytest

from cases import expect, program_of
from scan import CLASSES, FREE, HEADS, LIVE, NIL, RECORDS, Record, first_broken

PROGRAM = program_of()
SETTINGS = [
    (0, 64, 1, 1), (3, 64, 2, 2), (700, 8192, 8, 999), (700, 65536, 3, 1000),
    (5000, 65536, 5, 8191), (5000, 1 << 20, 1, 8192), (9000, 65536, 8, 12345),
    (20000, 1 << 18, 7, 20001), (90000, 1 << 20, 8, 65535), (90000, 1 << 22, 1, 65535),
    (0, 16, 8, 65535)]


@pytest.fixture(autouse=True)
def in_memory(room, monkeypatch):
    """Images are written to memory where that can be."""
    with tempfile.TemporaryDirectory(dir="/dev/shm" if os.path.isdir("/dev/shm") else None) as at:
        monkeypatch.chdir(at)
        yield
        monkeypatch.chdir(room)


def says(job):
    """The first rule that an image breaks by the scan, and what the program says, where it says
    something else."""
    name, image = job
    path = f"{name_of_process()}.image"
    Path(path).write_bytes(image)
    ran = subprocess.run([PROGRAM, "check", path], capture_output=True)
    rule = first_broken(image)
    wanted = (1, b"broken: V%d\n" % rule) if rule else (0, b"ok\n")
    if (ran.returncode, ran.stdout) == wanted and not ran.stderr:
        return rule, None
    return rule, f"{name}: {ran.stdout + ran.stderr!r}, wanted {wanted[1]!r}"


def name_of_process():
    return multiprocessing.current_process().name


def changed(image, *places):
    """The image with bytes written at offsets."""
    image = bytearray(image)
    for at, value in places:
        image[at:at + len(value)] = value
    return bytes(image)


def link(slot):
    return struct.pack("<H", slot)


def make_log(lines):
    """A log of so many lines that ask for blocks and free them."""
    chance = random.Random(7)
    held, log = [], []
    for k in range(lines):
        if held and chance.random() < 0.42:
            log.append("- 0x%x" % held.pop(chance.randrange(len(held))))
        else:
            held.append(16 * (k + 1))
            log.append("+ 0x%x 0x%x" % (held[-1], chance.choice((8, 24, 40, 100, 300, 900))))
    Path("log").write_text("".join(line + "\n" for line in log))


def settings(pool, pools, records):
    return ["--pool", str(pool), "--pools", str(pools), "--records", str(records)]


def saved(*asked):
    """What `tlsf save` writes of the heap at the end of the log, on these settings."""
    subprocess.run([PROGRAM, "save", *settings(*asked), "log", "image"], stdout=subprocess.PIPE)
    return Path("image").read_bytes()


def rows_of(image):
    """The rows that an image has, as `tlsf walk` writes them. The image breaks no rule."""
    rows = []
    for k in range(struct.unpack_from("<H", image, 10)[0]):
        base, size, slot, _ = struct.unpack_from("<IIHH", image, 16 + 12 * k)
        rows.append(f"pool {base}: {size} bytes")
        while slot != NIL:
            record = Record(image[RECORDS + 16 * slot:RECORDS + 16 * (slot + 1)])
            rows.append(f"{record.place} {record.size} "
                        f"{'used' if record.state == LIVE else 'free'}")
            slot = record.next
    return rows


def one_free(records):
    """A heap of so many records, whose last one is a free block of 64 bytes, the whole of a
    pool."""
    image = bytearray(RECORDS + 16 * records)
    image[:16] = b"TLSFIMG1" + struct.pack("<HHI", records, 1, 0)
    image[16:28] = struct.pack("<IIHH", 0, 64, records - 1, 0)
    image[HEADS:RECORDS] = struct.pack("<%dH" % CLASSES,
                                       *(records - 1 if k == 4 else NIL for k in range(CLASSES)))
    image[-16:] = struct.pack("<IIHHHH", 0, 64 + FREE, NIL, NIL, NIL, NIL)
    return bytes(image)


def counts():
    """Images of many counts of records: as they are, cut and longer by one byte, and with the last
    record spoiled."""
    chosen = {*range(1, 40), *range(1, 65536, 4001), 65534, 65535,
              *(2 ** k + d for k in range(6, 16) for d in (-1, 0, 1)), 999, 1155, 1156, 12345}
    for count in sorted(chosen):
        image = one_free(count)
        yield f"{count} records", image
        yield f"{count} records, cut", image[:-1]
        yield f"{count} records, longer", image + b"\0"
        yield f"{count} records, the last one's list spoiled", image[:-1] + b"\0"


def large(image):
    """Each byte changed, each length, and pairs of changes."""
    for at, byte in enumerate(image):
        for value in sorted({0, 255, byte ^ 1, byte ^ 3, byte ^ 16} - {byte}):
            yield f"byte {at} to {value}", changed(image, (at, bytes([value])))
    for length in range(len(image)):
        yield f"cut to {length}", image[:length]
    yield "one byte more", image + b"\0"
    yield "one record more", image + bytes(16)
    stray = struct.pack("<IIHHHH", 0, 16 + LIVE, NIL, NIL, NIL, NIL)
    for at in range(RECORDS, len(image), 16):
        if not any(image[at:at + 16]):
            yield f"stray block at {at}", changed(image, (at, stray))
    chance = random.Random(11)
    for k in range(2000):
        spots = [(chance.randrange(len(image)), bytes([chance.choice((0, 1, 2, 16, 255))]))
                 for _ in range(2)]
        yield f"pair {k}", changed(image, *spots)
        one, other = (RECORDS + 2 * chance.randrange((len(image) - RECORDS) // 2) for _ in range(2))
        yield f"swap {k}", changed(image, (one, image[other:other + 2]),
                                   (other, image[one:one + 2]))


def small():
    """Eight blocks, free and live in turn, in two pools, and a vacant record: what breaks each rule
    alone, and all pairs."""
    image = bytearray(b"TLSFIMG1" + struct.pack("<HHI", 9, 2, 0))
    image += struct.pack("<IIHH", 0, 128, 0, 0) + struct.pack("<IIHH", 128, 128, 4, 0) + bytes(72)
    heads = [NIL] * CLASSES
    heads[2] = 0
    image += struct.pack("<%dH" % CLASSES, *heads)
    for k in range(8):
        prev, following = (NIL if k % 4 == 0 else k - 1), (NIL if k % 4 == 3 else k + 1)
        before, behind = (NIL, NIL) if k % 2 else (NIL if k == 0 else k - 2,
                                                   NIL if k == 6 else k + 2)
        image += struct.pack("<IIHHHH", 32 * k, 32 + (LIVE if k % 2 else FREE), prev, following,
                             before, behind)
    image = bytes(image + bytes(16))
    spot = lambda slot, offset: RECORDS + 16 * slot + offset
    breaks = {
        1: (3, b"X"),
        2: (13, b"\1"),
        3: (16, b"\1"),
        4: (100, b"\1"),
        5: (spot(8, 3), b"\1"),
        6: (HEADS + 2 * 9, link(9)),
        7: (spot(1, 8), link(NIL)),
        8: (spot(2, 0), b"\x30"),
        9: (spot(8, 0), struct.pack("<IIHHHH", 0, 18, NIL, NIL, NIL, NIL)),
        10: (spot(5, 4), b"\x21"),
        11: (HEADS + 2 * 3, link(2)),
        12: (HEADS + 2 * 2, link(NIL)),
    }
    yield 0, "whole", image
    for rule, change in breaks.items():
        yield rule, f"V{rule}", changed(image, change)
    for (one, first), (other, second) in itertools.combinations(breaks.items(), 2):
        if (one, other) != (5, 9):
            yield one, f"V{one} and V{other}", changed(image, first, second)
    yield 2, "a byte too long", image + b"\0"
    yield 3, "a pool that begins inside another", changed(image, (28, b"\x70"))
    yield 3, "the last byte of an entry", changed(image, (39, b"\1"))
    yield 7, "a chain that ends in a cycle", changed(image, (spot(3, 10), link(2)))
    yield 7, "a record of two chains", changed(image, (spot(4, 10), link(1)))
    yield 8, "one chain of two pools", changed(image, (36, link(0)))
    yield 11, "a list that ends in a cycle", changed(image, (spot(6, 14), link(2)))
    yield 11, "a list that is a ring", changed(image, (spot(6, 14), link(0)),
                                               (spot(0, 12), link(6)))


def expect_said(jobs):
    """Each of these images, by all processors: the program says of it what the scan says. These are
    the rules that were broken."""
    seen = set()
    with multiprocessing.Pool() as pool:
        for rule, wrong in pool.imap_unordered(says, jobs, chunksize=100):
            seen.add(rule)
            expect("an image", wrong, None)
    return seen


def test_small():
    for rule, name, image in small():
        found, wrong = says((name, image))
        expect(name, (found, wrong), (rule, None))


@pytest.mark.alone
def test_large():
    make_log(700)
    seen = expect_said(large(saved(65536, 2, 300)))
    assert seen == set(range(13)), f"only these rules were broken: {sorted(seen)}"


@pytest.mark.alone
def test_counts():
    expect_said(counts())


@pytest.mark.parametrize("settings_of_heap", SETTINGS, ids=str)
def test_heaps(settings_of_heap):
    """Heaps of all counts of records and pools, saved."""
    lines, *asked = settings_of_heap
    make_log(lines)
    image = saved(*asked)
    walked = subprocess.run([PROGRAM, "walk", *settings(*asked), "log"], stdout=subprocess.PIPE,
                            check=False).stdout.decode()
    form = r"pool \d+: \d+ bytes|\d+ \d+ (used|free)"
    wanted = [row for row in walked.splitlines() if re.fullmatch(form, row)]
    assert wanted and len(image) == RECORDS + 16 * asked[2]
    assert first_broken(image) == 0 and rows_of(image) == wanted
    expect("what check says", says(("a heap", image)), (0, None))
