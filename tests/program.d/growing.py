"""growing.py PROGRAM TOOLS: whether the processor time of each report grows with the lines, and
that of source-lines and page in TOOLS, which name locations and draw.

For each kind of log, one with four times the lines may take MOST times as long. What looks at all
that came before at each line takes sixteen times as long. Prints a line for each report of each
kind, `KIND REPORT: as it should`, or how many times."""
import os
import subprocess
import sys
from pathlib import Path

sys.dont_write_bytecode = True
from measured import MOST_SECONDS, least_time  # noqa: E402

LINES, MOST, ROUNDS = 40_000, 9, 2
# A page takes some thousand times as long a line as a report.
LINES_OF_PAGE = 4_000
# Less isn't measured well.
LEAST_SECONDS = 0.01
REPORTS = ["leaks --no-heap", "peak --no-heap", "sites", "sites --calls", "timeline --points 10000",
           "fit --heaps 4", "leaks --records 65535", "sites --records 65535",
           "timeline --records 65535"]


def locations(lines):
    """A location for each line, held at the end."""
    return [f"@ prog:(f+0x{k:x})[0x{k:x}] + 0x{16 * k:x} 0x8" for k in range(1, lines)]


def locations_freed(lines):
    """A location for each block, each freed at once."""
    return [line for k in range(1, lines // 2) for line in (f"@ prog:[0x{k:x}] + 0x10 0x8",
                                                            "- 0x10")]


def long_locations(lines):
    """Locations of 9,000 bytes, which differ at their end."""
    return [f"@ {'p' * 9000}{k} + 0x{16 * k:x} 0x8" for k in range(1, lines // 32)]


def classes(lines):
    """Requests of 2,000 sizes, each of its own power or class, held at the end."""
    return [f"+ 0x{16 * k:x} 0x{k % 2000 + 1 << k % 20:x}" for k in range(1, lines)]


def freed_first(lines):
    """All are held, and freed with the first one first: each line but the first half has less than
    the peak."""
    return [f"{sign} 0x{16 * k:x}{size}" for sign, size in (("+", " 0x10"), ("-", ""))
            for k in range(1, lines // 2)]


def moved(lines):
    """One block, moved from address to address."""
    return ["+ 0x10 0x1"] + [line for k in range(1, lines // 2)
                             for line in (f"< 0x{16 * k:x}",
                                          f"> 0x{16 * k + 16:x} 0x{k % 5000 + 1:x}")]


def findings(lines):
    """Lines that are each wrong."""
    return [("junk", "- 0x77", "> 0x88 0x1", "< 0x99")[k % 4] for k in range(lines)]


def stacks(lines):
    """Stacks that are told by number, each with one frame more than the one before, up to 256."""
    text = ["@ m1=/nowhere/prog ! (nil) 0", "@ s1=1:1 ! (nil) 0"]
    for k in range(2, lines // 2):
        text += [f"@ s{k}=1:{k:x}<s{k - 1}.{min(k - 1, 255)} ! (nil) 0",
                 f"@ s{k} + 0x{16 * k:x} 0x8"]
    return text


def modules(lines):
    """A module for each stack."""
    return [line for k in range(1, lines // 3) for line in (f"@ m{k}=/nowhere/lib{k}.so ! (nil) 0",
                                                            f"@ s{k}={k}:{k:x} ! (nil) 0",
                                                            f"@ s{k} + 0x{16 * k:x} 0x8")]


def time_of(words):
    return least_time(words, rounds=ROUNDS, stderr=subprocess.DEVNULL,
                      env={**os.environ, "TLSF": sys.argv[1]})


def verdict(words):
    """How many times as long the larger log takes, where that is too much."""
    try:
        ratio = time_of([*words, "large"]) / max(time_of([*words, "small"]), LEAST_SECONDS)
    except subprocess.TimeoutExpired:
        return f"more than {MOST_SECONDS} seconds"
    return "as it should" if ratio <= MOST else f"{ratio:.1f} times"


def write_logs(kind, lines):
    for name, count in (("small", lines), ("large", 4 * lines)):
        Path(name).write_text("\n".join(kind(count)) + "\n")


def main():
    program, commands = sys.argv[1:]
    for kind in (locations, locations_freed, long_locations, classes, freed_first, moved, findings,
                 stacks, modules):
        write_logs(kind, LINES)
        for report in REPORTS:
            print(f"{kind.__name__} {report}: {verdict([program, *report.split()])}", flush=True)
        if kind in (locations, stacks, modules):
            print(f"{kind.__name__} source-lines: {verdict([f'{commands}/source-lines'])}",
                  flush=True)
            write_logs(kind, LINES_OF_PAGE)
            print(f"{kind.__name__} page: {verdict([f'{commands}/page'])}", flush=True)


main()
