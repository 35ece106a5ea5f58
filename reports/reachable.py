"""What of a log's end is lost, and what is still reachable: LOG.reachable, which bin/trace
--reachable writes beside LOG."""
import re
from pathlib import Path

PARTS = (b"Lost", b"Possibly lost", b"Still reachable")
HEAD = re.compile(rb"(.+): (\d+) blocks, (\d+) bytes\.")
# A lost block that others lead to has the stack of their first behind its own.
SITE = re.compile(rb"(\d+) bytes in (\d+) blocks(?: at (.*?)(?: by s\d+)?)?")


class Wrong(Exception):
    """The list isn't one, or is that of another log."""


def read_parts(text):
    """For each part, in order, bytes and blocks by location."""
    parts, told = [], []
    for line in text.split(b"\n")[:-1]:
        if found := HEAD.fullmatch(line):
            if len(parts) == len(PARTS) or found[1] != PARTS[len(parts)]:
                raise Wrong
            parts.append({})
            told.append((int(found[3]), int(found[2])))
        elif (found := SITE.fullmatch(line)) and parts:
            before = parts[-1].get(found[3] or b"", (0, 0))
            parts[-1][found[3] or b""] = before[0] + int(found[1]), before[1] + int(found[2])
        else:
            raise Wrong
    if len(parts) != len(PARTS) or told != [tuple(sum(column)
                                                  for column in zip((0, 0), *part.values()))
                                            for part in parts]:
        raise Wrong
    return parts


def read_reachable(log, at_end):
    """The three parts of what a log holds at its end, or nothing where no list is beside it. Their
    sums are those of the log, by location."""
    try:
        parts = read_parts(Path(f"{log}.reachable").read_bytes())
    except FileNotFoundError:
        return None
    sums = {}
    for part in parts:
        for location, numbers in part.items():
            sums[location] = tuple(map(sum, zip(sums.get(location, (0, 0)), numbers)))
    if sums != at_end:
        raise Wrong
    return parts
