"""Compares what is planted in sources with the sites of a report that bin/source-lines named.

    told.py REPORT SOURCE..

A line of a source plants a leak by `planted BYTES in BLOCKS: FUNCTION`, or `FUNCTION or NAME` where
it has another name as it is inlined. Where the line is too long for that, lines before it do so.
The first call of its site that is of a source, and doesn't stand in a line with `wraps`, has to be
that function at that line. At most two calls, of libraries, stand in front. A planted leak that
isn't told is written, and a site of the sources that isn't planted; then the status is 1. Expected
values are those of the sources alone."""
import re
import sys
from pathlib import Path

PLANTED = re.compile(r"planted (\d+) in (\d+): (\S.*?)(?= // |$)")
SITE = re.compile(r"(\d+) bytes in (\d+) blocks at (.*)")
PLACE = re.compile(r" ([^ :]+:\d+)$")
MOST_IN_FRONT = 2


def lines_of(sources):
    """The place of each line of the sources, as a report tells it, and its text. Lines that only
    plant a leak are of the next line."""
    found, above = [], []
    for source in sources:
        for number, line in enumerate(source.read_text().splitlines(), 1):
            if line.lstrip().startswith("// planted "):
                above.append(line.lstrip())
            else:
                found.append((f"{source.name}:{number}", " ".join([line, *above])))
                above = []
    return found


def planted_in(lines):
    """The leaks that are planted: bytes, blocks, and the calls that each may be."""
    return [(int(number), int(blocks), [f"{function} {place}"
                                        for function in functions.split(" or ")])
            for place, line in lines for number, blocks, functions in PLANTED.findall(line)]


def own_call(calls, names, wrappers):
    """The first call of the sources that is no wrapper, where it stands far enough in front."""
    in_front = 0
    for call in calls:
        place = PLACE.search(call)
        if not place or place[1].rpartition(":")[0] not in names:
            in_front += 1
        elif place[1] not in wrappers:
            return call if in_front <= MOST_IN_FRONT else f"{call}, behind {in_front} calls"
    return None


def told_in(report, lines):
    """Each site of the sources that is told."""
    names, wrappers = {place.rpartition(":")[0] for place, _ in lines}, {place
                                                                         for place, line in lines
                                                                         if "// wraps" in line}
    found = [(int(site[1]), int(site[2]), own_call(site[3].split(" < "), names, wrappers))
             for site in map(SITE.fullmatch, report) if site]
    return [site for site in found if site[2]]


def compared(planted, told):
    """What is planted and isn't told, and what is told and isn't planted. Each site stands for one
    leak."""
    for number, blocks, calls in planted:
        found = next((site for site in told if site[:2] == (number, blocks) and site[2] in calls),
                     None)
        if found:
            told.remove(found)
        else:
            yield f"not told: {number} bytes in {blocks} blocks at {calls[0]}"
    yield from (f"not planted: {number} bytes in {blocks} blocks at {call}"
                for number, blocks, call in told)


def main():
    lines = lines_of([Path(name) for name in sys.argv[2:]])
    planted = planted_in(lines)
    told = told_in(Path(sys.argv[1]).read_text(errors="surrogateescape").splitlines(), lines)
    differences = [*compared(planted, told)] if planted else ["nothing is planted"]
    print(*differences, sep="\n")
    sys.exit(bool(differences))


main()
