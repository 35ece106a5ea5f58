"""What the sure pool rests on: the most blocks, the most bytes, and the largest request of a log
(docs/LOG.md)."""
from collections import namedtuple

from log import NIL, parts_of
from reports import ALREADY_HELD, STRAY, UNIT, Differs

# The first line that asks for the most: its number, location, bytes, alignment and class size.
Largest = namedtuple("Largest", "line location size align class_size")
# Most blocks, most bytes in these, each rounded up, and the largest request.
Limits = namedtuple("Limits", "blocks whole_bytes largest")
# A line with one of these asks the heap for nothing.
ASKS_NOTHING = {ALREADY_HELD, STRAY}


def rounded(number, unit):
    """The least multiple of the unit at or above the number."""
    return -(-number // unit) * unit


def class_size(align, size):
    """The lowest size of the first class whose blocks all hold the request, as docs/LOG.md has
    it."""
    needed = rounded(max(size, 1), UNIT) + max(align - UNIT, 0)
    return rounded(needed, max(UNIT, 1 << needed.bit_length() >> 6))


def request_of(line):
    """Alignment and size in digits that a line asks for, and its location; nothing where it asks
    for none."""
    words = line.split()
    location, form, address, size = parts_of(words)
    if form == b"*":
        return words[-2], size, location
    return (b"0x1", size, location) if form in (b"+", b">") and address != NIL else None


def largest_of(path, requests, unserved):
    """The first of the log's lines that ask for the most, all of which are served; of one class
    that with the most bytes."""
    wanted = max(((class_size(int(align, 16), int(size, 16)), int(size, 16)), align, size)
                 for align, size in requests)
    with open(path, "rb") as log:
        for number, line in enumerate(log, 1):
            if line.rstrip(b"\n").endswith(b" " + wanted[2]) and number not in unserved:
                asked = request_of(line)
                if asked and class_size(int(asked[0], 16), int(asked[1], 16)) == wanted[0][0]:
                    return Largest(number, asked[2], wanted[0][1], int(asked[0], 16), wanted[0][0])
    raise Differs(f"{path} has no line that asks for the most")


def limits_of(path, requests, unserved, fit):
    """The three numbers of the sure pool; without one the bytes aren't known. By another class size
    they would be none that this log can hold. Where the greatest pool refuses lines none of them is
    told."""
    sure, blocks, peak = (int(text) if text.isdigit() else None
                          for text in (fit[name].split()[0]
                                       for name in ("sure pool", "held at most", "peak")))
    if not requests or not fit["records"].isdigit():
        return None
    largest = largest_of(path, requests, unserved)
    if not sure:
        return Limits(blocks, None, largest)
    whole_bytes = sure - UNIT - (blocks + 1) * (largest.class_size - UNIT)
    if not peak <= whole_bytes <= peak + UNIT * blocks:
        raise Differs(f"the numbers differ in the sure pool: {whole_bytes} bytes in units of "
                      f"{UNIT}, and {peak} bytes at the peak")
    return Limits(blocks, whole_bytes, largest)
