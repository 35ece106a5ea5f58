"""A scan of the twelve rules of images, written from docs/FORMATS.md alone."""
import itertools
import struct

HEADS, RECORDS, CLASSES, NIL = 112, 1520, 704, 0xFFFF
VACANT, FREE, LIVE = 0, 1, 2


def class_of(size):
    if size < 512:
        return size // 16
    top = size.bit_length() - 1
    return 32 * (top - 8) + (size >> (top - 5)) - 32


class Record:
    def __init__(self, raw):
        self.raw = raw
        self.place, word, self.prev, self.next, self.prev_free, self.next_free = struct.unpack(
            "<IIHHHH", raw)
        self.state, self.size = word % 16, word - word % 16


def follow(records, first, link, back, may_stand):
    """The slots of a chain or list, or None where it has no end, a record that may not stand there,
    or a wrong link back."""
    slots, before, slot = [], NIL, first
    while slot != NIL:
        record = records[slot]
        if len(slots) == len(records) or not may_stand(record) or getattr(record, back) != before:
            return None
        slots.append(slot)
        before, slot = slot, getattr(record, link)
    return slots


def first_broken(image):
    """The number of the first rule that the bytes break, or 0."""
    if len(image) < RECORDS or not image.startswith(b"TLSFIMG1"):
        return 1
    count, pools = struct.unpack_from("<HH", image, 8)
    if count == 0 or pools > 8 or any(image[12:16]) or len(image) != RECORDS + 16 * count:
        return 2
    entries = [struct.unpack_from("<IIHH", image, 16 + 12 * k) for k in range(8)]
    end = 0
    for base, size, first, zero in entries[:pools]:
        if base % 16 or size % 16 or not 16 <= size <= 2**30 - 16 or base + size > 2**32:
            return 3
        if first >= count or zero or base < end:
            return 3
        end = base + size
    if any(image[16 + 12 * pools:HEADS]):
        return 4
    records = [Record(image[RECORDS + 16 * k:RECORDS + 16 * (k + 1)]) for k in range(count)]
    if any(r.state > 2 or (r.state == VACANT and any(r.raw)) for r in records):
        return 5
    heads = struct.unpack_from("<%dH" % CLASSES, image, HEADS)
    used = [r for r in records if r.state != VACANT]
    links = list(heads) + [link for r in used for link in (r.prev, r.next, r.prev_free,
                                                           r.next_free)]
    if any(link != NIL and link >= count for link in links) or any(r.size == 0 for r in used):
        return 6
    if any((r.prev_free, r.next_free) != (NIL, NIL) for r in used if r.state == LIVE):
        return 6
    chains = [follow(records, first, "next", "prev", lambda r: r.state != VACANT)
              for _, _, first, _ in entries[:pools]]
    if None in chains:
        return 7
    for (base, size, _, _), chain in zip(entries, chains):
        place = base
        for slot in chain:
            if records[slot].place != place:
                return 8
            place += records[slot].size
        if place != base + size:
            return 8
    if {k for k, r in enumerate(records) if r.state != VACANT} - set(itertools.chain(*chains)):
        return 9
    for chain in chains:
        if any(records[a].state == records[b].state == FREE for a, b in zip(chain, chain[1:])):
            return 10
    lists = [follow(records, head, "next_free", "prev_free",
                    lambda r, k=k: r.state == FREE and class_of(r.size) == k)
             for k, head in enumerate(heads)]
    if None in lists:
        return 11
    if {k for k, r in enumerate(records) if r.state == FREE} - set(itertools.chain(*lists)):
        return 12
    return 0
