"""What bin/leaks tells as a profile of pprof (profile.proto, packed by gzip): who holds memory at
the end, and who asked for it over the run. It isn't proved."""
import gzip
from collections import defaultdict

# What a sample has, in order, with units.
VALUES = [("alloc_objects", "count"), ("alloc_space", "bytes"), ("inuse_objects", "count"),
          ("inuse_space", "bytes")]
ASKED_FOR, IN_USE = 0, 2


def number(value):
    """A number of at most 64 bits in pieces of seven, the lowest first."""
    value &= (1 << 64) - 1
    pieces = bytearray()
    while value > 127:
        pieces.append(value & 127 | 128)
        value >>= 7
    return bytes([*pieces, value])


def field(at, value):
    """A field of a message: a number, a text or message of bytes, or numbers in a row."""
    if isinstance(value, int):
        return number(at << 3) + number(value)
    value = b"".join(map(number, value)) if isinstance(value, list) else value
    return number(at << 3 | 2) + number(len(value)) + value


def message(*values):
    """A message of fields with their values; 0 and what is empty are left out."""
    return b"".join(field(at, value) for at, value in values if value)


class Table:
    """What is told once, by number: the first has this one."""

    def __init__(self, first):
        self.first, self.numbers = first, {}

    def number(self, key):
        """The number of what is told by this key: the next, where it is new."""
        return self.numbers.setdefault(key, len(self.numbers) + self.first)


class Profile:
    """A profile: its strings, functions, modules and locations as samples come."""

    def __init__(self):
        self.strings, self.functions, self.modules, self.places = (Table(0), Table(1), Table(1),
                                                                   Table(1))
        self.strings.number("")
        self.samples = defaultdict(lambda: [0] * len(VALUES))

    def location(self, call, told):
        """The number of a call's location."""
        function = self.functions.number((self.strings.number(told),
                                          self.strings.number(call.file)))
        module = self.modules.number(self.strings.number(call.module))
        return self.places.number((function, call.line, module, 0 if call.file else call.offset))

    def add(self, entry, at):
        """Adds blocks and bytes of a site to these two values of its sample."""
        stack = tuple(self.location(call, told) for (call, _), told in zip(entry.frames,
                                                                           names(entry)))
        self.samples[stack][at] += entry.blocks
        self.samples[stack][at + 1] += entry.bytes

    def bytes(self):
        """The message."""
        kinds = [message((1, self.strings.number(kind)), (2, self.strings.number(unit)))
                 for kind, unit in VALUES]
        default = self.strings.number(VALUES[-1][0])
        parts = [field(1, kind) for kind in kinds]
        parts += [field(2, message((1, list(stack)), (2, values)))
                  for stack, values in self.samples.items()]
        parts += [field(3, message((1, at), (5, path), (7, 1), (8, 1), (9, 1)))
                  for path, at in self.modules.numbers.items()]
        parts += [field(4, message((1, at), (2, module), (3, address),
                                   (4, message((1, function), (2, line)))))
                  for (function, line, module, address), at in self.places.numbers.items()]
        parts += [field(5, message((1, at), (2, name), (3, name), (4, file)))
                  for (name, file), at in self.functions.numbers.items()]
        parts += [field(6, text.encode("utf-8", "replace")) for text in self.strings.numbers]
        return b"".join([*parts, field(14, default)])


def names(entry):
    """The functions of a site, each as it is told, without its place."""
    return [told if is_folded else call.function or told
            for (call, is_folded), told in zip(entry.frames, entry.told)]


def text(_, processes):
    """The profile. What is still reachable is in use, too."""
    profile = Profile()
    for process in processes:
        for entry in process.requests:
            profile.add(entry, ASKED_FOR)
        for entry in process.sites:
            profile.add(entry, IN_USE)
    return gzip.compress(profile.bytes(), mtime=0)
