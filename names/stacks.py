"""The stacks of a log: frames of a location, and the stacks that a log tells once, as
docs/FORMATS.md has them."""
import gc
import re
from collections import namedtuple
from urllib.parse import unquote_to_bytes

# A frame: the path of its module as it stands in a location, and the address that it returns to, in
# the module.
Frame = namedtuple("Frame", "module offset")

NUMBER = re.compile(r"s[1-9][0-9]*")
NO_EFFECT = b" ! (nil) 0\n"
PIECE = 1 << 23
TIME = re.compile(rb"@ t([0-9]{1,15})")
PART = re.compile(rb"@ ([msi])([0-9]+)([=+])([\x21-\x7e\x80-\xff]*)")
SHARED = re.compile(r"s[0-9]+\.([0-9]+)")
TOLD_FRAME = re.compile(r"(?:([0-9]+):)?([0-9a-f]+)")
FRAME = re.compile(r"(?:(.+):)?\[0x([0-9a-f]+)\]", re.S)
# A location whose stack has more calls than it tells.
CUT = re.compile(r"(?:^|<)\?:(?:\[0x[0-9a-f]+\]<)*\[0x0\]\Z")
GLIBC_FRAME = re.compile(r"(.*):(?:\(.*\))?\[0x([0-9a-f]+)\]", re.S)


def text_of(raw):
    """Bytes of a log as text, from which they can be had again."""
    return raw.decode("utf-8", "surrogateescape")


def frames_in(stack):
    """The frames of a list, the nearest first."""
    while stack:
        frame, stack = stack
        yield frame


def list_of(frames):
    """The list of frames."""
    stack = None
    for frame in reversed(frames):
        stack = frame, stack
    return stack


def lines_without_effect(log):
    """The number of each line that has no effect, and what stands in front of that. All others are
    passed over at once."""
    number, rest = 0, b""
    while piece := log.read(PIECE):
        piece = rest + piece
        at = 0
        while (found := piece.find(NO_EFFECT, at)) >= 0:
            begin = max(at, piece.rfind(b"\n", at, found) + 1)
            number += piece.count(b"\n", at, begin) + 1
            yield number, piece[begin:found]
            at = found + len(NO_EFFECT)
        end = piece.rfind(b"\n") + 1
        number += piece.count(b"\n", at, end)
        rest = piece[end:]


def parts_of(log):
    """Each line that tells a part of a module or a stack: letter, number, sign, text."""
    for _, line in lines_without_effect(log):
        if found := PART.fullmatch(line):
            yield text_of(found[1]), int(found[2]), text_of(found[3]), text_of(found[4])


def whole_parts(parts):
    """Each module and stack with its whole text, in order. What goes on without a beginning is left
    out."""
    begun = None
    for letter, number, sign, text in parts:
        if sign == "=":
            if begun:
                yield begun
            begun = letter, number, text
        elif begun and begun[:2] == (letter, number):
            begun = letter, number, begun[2] + text
    if begun:
        yield begun


class Stacks:
    """The stacks that a log tells, or those of them that are wanted, each as a linked list from its
    nearest frame on: a frame, and the list of those that called it."""

    def __init__(self, log=None, wanted=None):
        self.modules, self.lists, self.known = {}, {}, {}
        # The build ids that modules had when they ran, by their texts.
        self.build_ids = {}
        # The lists that the stack before ends in, by the number of their frames.
        self.ends = [None]
        for letter, number, text in whole_parts(parts_of(log) if log else ()):
            if letter == "m":
                self.modules[str(number)] = text
                continue
            if letter == "i":
                self.build_ids[self.modules.get(str(number), "?")] = text
                continue
            stack, location = self.take(text), f"s{number}"
            if wanted is None or location in wanted:
                self.lists[location] = stack

    def take(self, text):
        """The list of a stack's text. Frames from the first on that isn't whole are left out."""
        own, ends, module = [], self.ends[:1], "?"
        for part in text.split("<"):
            frame = self.known.get((module, part)) or self.frame(module, part)
            if frame is None:
                shared = SHARED.fullmatch(part)
                ends = self.ends[:int(shared[1]) + 1] if shared else ends
                break
            module = frame.module
            own.append(frame)
        for frame in reversed(own):
            ends.append((frame, ends[-1]))
        self.ends = ends
        return ends[-1]

    def frame(self, module, part):
        """The frame that a part of a text is, behind one of a module; or nothing."""
        found = TOLD_FRAME.fullmatch(part)
        if not found:
            return None
        frame = Frame(self.modules.get(found[1], "?") if found[1] else module, int(found[2], 16))
        return self.known.setdefault((module, part), frame)

    def frames(self, location):
        """The frames of a stack's number, the nearest first; none where the log doesn't tell it."""
        return list(frames_in(self.lists.get(location)))

    def is_cut(self, location):
        """Whether a location's stack has more calls, for which its last frame stands."""
        last = None
        for last in frames_in(self.lists.get(location)):
            pass
        return last == ("?", 0) if last else bool(CUT.search(location))

    def whole(self, location):
        """A location with its frames for a stack's number; else as it is."""
        return joined(self.frames(location)) or location


def times_of(path):
    """The lines that tell a log's age: the number of each, and milliseconds."""
    with open(path, "rb") as log:
        return [(number, int(found[1])) for number, line in lines_without_effect(log)
                if (found := TIME.fullmatch(line))]


def joined(frames):
    """Frames as they stand in a location."""
    return "<".join((f"{frame.module}:" if k == 0 or frames[k - 1].module != frame.module else "")
                    + f"[0x{frame.offset:x}]" for k, frame in enumerate(frames))


def frames_of(location):
    """The frames of a location. What isn't a stack may be one frame with any path, as glibc's
    tracer writes it."""
    frames, module = [], None
    for part in location.split("<"):
        found = FRAME.fullmatch(part)
        module = found[1] or module if found else None
        if module is None:
            found = GLIBC_FRAME.fullmatch(location)
            return [Frame(found[1], int(found[2], 16))] if found else []
        frames.append(Frame(module, int(found[2], 16)))
    return frames


def path_of(module):
    """The path that a module's text stands for."""
    return unquote_to_bytes(module.encode("utf-8", "surrogateescape"))


def stacks_of(path, wanted=None):
    """The stacks of the log in a file, or those of them that are wanted."""
    was_on = gc.isenabled()
    gc.disable()
    try:
        with open(path, "rb") as log:
            return Stacks(log, wanted)
    finally:
        if was_on:
            gc.enable()


def is_log(path):
    """Whether a file is a log, by its first line."""
    with open(path, "rb") as file:
        return file.read(8) == b"= Start\n"
