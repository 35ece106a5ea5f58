"""Sites that are known and left out: suppressions of valgrind's Memcheck (`Memcheck:Leak`, `fun:`,
`obj:`, `...`), and `leak:` lines of LeakSanitizer."""
import re
from dataclasses import dataclass
from fnmatch import fnmatchcase

from names import demangled, short_name, symbols_in

ALLOCATORS = ("malloc", "calloc", "realloc", "memalign", "aligned_alloc", "posix_memalign", "_Znwm",
              "_Znam")
ANY_FRAMES = "..."
KINDS_LINE, LEAK_KINDS = "match-leak-kinds:", ("definite", "indirect", "possible", "reachable")
# A name as the linker has it, with a `*`: it is compared with the symbols of the modules.
MANGLED = "mangled"


class Malformed(Exception):
    """A line that is no part of a suppression."""


@dataclass(frozen=True)
class AnyCall:
    """LeakSanitizer's: a text that stands in the function, file or module of any call."""
    pattern: re.Pattern

    def matches(self, calls, _):
        return any(self.pattern.search(text) for call in calls
                   for text in (call.function, call.file, call.module) if text)


@dataclass(frozen=True)
class FirstCalls:
    """Valgrind's: patterns of the innermost calls, each with its kind, and the kinds of leaks that
    it is for; of all where it names none."""
    frames: tuple
    kinds: frozenset = frozenset()

    def matches(self, calls, kind):
        return (not self.kinds or kind in self.kinds) and matches_from(self.frames, calls)


def matches_from(frames, calls):
    """Whether calls begin as these frames have it."""
    if not frames:
        return True
    kind, pattern = frames[0]
    if kind == ANY_FRAMES:
        return any(matches_from(frames[1:], calls[at:]) for at in range(len(calls) + 1))
    text = calls[0].module if calls and kind == "obj" else calls[0].function if calls else ""
    fits = text in pattern if kind == MANGLED else fnmatchcase(text, pattern)
    return bool(text) and fits and matches_from(frames[1:], calls[1:])


def any_call(text):
    """A pattern of LeakSanitizer: `*` is any text, `^` and `$` are the ends of a name."""
    front, back = text.startswith("^"), text.endswith("$")
    body = ".*".join(re.escape(part) for part in text[front:len(text) - back].split("*"))
    return AnyCall(re.compile(("^" if front else "") + body + ("$" if back else "")))


def frame_of(line):
    """A line of a suppression of valgrind: its kind and its pattern."""
    kind, _, pattern = line.partition(":")
    if line == ANY_FRAMES:
        return ANY_FRAMES, ""
    if kind == "fun" and pattern.startswith("_Z"):
        return ((MANGLED, pattern) if "*" in pattern or "?" in pattern
                else (kind, short_name(demangled([pattern])[pattern])))
    if kind == "fun":
        return kind, pattern
    if kind == "obj":
        return kind, pattern
    raise Malformed(line)


def kinds_in(line):
    """The kinds of leaks that a line names."""
    names = line[len(KINDS_LINE):].replace(",", " ").split()
    if not names or not {*names} <= {*LEAK_KINDS, "all", "none"}:
        raise Malformed(line)
    return LEAK_KINDS if "all" in names else names


def first_calls(lines):
    """The suppression of lines between braces: its name, its kind, and frames; or nothing where it
    is of no leak. The call of malloc in front isn't told in a stack."""
    if len(lines) < 3 or ":" not in lines[1]:
        raise Malformed(lines[0] if lines else "}")
    if not lines[1].split(":")[1].startswith("Leak"):
        return None
    frames = [line for line in lines[2:] if not line.startswith(KINDS_LINE)]
    kinds = frozenset(kind for line in lines[2:] if line.startswith(KINDS_LINE)
                      for kind in kinds_in(line))
    if frames and frames[0].startswith("fun:") and any(fnmatchcase(name, frames[0][4:])
                                                       for name in ALLOCATORS):
        frames = frames[1:]
    return FirstCalls(tuple(frame_of(line) for line in frames), kinds)


def read_suppressions(text, name):
    """The suppressions of a file, of either form. Malformed tells the file's name and the line."""
    try:
        return suppressions_in(text)
    except Malformed as line:
        raise Malformed(f"{name}: no suppression: {line}") from None


def suppressions_in(text):
    """The suppressions of a text, of either form."""
    found, block = [], None
    for line in (line.strip() for line in text.splitlines()):
        if not line or line.startswith("#"):
            continue
        if line == "{" and block is None:
            block = []
        elif line == "}" and block is not None:
            found.append(first_calls(block))
            block = None
        elif block is not None:
            block.append(line)
        elif line.startswith("leak:") and len(line) > 5:
            found.append(any_call(line[5:]))
        else:
            raise Malformed(line)
    if block is not None:
        raise Malformed("{ without its }")
    return [suppression for suppression in found if suppression]


def by_symbols(suppressions, paths):
    """Suppressions in which the functions of these files stand for each name of the linker's with a
    `*`."""
    wanted = {pattern for one in suppressions if isinstance(one, FirstCalls)
              for kind, pattern in one.frames if kind == MANGLED}
    symbols = {name for path in paths for _, _, name in symbols_in(path)
               if name.startswith("_Z")} if wanted else set()
    fitting = {pattern: [name for name in symbols if fnmatchcase(name, pattern)]
               for pattern in wanted}
    plain = demangled(sorted({name for names in fitting.values()
                              for name in names})) if symbols else {}
    told = {pattern: frozenset(short_name(plain[name]) for name in names)
            for pattern, names in fitting.items()}
    return [FirstCalls(tuple((kind, told.get(pattern, pattern) if kind == MANGLED else pattern)
                             for kind, pattern in one.frames), one.kinds)
            if isinstance(one, FirstCalls) else one for one in suppressions]


def is_known(suppressions, calls, kind):
    """Whether the calls of a stack, whose memory is held in this way, are of a known site."""
    return any(suppression.matches(calls, kind) for suppression in suppressions)
