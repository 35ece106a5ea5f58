"""The functions that a log's sites are told by: of each site the first of the program's own, with
its file and module."""
import os
import re
from collections import defaultdict
from dataclasses import dataclass
from functools import cache, cached_property
from itertools import chain, dropwhile, islice, takewhile

from names import MORE_CALLS, NO_FILE, Names, end_of_type, told_bare, told_others, without_brackets
from stacks import frames_in, frames_of, list_of, text_of
from texts import shown, site_name
from told import told_calls

# A function that only asks for memory on behalf of who called it, as xmalloc or a class's own
# operator new, is passed over.
ALLOCATES = re.compile(
    r"(?:alloc|Alloc)(?:ate|ator|f|z|0|_?array\w*|_?n|_?or_die|_?zero(?:ed)?|Raw|RawNN|RawNNTyped|Zero|Size|WithAlarm|NoTrack)?$|"
    r"^(?:\w+_)?x?(?:m|c|re|mem|z)alloc|(?:str|mem|Str)n?dupz?$|^mallocWithAlarm$|[mM]alloc(?:Raw|Zero)?(?:NN)?$|^operator new")
FRAME = re.compile(rb"(?:(.+):)?\[(0x[0-9a-f]+)\]", re.S)
# A function without a name that so many others call only asks for memory; so many may stand one
# above the other.
MANY_CALLERS, MOST_WRAPPERS = 8, 6
NO_NAME = "(no location)"


@cache
def told_text(text):
    """A text that a log or binutils gave, as it is shown."""
    return shown(os.fsencode(text))


@cache
def brief(name):
    """The last two parts of a function's name, as `Arena::grow` of `<core_arena::Arena<T> as
    Grow>::grow`."""
    if name.startswith("<"):
        end = end_of_type(name)
        name = name[1:end - 1].partition(" as ")[0].lstrip("&*") + name[end:]
    parts = [part for part in without_brackets(name, "<", ">").split("::") if part] or [name]
    count = next((count for count in range(2, len(parts)) if not parts[-count + 1].startswith("{")),
                 len(parts))
    return "::".join(parts[-count:])


@cache
def only_allocates(name):
    """Whether a function is named for asking for memory alone."""
    return bool(ALLOCATES.search(brief(name).rpartition("::")[2]))


@dataclass(frozen=True)
class Function:
    """A function of the program's own: its whole name, a brief one, the file that has it, or
    nothing, and its module. What has no name is told by a place."""
    name: str
    short: str
    file: str
    module: str


class Site:
    """What is told of a location: its function, the line in it, or 0, and its frames, the nearest
    first, long and brief. Frames are told when they are asked for, since a page shows those of the
    greatest sites alone."""

    def __init__(self, function, line, tell, shorten=None):
        self.function, self.line, self.tell, self.shorten = function, line, tell, shorten

    @cached_property
    def frames(self):
        return tuple(self.tell())

    @cached_property
    def briefs(self):
        return tuple(map(self.shorten, self.frames)) if self.shorten else self.frames


class Calls:
    """The calls of a stack, the nearest first. They are looked for as they are asked for, since the
    first few tell most."""

    def __init__(self, names, own_of, stack):
        self.names, self.own_of, self.stack = names, own_of, stack

    def __iter__(self):
        return chain.from_iterable(map(self.names.calls, frames_in(self.stack)))

    def own(self):
        """The calls of the program's own code."""
        return chain.from_iterable(map(self.own_of, frames_in(self.stack)))


def asks_for_itself(call, general):
    """Whether a call doesn't only ask for memory, by its name or, where it has none, since many
    functions call it."""
    return (call.module, call.start) not in general and not (call.function
                                                             and only_allocates(call.function))


def own_call(calls, general=frozenset()):
    """The first call of the program's own code that asks for itself; else the first of its own, or
    of all. Where it has no name it is the next of its module that has one, if there is one."""
    found = (call for call in calls.own() if asks_for_itself(call, general))
    first = next(found, None)
    if first is None:
        return next(chain(calls.own(), calls))
    same = takewhile(lambda call: call.module == first.module, chain([first], found))
    return next((call for call in same if call.function or call.file), first)


def callers_of(call, calls):
    """Where the two calls of the program's own code begin that stand above a call of a stack, but
    for calls of itself."""
    above = islice(dropwhile(lambda other: other is not call, calls.own()), 1, 3)
    return {(other.module, other.start) for other in above} - {(call.module, call.start)}


def general_functions(stacks):
    """Functions without a name that many others call for memory, as xmalloc of a program whose
    names are stripped: by module and begin. Those that call it are looked for one and two calls
    above it."""
    general, above, stacks_of = set(), defaultdict(set), defaultdict(list)
    for _ in range(MOST_WRAPPERS):
        for calls in stacks:
            call = own_call(calls, general)
            if call.start and not call.function and not call.is_standard:
                key = call.module, call.start
                above[key] |= callers_of(call, calls)
                stacks_of[key].append(calls)
        found = {key for key, callers in above.items() if len(callers) >= MANY_CALLERS} - general
        if not found:
            break
        general |= found
        # Other stacks are told as before.
        stacks = [calls for key in found for calls in stacks_of.pop(key)]
    return frozenset(general)


def function_of(call):
    """The function of a call. One without a name is told by where it begins in its module."""
    module = told_text(os.path.basename(call.module))
    if call.function:
        return Function(told_text(call.function), told_text(brief(call.function)),
                        told_text(os.path.basename(call.file)), module)
    if call.file:
        return Function("", "", told_text(os.path.basename(call.file)), module)
    place = f"{module}:[0x{call.start or call.offset:x}]"
    return Function(place, place, "", module)


@cache
def brief_frame(told):
    """A frame as source-lines tells it, with a brief name."""
    head, space, place = told.rpartition(" ")
    return f"{brief(head)} {place}" if space and head else told


def plain_site(location):
    """A location as it stands: of a stack its frames, each with the module's name."""
    module, frames, modules = b"", [], []
    for part in location.split(b"<"):
        found = FRAME.fullmatch(part)
        if not found or not (found[1] or module):
            frames = []
            break
        module = found[1] or module
        modules.append(module.rpartition(b"/")[2])
        is_more = (module, found[2]) == (NO_FILE.encode(), b"0x0")
        frames.append(MORE_CALLS.encode() if is_more else modules[-1] + b"[" + found[2] + b"]")
    if len(frames) < 2:
        frames = [location]
    name = site_name(frames[0])
    of = shown(modules[0]) if modules else shown(location.partition(b":")[0]) or NO_NAME
    return Site(Function(name, name, "", of), 0, lambda: map(site_name, frames))


class Functions:
    """The sites of a log, each with its function. Names are asked of binutils, of files in these
    places, where they are wanted."""

    def __init__(self, stacks, locations, places):
        self.stacks = stacks
        self.lists = {location: stacks.lists.get(text) or list_of(frames_of(text))
                      for location in locations if (text := text_of(location))}
        self.names = Names({frame for stack in self.lists.values() for frame in frames_in(stack)},
                           stacks.build_ids, places) if places else None
        own = cache(lambda frame: [call for call in self.names.calls(frame)
                                   if not call.is_standard])
        self.calls = {location: Calls(self.names, own, stack)
                      for location, stack in self.lists.items() if self.is_named(stack)}
        self.function_of = cache(function_of)
        self.tell_by(locations, general_functions(self.calls.values()))

    def tell_by(self, locations, general):
        """The site of each location, where the functions that only ask for memory are known."""
        self.general, self.labels = general, {}
        self.sites = [self.site(location) for location in locations]
        lines = defaultdict(set)
        for site in self.sites:
            lines[site.function].add(site.line)
        self.one_line = {function: next(iter(found)) for function, found in lines.items()
                         if len(found) == 1}

    def is_named(self, stack):
        """Whether names are asked for, and a file of the frames can be read."""
        return bool(self.names) and any(self.names.modules[frame.module].is_object
                                        for frame in frames_in(stack))

    def site(self, location):
        """What is told of a location."""
        calls = self.calls.get(location)
        if not calls:
            return plain_site(os.fsencode(self.stacks.whole(text_of(location))))
        call = own_call(calls, self.general)
        return Site(self.function_of(call), call.line, lambda: map(told_text,
                                                                   told_calls(list(calls))),
                    brief_frame)

    def label(self, function):
        """A function's short name: `Arena::grow arena.rs:210`, with the line where it is one."""
        if function not in self.labels:
            self.labels[function] = self.new_label(function)
        return self.labels[function]

    def new_label(self, function):
        """The same, made."""
        line = self.one_line.get(function)
        place = function.file + (f":{line}" if function.file and line else "")
        return " ".join(filter(None, (function.short, place))) or NO_NAME

    @property
    def modules(self):
        """Programs and libraries whose functions are told."""
        return self.names.modules.values() if self.names else []

    def newer_than(self, written):
        """Those that were changed behind a time."""
        return sorted(told_text(module.path) for module in self.modules if module.is_object
                      and not module.is_same and os.stat(module.file).st_mtime_ns > written)

    def of_others(self):
        """What is said of those that are other builds than the ones that ran."""
        return [told_text(text) for text in told_others(self.modules)]

    def without_lines(self):
        """What is said of those that have no debug information, or nothing."""
        return told_text(told_bare(self.modules) or "")
