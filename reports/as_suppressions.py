"""Suppressions of all sites that bin/leaks tells, for valgrind and for LeakSanitizer. It isn't
proved."""
import re
from bisect import bisect_right
from functools import cache

import naming
from functions import only_allocates
from names import symbols_in

# Valgrind keeps twelve calls of a stack: a suppression with more fits none.
MOST_CALLS = 10
# By kind: those of valgrind's, which may tell apart otherwise what isn't reachable.
KINDS = {naming.HELD: "all", naming.REACHABLE: "reachable"}
LOST_KINDS = "definite,indirect,possible"


@cache
def symbols(files):
    """The symbols of the files of a module, in order: one may be stripped."""
    return sorted({symbol for file in files for symbol in symbols_in(file)})


def linker_name(module, offset):
    """The linker's name of the function that a frame is in, or nothing."""
    found = symbols(tuple(module.files))
    address = module.base + offset - 1
    at = bisect_right(found, (address, float("inf"))) - 1
    return found[at][2] if at >= 0 and address - found[at][0] < found[at][1] else ""


def valgrind_calls(names, stack):
    """The lines of a stack's calls: those of the standard library, inlined ones and those without a
    name as any calls."""
    lines = ["..."]
    for frame in stack:
        calls, module = names.calls(frame), names.modules[frame.module]
        name = "" if calls[-1].is_standard else linker_name(module, frame.offset)
        wanted = (["..."] if len(calls) > 1 else []) + [f"fun:{name}" if name else "..."]
        for line in wanted:
            if line != "..." or lines[-1] != "...":
                lines.append(line)
        if len(lines) > MOST_CALLS:
            break
    return lines


def for_valgrind(processes):
    """Suppressions of Memcheck, each once."""
    told = {}
    for process in processes:
        for site in process.sites:
            lines = valgrind_calls(process.names, site.stack)
            if lines != ["..."]:
                told.setdefault((KINDS.get(site.kind, LOST_KINDS), *lines), site)
    for (kinds, *lines), site in told.items():
        yield f"{{\n   {site.bytes} bytes in {site.blocks} blocks\n   Memcheck:Leak\n   match-leak-kinds: {kinds}"
        yield from (f"   {line}" for line in lines)
        yield "}"


def sanitizer_patterns(name):
    """A function for LeakSanitizer, which knows it with its arguments, and with those of its
    template. It knows a lambda by its operator alone where gcc compiled it."""
    bare = re.sub(r"\{[^}]*\}", "*", name)
    yield f"leak:^{bare.replace('::', '*::')}{'*' if '::' in bare else '$'}"
    if name.endswith("}::operator()"):
        yield "leak:^operator()$"


def for_sanitizer(processes):
    """Lines of LeakSanitizer, each once: of each site the first function of the program's own that
    doesn't only ask for memory, and is no lambda where there is another."""
    told = {}
    for process in processes:
        for site in process.sites:
            own = [call.function for call, _ in site.frames if call.function
                   and not call.is_standard]
            fitting = [name for name in own if not only_allocates(name)] or own
            name = next((name for name in fitting if "{lambda" not in name),
                        next(iter(fitting), ""))
            told.update(dict.fromkeys(sanitizer_patterns(name) if name else ()))
    yield from told


def write(name, processes):
    """Writes NAME for valgrind and NAME.lsan for LeakSanitizer. An OSError tells that one can't be
    written."""
    for file, lines in ((name, for_valgrind(processes)),
                        (f"{name}.lsan", for_sanitizer(processes))):
        with open(file, "w", encoding="utf-8", errors="surrogateescape") as to:
            to.writelines(f"{line}\n" for line in lines)
