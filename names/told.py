"""Stacks as they are told: the program's own calls, and those of the standard library between them
as one."""
import re
from itertools import groupby

# What C++ calls for memory, where a program has it in itself.
FOR_MEMORY = "operator new"
# A plain name of an inlined function of C++, which binutils tells without its namespace.
IN_STD = re.compile(r".*/include/(?:[-\w.]+/)?c\+\+/"), re.compile(r"\w+")


def calls_of(names, frames):
    """All calls of the frames of a stack, innermost first."""
    return [call for frame in frames for call in names.calls(frame)]


def without_start(calls):
    """Calls up to the last that isn't of the standard library, whose others start a program or a
    thread. `main` without a line, which called one of these, is that of Rust."""
    own = [k for k, call in enumerate(calls) if not call.is_standard]
    if len(own) > 1 and own[-1] == len(calls) - 1 and calls[-1].function == "main" and not calls[-1].file and calls[
        -2].is_standard:
        own.pop()
    return calls[:own[-1] + 1] if own else calls


def named_of(calls):
    """The call that stands for calls of the standard library: that which the program called."""
    return next((call for call in reversed(calls) if call.function), calls[-1])


def folded(named, whole=False):
    """Calls of the standard library as one, by the call that stands for them."""
    of_cxx, plain = IN_STD
    space = "std::" if of_cxx.match(named.file) and plain.fullmatch(named.function) else ""
    return f"{space}{whole and named.whole or named.function or named.briefly} .."


def without_new(calls):
    """Calls behind the `operator new` of a program that has the standard library of C++ in
    itself."""
    at = 0
    while at + 1 < len(calls) and calls[at].function.startswith(FOR_MEMORY) and calls[at].is_standard:
        at += 1
    return calls[at:]


def one_call(call, paths, whole):
    """A call as it is told."""
    return call.told(paths, whole) if paths or whole else call.briefly


def told_frames(calls, all_frames=False):
    """The calls of a stack that are told, innermost first, each with whether it stands for several
    of the standard library."""
    if all_frames or all(call.is_standard for call in calls):
        return [(call, False) for call in calls]
    told = []
    for is_standard, group in groupby(without_start(without_new(calls)),
                                      lambda call: call.is_standard):
        run = list(group)
        told += [(named_of(run), True)] if is_standard and len(run) > 1 else [(call, False)
                                                                              for call in run]
    return told


def told_calls(calls, all_frames=False, paths=False, whole=False):
    """A stack's calls as they are told, innermost first; or with the whole name of each
    function."""
    return [folded(call, whole) if is_folded else one_call(call, paths, whole)
            for call, is_folded in told_frames(calls, all_frames)]


def told_apart(told, wholes):
    """How stacks are told that are alike but for the whole names of their functions: each with
    those that tell it from others."""
    differs = [len(set(names)) > 1 for names in zip(*wholes)]
    return [[whole if differs[at] else short for at, (short, whole) in enumerate(zip(told, names))]
            for names in wholes]
