"""What bin/leaks tells for someone who reads it. It isn't proved."""
import os

from loading import why_untraced
from naming import LeftOut
from processes import AT_ONCE

CUT = ("the log is cut, and the process went on. What it freed later isn't known, so no leak is "
       "told.")
NO_CALL = "no call was traced, so its leaks can't be seen"


def of_process(process):
    """What a process holds."""
    yield f"{process.title}: {CUT}" if process.is_cut else f"{process.title}:"
    yield from map(str, process.entries)


def of_clean(process):
    """That a process holds nothing, but for known sites, of which one line tells. What ended at
    once has no end of its own."""
    known = [str(entry) for entry in process.entries if isinstance(entry, LeftOut)]
    return " ".join([f"{process.title}: "
                     f"{'It held no memory then.' if process.end == AT_ONCE else 'No memory leaks.'}",
                     *known])


def of_clean_ones(clean, has_others):
    """The same of several processes, of which those that have an end are one line."""
    yield from (of_clean(process) for process in clean if process.end == AT_ONCE)
    ended = [process for process in clean if process.end != AT_ONCE]
    if len(ended) == 1:
        yield of_clean(ended[0])
    elif ended:
        yield f"{len(ended)} {'other ' if has_others else ''}processes: No memory leaks."


def of_diagnostics(process):
    """That a report has diagnostics, which tell what the program did wrong."""
    if process.diagnostics:
        yield (f"tlsf-leaks: {process.program}: {len(process.diagnostics)} diagnostics, as "
               f"`{os.fsdecode(process.diagnostics[0])}`: keep the log by -o, and see `tlsf leaks "
               f"LOG`")


def of_untraced(run, processes):
    """Those of which nothing is known. On standard error the tracer has said so."""
    if run.asked.report:
        yield from (f"{process.title}: {NO_CALL}" for process in processes if not process.is_traced)
        yield from (f"{program}, process {number}: {why_untraced(program)}"
                    for number, program in run.untraced_with(processes))


def text(run, processes):
    """The processes that hold memory, and how many hold none. What isn't known stands first of
    all."""
    cut = [process for process in processes if process.is_cut]
    holding = cut + [process for process in processes if process.sites and not process.is_cut]
    clean = [process for process in processes if process.is_traced and process not in holding]
    lines = [f"tlsf-leaks: {note}" for note in run.notes_of(processes)]
    for process in holding:
        lines += of_process(process)
    lines += of_clean_ones(clean, bool(holding))
    # What a child frees of its parent's isn't held, either.
    for process in processes[:1]:
        lines += of_diagnostics(process)
    lines += [*of_untraced(run, processes), *run.comparison]
    return b"".join(os.fsencode(line) + b"\n" for line in lines)
