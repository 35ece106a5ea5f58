"""What bin/leaks tells as JSON, as docs/FORMATS.md has it, and by what a site is compared with
another report's. It isn't proved."""
import json
from itertools import groupby

import naming
from names import MORE_CALLS, NO_FILE
from version import VERSION

FORMAT, FORMAT_VERSION = "tlsf-leaks", 1
KINDS = {naming.HELD: "held", naming.LOST: "lost", naming.INDIRECT: "indirectly lost",
         naming.POSSIBLE: "possibly lost", naming.REACHABLE: "still reachable"}
NO_LEAK = KINDS[naming.REACHABLE]


def frame(call, is_folded):
    """A call. What isn't known is null; an offset stands where no line does."""
    if call.module == NO_FILE and not call.offset:
        return {"function": MORE_CALLS, "file": None, "line": None, "module": None, "more": True}
    told = {"function": call.function or None, "file": call.file or None, "line": call.line or None,
            "module": call.module or None}
    if not call.file:
        told["offset"] = call.offset
    return {**told, "more": True} if is_folded else told


def site(entry):
    """A site: how its memory is held, bytes, blocks, its text, and its calls."""
    with_it = {"withIt": {"blocks": entry.led[0], "bytes": entry.led[1]}} if entry.led[0] else {}
    return {"kind": KINDS[entry.kind], "bytes": entry.bytes, "blocks": entry.blocks, **with_it,
            "text": " < ".join(entry.told), "frames": [frame(*pair) for pair in entry.frames]}


def process(one):
    """What a process holds."""
    return {"process": one.number, "program": one.program, "end": one.end, "traced": one.is_traced,
            "reachableKnown": one.is_apart, "held": {"blocks": int(one.held[2]),
                                                     "bytes": int(one.held[3])},
            "sums": {KINDS[kind]: {"blocks": blocks, "bytes": number}
                     for kind, (blocks, number) in one.sums.items()},
            "leftOut": {"sites": sum(len(left.sites) for left in one.left_out),
                        "bytes": sum(left.bytes for left in one.left_out)},
            "diagnostics": len(one.diagnostics), "sites": [site(entry) for entry in one.sites]}


def settings(asked):
    """What was asked for."""
    return {"frames": asked.frames, "reachable": asked.reachable, "allFrames": asked.all_frames,
            "allSites": asked.all_sites, "join": asked.join, "suppress": asked.suppress,
            "pid": asked.pid, "command": [asked.program, *asked.words] if asked.program else None}


def document(run, processes):
    """The report as what JSON has."""
    return {"format": FORMAT, "formatVersion": FORMAT_VERSION, "toolVersion": VERSION,
            "settings": settings(run.asked), "status": run.status,
            "processes": [process(one) for one in processes],
            "untraced": [{"process": number, "program": program}
                         for number, program in run.untraced_with(processes)],
            "notes": run.notes_of(processes), "comparison": run.comparison}


def text(run, processes):
    """The report. A path's odd bytes stand as lone halves of a pair, escaped."""
    return (json.dumps(document(run, processes), indent=1) + "\n").encode()


class NoReport(Exception):
    """Why a file is no report of this form."""


def read(name):
    """A report in JSON. NoReport tells why it is none, an OSError that the file can't be read."""
    with open(name, "rb") as file:
        try:
            told = json.loads(file.read())
        except ValueError:
            raise NoReport(f"{name} is no JSON") from None
    if not isinstance(told, dict) or told.get("format") != FORMAT:
        raise NoReport(f"{name} is no report of tlsf-leaks --format json")
    if told.get("formatVersion") != FORMAT_VERSION:
        raise NoReport(f"{name} has version {told.get('formatVersion')} of the form, and not "
                       f"{FORMAT_VERSION}")
    return told


def functions(entry):
    """The functions of a site of a report in JSON: what it is compared by, since lines and
    addresses move. What calls itself stands once, and a call without a name by its module."""
    names = [frame["function"] or (frame["file"] or frame["module"] or NO_FILE).rpartition("/")[2]
             for frame in entry["frames"]]
    return tuple(name for name, _ in groupby(names)) or (entry["text"],)
