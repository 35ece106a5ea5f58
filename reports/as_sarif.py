"""What bin/leaks tells as SARIF 2.1.0, for a code host: a result for each site. It isn't proved."""
import hashlib
import json
import os
from pathlib import Path
from urllib.parse import quote

import as_json
import baseline
import naming
from processes import AT_ONCE
from version import VERSION

SCHEMA = "https://json.schemastore.org/sarif-2.1.0.json"
# By kind: the rule, what it tells, and its level.
RULES = {naming.HELD: ("memory-not-freed", "Memory was not freed when the program ended.", "error"),
         naming.LOST: ("memory-lost", "No pointer leads to this memory any more.", "error"),
         naming.INDIRECT: ("memory-indirectly-lost", "Only lost memory leads to this memory.",
                           "warning"), naming.POSSIBLE: ("memory-possibly-lost",
                                                         "Only pointers amid its blocks lead to "
                                                         "this memory.", "warning"),
         naming.REACHABLE: ("memory-still-reachable",
                            "The program still had this memory when it ended.", "note"),}


def own_call(entry):
    """The first call that has a file of the program's own, or the first that has one, or
    nothing."""
    calls = [call for call, _ in entry.frames if call.file]
    return next((call for call in calls if not call.is_standard), calls[0] if calls else None)


def artifact(path):
    """A file: relative to the working folder where it is below that."""
    full = os.path.join(os.getcwd(), path)
    below = os.path.relpath(full)
    if not below.startswith(".."):
        return {"uri": quote(os.fsencode(below)), "uriBaseId": "SRCROOT"}
    return {"uri": "file://" + quote(os.fsencode(full))}


def location(call):
    """Where a call stands."""
    if not call.file:
        return {"logicalLocations": [{"fullyQualifiedName": call.briefly}]}
    place = {"physicalLocation": {"artifactLocation": artifact(call.file),
                                  "region": {"startLine": max(1, call.line)}}}
    return {**place,
            "logicalLocations": [{"fullyQualifiedName": call.function}]} if call.function else place


def result(run, process, entry):
    """A site; with how it changed, where an older report is compared."""
    rule, told, level = RULES[entry.kind]
    own, text = own_call(entry), " < ".join(entry.told)
    program, calls = baseline.key_of(process.program, as_json.site(entry))
    functions = "\0".join([program, rule, *calls])
    state = run.states.get((program, calls))
    return {"ruleId": rule, "ruleIndex": [*RULES].index(entry.kind), "level": level,
            "message": {"text": f"{entry.bytes} bytes in {entry.blocks} blocks: {told} {text}"},
            "locations": [location(own)] if own else [],
            "partialFingerprints": {
                "tlsfFunctions/v1": hashlib.sha256(os.fsencode(functions)).hexdigest()},
            "stacks": [{"message": {"text": "Calls, innermost first"},
                        "frames": [{"location": {**location(call), "message": {"text": name}}}
                                   for (call, _), name in zip(entry.frames, entry.told)]}],
            **({"baselineState": state} if state else {}),
            "properties": {"bytes": entry.bytes, "blocks": entry.blocks, "process": process.number,
                           "program": process.program},}


def notifications(run, processes):
    """What isn't known: logs that are cut, processes that ended at once, and those that weren't
    traced."""
    texts = [f"{process.title}: its log is cut" for process in processes if process.is_cut]
    texts += [f"{process.title}" for process in processes if process.end == AT_ONCE]
    texts += [f"{program}, process {number}: not traced"
              for number, program in run.untraced_with(processes)]
    return [{"level": "warning", "message": {"text": text}}
            for text in [*texts, *run.notes_of(processes)]]


def text(run, processes):
    """The report."""
    driver = {"name": "tlsf-leaks", "version": VERSION, "rules": [{"id": rule,
                                                                   "shortDescription": {
                                                                       "text": told},
                                                                   "defaultConfiguration": {
                                                                       "level": level}}
                                                                  for rule, told, level in RULES.values()]}
    told = {"tool": {"driver": driver},
            "originalUriBaseIds": {"SRCROOT": {"uri": Path.cwd().as_uri() + "/"}},
            "invocations": [{"executionSuccessful": not any(process.is_cut
                                                            for process in processes),
                             "toolExecutionNotifications": notifications(run, processes)}],
            "results": [result(run, process, entry) for process in processes
                        for entry in process.sites]}
    return (json.dumps({"$schema": SCHEMA, "version": "2.1.0", "runs": [told]}, indent=1)
            + "\n").encode()
