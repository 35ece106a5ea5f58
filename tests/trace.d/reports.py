"""Reads a report of bin/leaks by the rules of its form, and writes its sites: bytes, blocks, and
each call as function, file and line. Part of tests/trace.d/reports.

    reports.py json FILE         reports.py sarif FILE
    reports.py xml FILE [OTHER]  reports.py pprof FILE

XML is compared with another file, which valgrind wrote: no element is there that it doesn't
have."""
import gzip
import json
import os
import re
import sys
from collections import defaultdict
from xml.etree import ElementTree


def expect(what, is_so):
    if not is_so:
        sys.exit(f"not as the form has it: {what}")


def line_of(number, blocks, calls):
    return f"{number} {blocks} " + " < ".join(f"{function} {os.path.basename(file)}:{line}"
                                              for function, file, line in calls)


def of_json(name):
    """As docs/FORMATS.md has it."""
    with open(name, encoding="utf-8") as file:
        told = json.load(file)
    expect("format", (told["format"], told["formatVersion"]) == ("tlsf-leaks", 1))
    expect("settings", {"frames", "reachable", "allFrames", "allSites", "join", "suppress", "pid",
                        "command"} == set(told["settings"]))
    for process in told["processes"]:
        expect("members of a process", {"process", "program", "end", "traced", "reachableKnown",
                                        "held", "sums", "leftOut", "diagnostics", "sites"}
               == set(process))
        sums = [sum(one[of] for one in process["sums"].values()) for of in ("bytes", "blocks")]
        expect("sums", sums == [sum(site[of] for site in process["sites"])
                                for of in ("bytes", "blocks")])
        expect("bytes held", process["held"]["bytes"] == sums[0] + process["leftOut"]["bytes"])
        for site in process["sites"]:
            yield line_of(site["bytes"], site["blocks"],
                          [(call["function"], call["file"] or "", call["line"])
                           for call in site["frames"]])


def of_sarif(name):
    """Members that SARIF 2.1.0 requires: version and runs; tool, driver and name; of a rule its id;
    of a result its message. Those that a code host reads: locations with a URI and a line,
    fingerprints, and a rule that the driver has."""
    with open(name, encoding="utf-8") as file:
        told = json.load(file)
    expect("version", told["version"] == "2.1.0" and told["$schema"].endswith("sarif-2.1.0.json"))
    for run in told["runs"]:
        driver = run["tool"]["driver"]
        expect("driver", driver["name"] == "tlsf-leaks")
        rules = [rule["id"] for rule in driver["rules"]]
        expect("rules", len(set(rules)) == len(rules))
        expect("invocations", all(isinstance(one["executionSuccessful"], bool)
                                  for one in run["invocations"]))
        for result in run["results"]:
            expect("rule", rules[result["ruleIndex"]] == result["ruleId"])
            expect("level", result["level"] in ("none", "note", "warning", "error"))
            expect("message", isinstance(result["message"]["text"], str)
                   and result["message"]["text"])
            expect("fingerprint", re.fullmatch("[0-9a-f]{64}",
                                               result["partialFingerprints"]["tlsfFunctions/v1"]))
            place = result["locations"][0]["physicalLocation"]
            expect("line", place["region"]["startLine"] >= 1)
            artifact = place["artifactLocation"]
            expect("place", artifact["uri"].startswith("file:///")
                   or artifact["uriBaseId"] in run["originalUriBaseIds"])
            frames = [frame["location"]["message"]["text"].rpartition(" ")
                      for frame in result["stacks"][0]["frames"]]
            expect("frames", frames)
            calls = [(function, *place.rpartition(":")[::2]) for function, _, place in frames]
            yield (f"{os.path.basename(artifact['uri'])}:{place['region']['startLine']} "
                   + line_of(result["properties"]["bytes"], result["properties"]["blocks"], calls))


def shape(element, above=""):
    """The paths of an element and of those in it."""
    path = f"{above}/{element.tag}"
    yield path
    for inner in element:
        yield from shape(inner, path)


def of_xml(name, other=None):
    """As memcheck's protocol 4 has it."""
    root = ElementTree.parse(name).getroot()
    expect("protocol", (root.tag, root.findtext("protocolversion"), root.findtext("protocoltool"))
           == ("valgrindoutput", "4", "memcheck"))
    if other:
        theirs = set(shape(ElementTree.parse(other).getroot()))
        expect(f"elements {sorted(set(shape(root)) - theirs)}", set(shape(root)) <= theirs)
        required = {"/valgrindoutput/error/" + path for path in ("unique", "tid", "kind",
                                                                 "xwhat/text", "xwhat/leakedbytes",
                                                                 "xwhat/leakedblocks",
                                                                 "stack/frame/ip",
                                                                 "stack/frame/fn")}
        expect("elements that are missing", required <= set(shape(root)) and required <= theirs)
    uniques = [error.findtext("unique") for error in root.iter("error")]
    expect("unique", len(set(uniques)) == len(uniques))
    for error in root.iter("error"):
        frames = [frame for frame in error.find("stack") if frame.findtext("fn")
                  not in ("malloc", "calloc", "realloc", "operator new(unsigned long)")]
        calls = [(frame.findtext("fn"), frame.findtext("file") or "", frame.findtext("line"))
                 for frame in frames]
        yield f"{error.findtext('kind')} " + line_of(error.findtext("xwhat/leakedbytes"),
                                                     error.findtext("xwhat/leakedblocks"), calls)


def number_at(data, at):
    """A number of protobuf and where it ends: pieces of seven bits, the lowest first."""
    value, shift = 0, 0
    while True:
        value |= (data[at] & 127) << shift
        at, shift = at + 1, shift + 7
        if data[at - 1] < 128:
            return value, at


def fields_of(data):
    """The fields of a message, by number: numbers, and the bytes of texts, messages and numbers in
    a row."""
    found, at = defaultdict(list), 0
    while at < len(data):
        key, at = number_at(data, at)
        expect("kind of a field", key & 7 in (0, 2))
        value, at = number_at(data, at)
        if key & 7 == 2:
            expect("length of a field", at + value <= len(data))
            value, at = data[at:at + value], at + value
        found[key >> 3].append(value)
    return found


def numbers_in(values):
    """The numbers of a field that has several, in a row or not."""
    for value in values:
        at = 0
        while isinstance(value, bytes) and at < len(value):
            number, at = number_at(value, at)
            yield number
        if isinstance(value, int):
            yield value


def of_pprof(name):
    """As profile.proto has it: texts, functions and locations by their numbers."""
    with gzip.open(name) as file:
        told = fields_of(file.read())
    texts = [text.decode() for text in told[6]]
    expect("first text", texts[0] == "")
    kinds = [tuple(texts[fields_of(kind)[at][0]] for at in (1, 2)) for kind in told[1]]
    expect("kinds", kinds == [("alloc_objects", "count"), ("alloc_space", "bytes"),
                              ("inuse_objects", "count"), ("inuse_space", "bytes")])
    functions = {one[1][0]: (texts[one[2][0]], texts[(one[4] or [0])[0]])
                 for one in map(fields_of, told[5])}
    modules = {fields_of(one)[1][0] for one in told[3]}
    places = {}
    for one in map(fields_of, told[4]):
        expect("module", one[2][0] in modules)
        line = fields_of(one[4][0])
        places[one[1][0]] = *functions[line[1][0]], (line[2] or [0])[0]
    expect("default", texts[told[14][0]] == "inuse_space")
    for sample in map(fields_of, told[2]):
        values = list(numbers_in(sample[2]))
        expect("values", len(values) == 4)
        yield " ".join(map(str, values)) + " " + line_of(0, 0,
                                                         [places[at]
                                                          for at in numbers_in(sample[1])])[4:]


for row in sorted({"json": of_json, "sarif": of_sarif, "xml": of_xml,
                   "pprof": of_pprof}[sys.argv[1]](*sys.argv[2:])):
    print(row)
