"""What bin/leaks tells in the XML of valgrind's memcheck, protocol 4, as plugins of CI servers read
it. It isn't proved."""
import os
import re
from xml.etree.ElementTree import Element, SubElement, indent, tostring

import naming
from version import VERSION

# By kind: memcheck's kind, and what it says.
KINDS = {naming.HELD: ("Leak_DefinitelyLost", "not freed"),
         naming.LOST: ("Leak_DefinitelyLost", "definitely lost"),
         naming.INDIRECT: ("Leak_IndirectlyLost", "indirectly lost"),
         naming.POSSIBLE: ("Leak_PossiblyLost", "possibly lost"),
         naming.REACHABLE: ("Leak_StillReachable", "still reachable")}
# What XML can't have.
NO_TEXT = re.compile(r"[^\t\n\r\x20-\ud7ff\ue000-\ufffd\U00010000-\U0010ffff]")


def put(parent, name, text=None):
    """An element, with a text where there is one."""
    element = SubElement(parent, name)
    element.text = None if text is None else NO_TEXT.sub("?", str(text))
    return element


def put_frame(stack, call, address):
    """A call, with the address in its module that it returns to."""
    frame = put(stack, "frame")
    put(frame, "ip", f"0x{address:X}")
    put(frame, "obj", call.module)
    if call.function:
        put(frame, "fn", call.function)
    if call.file:
        put(frame, "dir", os.path.dirname(call.file) or ".")
        put(frame, "file", os.path.basename(call.file))
        put(frame, "line", call.line)


def put_error(root, number, count, process, entry):
    """A site, as a loss record: with all its calls, as memcheck has them."""
    kind, told = KINDS[entry.kind]
    error = put(root, "error")
    put(error, "unique", f"0x{number:x}")
    put(error, "tid", 1)
    put(error, "kind", kind)
    what = put(error, "xwhat")
    led = entry.led[1]
    sums = (f"{entry.bytes + led:,} ({entry.bytes:,} direct, {led:,} indirect)" if led
            else f"{entry.bytes:,}")
    put(what, "text",
        f"{sums} bytes in {entry.blocks:,} blocks are {told} in loss record {number + 1:,} of "
        f"{count:,}")
    put(what, "leakedbytes", entry.bytes + led)
    put(what, "leakedblocks", entry.blocks)
    stack = put(error, "stack")
    for frame in entry.stack:
        for call in process.names.calls(frame):
            put_frame(stack, call, frame.offset)


def put_status(root, state, seconds):
    """What memcheck tells of its begin and end, with the time since the begin."""
    status, minutes = put(root, "status"), int(seconds) // 60
    put(status, "state", state)
    put(status, "time",
        f"{minutes // 1440:02}:{minutes // 60 % 24:02}:{minutes % 60:02}:{seconds % 60:06.3f} ")


def text(run, processes):
    """The report: of several processes in one file the first is named."""
    root = Element("valgrindoutput")
    put(root, "protocolversion", 4)
    put(root, "protocoltool", "memcheck")
    preamble = put(root, "preamble")
    for line in (f"tlsf-leaks {VERSION}, in the form of Memcheck", *run.notes_of(processes)):
        put(preamble, "line", line)
    put(root, "pid", processes[0].number if processes else 0)
    put(root, "ppid", os.getpid())
    put(root, "tool", "memcheck")
    words = put(root, "args")
    put(put(words, "vargv"), "exe", "tlsf-leaks")
    command = put(words, "argv")
    put(command, "exe", run.asked.program or (processes[0].program if processes else ""))
    for word in run.asked.words:
        put(command, "arg", word)
    put_status(root, "RUNNING", 0)
    put_status(root, "FINISHED", run.seconds)
    entries = [(process, entry) for process in processes for entry in process.sites]
    for number, (process, entry) in enumerate(entries):
        put_error(root, number, len(entries), process, entry)
    put(root, "errorcounts")
    put(root, "suppcounts")
    indent(root)
    return b'<?xml version="1.0"?>\n\n' + tostring(root) + b"\n"
