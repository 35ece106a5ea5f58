"""What gdb does in a running process, for bin/trace --pid and --stop: it waits until a thread is
where the dynamic linker and malloc can be called, and calls the tracer there. gdb reads this file;
running.py starts it. It isn't proved.

Where that is: amid a system call that waits, made by the C library, or at the first instruction of
a call of malloc that neither the C library nor the dynamic linker makes. There the thread holds no
lock of theirs. The other threads run on during the calls, so what they hold they give back."""
import json
import os
import struct

import gdb

ORDERS = json.loads(os.environ["TLSF_IN_GDB"])
PROCESS = ORDERS["process"]
PRIVATE_MEMORY, READ_AND_WRITE, ROOM = 0x22, 3, 16384
# A wait with a mask of bits, as of a condition or a thread's end: that of a lock, as malloc's, has
# none.
FUTEX_WAIT_BITSET, FUTEX_OPERATION = 9, 0x7F
MOST_FRAMES, MOST_STOPS = 200, 500
# A signal that programs ignore ends the wait: gdb takes it.
ENOUGH = "SIGURG"


def answer(kind, text):
    """One line for running.py."""
    with open(ORDERS["answer"], "a", encoding="utf-8", errors="surrogateescape") as file:
        file.write(f"{kind} {text}\n")


def is_in(address, ranges):
    return any(start <= address < end for start, end in ranges)


def callers():
    """The frames of the selected thread but for the nearest, as far as gdb finds them."""
    frame = gdb.newest_frame().older()
    for _ in range(MOST_FRAMES):
        if frame is None:
            return
        yield frame
        try:
            frame = frame.older()
        except gdb.error:
            return


def has_free_hands():
    """Whether no call of the selected thread is one of the dynamic linker or the tracer, and none
    was interrupted by a signal."""
    return not any(frame.type() == gdb.SIGTRAMP_FRAME or is_in(frame.pc(), ORDERS["busy"])
                   for frame in callers())


def waits(thread):
    """Whether a thread is amid a system call of the C library that waits."""
    try:
        with open(f"/proc/{PROCESS}/task/{thread.ptid[1]}/syscall", encoding="ascii") as file:
            words = file.read().split()
    except OSError:
        return False
    if len(words) < 9 or int(words[0]) not in ORDERS["waits"] or not is_in(int(words[8], 16),
                                                                           ORDERS["library"]):
        return False
    is_futex = int(words[0]) == ORDERS["futex"]
    return not is_futex or int(words[2], 16) & FUTEX_OPERATION == FUTEX_WAIT_BITSET


def find_waiting():
    """Selects a thread that waits, where there is one: the first, which has the largest stack,
    before others."""
    for thread in sorted(gdb.selected_inferior().threads(),
                         key=lambda thread: thread.ptid[1] != PROCESS):
        if waits(thread):
            thread.switch()
            if has_free_hands():
                return True
    return False


def caller():
    """The address that the selected thread's call returns to, at its first instruction."""
    if ORDERS["machine"] == "aarch64":
        return int(gdb.parse_and_eval("(unsigned long)$x30"))
    stack = int(gdb.parse_and_eval("(unsigned long)$rsp"))
    return struct.unpack("<Q", gdb.selected_inferior().read_memory(stack, 8))[0]


def stop_at_call():
    """Runs the process until a thread calls malloc from where it may, or until it was enough."""
    points = [gdb.Breakpoint(f"*{address:#x}") for address in ORDERS["calls"]]
    gdb.execute(f"handle {ENOUGH} stop print nopass", to_string=True)
    answer("waits", "")
    found = False
    for _ in range(MOST_STOPS):
        gdb.execute("continue", to_string=True)
        if not gdb.selected_inferior().pid or is_enough():
            break
        if not is_in(caller(), ORDERS["library"] + ORDERS["busy"]) and has_free_hands():
            found = True
            break
    for point in points:
        point.delete()
    gdb.execute(f"handle {ENOUGH} nostop noprint pass", to_string=True)
    return found


last_stop = []
gdb.events.stop.connect(lambda event: last_stop.append(event))


def is_enough():
    return bool(last_stop) and isinstance(last_stop[-1], gdb.SignalEvent)


# ---- calls

def call(address, *values):
    """Calls a function of the process by its address."""
    kinds = ",".join(["long"] * len(values))
    words = ",".join(str(value) for value in values)
    return (
        int(gdb.parse_and_eval(f"((long (*)({kinds})){address:#x})({words})")) & 0xFFFFFFFFFFFFFFFF)


def put_text(room, text):
    gdb.selected_inferior().write_memory(room, os.fsencode(text) + b"\0")
    return room


def text_at(address):
    if address == 0:
        return ""
    return os.fsdecode(
        gdb.parse_and_eval(f"(char *){address:#x}").string("latin-1").encode("latin-1"))


def order(room):
    """Loads the tracer where that is asked for, and calls it."""
    functions = ORDERS["functions"]
    handle = call(functions["dlopen"], put_text(room, ORDERS["tracer"]), ORDERS["mode"])
    if handle == 0:
        return "no", text_at(call(functions["dlerror"]))
    begin_or_end = call(functions["dlsym"], handle, put_text(room, ORDERS["order"]))
    if begin_or_end == 0:
        return "no", "another libtlsf_trace.so is loaded"
    told = text_at(call(begin_or_end, put_text(room, ORDERS["log"]), ORDERS["frames"],
                        ORDERS["reachable"]))
    return ("yes" if told.startswith("/") else "no"), told


def run():
    # What is read of files is read while the process still runs.
    gdb.execute(f"file {ORDERS['program']}", to_string=True)
    gdb.execute(f"attach {PROCESS}", to_string=True)
    if not find_waiting() and not stop_at_call():
        return ("no",
                "no thread came to where malloc can be called: all of them compute, or wait for a "
                "lock")
    room = call(ORDERS["functions"]["mmap"], 0, ROOM, READ_AND_WRITE, PRIVATE_MEMORY, -1, 0)
    told = order(room)
    call(ORDERS["functions"]["munmap"], room, ROOM)
    return told


for setting in ("confirm off", "pagination off", "language c", "width 0", "scheduler-locking off",
                "unwindonsignal on", "debuginfod enabled off"):
    try:
        gdb.execute(f"set {setting}", to_string=True)
    except gdb.error:
        pass
gdb.execute("handle all nostop noprint pass", to_string=True)
gdb.execute("handle SIGINT nostop noprint pass", to_string=True)
try:
    kind, text = run()
except gdb.error as error:
    kind, text = "no", f"gdb: {error}"
if gdb.selected_inferior().pid:
    gdb.execute("detach", to_string=True)
answer(kind, text)
