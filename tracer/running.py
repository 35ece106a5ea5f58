"""A running process that is traced: whether it can be, and the orders to the tracer in it, which
gdb gives by in_gdb.py. It isn't proved."""
import json
import os
import re
import shutil
import signal
import subprocess
from pathlib import Path

HERE = Path(__file__).resolve().parent
# Seconds until a thread is to be where malloc can be called.
PATIENCE = 5
NOW, NOT_AGAIN, NO_LOAD = 2, 0x1000, 4
OF_GDB = "gdb: "
CALLS = ("malloc", "calloc", "realloc", "free")
FUNCTIONS = ("dlopen", "dlsym", "dlerror", "mmap", "munmap")
# System calls that wait: read, write, poll, select, epoll, sleep, pause, wait, accept, receive,
# send, sigsuspend, and restarts of these.
WAITS = {"x86_64": (202, (0, 1, 7, 17, 19, 20, 23, 34, 35, 43, 44, 45, 46, 47, 61, 65, 72, 73, 128,
                          130, 202, 208, 219, 220, 230, 232, 247, 270, 271, 281, 288, 299, 441)),
         "aarch64": (98, (22, 25, 32, 63, 64, 65, 66, 67, 72, 73, 95, 98, 101, 115, 128, 133, 137,
                          192, 202, 206, 207, 211, 212, 242, 243, 260, 441)),}
MAPPED = re.compile(r"([0-9a-f]+)-([0-9a-f]+) (\S+) ([0-9a-f]+) \S+ \S+ *(.*)")


class Refused(Exception):
    """Why a process can't be traced, or told to stop."""


class Root:
    """The root folder of a process: this one's, or another, as in a container. A PermissionError
    tells that it may not be looked into."""

    def __init__(self, process):
        self.process, self.path = process, os.readlink(f"/proc/{process}/root")
        is_same = os.stat(f"/proc/{process}/ns/mnt").st_ino == os.stat("/proc/self/ns/mnt").st_ino
        self.is_other = not is_same or self.path != os.readlink("/proc/self/root")
        # Held open, so that its files are there when the process has ended.
        self.folder = os.open(f"/proc/{process}/root", os.O_PATH
                              | os.O_DIRECTORY) if self.is_other else None
        self.room = f"/tmp/tlsf-trace-{process}"

    def inside(self, path):
        """A path of the kernel's list, as the process has it."""
        is_below = self.is_other and self.path != "/" and path.startswith(self.path + "/")
        return path[len(self.path):] if is_below else path

    def outside(self, path):
        """A path that the process has, as this one has it."""
        return f"/proc/{os.getpid()}/fd/{self.folder}{path}" if self.is_other else path

    def open_room(self, makes=False):
        """The tracer's folder in the other root, open. Its process could put links there, which
        lead into this root: so none is followed."""
        folder = os.O_RDONLY | os.O_DIRECTORY | os.O_NOFOLLOW
        name, temporary = os.path.basename(self.room), os.open("tmp", folder, dir_fd=self.folder)
        try:
            if makes and name not in os.listdir(temporary):
                told = os.stat(f"/proc/{self.process}")
                os.mkdir(name, 0o700, dir_fd=temporary)
                os.chown(name, told.st_uid, told.st_gid, dir_fd=temporary, follow_symlinks=False)
            return os.open(name, folder, dir_fd=temporary)
        finally:
            os.close(temporary)

    def put(self, library):
        """Puts the tracer where the process can load it, in a folder of its user: its path there.
        An OSError tells why it can't be."""
        if not self.is_other:
            return library
        room, name = self.open_room(makes=True), os.path.basename(library)
        try:
            if name not in os.listdir(room):
                to = os.open(name, os.O_WRONLY | os.O_CREAT | os.O_EXCL | os.O_NOFOLLOW, 0o755,
                             dir_fd=room)
                with open(library, "rb") as source, os.fdopen(to, "wb") as copy:
                    os.fchmod(to, 0o755)
                    shutil.copyfileobj(source, copy)
        finally:
            os.close(room)
        return f"{self.room}/{name}"

    def log_for(self, wanted):
        """The path of the log for the process, which is to be this one here in the end."""
        return f"{self.room}/{os.path.basename(wanted)}" if self.is_other else wanted

    def bring(self, wanted):
        """Moves the log, what is beside it, and those of children to where they are wanted."""
        if not self.is_other:
            return
        room, name = self.open_room(), os.path.basename(wanted)
        try:
            for file in (file for file in os.listdir(room) if file.startswith(name)):
                source = os.open(file, os.O_RDONLY | os.O_NOFOLLOW | os.O_NONBLOCK, dir_fd=room)
                with os.fdopen(source, "rb") as read, open(wanted + file[len(name):], "wb") as copy:
                    shutil.copyfileobj(read, copy)
                os.remove(file, dir_fd=room)
        finally:
            os.close(room)


class Mapped:
    """A file that a process has mapped: its path, where it begins, and the ranges of its code."""

    def __init__(self, path):
        self.path, self.base, self.code = path, None, []

    def add(self, start, end, rights):
        if self.base is None:
            self.base = start
        if "x" in rights:
            self.code.append((start, end))


def other_root(process):
    """The root folder of a process that has another than this one, or nothing, as where it may not
    be looked into."""
    try:
        return f"/proc/{process}/root" if Root(process).is_other else ""
    except OSError:
        return ""


def mapped_files(process):
    """The files that a process has mapped, by path."""
    files = {}
    for line in Path(f"/proc/{process}/maps").read_text(errors="surrogateescape").splitlines():
        start, end, rights, _, path = MAPPED.fullmatch(line).groups()
        if path.startswith("/"):
            files.setdefault(path, Mapped(path)).add(int(start, 16), int(end, 16), rights)
    return files


def status_of(process, field):
    found = re.search(rf"^{field}:\s*(\S+)",
                      Path(f"/proc/{process}/status").read_text(errors="replace"), re.M)
    return found[1] if found else ""


def is_there(process):
    """Whether a process is there and hasn't ended."""
    try:
        return status_of(process, "State") not in ("Z", "X")
    except OSError:
        return False


def filter_of(process):
    """What a process has as a filter of its system calls."""
    return status_of(process, "Seccomp"), status_of(process, "Seccomp_filters")


def check(process):
    """Raises where a process isn't there, is another's, is debugged, or may not do what the tracer
    does."""
    if not is_there(process):
        raise Refused(f"there is no process {process}")
    if os.getuid() not in (0, os.stat(f"/proc/{process}").st_uid):
        raise Refused(f"process {process} is another user's")
    debugger = status_of(process, "TracerPid")
    if debugger not in ("", "0"):
        raise Refused(f"process {process} is under a debugger, process {debugger}")
    try:
        os.stat(f"/proc/{process}/ns/mnt")
    except PermissionError:
        raise Refused(f"process {process} may not be looked into: ptrace isn't permitted, for it "
                      f"has more rights or gave up some") from None
    if status_of(process, "Seccomp") not in ("", "0") and filter_of(process) != filter_of("self"):
        raise Refused(f"process {process} is behind a filter of its system calls, which might end "
                      f"it for what the tracer does")
    if not shutil.which("gdb"):
        raise Refused("gdb isn't found: install it (Debian's gdb)")
    if not shutil.which("nm"):
        raise Refused("nm of binutils isn't found")


def why_not_followed(root):
    """Why a process with this root can't have a ring in memory of this user, or nothing."""
    if root.is_other:
        return (f"process {root.process} has another root, as in a container, so it can't be "
                "followed: trace it into a log")
    if os.stat(f"/proc/{root.process}").st_uid != os.geteuid():
        return f"process {root.process} is another user's, so it can't be followed by this one"
    return None


def find_file(process, files, name):
    """The mapped file of this name; where it isn't mapped, or the file is another by now, this
    raises."""
    for path, file in files.items():
        base = os.path.basename(path)
        if re.fullmatch(name + r" \(deleted\)", base):
            raise Refused(f"process {process} has an older {base.removesuffix(' (deleted)')} than "
                          f"there is: start it anew")
        if re.fullmatch(name, base):
            return file
    return None


def addresses(root, file, names):
    """Where functions of a mapped file are, by its symbols."""
    told = subprocess.run(["nm", "-D", "--defined-only", root.outside(root.inside(file.path))],
                          stdout=subprocess.PIPE, stderr=subprocess.DEVNULL,
                          check=False).stdout.decode()
    found = {}
    for value, name in re.findall(r"^([0-9a-f]+) [TtWwi] ([^@\s]+)(?:@@?\S*)?$", told, re.M):
        found.setdefault(name, file.base + int(value, 16))
    return {name: found[name] for name in names if name in found}


def orders(root, tracer, order):
    """What gdb is told: addresses, code that isn't to be interrupted, and the call."""
    process = root.process
    files = mapped_files(process)
    library = find_file(process, files, r"libc(?:-2\.\d+\.so|\.so\.6)")
    loaded = find_file(process, files, r"libtlsf_trace\.so")
    linker = find_file(process, files, r"ld-(?:linux|2)[-.\w]*\.so(?:\.\d+)?")
    if library is None or linker is None:
        raise Refused(f"process {process} has no C library of glibc: it is linked statically, or "
                      f"to another")
    functions = addresses(root, library, (*CALLS, *FUNCTIONS))
    if len(functions) < len(CALLS) + len(FUNCTIONS):
        raise Refused(f"process {process} has a C library older than glibc 2.34")
    if loaded is None and order == "tlsf_trace_end":
        raise Refused(f"process {process} isn't traced")
    calls = addresses(root, loaded, CALLS) if order == "tlsf_trace_end" else functions
    machine = os.uname().machine
    futex, waits = WAITS[machine]
    return {"process": process, "program": f"/proc/{process}/exe", "machine": machine,
            "futex": futex, "waits": waits, "functions": functions,
            "calls": [calls[name] for name in CALLS], "library": library.code,
            "busy": linker.code + (loaded.code if loaded else []), "order": order,
            "tracer": root.inside(loaded.path) if loaded else root.put(tracer),
            "mode": NOW | (NO_LOAD if loaded else NOT_AGAIN),}


def lines_of(answer):
    return Path(answer).read_text(errors="surrogateescape").splitlines()


def wait_for(gdb, process, answer):
    """Waits for gdb. Where no thread comes to where it can be called, the wait is ended by a signal
    that gdb takes."""
    while True:
        try:
            return gdb.communicate(timeout=PATIENCE)[1]
        except subprocess.TimeoutExpired:
            if lines_of(answer)[-1:] == ["waits "] and is_there(process):
                os.kill(process, signal.SIGURG)


def why_not(process, said):
    """Why gdb could do nothing, by what it said."""
    if not is_there(process):
        return f"process {process} has ended"
    if "peration not permitted" not in said:
        return OF_GDB + (said.strip().splitlines() or ["it ended without a word"])[-1]
    try:
        scope = Path("/proc/sys/kernel/yama/ptrace_scope").read_text().strip()
    except OSError:
        scope = "0"
    if scope == "0":
        return f"gdb may not attach to process {process}: ptrace isn't permitted here"
    return (f"gdb may not attach to process {process}: /proc/sys/kernel/yama/ptrace_scope is "
            f"{scope}, so only root may")


def give(root, tracer, order, log="", frames=0, reachable=False):
    """Gives the tracer in a process with this root an order. Returns its log, by the path that the
    process has."""
    process = root.process
    check(process)
    told = {**orders(root, tracer, order), "log": log, "frames": frames,
            "reachable": int(reachable)}
    # In memory, since the disk may be full.
    answer = os.memfd_create("tlsf-trace")
    try:
        told["answer"] = f"/proc/{os.getpid()}/fd/{answer}"
        words = ["gdb", "-nx", "-batch", "-iex", "set auto-load off", "-iex",
                 "set debuginfod enabled off", "-x", str(HERE / "in_gdb.py")]
        gdb = subprocess.Popen(words, env={**os.environ, "TLSF_IN_GDB": json.dumps(told)},
                               stdin=subprocess.DEVNULL, stdout=subprocess.DEVNULL,
                               stderr=subprocess.PIPE, text=True, errors="replace",
                               start_new_session=True)
        said = wait_for(gdb, process, told["answer"])
        kind, _, text = (lines_of(told["answer"]) or [""])[-1].partition(" ")
    finally:
        os.close(answer)
    if kind == "yes":
        return text
    if kind == "no" and not text.startswith(OF_GDB):
        raise Refused(f"process {process}: {text}")
    raise Refused(why_not(process, text.removeprefix(OF_GDB) if kind == "no" else said))
