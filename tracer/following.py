"""A program that is followed: tlsf-follow takes the lines of its calls from memory, and gives them
to tlsf while it runs. It isn't proved."""
import contextlib
import os
import re
import shutil
import signal
import subprocess
import tempfile

FOLLOWER = "tlsf-follow"
ROOM, FOLDER = "/dev/shm", "tlsf-trace-"
UNITS = {"ms": 1, "s": 1000, "m": 60_000, "h": 3_600_000, "d": 86_400_000}
SIZES = {"": 1, "k": 1 << 10, "M": 1 << 20, "G": 1 << 30}
RING = "4M"
WHOLE, ENDED, CUT, LOST = "whole", "ended", "cut", "lost"


class Refused(Exception):
    """Why nothing can be followed."""


def milliseconds_of(text):
    """A time, as `10m` or `500ms`, in milliseconds. A ValueError tells that it is none."""
    found = re.fullmatch("([1-9][0-9]{0,8})(ms|s|m|h|d)", text)
    if not found:
        raise ValueError
    return int(found[1]) * UNITS[found[2]]


def size_of(text):
    """A size, as `4M`, in bytes. A ValueError tells that it is none."""
    found = re.fullmatch("([1-9][0-9]{0,8})([kMG]?)", text)
    if not found:
        raise ValueError
    return int(found[1]) * SIZES[found[2]]


def bytes_of(text):
    """The size of a ring, likewise: 4 GB at most."""
    size = size_of(text)
    if size > 1 << 32:
        raise ValueError
    return size


def make_folder(folder):
    """The folder of reports: a new one, or an empty one."""
    try:
        os.makedirs(folder, exist_ok=True)
        if os.listdir(folder):
            raise Refused(f"{folder} isn't empty: name another folder")
    except OSError as error:
        raise Refused(f"{folder}: {error.strerror}") from None


def report_in(folder, ring):
    """The report of the process that made a ring, in the folder of reports."""
    return os.path.join(folder, os.path.basename(ring).removesuffix("ring") + "report")


def is_ring(log):
    """Whether a log, by what its process calls it, is a ring of a follower."""
    return log.startswith(f"{ROOM}/{FOLDER}") and log.endswith(".ring")


def states_in(folder):
    """How each ring ended, and whether it had calls, by its name."""
    try:
        with open(os.path.join(folder, "states"), encoding="utf-8") as lines:
            return {name: (how, calls == "calls") for name, how, calls in map(str.split, lines)}
    except FileNotFoundError:
        return {}


class Follower:
    """A follower that runs. Each process has the name of its ring, and by it a report."""

    def __init__(self, program, folder, consumer, options):
        """By the path of tlsf-follow, the folder, the words of tlsf, and options. A Refused tells
        why it can't be started."""
        make_folder(folder)
        self.folder = folder
        try:
            self.rings = tempfile.mkdtemp(prefix=FOLDER, dir=ROOM)
        except OSError as error:
            raise Refused(f"{ROOM}: {error.strerror}") from None
        try:
            self.process = subprocess.Popen(
                [program, *options, self.rings, folder, *consumer], stdin=subprocess.DEVNULL,
                stdout=subprocess.PIPE, start_new_session=True)
        except OSError as error:
            shutil.rmtree(self.rings)
            raise Refused(f"{program}: {error.strerror}") from None
        with self.process.stdout as told:
            if told.readline() != b"ready\n":
                self.process.wait()
                shutil.rmtree(self.rings)
                raise Refused("the follower can't begin")

    @property
    def log(self):
        """What TLSF_TRACE_LOG is to be."""
        return f"ring:{self.rings}/%p.ring"

    def order(self, number):
        """Sends a signal: SIGUSR1 for a report now, SIGTERM to end with the last process, SIGINT to
        end at once."""
        if self.process.poll() is None:
            self.process.send_signal(number)

    def tell_stopped(self, say):
        """Says, at SIGCHLD, that a signal has stopped the follower, if one just has."""
        with contextlib.suppress(ChildProcessError):
            if os.waitid(os.P_PID, self.process.pid, os.WSTOPPED | os.WNOHANG):
                say("the follower is stopped by a signal, so the program may have to wait")

    def is_over(self, seconds):
        """Whether it has ended, within seconds."""
        try:
            self.process.wait(timeout=seconds)
            return True
        except subprocess.TimeoutExpired:
            return False

    def drop(self):
        """Ends it where nothing can be followed."""
        self.order(signal.SIGINT)
        self.process.wait()
        shutil.rmtree(self.rings, ignore_errors=True)

    def end(self, say):
        """Waits for the last process, and says so: whether all lines were taken."""
        self.order(signal.SIGTERM)
        if not self.is_over(1):
            say("the program has ended; what it left is followed until that ends, or until ^C")
            for number in (signal.SIGINT, signal.SIGQUIT, signal.SIGTERM, signal.SIGHUP):
                signal.signal(number, lambda *_: self.order(signal.SIGINT))
            self.process.wait()
        return self.process.returncode == 0

    def states(self):
        """How each ring ended. Then nothing is left of the rings."""
        shutil.rmtree(self.rings, ignore_errors=True)
        return states_in(self.folder)
