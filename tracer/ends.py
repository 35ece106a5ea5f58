"""How a log of bin/trace ends: with `= End`; with a line that says it is cut, since its process
went on without it; or with neither, since something ended its process at once. It isn't proved."""
import errno
import os
import re

END, CUT = b"= End\n", b"@ cut ! (nil) 0\n"
WHOLE, ENDED, LEFT = "whole", "ended", "left"
# The last lines of a log whose ring, that of c/tlsf_log.h, had no room for so many calls.
MISSED = re.compile(rb"(?:^|\n)@ lost ! \(nil\) (0x[0-9a-f]{1,16})\n" + re.escape(CUT) + rb"\Z")
MISSED_BYTES = 64
# More than the longest line and what stands in front of it.
LAST_BYTES = 1 << 16
PIECE = 1 << 20
PACKED = {b"\x1f\x8b": "gzip", b"\xfd7zXZ\0": "xz", b"\x28\xb5\x2f\xfd": "zstd", b"BZh": "bzip2",
          b"PK\3\4": "zip"}


def end_of_bytes(log):
    """Where the zeros behind the lines of an open log begin: behind its last byte that isn't 0.
    Holes are passed over."""
    end = end_of_data(log.fileno(), log.seek(0, os.SEEK_END))
    while end > 0:
        start = max(0, end - PIECE)
        log.seek(start)
        kept = log.read(end - start).rstrip(b"\0")
        if kept:
            return start + len(kept)
        end = start
    return 0


def end_of_data(file, size):
    """Where the last part of a file that is no hole ends; all of it where the file system doesn't
    tell."""
    end = 0
    try:
        while end < size:
            end = os.lseek(file, os.lseek(file, end, os.SEEK_DATA), os.SEEK_HOLE)
    except OSError as error:
        return end if error.errno == errno.ENXIO else size
    return end


def whole_lines(last):
    """The bytes of whole lines: without a line that isn't ended, and the first line of a realloc
    without its second."""
    whole = last.rfind(b"\n") + 1
    before = last.rfind(b"\n", 0, max(0, whole - 1)) + 1
    return before if b" < " in b" " + last[before:whole] else whole


def end_of_lines(log):
    """Where the last whole line of an open log ends, and its last bytes up to there."""
    end = end_of_bytes(log)
    start = log.seek(max(0, end - LAST_BYTES))
    last = log.read(end - start)
    whole = whole_lines(last)
    return start + whole, last[:whole]


def how(last):
    """How a log with these last bytes ends."""
    return WHOLE if last.endswith(END) else LEFT if last.endswith(CUT) else ENDED


def how_it_ends(path):
    """The same of the log in a file, whether zeros stand behind its lines or not."""
    with open(path, "rb") as log:
        return how(end_of_lines(log)[1])


def last_bytes(path, count):
    """So many last bytes of a file."""
    with open(path, "rb") as log:
        log.seek(max(0, log.seek(0, os.SEEK_END) - count))
        return log.read()


def how_file_ends(path):
    """The same by the file's last bytes alone."""
    return how(last_bytes(path, len(CUT)))


def missed_calls(path):
    """How many calls a log says that it has lost, at least."""
    found = MISSED.search(last_bytes(path, MISSED_BYTES))
    return int(found[1], 16) if found else 0


def close_log(path):
    """Cuts off what stands behind the last whole line, and tells how the log ends."""
    with open(path, "rb+") as log:
        size = log.seek(0, os.SEEK_END)
        end, last = end_of_lines(log)
        if end < size:
            log.truncate(end)
        return how(last)


def copy_lines(log, copy):
    """Copies the whole lines of a log, which its process may still write."""
    with open(log, "rb") as source, open(copy, "wb+") as target:
        end = end_of_lines(source)[0]
        source.seek(0)
        while end > 0:
            piece = source.read(min(end, PIECE))
            target.write(piece)
            end -= len(piece)
            if not piece:
                break


def packed_by(path):
    """What packed a file, by its first bytes, or nothing."""
    with open(path, "rb") as file:
        head = file.read(6)
    return next((name for sign, name in PACKED.items() if head.startswith(sign)), None)


def has_zeros(path):
    """Whether zeros stand behind the lines of a log, as they do while it is written."""
    with open(path, "rb") as log:
        log.seek(max(0, log.seek(0, os.SEEK_END) - 2))
        return log.read() == b"\0\0"


def is_written(path):
    """Whether a process still writes a log: it has the file mapped. Of another user's processes
    only root knows that."""
    told = os.stat(path)
    device = f"{os.major(told.st_dev):02x}:{os.minor(told.st_dev):02x} {told.st_ino} "
    for process in filter(str.isdigit, os.listdir("/proc")):
        try:
            with open(f"/proc/{process}/maps", encoding="utf-8", errors="replace") as maps:
                if any(device in line for line in maps):
                    return True
        except OSError:
            pass
    return False
