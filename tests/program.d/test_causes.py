"""Each fault's line, whole: alone where standard error is a file or a pipe, and with its cause
behind it on a terminal or where TLSF_CAUSES=1 is set."""
import os
import pty
import re
import subprocess
from pathlib import Path

import pytest

from cases import expect
from runs import CAUSES, PROGRAM, run

pytestmark = pytest.mark.both
NO_FILE = "No such file or directory (os error 2)"
NO_ROOM = "No space left on device (os error 28)"
A_FOLDER = "tlsf: folder: Is a directory (os error 21)"
# What progress tells on a terminal.
NOTICE = rb"\r\x1b\[K(tlsf: \d+ lines, \d+ kB read[^\r]*)?"
READ, WRITTEN, BAD = "tlsf: read failed", "tlsf: write failed", "tlsf: bad settings"
ON_A_HEAP = ["leaks", "peak", "walk", "sites", "timeline"]


def on_terminal(words, to):
    """Status and what is shown, with standard error on a terminal, without the notices."""
    terminal, end = pty.openpty()
    with open(to, "wb") as stream:
        ended = subprocess.run([PROGRAM, *words], check=False, stdin=subprocess.DEVNULL,
                               stdout=stream, stderr=end)
    os.close(end)
    said = b""
    try:
        while piece := os.read(terminal, 4096):
            said += piece
    except OSError:
        pass
    os.close(terminal)
    return ended.returncode, re.sub(NOTICE, b"", said.replace(b"\r\n", b"\n"))


def to_a_file(words, to, **env):
    """The same, with standard error in a file."""
    with open("said", "wb") as said, open(to, "wb") as stream:
        status = run(*words, stdout=stream, stderr=said, env=env)[0]
    return status, Path("said").read_bytes()


def to_a_pipe(words, to):
    """The same, with standard error in a pipe."""
    with open(to, "wb") as stream:
        status, _, said = run(*words, stdout=stream)
    return status, said


def tells(status, line, cause, words, to="/dev/null"):
    """What these words tell, five ways. Standard output goes to a file of this name."""
    Path("log").write_text("+ 0x10 0x8\n")
    Path("folder").mkdir(exist_ok=True)
    words = words.split()
    alone, both = f"{line}\n".encode(), f"{line}\n{cause}\n".encode()
    for where, found, wanted in (
            ("to a file", to_a_file(words, to), alone),
            ("to a pipe", to_a_pipe(words, to), alone),
            ("with TLSF_CAUSES=0", to_a_file(words, to, TLSF_CAUSES="0"), alone),
            ("with TLSF_CAUSES=1", to_a_file(words, to, **CAUSES), both),
            ("on a terminal", on_terminal(words, to), both)):
        expect(f"{' '.join(words)}: {where}", found, (status, wanted))


@pytest.mark.parametrize("report", [*ON_A_HEAP, "leaks --no-heap", "peak --no-heap",
                                    "fit --heaps 2", "fit"])
def test_reports(report):
    tells(3, "tlsf: cannot open missing", f"tlsf: missing: {NO_FILE}", f"{report} missing")
    tells(3, READ, A_FOLDER, f"{report} folder")
    tells(3, WRITTEN, f"tlsf: standard output: {NO_ROOM}", f"{report} log", to="/dev/full")


@pytest.mark.parametrize("report", ON_A_HEAP)
def test_settings(report):
    tells(2, BAD, "tlsf: --pool 24 is no multiple of 16", f"{report} --pool 24 log")


@pytest.mark.x86
@pytest.mark.parametrize("report", ON_A_HEAP)
def test_memory(report):
    """Where memory lacks there is no cause, however it is asked for."""
    Path("log").write_text("+ 0x10 0x8\n")
    Path("short").write_text(f'#!/bin/sh\nulimit -v 4000\nexec {PROGRAM} "$@"\n')
    words = [report, "--records", "65535", "log"]
    line = b"tlsf: out of memory\n"
    for where, env in (("alone", {}), ("with TLSF_CAUSES=0", {"TLSF_CAUSES": "0"}),
                       ("with TLSF_CAUSES=1", CAUSES)):
        status, _, told = run("short", *words, program="sh", env=env)
        expect(f"{report}: {where}", (status, told), (4, line))
    with open("said", "wb") as said:
        status = run("short", *words, program="sh", stderr=said)[0]
    expect(f"{report}: to a file", (status, Path("said").read_bytes()), (4, line))
    terminal, end = pty.openpty()
    ended = subprocess.run(["sh", "short", *words], check=False, stdout=subprocess.DEVNULL,
                           stderr=end)
    os.close(end)
    told = os.read(terminal, 4096).replace(b"\r\n", b"\n")
    os.close(terminal)
    expect(f"{report}: on a terminal", (ended.returncode, told), (4, line))


@pytest.mark.parametrize("status, line, cause, words", [
    (2, BAD, "--records 1 is less than --pools 2", "leaks --records 1 --pools 2 log"),
    (2, BAD, "--pool 1073741808 times --pools 8 is more than 4294967296",
     "peak --pool 1073741808 --pools 8 log"),
    (2, BAD, "--step 24 is no multiple of 16", "fit --step 24 log"),
    (2, BAD, "--align 24 is no power of two from 1 to 536870912",
     "size --blocks 6 --largest 64 --align 24"),
    (2, BAD, "--pool 24 is no multiple of 16", "save --pool 24 log image"),
    (3, "tlsf: cannot open missing", f"missing: {NO_FILE}", "save missing image"),
    (3, "tlsf: cannot open no/image", f"no/image: {NO_FILE}", "save log no/image"),
    (3, "tlsf: cannot open log", "log: image file is input file", "save log log"),
    (3, WRITTEN, f"/dev/full: {NO_ROOM}", "save log /dev/full"),
    (3, "tlsf: cannot open missing", f"missing: {NO_FILE}", "check missing"),
    # An image is always a file's name, so this one isn't standard input.
    (3, "tlsf: cannot open -", f"-: {NO_FILE}", "check -"),
    (3, READ, "folder: Is a directory (os error 21)", "check folder")])
def test_others(status, line, cause, words):
    tells(status, line, f"tlsf: {cause}", words)
