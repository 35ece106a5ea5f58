"""Runs of the program that is tried, for the test modules of tests/program.d."""
import os
import subprocess
from pathlib import Path

from cases import HOME, TESTS, expect, expect_that, program_of

PROGRAM = program_of()
LOGS = TESTS / "logs"
SECONDS = 120
# What TLSF_CAUSES=1 adds behind a fault's line.
CAUSES = {"TLSF_CAUSES": "1"}


def run(*words, program=PROGRAM, env=None, **streams):
    """Status, standard output and standard error of the program with these words."""
    ended = subprocess.run([program, *map(os.fspath, words)], check=False, timeout=SECONDS,
                           env={**os.environ, **(env or {})}, **as_pipes(streams))
    return ended.returncode, ended.stdout, ended.stderr


def as_pipes(streams):
    """The words of `subprocess.run`, where what isn't told is a pipe, or holds nothing."""
    if "input" not in streams:
        streams.setdefault("stdin", subprocess.DEVNULL)
    streams.setdefault("stdout", subprocess.PIPE)
    streams.setdefault("stderr", subprocess.PIPE)
    return streams


def shell(line, folder="."):
    """The same of a line of the shell, which begins in this folder and has `tlsf` on its path."""
    tools = Path("tools").resolve()
    tools.mkdir(exist_ok=True)
    if not (tools / "tlsf").exists():
        (tools / "tlsf").symlink_to(PROGRAM)
    path = f"{tools}:{os.environ['PATH']}"
    return run("-c", line, program="sh", cwd=folder, env={"PATH": path})


def expect_run(name, found, status, stdout=b"", stderr=b""):
    """One case: what a run left is this."""
    for what, is_so, wanted in zip(("status", "standard error", "standard output"),
                                   (found[0], found[2], found[1]), (status, stderr, stdout)):
        if is_so is not None and is_so != wanted:
            expect(f"{name}: {what}", is_so, wanted)
            return
    expect(name, True, True)


def shown_in_docs(words):
    """The report that docs/LOG.md shows of tests/logs/sensor.log for words that begin so."""
    lines = (HOME / "docs/LOG.md").read_text().split("\n")
    begin = next(number for number, line in enumerate(lines)
                 if line.startswith(f"    ./tlsf {words}") and "sensor.log" in line)
    text = []
    for line in lines[begin + 1:]:
        if line and not line.startswith(" "):
            break
        text += [line[4:]] if line else []
    return "".join(f"{line}\n" for line in text).encode()


def log_of_400():
    """A log of 400 blocks of 0 to 399 bytes, where each tenth line is none, and its report."""
    lines, wrong, held = ["= Start"], [], []
    for k in range(400):
        lines.append(f"@ ./prog:[0x{k:x}] + 0x{4096 + 16 * k:x} {f'0x{k:x}' if k else '0'}")
        held.append(f"0x{4096 + 16 * k:x} {k} line {len(lines)} at ./prog:[0x{k:x}]")
        if k % 10 == 9:
            lines.append("+ 0x0 0x1")
            wrong.append(f"line {len(lines)}: not a line")
    held = ["Memory not freed:", *held, f"Total: 400 blocks, {sum(range(400))} bytes."]
    return text_of(lines), text_of(wrong + held)


def text_of(lines):
    """These lines, as bytes."""
    return "".join(f"{line}\n" for line in lines).encode()


def preloaded(name, folder="."):
    """The library of tests/NAME.c, in this folder, to be loaded in front of the program."""
    library = Path(folder, f"{name}.so").resolve()
    subprocess.run(["cc", "-shared", "-fPIC", "-o", library, TESTS / f"{name}.c", "-ldl"],
                   check=True)
    return str(library)


def notes_of(text):
    """What is wrong with lines, of a report."""
    return b"".join(line for line in text.splitlines(True) if b"not a line" in line)


def each_call_fails(log, *words):
    """Each read and each write fails in turn, in each reading, and each moves one byte. A read that
    fails leaves whole diagnostics; a write that fails a beginning of the text."""
    Path("log").write_bytes(log)
    front = {"LD_PRELOAD": preloaded("faulty_io")}
    whole = run(*words, "log", env={**front, "IO_COUNT": "count"})[1]
    reads, writes = map(int, Path("count").read_text().split())
    expect_that("its reads and writes are counted", reads and writes)
    texts = {(3, b"tlsf: read failed\n"): notes_of(whole), (3, b"tlsf: write failed\n"): whole}
    for call in range(1, reads + writes + 1):
        status, written, told = run(*words, "log", env={**front, "IO_FAIL": str(call)})
        text = texts.get((status, told))
        expect_that(f"{' '.join(words)}: call {call} fails: {status}, {told}",
                    text is not None and text.startswith(written))
        moved = run(*words, "log", env={**front, "IO_SHORT": str(call)})[1]
        expect(f"{' '.join(words)}: call {call} moves one byte", moved, whole)


def changes_while_read(log, *words):
    """The run of these words reads a log more than once. What comes behind the end that the first
    reading told changes nothing. A later reading with a line less is a failed read, which leaves
    whole diagnostics."""
    path = Path("log")
    path.write_bytes(log)
    front = {"LD_PRELOAD": preloaded("faulty_io")}
    whole = run(*words, "log", env={**front, "IO_COUNT": "count"})[1]
    reads = int(Path("count").read_text().split()[0])
    expect_that(f"{words}: its reads are counted", reads > 1)
    for call in range(2, reads + 1):
        grows = {**front, "IO_GROW": "log", "IO_GROW_AT": str(call)}
        expect_run(f"{words}: the log has a line more behind call {call}",
                   run(*words, "log", env=grows), 1, whole)
        expect_that(f"{words}: call {call} lets the log grow", path.read_bytes() != log)
        path.write_bytes(log)
    fewer = len(log) - len(log.splitlines(True)[-1])
    told = b"tlsf: read failed\ntlsf: log has fewer lines than when it was read first\n"
    for call in range(1, reads):
        cuts = {**front, **CAUSES, "IO_CUT": "log", "IO_CUT_AT": str(call), "IO_CUT_TO": str(fewer)}
        expect_run(f"{words}: the log has a line less behind call {call}",
                   run(*words, "log", env=cuts), 3, notes_of(whole), told)
        path.write_bytes(log)


def reads_standard_input(*words):
    """These words read a log more than once. Where it is a file on standard input, wherever that
    stands, they write what they write of it by name."""
    Path("log").write_bytes(log_of_400()[0])
    status, wanted, _ = run(*words, "log")
    expect_that(f"{words}: there is a report", wanted)
    for name, line in (("a file on standard input", "- <log"),
                       ("of which a line is read", "-- -"),
                       ("a file by way of /dev/stdin", "/dev/stdin <log")):
        line = f"tlsf {' '.join(words)} {line}"
        line = f"{{ read -r _; {line}; }} <log" if "--" in line.split()[-2:] else line
        expect_run(f"{words}: {name}", shell(line), status, wanted)


def named_pipe(name, content):
    """A named pipe, and the process that writes this to it."""
    os.mkfifo(name)
    writer = subprocess.Popen(["sh", "-c", f'exec cat >"{name}"'], stdin=subprocess.PIPE)
    try:
        writer.stdin.write(content)
        writer.stdin.close()
    except BrokenPipeError:
        pass
    return writer
