"""runner.py SCRIPT [aarch64] [WORD..]: runs the modules of tests/SCRIPT.d by pytest, and counts.

Cases that measure, or fill the machine, run behind the others, one after the other. With aarch64
the program is that for 64-bit ARM, by QEMU, and so are the cases.
"""
import os
import shutil
import subprocess
import sys
import tempfile
from pathlib import Path

import pytest

import cases

TESTS = Path(__file__).resolve().parent
AT_ONCE = min(4, os.cpu_count() or 1)
# What a machine lacks for 64-bit ARM is told as one skipped case.
FOR_ARM = ("qemu-aarch64-static", "aarch64-linux-gnu-gcc")
# What reads the sources alone needs no program, so that none is built for it.
WITHOUT_PROGRAM = ("touches",)


class Tally:
    """Counts what the cases of all runs found."""

    def __init__(self):
        self.passed = self.failed = 0
        self.told = []

    def tell(self, text, failed=False):
        """A line before the last one."""
        self.failed += failed
        self.told.append(f"FAILED: {text}" if failed else text)

    def skip(self, text):
        """A case that isn't tried, which is a failure where CI is set."""
        self.tell(f"skipped: {text}", failed=bool(os.environ.get("CI")))

    def pytest_runtest_logreport(self, report):
        """Of a test that compares many things each counts; of any other the test itself."""
        if report.skipped:
            self.skip(report.longrepr[2].removeprefix("Skipped: "))
        elif report.when != "call":
            self.failed += report.failed
        else:
            passed, failed, skips = dict(report.user_properties).get("cases", (0, 0, []))
            for text in skips:
                self.skip(text)
            self.passed += passed or (report.passed and not skips)
            self.failed += failed or report.failed

    def pytest_collectreport(self, report):
        """A module that can't be read."""
        self.failed += report.failed

    def close(self):
        """The last lines, and the status."""
        print("", *self.told, f"{self.passed} passed, {self.failed} failed", sep="\n", flush=True)
        return int(self.failed > 0 or not self.passed)


def run(tally, words):
    """One run of pytest. Where it breaks off, that is a failure."""
    folder = tempfile.mkdtemp()
    try:
        status = pytest.main([*words, f"--basetemp={folder}/cases"], plugins=[tally])
    finally:
        shutil.rmtree(folder, ignore_errors=True)
    good = (pytest.ExitCode.OK, pytest.ExitCode.TESTS_FAILED, pytest.ExitCode.NO_TESTS_COLLECTED)
    if status not in good:
        tally.tell(f"pytest ends with {int(status)}", failed=True)


def by_qemu(folder):
    """A script that runs the program for 64-bit ARM; nothing where that can't be built."""
    built = subprocess.run([TESTS.parent / "scripts/program", "aarch64"], check=False,
                           stdout=subprocess.PIPE)
    if built.returncode:
        return None
    script = Path(folder) / "by_qemu"
    script.write_text("#!/bin/sh\nexec qemu-aarch64-static -L /usr/aarch64-linux-gnu "
                      f'"{built.stdout.decode().strip()}" "$@"\n')
    script.chmod(0o755)
    return str(script)


def run_all(tally, script, words, chosen):
    """The cases that may run side by side, and then those that may not."""
    first = ["-c", str(TESTS / "pytest.ini"), str(TESTS / f"{script}.d")]
    side_by_side = ["-n", str(AT_ONCE), "-m", f"({chosen}) and not alone"]
    run(tally, [*first, *side_by_side, *words])
    run(tally, [*first, *words, "-n", "0", "-m", f"({chosen}) and alone"])
    if not tally.passed and not tally.failed and not tally.told:
        tally.tell("no case has this name", failed=True)


def run_for_arm(tally, script, words):
    """The cases that QEMU can run."""
    lacking = cases.lacking(*FOR_ARM)
    if lacking:
        tally.skip(f"the program for 64-bit ARM: no {lacking}")
        return
    with tempfile.TemporaryDirectory() as folder:
        os.environ["TLSF"] = by_qemu(folder) or ""
        if os.environ["TLSF"]:
            run_all(tally, script, words, "(arm or both) and not x86")
        else:
            tally.tell("the program for 64-bit ARM can't be built", failed=True)


def main():
    script, *words = sys.argv[1:]
    tally = Tally()
    if words[:1] == ["aarch64"]:
        run_for_arm(tally, script, words[1:])
    else:
        # It is built before four cases ask for it.
        if script not in WITHOUT_PROGRAM:
            cases.program_of()
        run_all(tally, script, words, "not arm")
    sys.exit(tally.close())


main()
