"""Tables of what is measured: printed row by row, and put into a page below the heading that they
stand under there."""
import os
import re
import subprocess
import textwrap
from datetime import date
from pathlib import Path

HOME = Path(__file__).resolve().parent.parent.parent
WIDTH = 100
MEASURED = "Measured on "


def version_of(name, words):
    """A program with its version, or nothing where it isn't there."""
    try:
        told = subprocess.run(words, capture_output=True, text=True,
                              check=False).stdout.split("\n")[0]
    except OSError:
        return None
    found = re.search(r"\d+\.\d+(?:\.\d+)*(?=\D*$)", told)
    return f"{name} {found[0]}" if found else None


def processor():
    """The name of the processor, as Linux has it."""
    found = re.search(r"^model name\s*: (.*)", Path("/proc/cpuinfo").read_text(), re.M)
    name = re.sub(r"\((?:R|TM)\)|\bProcessor\b|\bCPU\b", "",
                  found[1] if found else os.uname().machine)
    return " ".join(name.replace("@", "").split())


def measured_here():
    """When, and on which machine."""
    versions = [version_of("gcc", ["gcc", "--version"]), version_of("glibc", ["ldd", "--version"]),
                version_of("heaptrack", ["heaptrack", "--version"])]
    told = " and ".join(filter(None, [", ".join(version for version in versions[:-1] if version),
                                      versions[-1]]))
    day = date.today()
    return (f"{MEASURED}{day.day} {day:%B %Y} on {os.cpu_count()} processors ({processor()}), with "
            f"{told}.")


class Page:
    """A page whose tables are written anew; without a path they are printed alone."""

    def __init__(self, path=None):
        self.path = Path(path) if path else None
        self.lines = self.path.read_text().split("\n") if path else []

    def table(self, heading, head, rows, which=0):
        """Prints a table, each row as soon as it is known, and puts it in the place of the one
        below a heading: the first, or another."""
        lines = [" | ".join(head), "|".join(["---"] * len(head))]
        print("\n".join(lines))
        for row in rows:
            lines.append(" | ".join(row))
            print(lines[-1], flush=True)
        print()
        if self.path:
            self.put(heading, lines, which)

    def put(self, heading, lines, which):
        start, end = self.section(heading)
        places = [at for at in range(start, end) if set(self.lines[at]) == {"-", "|"}]
        if len(places) <= which:
            raise SystemExit(f"{self.path}, \"{heading}\": there is no table {which + 1}")
        first, last = places[which] - 1, places[which] + 1
        while last < end and " | " in self.lines[last]:
            last += 1
        self.lines[first:last] = lines
        self.write()

    def section(self, heading):
        """Where a heading stands, and where the next one does."""
        start = self.lines.index(f"## {heading}")
        return start, next((at for at in range(start + 1, len(self.lines))
                            if self.lines[at].startswith("#")), len(self.lines))

    def tell_machine(self):
        """Puts the machine in the place of the paragraph that names the last one."""
        print(measured_here() + "\n")
        if not self.path:
            return
        start = next((at for at, line in enumerate(self.lines) if line.startswith(MEASURED)), None)
        if start is None:
            raise SystemExit(f"{self.path} has no paragraph that begins with {MEASURED!r}")
        self.lines[start:self.lines.index("", start)] = textwrap.wrap(measured_here(), WIDTH,
                                                                      break_long_words=False,
                                                                      break_on_hyphens=False)
        self.write()

    def write(self):
        self.path.write_text("\n".join(self.lines))
