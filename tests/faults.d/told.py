"""Two logs, and what the program has to write of them: reckoned here, and not by the program."""
from dataclasses import dataclass, field

from runs import text_of

# The program reads pieces of so many bytes.
PIECE = 4096
POOL = 16777216
NO_BLOCKS = ["served: 0", "refused: 1500", "live: 0 bytes in 0 blocks", "peak: 0 bytes at line 0",
             "high place: 0", f"free: {POOL} bytes in 1 blocks", f"largest free: {POOL}",
             "spread: -"]
A_THOUSAND = ["served: 1000", "refused: 0", "live: 8000 bytes in 1000 blocks",
              "peak: 8000 bytes at line 1100", "high place: 16000",
              f"free: {POOL - 16000} bytes in 1 blocks", f"largest free: {POOL - 16000}",
              "spread: 2000"]


@dataclass
class Log:
    """A log. A diagnostic is a text, with the number of the line at which it is told."""
    content: bytes
    notes: list
    reports: dict = field(default_factory=dict)
    # How many requests the heap refuses.
    refused: int = 0

    def lines(self):
        """How many lines it has."""
        return self.content.count(b"\n")

    def pulls(self):
        """How often it is read: the last read tells its end."""
        return pieces_of(len(self.content), PIECE) + 1

    def all_notes(self):
        """All of its diagnostics."""
        return text_of(text for _, text in self.notes)

    def notes_of(self, pieces):
        """The diagnostics of its first pieces."""
        lines = self.content[:PIECE * pieces].count(b"\n")
        return text_of(text for told, text in self.notes if told <= lines)

    def add_reports(self, leaks, peak, walk):
        """What each report has behind the diagnostics."""
        peak = [f"lines: {self.lines()}", *peak]
        for name, lines in (("leaks", leaks), ("peak", peak), ("walk", walk)):
            self.reports[name] = self.all_notes() + text_of(lines)


def pieces_of(length, size):
    """How many pieces of this size so many bytes are."""
    return -(-length // size)


def few():
    """1,000 blocks of 8 bytes, behind each tenth a line that is none; a half of a reallocation in
    the middle and one at the end, each of which is told at the line behind it. All diagnostics fit
    into the buffer of standard output."""
    lines, notes, held = [], [], []
    for k in range(1, 1001):
        lines.append(f"@ ./prog:[0x1] + 0x{16 * k:x} 0x8")
        held.append(f"0x{16 * k:x} 8 line {len(lines)} at ./prog:[0x1]")
        if k % 10 == 0:
            lines.append("x")
            notes.append((len(lines), f"line {len(lines)}: not a line"))
        if k in (500, 1000):
            lines.append("< 0x7" if k == 500 else "< 0x9")
            notes.append((len(lines) + 1, f"line {len(lines)}: half of a reallocation"))
    log = Log(text_of(lines), notes)
    rows = [f"{16 * k} 16 used" for k in range(1000)]
    log.add_reports(["Memory not freed:", *held, "Total: 1000 blocks, 8000 bytes."], A_THOUSAND,
                    [f"pool 0: {POOL} bytes", *rows, f"16000 {POOL - 16000} free"])
    return log


def many():
    """3,000 lines without effect, each second one refused: the diagnostics are written while the
    log is read."""
    lines, notes = [], []
    for k in range(1, 3001):
        lines.append("- 0x1" if k % 2 else "* 0x1 0x3 0x8")
        wrong = "is not held" if k % 2 else "refused: bad alignment"
        notes.append((k, f"line {k}: 0x1 {wrong}"))
    log = Log(text_of(lines), notes, refused=1500)
    log.add_reports(["No memory leaks."], NO_BLOCKS,
                    [f"pool 0: {POOL} bytes", f"0 {POOL} free"])
    return log


LOGS = {"few": few(), "many": many()}
