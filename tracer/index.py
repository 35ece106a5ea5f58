"""The list that the tracer writes of processes and their logs. It isn't proved."""
import os
from pathlib import Path


def entries_of(index):
    """Process, log and program of each entry; without a log is one that wasn't traced. An entry
    without either takes back the one before it. An OSError tells that the list can't be read."""
    words = Path(index).read_bytes().split(b"\0")
    thirds = zip(words[0::3], words[1::3], words[2::3])
    kept = []
    for process, log, program in ((int(process), os.fsdecode(log), os.fsdecode(program))
                                  for process, log, program in thirds):
        if log or program:
            kept.append((process, log, program))
        else:
            at = max((at for at, entry in enumerate(kept) if entry[0] == process and not entry[1]),
                     default=None)
            kept = kept if at is None else kept[:at] + kept[at + 1:]
    return kept
