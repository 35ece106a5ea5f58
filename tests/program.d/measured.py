"""How long a program takes, for the scripts beside this file."""
import resource
import subprocess

# A run that takes longer is ended.
MOST_SECONDS = 60


def least_time(words, runs=1, rounds=3, **options):
    """The processor time of so many runs of a program, in seconds: the least of some rounds."""
    times = []
    for _ in range(rounds):
        before = resource.getrusage(resource.RUSAGE_CHILDREN)
        for _ in range(runs):
            subprocess.run(words, stdout=subprocess.DEVNULL, timeout=MOST_SECONDS, check=False,
                           **options)
        after = resource.getrusage(resource.RUSAGE_CHILDREN)
        times.append(after.ru_utime + after.ru_stime - before.ru_utime - before.ru_stime)
    return min(times)
