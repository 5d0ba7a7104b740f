"""What the benchmarks of the commands share: the seconds and processor seconds of a run."""

import os
import resource
import subprocess
import sys
import time


def measure(words, cwd=None):
    """Runs the words: seconds, processor seconds (user and system), and what was printed."""
    before = resource.getrusage(resource.RUSAGE_CHILDREN)
    start = time.perf_counter()
    done = subprocess.run(words, cwd=cwd, stdout=subprocess.PIPE, text=True)
    wall = time.perf_counter() - start
    after = resource.getrusage(resource.RUSAGE_CHILDREN)
    if done.returncode != 0:
        sys.exit(f"{' '.join(words)} ends with {done.returncode}: {done.stdout.strip()}")
    cpu = after.ru_utime + after.ru_stime - before.ru_utime - before.ru_stime
    return wall, cpu, done.stdout


def best(words, target, rounds, by=1):
    """The best of some runs by processor seconds, or by seconds where `by` is 0. The target is removed before each."""
    found = None
    for _ in range(rounds):
        if os.path.exists(target):
            os.remove(target)
        run = measure(words)
        if found is None or run[by] < found[by]:
            found = run
    return found
