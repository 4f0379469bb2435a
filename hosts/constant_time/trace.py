"""Runs a program with several secrets, and compares what each run executes and which addresses it reads and writes.

usage: trace.py same|different BINARY ARGUMENT.. -- SEED SEED..

The whole trace of a run, from the program's first instruction to its last, is compared. `same` succeeds where all traces are
equal, and `different` where the first differs from every other: that shows that the comparison finds a leak. The runs go side
by side, and their traces are compared line by line as they come.
"""
import itertools
import sys

# Importing it leaves nothing in its folder.
sys.dont_write_bytecode = True
from lackey import started


def lines(trace):
    """The lines of a trace, without those of valgrind's own at its start and end."""
    return (line for line in trace if not line.startswith(b"=="))


def differences(traces):
    """For each trace but the first: the number of the first line that differs from the first trace's, and both lines; or None.
    Last, the number of lines."""
    found = [None] * (len(traces) - 1)
    count = 0
    for row in itertools.zip_longest(*traces, fillvalue=b"the end"):
        count += 1
        if row.count(row[0]) != len(row):
            for i, line in enumerate(row[1:]):
                if line != row[0] and found[i] is None:
                    found[i] = (count, row[0].decode().strip(), line.decode().strip())
    return found, count


def main():
    split = sys.argv.index("--")
    wanted, command, seeds = sys.argv[1], sys.argv[2:split], sys.argv[split + 1:]
    runs = [started([*command, seed]) for seed in seeds]
    found, count = differences([lines(trace) for _, trace in runs])
    statuses = [run.wait() for run, _ in runs]
    equal = found.count(None)
    print(f"{' '.join(command)}: {len(seeds)} traces, {count} lines, {equal} of {len(found)} equal to the first")
    for seed, difference in zip(seeds[1:], found):
        if difference:
            print("    line {}: '{}' with seed {}, '{}' with seed {}".format(*difference[:2], seeds[0], difference[2], seed))
    if any(statuses) or count < 10000:
        sys.exit(f"{' '.join(command)}: statuses {statuses}, {count} lines: these are no traces to compare")
    return 0 if found and equal == (len(found) if wanted == "same" else 0) else 1


sys.exit(main())
