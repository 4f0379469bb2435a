"""Compares what calls load from lent words, tables and keys with what they list.

usage: reads.py same|different BINARY NAME

The loads of a call must be its entries of words, tables and key, in the order of its list, one load for each. Loads from words
count from the call's first instruction on, and those from tables and key from the first store to the list on: the checks before
it read these, and are not listed. `same` succeeds where this holds for each call that the program makes, and `different` where
it holds for none: that shows that the comparison finds a call that reads otherwise.
"""
import array
import itertools
import re
import sys
import tempfile

# Importing it leaves nothing in its folder.
sys.dont_write_bytecode = True
from lackey import started

# The kinds of entries that are reads; the list itself has none.
LIST, WORD, CDT, POLYNOMIAL, KEY = 0, 2, 3, 4, 8
READS = {WORD, CDT, POLYNOMIAL, KEY}

ACCESS = re.compile(rb" ([LSM]) ([0-9a-f]+),(\d+)")


class Call:
    """A call by its name, its loads from lent memory, each as a kind and a place, and the number of its entries."""

    def __init__(self, name):
        self.name = name
        self.listing = False
        self.loads = []
        self.entries = None

    def access(self, lent, what, address, width):
        for kind, start, length, size in lent:
            if start - width < address < start + length:
                self.listing |= kind == LIST and what != b"L"
                if kind in READS and what != b"S" and (self.listing or kind == WORD):
                    first, last = ((byte - start) // size for byte in (address, address + width - 1))
                    self.loads.append((kind, first if first == last else f"{first} to {last}"))


def calls_in(trace):
    """The calls that the program marks in its trace, and the kinds of memory that it says is lent."""
    lent, calls = [], []
    for line in trace:
        if line.startswith(b"**"):
            mark, *rest = line.decode().split()[1:]
            if mark == "lent":
                lent.append([int(number) for number in rest])
            elif mark == "call":
                calls.append(Call(" ".join(rest)))
            elif mark == "returned":
                calls[-1].entries = int(rest[0])
        elif calls and calls[-1].entries is None and (access := ACCESS.match(line)):
            calls[-1].access(lent, access[1], int(access[2], 16), int(access[3]))
    return calls, {kind for kind, *_ in lent}


def kind_and_place(entry):
    return divmod(entry, 2**24)


def difference(loads, entries):
    """Where the loads of a call and its entries of reads first differ, or None."""
    listed = [(kind, place) for kind, place in map(kind_and_place, entries) if kind in READS]
    for i, (load, read) in enumerate(itertools.zip_longest(loads, listed, fillvalue="none")):
        if load != read:
            return f"load {i} is {load}, and the entry {read}"
    return None if listed else "nothing is listed"


def main():
    wanted, command = sys.argv[1], sys.argv[2:]
    with tempfile.TemporaryFile() as output:
        run, trace = started(command, output)
        calls, lent = calls_in(trace)
        status = run.wait()
        if status or not calls or lent != {LIST, *READS}:
            sys.exit(f"{' '.join(command)}: status {status}, {len(calls)} calls, lent kinds {lent}: there is nothing to compare")
        output.seek(0)
        lists = [array.array("I", output.read(4 * call.entries)) for call in calls]
    differences = [difference(call.loads, entries) for call, entries in zip(calls, lists)]
    for call, found in zip(calls, differences):
        print(f"{call.name}: {len(call.loads)} loads: {found or 'as listed, and in order'}")
    return 0 if differences.count(None) == (len(calls) if wanted == "same" else 0) else 1


sys.exit(main())
