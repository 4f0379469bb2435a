"""Counts the multiplications and the jumps of both exponentials in the archive.

usage: multiplications.py ARCHIVE

The library writes a product of two words as one of 128 bits, and the compiler makes one multiplication of it, since it sees that both
factors are words. Where it doesn't, it makes four or a call: right, and slow. And a division takes a time that depends on its numbers,
on many processors: the archive has none.
"""
from collections import Counter
import re
import subprocess
import sys

# Of R * N, of each step of the evaluation, and of six squarings. By N alone the table is constant, and its first product is folded;
# the one jump is the test of the limit.
EXPECTED = {
    "exponential::exp_listed": {"mul": 27, "imul": 0, "jump": 0, "call": 0},
    "bliss_exponential": {"mul": 26, "imul": 0, "jump": 1, "call": 0},
}

HEADING = re.compile(r"[0-9a-f]+ <(.+)>:")
INSTRUCTION = re.compile(r"\s+[0-9a-f]+:\s+([a-z]\w*)")
KINDS = {"mul": "mulq?|mulx", "imul": "imulq?", "jump": "j[a-z]+", "call": "callq?", "div": "i?div[qlwb]?"}


def kind_of(name):
    return next((kind for kind, names in KINDS.items() if re.fullmatch(names, name)), None)


def counts_of(archive):
    """How many instructions of each kind each function of the archive has."""
    text = subprocess.run(["objdump", "-d", "--no-show-raw-insn", archive], stdout=subprocess.PIPE, text=True, check=True).stdout
    functions = {}
    for line in text.splitlines():
        if heading := HEADING.fullmatch(line):
            counts = functions.setdefault(heading[1], Counter())
        elif instruction := INSTRUCTION.match(line):
            counts[kind_of(instruction[1])] += 1
    return functions


def main(archive):
    functions = counts_of(archive)
    for function, expected in EXPECTED.items():
        if function not in functions:
            sys.exit(f"{archive} has no function {function}")
        found = {kind: functions[function][kind] for kind in expected}
        if found != expected:
            sys.exit(f"{function} has {found}, and not {expected}")
        print(f"{function}: {', '.join(f'{count} {kind}' for kind, count in found.items())}")
    if divided := [function for function, counts in functions.items() if counts["div"]]:
        sys.exit(f"there are divisions in {', '.join(divided)}")


if __name__ == "__main__":
    if len(sys.argv) != 2:
        sys.exit("usage: multiplications.py ARCHIVE")
    main(sys.argv[1])
