"""Compares the archive's exponentials with exact arithmetic: the one by n alone at 20,000 n and at some that are refused, and those of
draws, at each deviation, at the N of every size of a sample.

usage: exact_exponentials.py EXPONENTIALS DRAWN, the programs of exponentials.c and drawn_exponentials.c

A value must equal e(n) of its deviation by document 01 and requests S-7 and S-8 in whole numbers. At 20,000 n for each deviation, the N of
every size among them, this e(n) must be at most 960 units of 2^-62 from the exact fraction.
"""
from pathlib import Path
from random import Random
import subprocess
import sys

# The arithmetic is that of the program's points. Importing it leaves nothing in its folder.
sys.dont_write_bytecode = True
sys.path.insert(0, str(Path(__file__).resolve().parents[2] / "crates" / "exponential_points"))
import exact

COMPARED = 20000
REFUSED = [exact.LIMIT + 1, 2**23, 2**32, 2**32 + 513, 2**62, 2**63, 2**63 + 12, 2**64 - 1]

# N of each size, by base sample and b.
N_OF_SIZES = [b * (b + 512 * x) for x in range(11) for b in range(256)]

# For each deviation: where e(n) is farthest below and above the exact fraction, and where it becomes 0, if it does. At 215, where n goes on
# to its limit by n alone, also the largest N1, twice as much, and where squarings that cut would make e(n) 0.
EDGES = {
    107: [3341, 1274, *range(999867, 999967)],
    215: [1552, 6120, *range(4037100, 4037200), 46225, 92450, *range(3973000, 3973100)],
    250: [1679, 1159],
    271: [5347, 3148],
}


def points(deviation):
    """Both ends, the edges, the N of every size, a spread over all, and random ones."""
    last = exact.LIMIT if deviation == 215 else max(N_OF_SIZES)
    found = {*range(1000), *range(last - 999, last + 1), *EDGES[deviation], *N_OF_SIZES, *range(0, last, 1009)}
    random = Random(deviation)
    while len(found) < COMPARED:
        found.add(random.randint(0, last))
    return sorted(found)


def values_of(program, keys, text=""):
    """The values that a program writes, each behind its key: the keys must be these, in order."""
    lines = subprocess.run([program], input=text, stdout=subprocess.PIPE, text=True, check=True).stdout.splitlines()
    rows = [tuple(map(int, line.split())) for line in lines]
    if [row[:-1] for row in rows] != keys:
        sys.exit(f"{program} does not give one value for each n")
    return [row[-1] for row in rows]


def compare(what, value, right):
    if value != right:
        sys.exit(f"{what} is {value}, and not {right}")


def main(by_n, by_draws):
    exponentials = {deviation: exact.Exponential(deviation) for deviation in EDGES}
    asked = points(215) + REFUSED
    for n, value in zip(asked, values_of(by_n, [(n,) for n in asked], "".join(f"{n}\n" for n in asked))):
        compare(f"the exponential of {n}", value, exact.alone(n))
    drawn = [(deviation, n) for deviation in EDGES for n in N_OF_SIZES]
    for (deviation, n), value in zip(drawn, values_of(by_draws, drawn)):
        compare(f"the exponential of {n} in draws at {deviation}", value, exponentials[deviation].e(n))
    print(f"exponential: {len(asked)} values by n alone and {len(drawn)} of draws are those of exact arithmetic")
    for deviation, exponential in exponentials.items():
        distances = [(exponential.distance(n), n) for n in points(deviation)]
        (least, n_least), (most, n_most) = min(distances), max(distances)
        text = (f"at {deviation}: {len(distances)} are from {exponential.in_tenths(least)} units (n = {n_least})"
                f" to {exponential.in_tenths(most)} units (n = {n_most}) from the exact fraction")
        if not (exponential.within_bound(least) and exponential.within_bound(most)):
            sys.exit(f"{text}, which is too far")
        print(text)


if __name__ == "__main__":
    if len(sys.argv) != 3:
        sys.exit("usage: exact_exponentials.py EXPONENTIALS DRAWN")
    main(*sys.argv[1:])
