"""The exponential of document 01 with requests S-7 and S-8 in exact arithmetic, worked out from these and independently of the library.

The program prints n and e(n) at deviation 215, a pair to a line. Each e(n) is also compared with the exact fraction that it stands
for: a distance of more than 960 units of 2^-62 ends the program with an error. The largest distance on either side is reported on
standard error.
"""
from math import factorial
import sys

ONE = 2**62
LIMIT = 5534960
REFUSED = 2**63 + 12
BOUND = 960
TABLE = [ONE // factorial(j) for j in range(21)]


class Exponential:
    """e(n) at a deviation, and the exact fraction that it stands for: the 64th power of the sum over j = 0..20 of (-n / q)^j / j!, q
    being 64 * 2 * deviation^2."""

    def __init__(self, deviation):
        q = 64 * 2 * deviation**2
        self.r = 2**84 // q
        # Over the denominator q^20 * 20! each term of the sum is whole: the numerator of term j is this times (-n)^j.
        self.numerators = [q**(20 - j) * (factorial(20) // factorial(j)) for j in range(21)]
        self.denominator = (q**20 * factorial(20))**64

    def e(self, n):
        v = n * self.r // 2**22
        a = TABLE[20]
        for j in range(19, -1, -1):
            a = TABLE[j] - a * v // ONE
        for _ in range(6):
            a = (a * a + 2**61) // ONE
        return a

    def distance(self, n):
        """e(n) less the exact fraction: a whole number of units over the denominator."""
        total = 0
        for numerator in reversed(self.numerators):
            total = numerator - n * total
        return self.e(n) * self.denominator - ONE * total**64

    def within_bound(self, over):
        return abs(over) <= BOUND * self.denominator

    def in_tenths(self, over):
        """Units, rounded down to tenths."""
        return 10 * over // self.denominator / 10


# The exponential by n alone is at deviation 215.
AT_215 = Exponential(215)


def alone(n):
    """e(n), or what is given for an n that is refused."""
    return REFUSED if n > LIMIT else AT_215.e(n)


def main():
    named = [0, 1, 513, 1552, 6120, 46225, 92450, 1370625, LIMIT, LIMIT + 1, 2**63, 2**64 - 1]
    points = named + list(range(9973, LIMIT, 9973))
    for n in points:
        print(n, alone(n))
    distances = [AT_215.distance(n) for n in points if n <= LIMIT]
    if not all(map(AT_215.within_bound, distances)):
        sys.exit(f"e(n) is more than {BOUND} units from the exact fraction")
    least, most = AT_215.in_tenths(min(distances)), AT_215.in_tenths(max(distances))
    print(f"{len(distances)} points, from {least} to {most} units from the exact fraction", file=sys.stderr)


if __name__ == "__main__":
    main()
