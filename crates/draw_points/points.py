"""Writes the points of draws, worked out from document 01 with requests S-6, S-7 and S-8, and independently of the library.

points.py stdin prints rows of 23 columns of 16 hexadecimal digits: a CDT table, a polynomial table, then the draws over them, whose number
is the last column of the CDT table's row. points.py stdout prints the outcome of each draw: the refusal of the opening, the answer
(refusal, attempts, accepted, entries), the next session (degree, deviation, drawn), y, and the read list (length, first and last entry of
its filled part, and a sum over the whole of its memory). y is a part of nine values that start as fives, and the list a part of 5,940
entries that start as sevens.
"""
import sys
from itertools import groupby
from math import factorial

ONE = 2**62
POLYNOMIAL = [ONE // factorial(j) for j in range(21)]
DEVIATIONS = 107, 215, 250, 271
DEGREES = [2**k for k in range(2, 11)]
TOP_BITS = 3 * 2**62
ALL_ONES = 2**64 - 1

# Where the session of a draw comes from.
OPENED, BEFORE, MADE = range(3)

# Ten high words, ten low words, and a word too many, for a table that is too long.
KNOWN = [i * 2**40 for i in range(1, 11)] + [0] * 10 + [0]
EQUAL_HIGH = [2**40] * 10 + [i * 2**20 for i in range(1, 11)] + [0]
# Document 01's order of the known words, and words that are a table in both orders.
KNOWN_BEFORE = [word for i in range(1, 11) for word in (i * 2**40, 0)] + [0]
IN_BOTH_ORDERS = list(range(21))

# Words: those of attempt 0, and what each is raised by from attempt to attempt.
CLIMBING = (0, 0, 0, 0, 2**40, 0, 0, 0)
ALL_REJECTED = (0, 0, 256, 0, 0, 0, 0, 0)

# Words 3 that are above e(N) at attempts 1, 4 and 7 alone: three rises are a little more than 2^62, and attempt 10 is past it.
THIRD = ONE // 3 + ONE // 2500
TWO_THIRDS = ONE - ONE // 333 - THIRD


def repeated(first, second, third, fourth):
    """Every attempt has the same four words."""
    return (first, second, third, fourth, 0, 0, 0, 0)


def changed(table, place, word):
    return [word if i == place else old for i, old in enumerate(table)]


def asked(limit):
    """The list entries that a draw asks for."""
    return 46 * limit + 2


# Document 01's known points.
assert (asked(8), asked(128)) == (370, 5890)


def row(n=4, limit=8, origin=OPENED, cdt=KNOWN, polynomial=POLYNOMIAL + [0], words=CLIMBING, lent=None, deviation=215, drawn=0):
    """A draw: the session's origin, and its degree, deviation and drawn; the limit and tables, the words, and the lengths lent of the
    tables, the words, y and the list."""
    return (origin, n, deviation, drawn), limit, cdt, polynomial, words, lent or (20, 21, 4 * limit, 8, asked(limit))


def known(*four, deviation=215):
    return row(words=repeated(*four), deviation=deviation)


def equal_high(first, second):
    return row(cdt=EQUAL_HIGH, words=repeated(first, second, 0, 0))


def lent(limit, *lengths):
    return row(limit=limit, lent=lengths)


def points():
    # Openings, each with a draw after it: that is refusal 1 where the opening is refused, and 2 where y is not 2n.
    for n in (0, 2, 4, 12, 1024, 1028, 2048, 2**63, 2**64 - 1):
        yield row(n)
    # A degree that no opening hands back.
    yield row(12, 24, MADE)
    yield row(12, 24, MADE, drawn=1)
    yield row(4, 8, MADE)
    yield row(4, 7, MADE, drawn=1)
    # Deviations, the numbers next to them, and numbers that agree with 215 in their low bits; asked for, and held by a session.
    for deviation in (0, 106, *DEVIATIONS, 108, 214, 216, 251, 272, 2**32 + 215, 2**63 + 215, 2**64 - 1):
        yield row(deviation=deviation)
        yield row(origin=MADE, deviation=deviation)
    # Whatever drawn is, a refused draw hands it back, and a served one does not look at it.
    for drawn in (2, 256, 2**64 - 1):
        yield row(4, 7, MADE, drawn=drawn)
        yield row(4, 8, MADE, drawn=drawn, words=ALL_REJECTED)

    # L = 8 and L = 128, each with just the entries that it asks for, and with one less.
    yield lent(8, 20, 21, 32, 8, asked(8))
    yield lent(8, 20, 21, 32, 8, asked(8) - 1)
    yield lent(128, 20, 21, 512, 8, asked(128))
    yield lent(128, 20, 21, 512, 8, asked(128) - 1)
    # More words and a longer list than are asked.
    yield lent(8, 20, 21, 516, 8, 5940)
    # Limits out of range: L = 7, 129, 0, 2^64 - 1, and one whose four times wraps to 32.
    yield lent(7, 20, 21, 32, 8, asked(8))
    yield lent(129, 20, 21, 516, 8, asked(129))
    yield lent(0, 20, 21, 32, 8, asked(8))
    yield lent(2**64 - 1, 20, 21, 516, 8, 5940)
    yield lent(2**62 + 8, 20, 21, 32, 8, 5940)
    # 31 words for L = 8, 511 for L = 128.
    yield lent(8, 20, 21, 31, 8, asked(8))
    yield lent(128, 20, 21, 511, 8, asked(128))
    # Tables and y too short and too long.
    yield lent(8, 19, 21, 32, 8, asked(8))
    yield lent(8, 21, 21, 32, 8, asked(8))
    yield lent(8, 20, 20, 32, 8, asked(8))
    yield lent(8, 20, 22, 32, 8, asked(8))
    yield lent(8, 20, 21, 32, 7, asked(8))
    yield lent(8, 20, 21, 32, 9, asked(8))
    # Of two refusals the first is given: 2 before 5, 3 before 4, 4 before 5, 5 before 7 and 8, 7 before 8, 2 before all but 1 and 16, 16
    # before all but 1, 1 before all.
    yield lent(7, 19, 21, 32, 8, asked(8))
    yield row(cdt=changed(KNOWN, 10, ONE), polynomial=changed(POLYNOMIAL + [0], 19, 38))
    yield row(limit=7, polynomial=changed(POLYNOMIAL + [0], 19, 38))
    yield lent(129, 20, 21, 0, 8, 0)
    yield lent(8, 20, 21, 31, 8, asked(8) - 1)
    yield lent(8, 0, 0, 0, 0, 0)
    yield row(4, 7, MADE, lent=(0, 0, 0, 0, 0), deviation=108)
    yield row(12, 7, MADE, lent=(0, 0, 0, 0, 0), deviation=108)
    yield row(12, deviation=108)

    # CDT words of 2^62 and more, and just below it.
    for place, word in ((0, ONE), (9, ONE), (10, ONE), (19, ONE), (19, ALL_ONES), (9, ONE - 1), (19, ONE - 1)):
        yield row(cdt=changed(KNOWN, place, word))
    # The third threshold's high word just below the second's, and at it; a falling second and last threshold.
    for place, word in ((2, 2**41 - 1), (2, 2**41), (1, 0), (9, 0)):
        yield row(cdt=changed(KNOWN, place, word))
    # Of equal high words, the third threshold's low word falls, is equal, and rises.
    for word in (2**21 - 1, 2**21, 2**21 + 1):
        yield row(cdt=changed(EQUAL_HIGH, 12, word))
    # Document 01's order is refused.
    yield row(cdt=KNOWN_BEFORE)
    # Polynomial entry 19 = 38, entries 0 and 20 = 0.
    for place, word in ((19, 38), (0, 0), (20, 0)):
        yield row(polynomial=changed(POLYNOMIAL + [0], place, word))

    # d just below each threshold, and at it. Where word 2 is 0 the sample is 256 x.
    for i in range(1, 11):
        yield known(i * 2**40 - 1, ONE - 1, 0, 0)
        yield known(i * 2**40, 0, 0, 0)
    # Equal high words: d just below, at and just above every third threshold by the low word, then below and above all by the high word.
    for i in range(1, 11, 3):
        for low in (i * 2**20 - 1, i * 2**20, i * 2**20 + 1):
            yield equal_high(2**40, low)
    yield equal_high(2**40 - 1, ONE - 1)
    yield equal_high(2**40 + 1, 0)
    # Ten equal thresholds.
    for word, four in (
        (0, (0, 0, 0, 0)),
        (5, (5, 4, 0, 0)),
        (5, (5, 5, 0, 0)),
        (ONE - 1, (ONE - 1, ONE - 2, 0, 0)),
        (ONE - 1, (ONE - 1, ONE - 1, 0, 0)),
    ):
        yield row(cdt=[word] * 21, words=repeated(*four))

    # d just below, at and just above a threshold whose words are 5 and 15; by document 01's order they are 10 and 11.
    for low in (14, 15, 16):
        yield row(cdt=IN_BOTH_ORDERS, words=repeated(5, low, 0, 0))

    # x at both ends, and word 3 as large as it gets.
    yield known(0, 0, 0, ONE - 1)
    yield known(ONE - 1, 0, 0, ONE - 1)
    # Samples by word 2, with x = 0, 1 and 10.
    for first in (0, 2**40, ONE - 1):
        for third in (256, 1, 257, 255, 511):
            yield known(first, 0, third, 0)
    # Bits 62 and 63 of words 0, 1 and 3, and bits 9 to 63 of word 2, change nothing.
    yield known(TOP_BITS + 2**40 - 1, ONE - 1, 0, 0)
    yield known(TOP_BITS + 2**40, 0, 0, 0)
    yield known(2**40 - 1, TOP_BITS, 0, 0)
    yield known(2**40 - 1, ALL_ONES, 0, 0)
    for bits in (257, 0, 256):
        yield known(0, 0, ALL_ONES - 511 + bits, 0)
    yield known(0, 0, 0, ALL_ONES)
    yield known(2**40, 0, 1, TOP_BITS + e(513) - 1)
    yield known(2**40, 0, 1, TOP_BITS + e(513))
    # Word 3 just below e(N), and at it, at each deviation. At 107 the last e(N) is 0.
    for deviation in DEVIATIONS:
        for first, third, n in ((0, 1, 1), (2**40, 1, 513), (ONE - 1, 255, 1370625)):
            yield known(first, 0, third, (e(n, deviation) - 1) % ONE, deviation=deviation)
            yield known(first, 0, third, e(n, deviation), deviation=deviation)
    # Word 3 at e(N) by document 01 alone, whose squarings cut and give less: it is accepted.
    for first, third, n in ((0, 1, 1), (2**40, 1, 513)):
        assert e(n, added=0) < e(n)
        yield known(first, 0, third, e(n, added=0))

    # Attempts 1, 4 and 7 are rejected by word 3, so that eleven are needed. b = 1, and x is the number of the attempt.
    for limit in (8, 10, 11, 12):
        yield row(limit=limit, words=(0, 0, 1, TWO_THIRDS, 2**40, 0, 0, THIRD))
    # The first 120 attempts are rejected, since their d stays below every threshold: 128 are needed.
    for limit in (127, 128):
        yield row(limit=limit, words=(0, 0, 256, 0, 2**40 // 120 + 1, 0, 0, 0))
    yield row(limit=128, words=ALL_REJECTED)

    # Each draw takes the session that the one before handed back: full, full over drawn, refused over drawn, spent over drawn, refused over
    # spent, spent over spent, full over spent.
    yield row()
    yield row(origin=BEFORE)
    yield row(origin=BEFORE, limit=7)
    yield row(origin=BEFORE, words=ALL_REJECTED)
    yield row(origin=BEFORE, limit=7)
    yield row(origin=BEFORE, words=ALL_REJECTED)
    yield row(origin=BEFORE)
    # So it does at another deviation: full, refused over drawn, spent over drawn, full over spent.
    yield row(deviation=107)
    yield row(origin=BEFORE, limit=7)
    yield row(origin=BEFORE, words=ALL_REJECTED)
    yield row(origin=BEFORE)


def e(n, deviation=215, added=2**61):
    """e(n) where each squaring adds this before its cut, as request S-7 has it."""
    d = 2 * deviation**2
    v = n * (2**84 // (64 * d)) // 2**22
    a = POLYNOMIAL[20]
    for j in range(19, -1, -1):
        a = POLYNOMIAL[j] - a * v // ONE
    for _ in range(6):
        a = (a * a + added) // ONE
    return a


def thresholds(cdt):
    return [high * ONE + low for high, low in zip(cdt[:10], cdt[10:])]


def refusal(n, deviation, limit, cdt, polynomial, words, y, entries):
    """The number of the first row of the table of refusals that applies to a draw, or 0."""
    if n not in DEGREES:
        return 1
    if deviation not in DEVIATIONS:
        return 16
    if len(cdt) != 20 or len(polynomial) != 21 or len(y) != 2 * n:
        return 2
    if max(cdt) >= ONE or thresholds(cdt) != sorted(thresholds(cdt)):
        return 3
    if polynomial != POLYNOMIAL:
        return 4
    if not 2 * n <= limit <= 32 * n:
        return 5
    if len(words) < 4 * limit:
        return 7
    if entries < asked(limit):
        return 8
    return 0


def attempt(deviation, cdt, four):
    """The signed sample and the accept bit of four words."""
    d = four[0] % ONE * ONE + four[1] % ONE
    x = sum(threshold <= d for threshold in thresholds(cdt))
    b = four[2] % 256
    negative = four[2] // 256 % 2 == 1
    size = 256 * x + b
    accepted = four[3] % ONE < e(b * (b + 512 * x), deviation) and not (size == 0 and negative)
    return -size if negative else size, accepted


def entry(kind, place):
    return kind * 2**24 + place


def draw(session, limit, cdt, polynomial, words, y, entries):
    """The answer, the next session, y and the entries of the read list."""
    n, deviation, _ = session
    number = refusal(n, deviation, limit, cdt, polynomial, words, y, entries)
    if number:
        return (number, 0, 0, 0), session, y, []
    samples, read, t = [], [entry(1, n)], 0
    while t < limit and len(samples) < 2 * n:
        read += [entry(2, 4 * t + i) for i in range(4)]
        read += [entry(3, i) for i in range(20)]
        read += [entry(4, j) for j in range(20, -1, -1)]
        read.append(entry(5, len(samples)))
        sample, accepted = attempt(deviation, cdt, words[4 * t:4 * t + 4])
        if accepted:
            samples.append(sample)
        t += 1
    read.append(entry(6, len(samples)))
    full = len(samples) == 2 * n
    return (0, t, len(samples), len(read)), (n, deviation, int(full)), samples if full else [0] * (2 * n), read


def opened(n, deviation):
    """The refusal of an opening, and the session that it hands back."""
    if n not in DEGREES:
        return 1, (0, 0, 0)
    if deviation not in DEVIATIONS:
        return 16, (0, 0, 0)
    return 0, (n, deviation, 0)


def sum_of(memory):
    total = 0
    for value in memory:
        total = (total * 1000003 + value) % 2147483647
    return total


def outcome(before, source, limit, cdt, polynomial, words, lent):
    """The line of a draw, and the next session."""
    origin, *made = source
    number, session = opened(*made[:2]) if origin == OPENED else (0, before if origin == BEFORE else tuple(made))
    words = [(words[i % 4] + i // 4 * words[4 + i % 4]) % 2**64 for i in range(lent[2])]
    answer, session, y, read = draw(session, limit, cdt[:lent[0]], polynomial[:lent[1]], words, [5] * lent[3], lent[4])
    memory = read + [7] * (5940 - len(read))
    filled = memory[:answer[3]]
    groups = [number], answer, session, y + [5] * (9 - len(y)), [len(filled)] + filled[:1] + filled[-1:] + [sum_of(memory)]
    return ";".join("".join(f" {value}" for value in group) for group in groups), session


def print_row(last, *values):
    """Each column has a byte before it, which is a newline before the first."""
    print("\n" + " ".join(f"{value:016x}" for value in [*values, *[0] * (22 - len(values)), last]), end="")


def print_rows():
    for (cdt, polynomial), block in groupby(points(), lambda point: point[2:4]):
        block = list(block)
        print_row(len(block), *cdt)
        print_row(0, *polynomial)
        for (origin, n, deviation, drawn), limit, _, _, words, lent in block:
            print_row(origin, n, limit, *words, *lent, deviation, drawn)
    print()


def print_outcomes():
    session = 0, 0, 0
    for point in points():
        line, session = outcome(session, *point)
        print(line)


if sys.argv[1:] == ["stdin"]:
    print_rows()
else:
    print_outcomes()
