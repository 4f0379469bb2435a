"""The tables that a host lends, worked out from their rules in exact arithmetic, and by another way than the Rust host's."""
from math import factorial

# Partial sums of exponentials have the terms up to this one, an even number.
LAST = 900


def polynomial():
    """Entry j is the whole part of 2^62 / j!."""
    return [2**62 // factorial(j) for j in range(21)]


def cdt(deviation):
    """Threshold i, from 1 to 10, is the nearest whole number to 2^124 times the chance that the base sample is below i, where j has the
    weight exp(-65536 j^2 / (2 deviation^2)), j = 0 to 10; and at most 2^124 - 1. The high words come first, and then the low words, all of
    62 bits."""
    lower, upper = zip(*(exp_minus(65536 * j**2, 2 * deviation**2) for j in range(11)))
    thresholds = [chance(lower[:i], upper[i:]) for i in range(1, 11)]
    if thresholds != [chance(upper[:i], lower[i:]) for i in range(1, 11)]:
        raise ArithmeticError(f"partial sums up to term {LAST} don't tell how the thresholds of deviation {deviation} round")
    return words(thresholds)


def exp_minus(p, q):
    """Two consecutive partial sums of exp(-p / q) = 1 - p/q + (p/q)^2/2! - .., both times q^LAST LAST!, which makes them whole. The terms
    fall from p/q on, so that exp(-p / q) is between the two; the first is the lower one."""
    assert p <= LAST * q
    total, power = 1, 1
    for k in range(1, LAST + 1):
        before = total * q * k
        power *= -p
        total = before + power
    return before, total


def chance(below, rest):
    """The nearest threshold to the chance that the weights below have; it rises with these, and falls with the rest."""
    return min(nearest(2**124 * sum(below), sum(below) + sum(rest)), 2**124 - 1)


def nearest(numerator, denominator):
    return (2 * numerator + denominator) // (2 * denominator)


def words(thresholds):
    return [threshold // 2**62 for threshold in thresholds] + [threshold % 2**62 for threshold in thresholds]
