#!/usr/bin/env python3
"""Works the example's lines by the rule of crates/pair/README.md on exact fractions, without the library: make_stdout.py > stdout.

An end is worked exactly and rounded once to nine figures: the low end down, the high end up.
"""
import math
from fractions import Fraction


def rounded(x, up):
    """the working number next to x, at most it or at least it"""
    if x == 0:
        return 0, 0
    e = 0
    while x >= 10 ** 9 * Fraction(10) ** e:
        e += 1
    while x < 10 ** 8 * Fraction(10) ** e:
        e -= 1
    m = (math.ceil if up else math.floor)(x / Fraction(10) ** e)
    return (m, e) if m < 10 ** 9 else (m // 10, e + 1)


def value(w):
    return w[0] * Fraction(10) ** w[1]


def pair(low, high):
    return rounded(low, False), rounded(high, True)


def plain(x):
    return pair(Fraction(x), Fraction(x))


def plus(p, q):
    return pair(value(p[0]) + value(q[0]), value(p[1]) + value(q[1]))


def times(p, q):
    return pair(value(p[0]) * value(q[0]), value(p[1]) * value(q[1]))


def over(p, q):
    return None if value(q[0]) == 0 else pair(value(p[0]) / value(q[1]), value(p[1]) / value(q[0]))


def less(f):
    return pair(1 - value(f[1]), 1 - value(f[0]))


def answer(what, p):
    print(f"{what}: " + ("refused" if p is None else " to ".join(f"{m}E{e:+d}" for m, e in p)))


one = plain(1)
answer("2 / 3", over(plain(2), plain(3)))
answer("1 - 1 / 3", less(over(one, plain(3))))
share = over(times(times(plain(25), plain("0.61")), plain(151)), times(plain("63.3"), plain(27375)))
answer("25 x 0.61 x 151 / (63.3 x 27375)", share)
print(f"in units of 1E-9: {math.floor(value(share[0]) * 10 ** 9)} to {math.ceil(value(share[1]) * 10 ** 9)}")
answer("1 + 1E-20", plus(one, plain("1e-20")))
answer("1 / 0", over(one, plain(0)))
