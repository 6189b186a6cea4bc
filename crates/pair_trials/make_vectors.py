#!/usr/bin/env python3
"""Makes the stored vectors: make_vectors.py ORACLE SEED DATA, ORACLE the folder that holds oracle.py and pairs.py.

A vector is a line: an operation's word, its operands, =, and the answer, 53 where the call is refused.

    add | mul | div  lo.m lo.e hi.m hi.e  lo.m lo.e hi.m hi.e  =  lo.m lo.e hi.m hi.e
    rest             lo.m lo.e hi.m hi.e                       =  lo.m lo.e hi.m hi.e     (1 - f)
    entry            m e                                       =  lo.m lo.e hi.m hi.e
    less             m e                                       =  lo.m lo.e hi.m hi.e     (1 - m x 10^e, from the printed digits)
    long             high low e                                =  lo.m lo.e hi.m hi.e     ((high x 10^18 + low) x 10^e)
    compare          m e  m e                                  =  1 (at most) | 0 (above)
    units            lo.m lo.e hi.m hi.e  u                    =  low high                (counts of 10^u)
    checked          p                                         =  p                       (p, q, .. pairs, four numbers each)
    timesover        p q r                                     =  a pair                  (p x q / r)
    plusproduct      p q r                                     =  a pair                  (p + q x r)
    through          p * q / r * t                             =  a pair                  (three steps, each * or /)
    next             t s x d                                   =  two pairs               (the term t x x / d, and s with it)
    absorbs          p q                                       =  1 (so) | 0 (not so)
    raised           p n                                       =  a pair

0 is written 0 0. The answers come from the project's independent oracle, written from the documents alone on Python's whole numbers and
fractions. Those of add, mul, div and rest are pairs.py's: its random vectors as they come, and its answers to the edges below. Those of
entry are oracle.py's at level 1, of twelve digits (request P1), also where pairs.py drew the operands; where these have at most nine
digits both must agree. Those of less are what oracle.py makes of 1 - a printed value; which operands are refused is said here, since the
oracle has no such call. The answers of compare, units and long are worked here: from document 01 on fractions, and long by whole numbers,
held to the oracle's rounding of the fraction where its exponent is small. Those of timesover, plusproduct, through and next are the oracle's
answers one after the other; those of checked, absorbs and raised are worked here, from the words of crates/pair/README.md.
"""
import math
import random
import subprocess
import sys
from fractions import Fraction
from itertools import product

LO, HI, REACH = 100_000_000, 999_999_999, 99_999
ZERO = (0, 0)
SIZE = 60_000
LEVEL = 1


# ---- compare and units, on fractions ----

def is_number(w):
    return w == ZERO or LO <= w[0] <= HI and -REACH <= w[1] <= REACH


def in_units(w, u):
    return w[0] * Fraction(10) ** (w[1] - u)


def at_most(a, b):
    return in_units(a, b[1]) <= b[0]


def compare(a, b):
    if not (is_number(a) and is_number(b)):
        return "53"
    return "1" if at_most(a, b) else "0"


def units(lo, hi, u):
    if not (is_number(lo) and is_number(hi) and at_most(lo, hi) and -REACH <= u <= REACH):
        return "53"
    low, high = math.floor(in_units(lo, u)), math.ceil(in_units(hi, u))
    return "53" if high >= 10 ** 19 else f"{low} {high}"


# ---- entry and less, by the oracle ----

def entry(oracle, m, e):
    """the oracle's answer to an entry; pairs.py is document 01's, of nine digits, and must agree there"""
    import pairs
    try:
        answer = pairs.show(oracle.entry(m, e, LEVEL))
    except oracle.Refusal:
        answer = "53"
    assert m > HI or answer == pairs.entry(m, e)
    return answer


def above_one(m, e):
    """whether m x 10^e, m of at most twelve digits, is above 1"""
    return m > 0 and e > 0 or e <= 0 and m > 10 ** min(-e, 12)


def less(oracle, m, e):
    """1 - m x 10^e. Past 10^-60 one power serves for all: 1 - v lies between the same two numbers for every v above 0 and below 10^-9."""
    import pairs
    assert m >= 0
    if m >= 10 ** 12 or not -REACH <= e <= REACH or above_one(m, e):
        return "53"
    value = m * Fraction(10) ** max(e, -60) if m else 0
    return pairs.show(oracle.Pairs().less(1, value))


def long_entry(oracle, high, low, e):
    """(high x 10^18 + low) x 10^e, rounded once; where the exponent is small it is what the oracle makes of that fraction"""
    import pairs
    n = high * 10 ** 18 + low
    if high >= 10 ** 19 or low >= 10 ** 18 or not -REACH <= e <= REACH:
        return "53"
    if n == 0:
        return show(ZERO, ZERO)
    k = len(str(n)) - 9
    m, rest = divmod(n * 10 ** max(-k, 0), 10 ** max(k, 0))
    up = (m + 1, e + k) if m < HI else (LO, e + k + 1)
    ends = (m, e + k), up if rest else (m, e + k)
    answer = show(*ends) if all(is_number(w) for w in ends) else "53"
    assert abs(e) > 99 or answer == pairs.show(oracle.around(n * Fraction(10) ** e))
    return answer


# ---- edges ----

EDGE = [LO, LO + 1, 333_333_333, 500_000_000, HI - 1, HI]
NONE = [(LO - 1, 0), (HI + 1, 0), (LO, REACH + 1), (HI, -REACH - 1), (0, 5), (1, -8), (4_294_967_295, 0)]


def above(w):
    """The next working number, or the same at the end of the reach."""
    m, e = w
    if w == ZERO:
        return (LO, -REACH)
    return (m + 1, e) if m < HI else (LO, e + 1) if e < REACH else w


def alone(w):
    return (w, w)


def wide(w):
    return (w, above(w))


def sums():
    for gap, m, n in product([0, 1, 2, 8, 9, 10, 11, 18, 19, 500], [LO, HI - 1, HI], [LO, LO + 1, HI]):
        yield alone((m, gap - 9)), alone((n, -9))
        yield wide((n, -20)), wide((m, gap - 20))
    yield alone((HI, -8)), alone((LO, -16))
    yield alone((HI, 0)), alone((LO, -8))
    yield alone((HI, 0)), alone((999_999_999, -9))
    for m, n, e in product([LO, 500_000_000, HI], [LO, 499_999_999, 500_000_000, HI], [REACH - 1, REACH]):
        yield alone((m, e)), alone((n, e))
        yield alone((m, e)), alone((n, e - 8))
        yield alone((m, e)), alone((n, -REACH))
    for m in EDGE:
        yield alone((m, -REACH)), alone((m, -REACH))
        yield alone(ZERO), wide((m, REACH))
        yield wide((m, -REACH)), (ZERO, (m, 0))


def products():
    for m, n, s in product([LO, LO + 1, 316_227_766, 316_227_767, HI], [LO, LO + 1, 316_227_766, HI], [-9, -8, 0]):
        yield alone((m, s)), wide((n, 0))
    for m, n, s in product([LO, HI], [LO, HI], [-REACH - 9, -REACH - 8, -REACH - 7, REACH - 9, REACH - 8, REACH - 7]):
        yield alone((m, s // 2)), alone((n, s - s // 2))
    for w in [(LO, 0), (HI, REACH), (LO, -REACH)]:
        yield alone(ZERO), wide(w)
        yield (ZERO, w), (ZERO, (HI, 0))


def quotients():
    for m, n, s in product(EDGE, EDGE, [0, -8]):
        yield alone((m, s)), wide((n, 0))
    for m, n, s in product([LO, 500_000_000, HI], [LO, HI], [-REACH + 7, -REACH + 8, -REACH + 9, REACH + 7, REACH + 8, REACH + 9]):
        yield alone((m, s // 2)), alone((n, s // 2 - s))
    for w in [(LO, 0), (HI, REACH), (LO, -REACH)]:
        yield alone(ZERO), wide(w)
        yield wide(w), (ZERO, w)
        yield wide(w), alone(ZERO)


def rests():
    for m, e in product(EDGE + [LO + 2, 123_456_789], [-7, -8, -9, -10, -16, -17, -18, -19, -20, -27, -REACH, 0]):
        yield alone((m, e)),
        yield wide((m, e)),
        yield (ZERO, (m, e)),
    yield alone(ZERO),


def entries():
    for k, e in product(range(11), [0, -9, REACH, REACH + 1, -REACH, -REACH + 7, -REACH + 8, -REACH - 1]):
        yield 10 ** k - 1, e
        yield 10 ** k, e
    for m in [HI, HI + 1, 10 ** 18, 10 ** 19 - 1]:
        yield m, -12


# Ten to twelve digits: with equal ends, with unequal ends, whose nine figures carry; thirteen digits and more.
EQUAL = [10 ** 9, 2_500_000_000, 9_999_999_990, 123_456_789_000, 999_999_999_000, 10 ** 11]
UNEQUAL = [10 ** 9 + 1, 1_234_567_891, 9_999_999_989, 10 ** 10 + 1, 12_345_678_901, 10 ** 11 + 1, 123_456_789_001, 123_456_789_999, 999_999_998_999]
CARRY = [9_999_999_991, 9_999_999_995, 9_999_999_999, 99_999_999_901, 99_999_999_950, 99_999_999_999, 999_999_999_001, 999_999_999_500, 999_999_999_999]
LONGER = [10 ** 12, 10 ** 12 + 1, 1_234_567_890_123, 10 ** 13 - 1, 10 ** 13, 4_294_967_296_000, 10 ** 19 - 1]


def long_entries(r):
    """of ten digits and more, at exponents where the figures beyond nine, or a carry, move a result in or out of reach"""
    for m in EQUAL + UNEQUAL + CARRY:
        figures = len(str(m)) - 9
        for e in [0, -3, REACH - figures - 1, REACH - figures, REACH - figures + 1, -REACH, -REACH - 1]:
            yield m, e
    for m, e in product(LONGER, [0, -4, -REACH]):
        yield m, e
    for m, e in product([1, 99_999_999, LO, HI, 10 ** 9, 10 ** 12 - 1], [REACH, REACH + 1, -REACH, -REACH - 1, 999_999, -999_999]):
        yield m, e
    for _ in range(100):
        m = r.randint(10 ** r.randint(9, 11), 10 ** 12 - 1) // 10 ** (k := r.choice([0, 0, 1, 2, 3])) * 10 ** k
        yield m, r.choice([0, -8, -10, -11, r.randint(-40, 40), r.randint(-REACH, REACH), REACH - r.randint(0, 4), -REACH + r.randint(0, 4)])


def printed_shares(r):
    """m and e with m x 10^e near 1, near 0, between, above 1, and none"""
    for k in range(13):
        for m in [10 ** k, 10 ** k - 1, 10 ** k + 1, 10 ** k // 2, 9 * 10 ** k // 10, 9 * 10 ** k // 10 + 1]:
            yield m, -k
    for k, j in [(k, j) for k in [10, 11, 12] for j in range(10, k + 1)]:
        last = 10 ** (j - 9)                                       # the rest is 10^j - n: its nine figures carry, or just do not
        for n in [1, last // 2, last - 1, last, last + 1]:
            yield 10 ** k - 10 ** j + n, -k
    for m, e in product([1, 10, HI, 123_456_789_012, 10 ** 12 - 1], [-9, -10, -11, -19, -20, -21, -59, -60, -61, -500, -REACH + 1, -REACH]):
        yield m, e
    for e in [0, 1, -1, 5, -20, REACH, -REACH, REACH + 1, -REACH - 1, 999_999, -999_999]:
        yield 0, e
    for m, e in product([1, 10, 10 ** 11, 10 ** 12 - 1], [1, 12, REACH, REACH + 1, -REACH - 1, -999_999]):
        yield m, e
    for m, e in product(LONGER, [0, -12, -13, -30]):
        yield m, e
    for m, e in [(2, 0), (11, -1), (10 ** 12 - 1, -11), (10 ** 11 + 1, -11), (10 ** 12 - 1, 0), (10, 0)]:
        yield m, e
    for _ in range(130):
        m = r.randint(0, 10 ** r.choice([9, 10, 11, 12, 12]) - 1)
        yield m, -len(str(m)) - r.choice([0, 0, 0, 0, 1, 2, 3, 8, 9, 10])
    for _ in range(40):                                            # a small rest
        k = r.choice([10, 11, 12, 12])
        yield 10 ** k - r.randint(1, 10 ** r.randint(1, k - 1)), -k
    for _ in range(20):                                            # ten digits and more whose rest is a working number
        m = r.randint(LO, HI) * 10 ** r.randint(1, 3)
        yield m, -len(str(m))


def long_numbers(r):
    """high, low and e: of up to 37 digits, nine figures that carry and that are whole, words with zeros in front, and none"""
    words = lambda n: divmod(n, 10 ** 18)
    for k in range(1, 38):
        for n in [10 ** k - 1, 10 ** (k - 1), 10 ** (k - 1) + 1, 123_456_789 * 10 ** k // 10 ** 9]:
            yield *words(n), -27
    for k in range(1, 28):
        yield *words(HI * 10 ** k), -27
        yield *words(HI * 10 ** k + 1), -27
        yield *words(r.randint(LO, HI) * 10 ** k - 1), -27
    for high, low in product([0, 1, 999_999_999, 10 ** 9, 10 ** 18, 10 ** 19 - 1], [0, 1, 10 ** 9 - 1, 10 ** 9, 10 ** 17, 10 ** 18 - 1, 10 ** 18, 10 ** 19 - 1]):
        yield high, low, 0
    for high, low in [(0, 1), (0, HI), (0, 10 ** 9 + 1), (1, 0), (1, 1), (999_999_999, 10 ** 18 - 1), (10 ** 19 - 1, 10 ** 18 - 1), (10 ** 18, 0)]:
        k = len(str(high * 10 ** 18 + low)) - 9
        for e in [REACH - k - 1, REACH - k, REACH - k + 1, -REACH - k - 1, -REACH - k, -REACH - k + 1, REACH, -REACH, REACH + 1, -REACH - 1, 999_999]:
            yield high, low, e
    for e in [0, -27, REACH, -REACH, REACH + 1]:
        yield 0, 0, e
    for _ in range(120):                                           # what is printed, and sums and differences of it, in units of 1E-27
        some = [r.randint(1, 10 ** r.randint(1, 9)) * 10 ** r.randint(0, 27) for _ in range(r.randint(1, 8))]
        yield *words(abs(sum(some[:-1]) - some[-1]) if r.random() < .5 else sum(some)), -27


def once(pairs):
    return list(dict.fromkeys(pairs))


def no_pairs(r):
    """Pairs that are none, beside one that is."""
    good = wide((123_456_789, -8))
    for w in NONE:
        yield from [((w, w), good), (good, (w, w)), ((w, (HI, 9)), good), (good, (ZERO, w))]
    for _ in range(40):
        w = (r.randint(LO, HI - 1), r.randint(-REACH, REACH))
        low = r.choice([ZERO, (w[0], w[1] - 1), (r.randint(LO, w[0]), w[1])])
        if low != w:
            yield (w, low), good
            yield good, (w, low)


# ---- compare and units: random, near and far ----

def number(r):
    if r.random() < .08:
        return ZERO
    return (r.choice(EDGE + [r.randint(LO, HI)] * 4), r.choice([-8, 0, r.randint(-30, 30), r.randint(-REACH, REACH), REACH, -REACH]))


def maybe_none(r, w, share):
    return r.choice(NONE) if r.random() < share else w


def comparisons(r, count):
    for _ in range(count):
        a = number(r)
        e = max(-REACH, min(REACH, a[1] + r.choice([-2, -1, 1, 2])))
        b = r.choice([a, above(a), (r.choice(EDGE), e), number(r)])
        a, b = r.sample([a, b], 2)
        yield maybe_none(r, a, .1), maybe_none(r, b, .1)


def counts(r, count):
    for _ in range(count):
        lo = number(r)
        hi = r.choice([lo, above(lo), (r.choice(EDGE), lo[1] + r.choice([1, 2, 3])) if lo != ZERO and lo[1] < REACH - 3 else lo])
        far = r.choice([-1, 1]) * r.randint(0, 2 * REACH)
        u = hi[1] - r.choice([0, 1, 8, 9, 10, 11, -1, -8, -9, -10, -11, -500, r.randint(-12, 11), r.randint(-12, 11), far])
        if r.random() < .05:
            lo, hi = hi, lo
        yield maybe_none(r, lo, .03), maybe_none(r, hi, .03), r.choice([u] * 30 + [REACH, -REACH, REACH + 1, -REACH - 1])


def show(*words):
    return " ".join(f"{w[0]} {w[1]}" for w in words)


# ---- chains, series and single pairs ----

def is_pair(p):
    return is_number(p[0]) and is_number(p[1]) and at_most(*p)


def checked(p):
    return show(*p) if is_pair(p) else "53"


def absorbs(p, q):
    """whether q is above 0 and below one unit of the last figure of p's low end"""
    unit = p[0][1]
    return "1" if is_pair(p) and is_pair(q) and p[0] != ZERO and 0 < in_units(q[1], unit) < 1 else "0"


def raised(p, n):
    """n times the working number next above the high end"""
    if not is_pair(p) or p[1] == ZERO:
        return "53"
    high = p[1]
    for _ in range(n):
        if high == above(high):
            return "53"
        high = above(high)
    return show(p[0], high)


def read(text):
    ms = list(map(int, text.split()))
    return (ms[0], ms[1]), (ms[2], ms[3])


def chain(answer, start, *steps):
    """one call after the other, a refusal carried along"""
    text = checked(start)
    for op, q in steps:
        text = "53" if text == "53" else answer(op, [read(text), q])
    return text


def next_term(answer, t, s, x, d):
    term = chain(answer, t, ("mul", x), ("div", d))
    total = "53" if term == "53" else answer("add", [s, read(term)])
    return "53" if total == "53" else term + " " + total


def operand(r):
    """mostly of a size that leaves a chain in reach; some far out, some 0, few none"""
    k = r.random()
    if k < .03:
        return r.choice([alone(r.choice(NONE)), (ZERO, r.choice(NONE)), (above((HI, 0)), (HI, 0))])
    lo = number(r) if k < .15 else (r.choice(EDGE + [r.randint(LO, HI)] * 6), r.choice([-8, -9, -7, r.randint(-25, 10)]))
    return r.choice([alone(lo), wide(lo), wide(lo), (ZERO, lo), (lo, above(above(above(lo))))])


def single_pairs(r):
    for w in NONE:
        yield from [alone(w), (ZERO, w), (w, (HI, 9))]
    for m, e in product(EDGE, [0, -8, REACH, -REACH]):
        yield from [alone((m, e)), wide((m, e)), (ZERO, (m, e)), (above((m, e)), (m, e))]
    yield from [alone(ZERO), ((0, 1), (LO, 0)), ((LO, 3), (HI, 2)), ((HI, 2), (LO, 3))]
    for _ in range(60):
        yield operand(r)


def small_terms(r):
    """a sum and a term just below, at and above one unit of its last figure; 0 and none on either side"""
    for m, n, gap in product([LO, 123_456_789, HI], [LO, LO + 1, HI], [7, 8, 9, 10, 11, 500]):
        yield alone((m, 0)), alone((n, -gap))
        yield wide((m, -20)), (ZERO, (n, -20 - gap))
    for gap in [8, 9]:
        yield ((LO, 0), (HI, 2)), alone((HI, -gap))
        yield ((LO, 0), (HI, 2)), ((LO, -gap - 3), (HI, -gap))
        yield alone((HI, -REACH + gap)), alone((LO, -REACH))
        yield alone((LO, REACH)), wide((HI, REACH - gap))
    for w in NONE:
        yield alone(w), alone((LO, -20))
        yield alone((LO, 20)), alone(w)
    yield from [(alone(ZERO), alone((LO, -20))), (alone((LO, 0)), alone(ZERO)), ((ZERO, (LO, 0)), alone((LO, -20)))]
    for _ in range(60):
        yield operand(r), operand(r)


def raisings(r):
    """carries to ten figures by one unit and by many, at the end of the reach too; 0 and none"""
    for back, n, e in product([0, 1, 2, 100, 253, 254, 255, 256], [0, 1, 2, 255], [-8, REACH - 1, REACH]):
        yield alone((HI - back, e)), n
    for m, n in product(EDGE, [1, 9, 10, 200, 255]):
        yield wide((m, -REACH)), n
        yield (ZERO, (m, 3)), n
    for n in [0, 1, 255]:
        yield alone(ZERO), n
        yield from ((alone(w), n) for w in NONE)
    for _ in range(60):
        yield operand(r), r.randint(0, 255)


def lines(oracle, seed):
    sys.path.insert(0, oracle)
    import oracle as level_1
    import pairs

    def plain(p):
        return tuple(None if w == ZERO else w for w in p)

    def entered(line):
        m, e = map(int, line.split()[1:3])
        return f"entry {m} {e} = {entry(level_1, m, e)}"

    def asked(op, ps):
        return " ".join([op] + [show(*p) for p in ps] + ["=", pairs.answer(op, [plain(p) for p in ps])])

    r = random.Random(seed)
    drawn = subprocess.run([sys.executable, oracle + "/pairs.py", str(seed), "3100"], capture_output=True, text=True, check=True).stdout.splitlines()
    yield from (entered(x) if x.startswith("entry ") else x for x in drawn)
    for op, edges in [("add", sums()), ("mul", products()), ("div", quotients()), ("rest", rests())]:
        yield from (asked(op, ps) for ps in edges)
    for op in ["add", "mul", "div"]:
        yield from (asked(op, ps) for ps in no_pairs(r))
    yield from (asked("rest", ps[:1]) for ps in no_pairs(r))
    yield from (f"entry {m} {e} = {entry(level_1, m, e)}" for m, e in entries())
    yield from (f"compare {show(a, b)} = {compare(a, b)}" for a, b in comparisons(r, 700))
    yield from (f"units {show(lo, hi)} {u} = {units(lo, hi, u)}" for lo, hi, u in counts(r, 800))
    r = random.Random(seed + 1)
    yield from (f"entry {m} {e} = {entry(level_1, m, e)}" for m, e in once(long_entries(r)))
    yield from (f"less {m} {e} = {less(level_1, m, e)}" for m, e in once(printed_shares(r)))
    yield from (f"long {high} {low} {e} = {long_entry(level_1, high, low, e)}" for high, low, e in once(long_numbers(random.Random(seed + 2))))

    def worked(op, ps):
        return pairs.answer(op, [plain(p) for p in ps])

    r = random.Random(seed + 3)
    yield from (f"checked {show(*p)} = {checked(p)}" for p in once(single_pairs(r)))
    for _ in range(200):
        p, q, d = operand(r), operand(r), operand(r)
        yield f"timesover {show(*p, *q, *d)} = {chain(worked, p, ('mul', q), ('div', d))}"
    for _ in range(200):
        p, a, b = operand(r), operand(r), operand(r)
        by = chain(worked, a, ("mul", b))
        yield f"plusproduct {show(*p, *a, *b)} = {'53' if by == '53' else chain(worked, p, ('add', read(by)))}"
    for signs in list(product("*/", repeat=3)) * 30:
        p, by = operand(r), [operand(r) for _ in signs]
        steps = [("mul" if x == "*" else "div", q) for x, q in zip(signs, by)]
        yield f"through {show(*p)} {' '.join(f'{x} {show(*q)}' for x, q in zip(signs, by))} = {chain(worked, p, *steps)}"
    for _ in range(200):
        t, s, x, d = (operand(r) for _ in range(4))
        yield f"next {show(*t, *s, *x, *d)} = {next_term(worked, t, s, x, d)}"
    yield from (f"absorbs {show(*p, *q)} = {absorbs(p, q)}" for p, q in once(small_terms(r)))
    yield from (f"raised {show(*p)} {n} = {raised(p, n)}" for p, n in once(raisings(r)))


def main(oracle, seed, data):
    made = list(lines(oracle, int(seed)))
    files = [[]]
    for line in made:
        if sum(len(x) + 1 for x in files[-1]) + len(line) + 1 > SIZE:
            files.append([])
        files[-1].append(line)
    for k, part in enumerate(files, 1):
        with open(f"{data}/vectors_{k}", "w") as f:
            f.write("\n".join(part) + "\n")
    for op in ["add", "mul", "div", "rest", "entry", "compare", "units", "less", "long", "checked", "timesover", "plusproduct", "through", "next", "absorbs", "raised"]:
        own = [x for x in made if x.startswith(op + " ")]
        print(op, len(own), "of these refused", sum(x.endswith("= 53") for x in own))
    print("total", len(made), "of these refused", sum(x.endswith("= 53") for x in made), "in", len(files), "files")


if __name__ == "__main__":
    main(*sys.argv[1:])
