#!/usr/bin/env python3
"""make_decks.py ORACLE SEED FOLDER: stored decks with the answers of the independent reading in the folder ORACLE.

Writes FOLDER/decks, FOLDER/composites, and FOLDER/stdout, which is what a trial of the one and then of the other prints.

The answers are those of level 6: document 01 with requests P1, P2, P4, P5 and P6 (P3 changes none). P6 changes what a filled slot 12 of the site means
and nothing else: a deck whose slot 12 is blank must have the same answer at levels 5 and 6. P5 takes condition 41 away and changes nothing else: a deck
that does not stop with 41 at level 4 must have the same answer at levels 4 and 5, and none may stop with 41 from there on. A deck of 2005 must have the
answer that it has with slot 12 blank, and where both are reports, one of 2009 the same lines of pathways 2 to 6. An accepted deck's totals must hold to
demand 3 with 256 terms. Else the script stops.

The decks of document 01, P1, P2 and P4 are the ones that were stored before P5: what they are chosen by is their answer at level 4, where a number wanted
may be 41. Those of P5 are chosen by their answer at level 5, and those of P6, at the end, by their answer at level 6.
"""
import collections
import functools
import math
import random
import sys
sys.path.insert(0, sys.argv[1])
import oracle
import decks
from oracle import SITE, CHEM, NOVALUE, NONZERO, ATMOST1, ATMOST366, deck_text, report, Refusal

SEED = int(sys.argv[2])
rng = random.Random(SEED)
LINE = 95
LEVEL, BEFORE, FIRST = 6, 5, 4
ORDINARY, COMPOSITE = (FIRST, False), (FIRST, True)
REC = oracle.REC + ["T2"]
call = ORDINARY         # the level that decks are chosen by, and whether it is the composite call
moved, renewed = collections.Counter(), []


class File:
    """the decks of a file, and of each kind how many have which number"""
    def __init__(self):
        self.stored, self.have, self.by_kind = [], set(), collections.defaultdict(collections.Counter)
        self.accepted = []


files = {"decks": File(), "composites": File()}


def answer(deck, room, how=None):
    """(number, line, field), report"""
    try:
        r = report(deck, room, *(how or call))
        return (0, len(r), 0), r
    except Refusal as e:
        return e.answer, b""


def need(deck):
    """bytes of its report, or None where the deck itself is refused"""
    try:
        site, chems, recs = oracle.read_deck(deck, *call)
    except Refusal:
        return None
    return LINE * (1 if call[1] else len(recs)) * (6 * len(chems) + 1)


def any_room(deck):
    n = need(deck)
    if n is None:
        return rng.choice([0, 1, 94, 665, 665, 1330, rng.randint(2, 3000)])
    return rng.choice([n, n, n + 1, n + rng.randint(2, 700), n + 95, n + rng.randint(100, 900)])


def without_exposure(deck):
    """an ordinary deck as it was before P4"""
    for at in range(0, len(deck) - 80, 81):
        if deck[at:at + 2] == b"R4" and all(32 <= c <= 126 for c in deck[at + 44:at + 56]):
            deck = deck[:at + 44] + b" " * 12 + deck[at + 56:]
    return deck


def slot_12(deck):
    """the twelve bytes at the year's place, without spaces"""
    return deck[149:161].strip(b" ")


def beside_air(text):
    """a report's lines of pathways 2 to 6"""
    return [line for line in text.splitlines() if line[12:14] not in (b" 0", b" 1")]


def held(deck, room):
    """the answer that is stored: the one before P6 where slot 12 is blank, and that the one before P5 but for 41"""
    first, then, now = (answer(deck, room, (level, call[1])) for level in (FIRST, BEFORE, LEVEL))
    assert then[0][0] != 41 and (first == then or first[0][0] == 41), (first[0], then[0])
    assert now[0][0] != 41 and (then == now or slot_12(deck)), (then[0], now[0])
    if slot_12(deck) and now[0][0] in (0, 42, 51):      # the year is 2005 or 2009
        blank = answer(deck[:149] + b" " * 12 + deck[161:], room, (LEVEL, call[1]))
        assert now == blank or oracle.read_deck(deck, LEVEL, call[1])[0]["year"] == 2009 and (
            42 in (now[0][0], blank[0][0]) or beside_air(now[1]) == beside_air(blank[1])), (now[0], blank[0])
    assert now[0][0] != 0 or oracle.demand_3(deck, 256, LEVEL, call[1])
    moved[call[1], now[0][0]] += first[0][0] == 41
    if call[0] < LEVEL and then != now:
        renewed.append((call[1], len(files["composites" if call[1] else "decks"].stored) + 1, slot_12(deck).decode(), then[0], now[0]))
    return now


def put(kind, deck, room=None, want=None):
    """stores it, where its number at the level of the call is wanted"""
    if room is None:
        room = any_room(deck)
    file = files["composites" if call[1] else "decks"]
    if (deck, room) in file.have:
        return False
    if want is not None and answer(deck, room)[0][0] not in want:
        return False
    told, rep = held(deck, room)
    assert len(deck) <= 8192 and room <= 40000, (len(deck), room)
    file.have.add((deck, room))
    file.stored.append("".join(f"{x:>6}" for x in (len(deck), room) + told).encode() + b"\n" + deck + rep)
    file.by_kind[kind][told[0]] += 1
    if told[0] == 0:
        file.accepted.append(deck)
    return True


def fill(kind, count, make, want=None):
    """count decks that make gives, tried until the answer's number is wanted"""
    done = tries = 0
    while done < count:
        tries += 1
        if tries > 4000:
            raise SystemExit(f"{kind}: {done} of {count} after {tries}")
        d = make()
        room = None
        if isinstance(d, tuple):
            d, room = d
        if put(kind, d, room, want):
            done += 1


# ---- records ----
S0 = "20 1.5 30 0.2 0.36 0.2 1 18.94 27.5 0.01 0.61".split()
C0 = ("0.01 1 0.48 0.35 0.8 0.6 0.02 0.03 0.04 0.05 120 0.03 0.01 0.05 12.5 0.9 0.75 0.1 0.003 0.0011 1.5 0.5").split()
R0 = "63.3 75 27375 15.8 0.9 350 25 0.8 214 151 9000 0.01 890 0.1 0.5 0.1 0.25 0.05 0.3 0.9 350 70".split()
NAMES = [("S", SITE), ("C", CHEM), ("R", REC)]


def with_(fields, names, **changes):
    f = list(fields)
    for k, v in changes.items():
        f[names.index(k)] = v
    return f


def S(**c): return with_(S0, SITE, **c)
def C(**c): return with_(C0, CHEM, **c)
def R(**c): return with_(R0, REC, **c)


def one(s=None, c=None, r=None, ids=(1, 1, 1)):
    assert all(len(x) <= 12 for l in (s, c, r) if l for x in l), (s, c, r)
    return deck_text((ids[0], s or S0), [(ids[1], c or C0)], [(ids[2], r or R0)])


def top(name):
    return "1" if name in ATMOST1 else "366" if name in ATMOST366 else "1E+09"


def realistic(nc, nr, receptor=REC):
    s = (rng.randint(1, 999999), decks.record(rng, SITE, decks.typical))
    cs = [(i, decks.record(rng, CHEM, decks.typical)) for i in decks.ids(rng, nc)]
    rs = [(i, decks.record(rng, receptor, decks.typical)) for i in decks.ids(rng, nr)]
    return s, cs, rs


def real_deck(nc, nr):
    return deck_text(*realistic(nc, nr))


def some_deck():
    return real_deck(rng.choice([1, 1, 2, 3]), rng.choice([1, 1, 2]))


# ---- document 01's example, each kind of buffer ----
EX = oracle.example(*ORDINARY)
n = need(EX)
for room in (0, 1, n - 95, n - 1, n, n + 1, n + 95, n + 700):
    put("document 01's example", EX, room)

# ---- each field at its ends ----
SMALL = ["1E-20", "0.1E-19", "100E-22", "0.000001E-14"]
NOUGHT = ["0", "0.0", "0E+99", "000", "0.00E-99"]
BIG = {"1": ["1", "1.00000000", "10E-01", "0.1E+01"], "366": ["366", "3.66E+02", "366.000000"],
       "1E+09": ["1E+09", "1000000E+03", "1.00E+09", "0.1E+10"]}
for kind, names in NAMES:
    for name in names:
        for text in [rng.choice(SMALL), rng.choice(BIG[top(name)])] + ([rng.choice(NOUGHT)] if name not in NONZERO and rng.random() < .1 else []):
            f = {"S": S, "C": C, "R": R}[kind](**{name: text})
            put("a field at an end of its range", one(*[f if k == kind else None for k in "SCR"]))


# ---- many fields at their ends ----
def ends(r, name):
    v = rng.random()
    if name in NOVALUE and v < .15:
        return "-"
    if v < .3:
        return "1E-20"
    if v < .5 and name not in NONZERO:
        return "0"
    if v < .7:
        return top(name)
    return {"S": S0, "C": C0, "R": R0}[r][dict((k, n) for k, n in NAMES)[r].index(name)]


def ends_deck():
    nc, nr = rng.choice([1, 1, 2]), rng.choice([1, 1, 2])
    return deck_text((1, [ends("S", n) for n in SITE]), [(i + 1, [ends("C", n) for n in CHEM]) for i in range(nc)],
                     [(i + 1, [ends("R", n) for n in REC]) for i in range(nr)])


def few_ends_deck():
    p = rng.uniform(.1, .3)
    pick = lambda r, names, base: [ends(r, n) if rng.random() < p else b for n, b in zip(names, base)]
    return deck_text((1, pick("S", SITE, S0)), [(1, pick("C", CHEM, C0))], [(1, pick("R", REC, R0))])


K = "many fields at their ends"
low = lambda names: ["1E-20" for n in names]
high = lambda names: [top(n) for n in names]
zero = lambda names: ["1" if n in NONZERO else "0" for n in names]
nov = lambda names: ["-" if n in NOVALUE else "1E-20" for n in names]
for s, c, r in ((low, low, low), (high, high, high), (zero, zero, zero), (low, high, low), (high, low, high), (high, low, low),
                (low, low, high), (high, nov, high), (zero, nov, zero), (high, zero, high), (zero, high, zero)):
    put(K, deck_text((1, s(SITE)), [(1, c(CHEM))], [(1, r(REC))]))
fill(K, 8, ends_deck, {0})
fill(K, 8, few_ends_deck, {0})
fill(K, 4, ends_deck, {41})
fill(K, 4, few_ends_deck, {42})

# ---- x near 64 ----
K = "x near 64"
ONLY = dict(Xe="0", RO="0", R="0")
near = lambda tD, ksg, ksv: put(K, one(S(tD=tD, **ONLY), C(ksg=ksg, ksv=ksv), R(T2=rng.choice([tD, tD, "1E-20"]))))
for tD, ksg, ksv in (("1", "64", "0"), ("1", "63.9999999", "0"), ("1", "64.0000001", "0"), ("30", "2.13333333", "0"), ("30", "2.13333334", "0"),
                     ("1", "32", "32"), ("1", "63.9999999", "1E-20"), ("1", "64", "1E-20"), ("1", "63.9999999", "0.0000001"),
                     ("1", "63.9999999", "1.1E-07"), ("2", "32", "0"), ("2", "32.0000001", "0"), ("2", "31.9999999", "0"), ("64", "1", "0"),
                     ("64", "1.00000001", "0"), ("64", "0.99999999", "0"), ("1E+09", "6.4E-08", "0"), ("1E+09", "6.400001E-08", "0"),
                     ("6.4E-19", "1E+09", "0"), ("1E-20", "1E+09", "1E+09"), ("1", "64.01", "0"), ("3", "21.3333333", "0"), ("3", "21.3333334", "0")):
    near(tD, ksg, ksv)


def x_other():
    """loss by erosion, runoff and leaching near 64"""
    s = S(tD=str(rng.randint(1, 90)))
    c = C(ksg="0", ksv="0", Kds=decks.spell(rng, 10 ** rng.uniform(-2, 2)))
    which = rng.choice(["Xe", "RO", "R"])
    slots = {k: oracle.read_number(v.rjust(12).encode()) for k, v in zip(SITE, s)}
    base = {k: oracle.read_number(v.rjust(12).encode()) for k, v in zip(CHEM, c)}
    for k in ("Xe", "RO", "R"):
        if k != which:
            slots[k] = oracle.F(0)
            s[SITE.index(k)] = "0"
    slots[which] = oracle.F(1)
    x1 = oracle.loss(oracle.Exact(256), slots, base) * slots["tD"]
    v = float(64 / x1) * (1 + rng.choice([-1, 1]) * 10 ** rng.uniform(-9, -3))
    if not 1e-20 <= v <= 1e9:
        return one()
    e = len(f"{v:.0f}") if v >= 1 else 1
    t = f"{v:.{9 - e}f}" if v >= 1e-2 and v < 9e8 else f"{v:.6e}".replace("e", "E")
    s[SITE.index(which)] = t[:12]
    return one(s, c, R(T2=s[2]))


fill(K, 6, x_other, {41})
fill(K, 6, x_other, {0})


def x_place(nc=None):
    nc = nc or rng.choice([2, 3, 5, 16])
    s, cs, rs = realistic(nc, rng.choice([1, 1, 2]))
    s[1][2] = "1"
    for _, r in rs:
        r[21] = rng.choice(["1", "0.5"])
    for k in rng.sample(range(nc), rng.choice([1, 1, 2])):
        cs[k][1][11] = rng.choice(["64.0000001", "70", "1E+09", "65"])
    return deck_text(s, cs, rs)


fill(K, 8, x_place, {41})

# ---- figures near their caps ----
K = "figures near their caps"
ALONE = {1: dict(IRsoil="0", SAb="0", SAh="0", IRag="0", IRbg="0"), 2: dict(IRinh="0", EFw="0", SAb="0", SAh="0", IRag="0", IRbg="0"),
         3: dict(IRinh="0", EFs="0", IRag="0", IRbg="0"), 4: dict(IRinh="0", IRsoil="0", IRag="0", IRbg="0"),
         5: dict(IRinh="0", IRsoil="0", SAb="0", SAh="0", IRbg="0"), 6: dict(IRinh="0", IRsoil="0", SAb="0", SAh="0", IRag="0")}


def nine(k):
    """k, a count of eight-digit steps from 1E-20 up, as a field: no more digits fit beside an exponent"""
    e, m = divmod(k, 90_000_000)
    t = f"{m + 10_000_000}E{e - 27:+03d}"
    assert len(t) == 12
    return t


def adjacent(make, lo, hi, spelled=nine):
    """the two neighbouring values between which make's deck turns from one answer to the other"""
    ok = lambda k: answer(make(spelled(k)), None)[0][0]
    a = ok(lo)
    while hi - lo > 1:
        mid = (lo + hi) // 2
        if ok(mid) == a:
            lo = mid
        else:
            hi = mid
    return lo, hi


for p in range(1, 7):
    for rfd, csf, field in ((True, False, "RfD"), (False, True, "CSF")):
        name = field + ("i" if p == 1 else "o")
        ref = {k: "-" for k in ("RfDo", "RfDi", "CSFo", "CSFi")}
        big = dict(Q="1000", RCF="1E+04") if p in (2, 3, 4, 6) else dict(Q="100")
        make = lambda t: one(None, C(**{**ref, **big, name: t}), R(T2="70" if p % 2 else "20", **ALONE[p]))
        lo, hi = adjacent(make, 0, 90_000_000 * 29)
        for k in (lo, hi):
            put(K, make(nine(k)))
        if p in (1, 4):
            put(K, make(nine(lo)), n - 1)
            put(K, make(nine(hi)), n - 1)

# exactly at the caps
XS = "10 2 30 0.2 0 0 0 0 0 0.01 0.5".split()
XC = "1 1 1 0 0 1 0 0 0.001 0 100 0 0 0.1 10 1 1 0.1 0.001 0.001 1 -".split()
XR = "20 5 27375 10 1 365 80 1 73 146 1000 0.02 400 0.1 1 0.1 0.5 0.2 0.5 1 365 1".split()
for q in ("20000", "20000.0001", "19999.9999", "2E+04", "20000.1"):
    put(K, one(XS, with_(XC, CHEM, Q=q), XR))
for q in ("800000", "799999.999", "799999.99", "800000.001"):     # T2 below tD and k = 0: half of the highest year's soil
    put(K, one(XS, with_(XC, CHEM, Q=q, RfDo="-", RfDi="-"), XR))
for csf in ("2000", "2000.00001", "1999.99999"):     # pathway 1: risk = intake × CSFi, intake exact
    put(K, one(XS, with_(XC, CHEM, Q="10", CSFo="-", CSFi=csf), with_(XR, REC, ATc="18250")))


def cap_place():
    nc, nr = rng.choice([1, 2, 3, 16]), rng.choice([1, 2, 4])
    s, cs, rs = realistic(nc, nr)
    if rng.random() < .6:
        k = rng.randrange(nc)
        cs[k][1][rng.choice([20, 21])] = "1E+09"
    else:
        k = rng.randrange(nr)
        rs[k][1][0] = "1E-12"
    return deck_text(s, cs, rs)


fill(K, 8, cap_place, {42})


def late_cap():
    """the first line above a cap is a later receptor's"""
    nc, nr = rng.choice([1, 2, 3]), rng.choice([2, 3, 4])
    s, cs, rs = realistic(nc, nr)
    rs[rng.randrange(1, nr)][1][0] = "1E-12"
    return deck_text(s, cs, rs)


done = 0
while done < 10:
    deck = late_cap()
    told = answer(deck, None)[0]
    if told[0] == 42:
        first = [l[:2] for l in (deck[i:i + 81] for i in range(0, len(deck), 81))].count(b"C1") * 6 + 1
        if told[1] > first:
            done += put(K, deck, None)

# 51 before 42, with a solvent too, and the deck's own conditions before 51; before P5 41 came between
K = "two conditions at once; a solvent with one"
both = one(S(tD="1", **ONLY), C(ksg="65", CSFo="1E+09", Q="1E+09"))
put(K, both)
put(K, both, n - 1)
put(K, both, 0)
hot = one(None, C(CSFo="1E+09", Q="1E+09"))
put(K, hot)
put(K, hot, n - 1)
fast = one(S(tD="1", **ONLY), C(ksg="65"))
put(K, fast, n - 1)
put(K, deck_text((1, S(tD="1", **ONLY)), [(1, C(CSFo="1E+09", Q="1E+09")), (2, C(ksg="65"))], [(1, R0)]))
put(K, deck_text((1, S0), [(1, C(RfDo="1E-20", CSFo="1E+09", Q="1E+09", HgA="0"))], [(1, R0), (2, R0)]))
for line, at, text in ((3, 8, "        1E+5"), (4, 20, "           x"), (0, 8, "           0"), (9, 80 - 12, "           1"), (5, 2, "     2"), (10, 2, "x")):
    d = bytearray(EX)
    d[81 * line + at:81 * line + at + len(text)] = text.encode()
    put(K, bytes(d), rng.choice([0, 100, n - 1]))

# ---- missing reference values ----
K = "missing reference values"
REFS = ("RfDo", "RfDi", "CSFo", "CSFi")
for mask in range(16):
    put(K, one(None, C(**{k: "-" for i, k in enumerate(REFS) if mask >> i & 1})))


def missing(nc, nr, share):
    s, cs, rs = realistic(nc, nr)
    for i, f in cs:
        for k in (18, 19, 20, 21):
            if rng.random() < share:
                f[k] = "-"
    return deck_text(s, cs, rs)


for nc, nr in ((1, 1), (2, 2), (3, 1), (1, 4), (16, 1)):
    fill(K, 1, lambda: missing(nc, nr, 1), {0})
fill(K, 8, lambda: missing(rng.choice([2, 3]), rng.choice([1, 2]), .75), {0})
for only in ((18, 19), (20, 21), (18, 20), (19, 21)):
    def make():
        s, cs, rs = realistic(2, 2)
        for i, f in cs:
            for k in (18, 19, 20, 21):
                if k not in only:
                    f[k] = "-"
        return deck_text(s, cs, rs)
    fill(K, 2, make, {0})
put(K, one(None, C(Q="0")))
put(K, one(None, C(Q="0", CSFo="-", CSFi="-")))
put(K, one(None, C(CSFo="0", CSFi="0")))

# ---- sizes ----
K = "16 chemicals and 4 receptors"
big = []
rooms = [36860, 36860, 36860, 36861, 36861, 37161, 37560, 36955]
i = tries = 0
while i < len(rooms):
    tries += 1
    d = real_deck(16, 4)
    if answer(d, None)[0][0] == 0:
        put(K, d, rooms[i])
        big.append(d)
        i += 1
for d in big[:4]:
    put(K, d, 36859)
K = "sizes"
fill(K, 5, lambda: real_deck(16, 1), {0})
fill(K, 5, lambda: real_deck(1, 4), {0})
fill(K, 6, lambda: real_deck(rng.randint(2, 8), rng.randint(1, 3)), {0})
K = "realistic"
fill(K, 20, some_deck, {0})


def short():
    d = real_deck(rng.choice([1, 2, 3, 16]), rng.choice([1, 2, 4]))
    m = need(d)
    return d, rng.choice([m - 1, m - 1, m - 1, m - 95, 0, rng.randrange(m)])


fill("a buffer too short", 10, short, {51})

# ---- refusals of the deck itself ----
K = "damaged decks"
for length in (0, 1, 80, 82, 810 + 80, 892):
    put(K, (EX * 2)[:length])
for d in (big[0] + big[0][-81:], big[0] + b" ", big[0][:-1], big[0] + b"\n" * 81, (EX * 10)[:8100], big[0][81:] + b"x" * 82):
    put(K, d)
d = [EX[i:i + 81] for i in range(0, len(EX), 81)]
j = lambda *parts: b"".join(b"".join(p) if isinstance(p, list) else p for p in parts)
for deck in (j(d[:10]), j(d[:2], d[6:]), j(d[1:]), j(d[:6], d[10:]), j(d, d[10]), j(d, d[0]), j(d[:3], d[2:]), j(d[:2], d[3:]), j(d[10]),
             j(d[:1], d[10]), j(d[:9], d[10])):
    put(K, deck, None, {21})
put(K, deck_text((1, S0), [(i, C0) for i in range(1, 18)], [(1, R0)]), None, {21})
put(K, deck_text((1, S0), [(1, C0)], [(i, R0) for i in range(1, 6)]), None, {21})
put(K, deck_text((1, S0), [(2, C0), (2, C0)], [(1, R0)]), None, {22})
put(K, deck_text((1, S0), [(2, C0), (1, C0)], [(1, R0)]), None, {22})
put(K, deck_text((1, S0), [(1, C0)], [(9, R0), (9, R0)]), None, {22})
put(K, deck_text((1, S0), [(1, C0)], [(10, R0), (9, R0)]), None, {22})
put(K, deck_text((7, S0), [(7, C0), (999999, C0)], [(7, R0), (8, R0)]))
for number, count in ((11, 2), (12, 12), (21, 4), (22, 10), (31, 16), (32, 14), (33, 14)):
    fill(K, count, lambda: decks.damage(rng, some_deck(), FIRST), {number})
fill(K, 8, lambda: decks.damage(rng, some_deck(), FIRST), {0})


# ---- request P1: as many digits as twelve columns hold ----
RECORD = {name: kind for kind, names in NAMES for name in names}
PLAIN = {**dict(zip(SITE, S0)), **dict(zip(CHEM, C0)), **dict(zip(REC, R0)), "Q": "1000"}     # all nine figures are printed


def at(**texts):
    """the plain deck with these fields"""
    parts = [{k: v for k, v in {**PLAIN, **texts}.items() if RECORD[k] == kind} for kind in "SCR"]
    return one(S(**parts[0]), C(**parts[1]), R(**parts[2]))


def value_of(text):
    return oracle.read_number(text.rjust(12).encode(), LEVEL)


def ends_of(text):
    return oracle.around(value_of(text))


def nine_figures(w):
    """a working number of 0.1 to 1E+09 as a field"""
    m, e = w
    t = str(m).rjust(1 - e, "0")
    return f"{t[:e]}.{t[e:]}" if e < 0 else str(m * 10 ** e)


def lively(name):
    """a realistic value, seldom 0 or 1"""
    v = decks.typical(rng, name)
    return decks.typical(rng, name) if v in (0, 1) and rng.random() < .9 else v


def long(v):
    """v in ten to twelve digits"""
    if v is None:
        return "-"
    if v == 0:
        return rng.choice(["0.0000000000", "000000000000", "0.000000000", "00000.000000"])
    if v >= 1 and rng.random() < .08:
        return f"{round(v):012}"
    width = rng.choice([11, 12, 12, 12])
    return f"{v:.{width - 1 - len(str(int(v)))}f}"


def long_deck(nc, nr):
    record = lambda names: [long(lively(n)) for n in names]
    return deck_text((rng.randint(1, 999999), record(SITE)), [(i, record(CHEM)) for i in decks.ids(rng, nc)],
                     [(i, record(REC)) for i in decks.ids(rng, nr)])


K = "P1: ten to twelve digits in all fields"
for count, nc, nr in ((8, 1, 1), (4, 3, 2), (1, 16, 4)):
    fill(K, count, lambda: long_deck(nc, nr), {0})
fill(K, 2, lambda: (long_deck(2, 1), 95 * 13 - 1), {51})

# each slot in turn: eleven digits whose two ends, written as the field, each give another report
K = "P1: each slot in turn with eleven digits"


def eleven_digits(name, wide):
    """a share of 0.1 to 1, days of 100 to 365; else near the plain deck's value, or wide of it"""
    b = float(PLAIN[name])
    if name in ATMOST1 or b < .1 and not wide:
        v = rng.uniform(.1, 1)
    elif name in ATMOST366:
        v = rng.uniform(100, 365)
    else:
        v = 10 ** rng.uniform(0, 4) if wide else rng.uniform(.8, 1.2) * max(b, 1.3)
    return f"{v:.{11 - len(str(int(v)))}f}"


def telling(name):
    """a deck that tells its value from the working numbers next to it"""
    for k in range(400):
        t = eleven_digits(name, k > 60)
        assert len(t) == 12, t
        low, high = ends_of(t)
        deck = at(**{name: t})
        told, rep = answer(deck, None)
        if low != high and told[0] == 0 and rep not in [answer(at(**{name: nine_figures(w)}), None)[1] for w in (low, high)]:
            return deck
    raise SystemExit(f"{name}: no value tells its ends")


for kind, names in NAMES:
    for name in names:
        assert put(K, telling(name), None, {0})

# nine figures that carry
K = "P1: nine figures that carry"
for name, t in (("Zs", "9.9999999999"), ("Zs", "99.999999999"), ("tD", "9.9999999995"), ("tD", "99.999999991"), ("BD", "0.9999999999"),
                ("Kds", "999.99999999"), ("Kds", "999999999.5"), ("Kds", "999999999.99"), ("Q", "0.9999999995"), ("HgA", "0.9999999999"),
                ("Cyp", "0.9999999991"), ("RfDo", "999999999.5"), ("RfDi", "0.9999999999"), ("CSFo", "9.9999999999"), ("BW", "99.999999999"),
                ("ED", "9.9999999999"), ("ATc", "99999.999995"), ("ATc", "999999999.1"), ("SAb", "9999.9999999"), ("EFs", "99.999999999"), ("WP", "0.9999999995")):
    low, high = ends_of(t)
    assert low[0] == oracle.HI and high[0] == oracle.LO
    assert put(K, at(**{name: t}))

# ten digits and more that are one working number: the report is that of the short spelling
K = "P1: equal ends in ten digits and more"


def same_as(short_deck, long_deck):
    assert answer(short_deck, None) == answer(long_deck, None)
    assert put(K, long_deck, None, {0})


def stretched(t, how):
    """another spelling of the same value"""
    if t == "-" or "E" in t:
        return t
    w, p = (t.split(".") + [""])[:2]
    return {"before": (w + ("." + p if p else "")).rjust(12, "0"), "behind": f"{w}.{p}".ljust(12, "0"),
            "both": f"{w.rjust(5, '0')}.{p}".ljust(12, "0"), "ten": f"{w}.{p}".ljust(11, "0") if p else w.rjust(10, "0")}[how]


for how in ("before", "behind", "both", "ten"):
    same_as(one(), one(*[[stretched(t, how) for t in f] for f in (S0, C0, R0)]))
    same_as(EX, one(*[[stretched(t, how) for t in f] for f in (XS, XC, XR)]))
for name, t, plain in (("Zs", "20.000000000", "20"), ("BD", "1.234567890", "1.23456789"), ("tD", "000000000030", "30"), ("HgD", "1.0000000000", "1"),
                       ("Kds", "123456789.00", "123456789"), ("Kds", "001000000000", "1E+09"), ("Fv", "0.1234567800", "0.12345678"),
                       ("CSFo", "0.0000000120", "12E-09"), ("ATc", "0025000000.0", "25E+06"), ("EFs", "0000000366.0", "366")):
    same_as(at(**{name: plain}), at(**{name: t}))

# the vapour share: 1 - Fv from the printed digits, with particles that count
K = "P1: the vapour share near 1, near 0 and between"
PARTICLES = dict(Cyv="0", Dydv="0", Dywv="0")
untold = collections.Counter()
# not P1's: the low end for both, the high end for both, 1 - the pair of the field
OTHER_WAYS = (lambda A, one, f: (oracle.of(one - f, False),) * 2, lambda A, one, f: (oracle.of(one - f, True),) * 2,
              lambda A, one, f: oracle.one_minus(oracle.around(f)))


def otherwise(deck, way, owner, name):
    """the report with what is named taken another way"""
    kept = owner.__dict__[name]
    setattr(owner, name, way)
    told = answer(deck, None)[1]
    setattr(owner, name, kept)
    return told


def rest_otherwise(deck, way):
    """the report with 1 - Fv taken another way, and T2 - tD as ever"""
    kept = oracle.Pairs.less
    return otherwise(deck, lambda A, a, b: (way if type(a) is int else kept)(A, a, b), oracle.Pairs, "less")


def share(t, **more):
    """a deck that tells 1 - Fv from as many other ways as can be; the less is left for the particles the more of them there are"""
    f = value_of(t)
    s = len(str(int(1 / (1 - f)))) - 1 if f < 1 else 0
    q, s = (3, s - 1) if s >= 2 else (2, s)
    ways = [w for w in OTHER_WAYS if w(None, 1, f) != oracle.around(1 - f)]
    best = -1
    for _ in range(150):
        figures = {k: f"{rng.choice([100, rng.randint(100, 999)])}E{e - 2:+03d}" for k, e in (("Cyp", s - 1), ("Dydp", s - 2), ("Dywp", s - 2), ("Q", q))}
        deck = at(Fv=t, **figures, **more)
        told, rep = answer(deck, None)
        apart = sum(rep != rest_otherwise(deck, w) for w in ways)
        if told[0] == 0 and apart > best:
            best, kept = apart, deck
        if best == len(ways):
            break
    assert put(K, kept)
    untold[t] += len(ways) - best


for t in ("0.9999999999", "0.9999999998", "0.9999999995", "0.9999999989", "0.999999999", "0.9999999990", "0.99999999", "0.9000000001",
          "0.8999999999", "0.8999999991", "0.9876543211", "0.5000000005", "0.3456789012", "0.0000000001", "0.0000000005", "0.0000000011", "0.0000000010",
          "1E-20", "1E-11", "5E-10", "1.000000E-09"):
    share(t, **PARTICLES)
for t in ("0.9999999999", "0.9999999997", "0.9999999901", "0.8999999999", "0.6666666667", "0.0000000001", "1.00000000", "1.0000000000", "000000000001",
          "10E-01", "0.0000000000", "000000000000"):
    share(t)
share("1.0000000000", **PARTICLES)
print("other ways to take 1 - Fv that a deck does not tell:", {t: n for t, n in untold.items() if n})

# ranges by the printed digits
K = "P1: ranges by the printed digits"
for name in sorted(ATMOST1 & RECORD.keys()):
    assert put(K, at(**{name: rng.choice(["1.0000000001", "1.000000001", "01.000000001"])}), None, {33})
for name in sorted(ATMOST366 & RECORD.keys()):
    assert put(K, at(**{name: rng.choice(["366.0000001", "366.00000001"])}), None, {33})
    assert put(K, at(**{name: rng.choice(["366.00000000", "365.99999999"])}), None, {0})
for name, t in (("tD", "1000000000.1"), ("Kds", "1000000000.1"), ("ATc", "1000000001"), ("RfDo", "1000000000.1"), ("CSFi", "999999999999"), ("BW", "001000000001"),
                ("Zs", "0.0000000000"), ("RfDi", "000000000000"), ("ED", "00000.000000")):
    assert put(K, at(**{name: t}), None, {33})
for name, t in (("Kds", "1000000000.0"), ("ATc", "1000000000.0"), ("BW", "1000000000"), ("RfDo", "01000000000"), ("Br", "0.0000000000"), ("ksv", "000000000000"),
                ("AFderm", "0.9999999999"), ("Fbg", "1.0000000000")):
    assert put(K, at(**{name: t}), None, {0})

# x at 64 and on both sides of it, told by ten digits and more
K = "P1: x near 64"
for tD, ksg, ksv in (("1", "64.000000000", "0"), ("1", "64.000000001", "0"), ("1", "63.999999999", "0"), ("1.0000000000", "64", "0"),
                     ("1.0000000001", "64", "0"), ("0.9999999999", "64", "0"), ("0.9999999999", "64.000000001", "0"), ("30.000000000", "2.1333333300", "0"),
                     ("30.000000000", "2.1333333333", "0"), ("29.999999999", "2.1333333333", "0"), ("31.999999999", "2.0000000000", "0"), ("32.000000001", "2", "0"),
                     ("32", "2.0000000001", "0"), ("1", "32.000000000", "32.000000000"), ("1", "32.000000001", "31.999999998"), ("1", "63.999999999", "0.0000000001"),
                     ("1", "63.999999900", "0.0000000999"), ("1", "63.999999900", "0.0000001001"), ("1000000000.0", "0.0000000640", "0.0000000000"),
                     ("1000000000.0", "0.0000000640", "1E-20")):
    assert put(K, one(S(tD=tD, **ONLY), C(ksg=ksg, ksv=ksv), R(T2=tD)), None, {0, 41})
for place in (2, 3):
    cs = [(i, C(ksg="63.999999999" if i < place else "64.000000001", ksv="0")) for i in (1, 2, 3)]
    assert put(K, deck_text((1, S(tD="1", **ONLY)), cs, [(1, R(T2="1"))]), None, {41})

# a quotient at 10,000 and a risk at 1, and eleven digits on both sides of the cap
K = "P1: figures near their caps"
for q in ("20000.000000", "20000.000001", "19999.999999", "0000020000.0"):
    assert put(K, one(XS, with_(XC, CHEM, Q=q), XR))
for csf in ("2000.0000000", "2000.0000001", "1999.9999999"):
    assert put(K, one(XS, with_(XC, CHEM, Q="10", CSFo="-", CSFi=csf), with_(XR, REC, ATc="18250.000000")))


def eleven(k):
    t = str(10_000_000_000 + k)
    return f"{t[0]}.{t[1:]}"


MOST = 89_999_999_999
for p in range(1, 7):
    for field in ("RfD", "CSF"):
        name = field + ("i" if p == 1 else "o")
        refs = {k: "-" for k in REFS}
        for q in range(-9, 10):
            make = lambda t: one(None, C(**{**refs, "Q": f"1E{q:+03d}", "RCF": "1E+04", "Dydp": "1E+04", name: t}), R(**ALONE[p]))
            if len({answer(make(eleven(k)), None)[0][0] for k in (0, MOST)}) == 2:
                break
        for k, number in zip(adjacent(make, 0, MOST, eleven), (42, 0) if field == "RfD" else (0, 42)):
            assert put(K, make(eleven(k)), None, {number})

# misspelled, of ten digits and more
K = "P1: misspelled"
for name, t in zip(rng.sample(SITE + CHEM + REC, 20),
                   ("1234567890.", ".1234567890", "12345.67890.", "1.2345.67890", "1234567890E", "1234567890E1", "1234567890E+", "12345678901 ", "+1234567890",
                    "-1234567890", "1 2345678901", "1,2345678901", "00000000010.", "123456789E01", "1234567890e0", "12345678901-", "0x1234567890", "E+0123456789",
                    "0.99999999.9", ".99999999999")):
    assert put(K, at(**{name: t}), None, {31})

# damaged decks of long numbers
K = "P1: damaged decks"
for number, count in ((0, 3), (31, 4), (32, 2), (33, 4), (22, 1), (21, 1)):
    fill(K, count, lambda: decks.damage(rng, long_deck(1, 1), FIRST), {number})

# ---- request P2: composite receptors, each made of one to eight stages ----
STAGE = oracle.Rules(*COMPOSITE).slots["R"]
PAIRS = oracle.Pairs()
TABLE = {"BW": "8.2 16.5 32.9 59.7 70.7", "ED": "0.5 4.5 7 8 56", "IRinh": "2.1 9.3 14.5 15.8 15.8", "IRsoil": "30 200 50 50 50",
         "SAb": "2110 3470 5700 8520 9660", "SAh": "320 430 590 800 890", "IRag": "0 0.0127 0.025333 0.019104 0.022624",
         "IRbg": "0 0.0038 0.007567 0.008358 0.009898", "years": "0.5 4.5 7 8 56"}
ALIKE = dict(ATc="27375", ETinh="1", EFinh="365", ETsoil="1", EFs="214", EFw="151", SAFb="0.01", SAFh="0.1", ETderm="1", Fag="0.233", Fbg="0.106",
             WP="1", EFp="365")
work = oracle.composite_person


def stage(years="1", **c):
    return with_(R0[:21] + ["", years, ""], STAGE, **c)


FIVE = [stage(**ALIKE, **{k: v.split()[i] for k, v in TABLE.items()}) for i in range(5)]    # document 002's: crates/tally_composite says which are ours


def each(stages, **c):
    """these fields in every stage"""
    return [with_(f, STAGE, **c) for f in stages]


def composite(stages, s=None, cs=None, first=1):
    assert all(len(t) <= 12 for f in stages for t in f)
    return deck_text((1, s or S0), list(enumerate(cs or [C(Q="1000")], 1)), list(enumerate(stages, first)))


SLOW = S(**ONLY), [C(Q="1000", ksg="5E-09", ksv="0")]      # for a T2 of up to 8E+9 years


def slow_if_long(stages):
    """the plain deck of these stages, with a slow loss where their years are many"""
    return composite(stages, *(SLOW if sum(value_of(f[22]) for f in stages) > 500 else ()))


def real_composite(nc, nr):
    return deck_text(*realistic(nc, nr, STAGE))


def accepted(make):
    while True:
        deck = make()
        if answer(deck, None)[0][0] == 0:
            return deck


def set_field(deck, line, field, text):
    at = 81 * (line - 1) + 8 + 12 * (field - 1)
    return deck[:at] + text.rjust(12).encode() + deck[at + 12:]


def digits(v, count):
    """v in so many digits, its whole ones at least"""
    return f"{v:.{max(count - len(str(int(v))), 0)}f}"


# one stage alone is the ordinary receptor with ED and T2 its years and ATc 365 times them, where nine figures hold each years × value
def alone(figures):
    """a composite's deck of one stage, years and values of so many figures, and that receptor's ordinary deck"""
    while True:
        some = {k: digits(min(max(lively(k), .001), 365), figures) for k in oracle.REC if k not in ("ED", "ATc")}
        years = digits(rng.uniform(1, 76), figures)
        fields = stage(years, ED="70", ATc="9", **{k: v for k, v in some.items() if value_of(v)})
        plain = with_(fields[:22], REC, ED=years, ATc=decks.exactly(365 * value_of(years)), T2=years)
        pair = composite([fields], None, [C(Q="10")]), one(None, C(Q="10"), plain)
        if answer(pair[0], None, COMPOSITE)[0][0] == 0:
            return pair


singles = {figures: [alone(figures) for _ in range(100)] for figures in (4, 5, 6, 7)}
unlike = {figures: [(a, b) for a, b in pairs if answer(a, None, COMPOSITE) != answer(b, None, ORDINARY)] for figures, pairs in singles.items()}
assert not unlike[4]
print("one stage alone, of 100 with so many figures how many have not the ordinary report:", {k: len(v) for k, v in unlike.items()})

# ordinary decks, whose slot 23 stays blank
call = ORDINARY
most = real_composite(16, 8)
K = "P2: a slot past T2 filled"
for field, t in ((5, "1"), (5, "0"), (5, "1E-20"), (5, "1E+09"), (5, "1.1E+09"), (5, "-"), (5, "75.000000001"), (6, "1")):
    assert put(K, set_field(EX, 10, field, t), None, {32})
assert put(K, set_field(EX, 10, 5, "1E5"), None, {31})
assert put(K, set_field(deck_text((1, S0), [(1, C0), (2, C0)], [(1, R0), (2, R0)]), 18, 5, "56"), None, {32})
K = "P2: five receptors and more"
for nc, nr in ((1, 5), (12, 5), (1, 8), (1, 9)):
    assert put(K, deck_text((1, S0), [(i, C0) for i in range(1, nc + 1)], [(i, R0) for i in range(4, nr + 4)]), None, {21})
K = "P2: a composite's deck"
for nc, nr in ((1, 1), (2, 1), (1, 2), (3, 4), (16, 4), (1, 5), (1, 8)):
    assert put(K, real_composite(nc, nr), None, {32})
K = "P2: more than 6,723 bytes"
for d in (big[1] + big[1][-81:], big[1][:-81] + big[1][-405:], real_composite(16, 5), most):
    assert len(d) in (6804, 7047, 8019) and put(K, d, None, {11})
K = "P2: the receptor that a composite of one stage equals"
for _, deck in singles[4][:6]:
    assert put(K, deck, None, {0})

# ---- request P4: cancer's soil is a mean over the exposure ----
def soils_otherwise(within=lambda T2, tD: T2 <= tD, rest=lambda A, T2, tD: A.less(T2, tD), mean=oracle.h_at, divisor=lambda A, T2: A.num(T2)):
    """the oracle's soils, with one part taken another way"""
    def soils(A, site, c, T2s, over):
        k, D, tD = oracle.loss(A, site, c), oracle.deposition(A, site, c), A.num(site["tD"])
        x = A.mul(k, tD)
        C, h = oracle.products(A, D, tD, oracle.g_at(A, x, False)), mean(A, x, False)

        def soil(T2):
            if within(T2, site["tD"]):
                return oracle.products(A, D, tD, h)
            left = rest(A, T2, site["tD"])
            later = oracle.products(A, C, left, oracle.g_at(A, A.mul(k, left), False))
            return A.div(A.add(oracle.products(A, D, tD, tD, h), later), divisor(A, T2))
        return C, [soil(T2) for T2 in T2s]
    return soils


def from_the_ends(A, T2, tD):
    (low, high), (least, most) = map(oracle.around, (T2, tD))
    return tuple(oracle.of(max(oracle.value(a) - oracle.value(b), 0), up) for a, b, up in ((low, most, False), (high, least, True)))


def highest_year(A, site, c, T2s, over):
    C, _ = soils_kept(A, site, c, T2s, over)
    return C, [C] * len(T2s)


def psi_cut(x):
    """without the last term's high end once more"""
    s = psi = oracle.div(oracle.ONE, oracle.WHOLE[2])
    for n in range(1, 256):
        s = oracle.div(oracle.div(oracle.mul(oracle.mul(s, x), oracle.WHOLE[n + 1]), oracle.WHOLE[n]), oracle.WHOLE[n + 2])
        psi = oracle.add(psi, s)
    return psi


def produce_of_hazard():
    """cancer's produce grown in hazard's soil, which is asked for first"""
    kept, first = oracle.media, {}

    def media(A, site, c, C):
        found = kept(A, site, c, C)
        return {**found, **{p: first.setdefault(id(c), found)[p] for p in (5, 6)}}
    return media


def years_as_pairs(end):
    """a composite's T2 an end of the sum of pairs, which is its ED"""
    kept = oracle.people
    return lambda recs, rules: [(i, oracle.value(oracle.sums(PAIRS, [PAIRS.num(r["years"]) for r in recs])[end]), f) for i, _, f in kept(recs, rules)]


soils_kept = oracle.soils
psi_cut = functools.lru_cache(512)(psi_cut)
SOIL = lambda **part: (lambda: soils_otherwise(**part), oracle, "soils")
EXPOSURE_WAYS = {
    "T2 < tD for T2 <= tD": SOIL(within=lambda T2, tD: T2 < tD),
    "the mean over tD alone": SOIL(within=lambda T2, tD: True),
    "T2 - tD from the ends": SOIL(rest=from_the_ends),
    "T2 - tD down to equal ends": SOIL(rest=lambda A, T2, tD: (A.less(T2, tD)[0],) * 2),
    "T2 - tD up to equal ends": SOIL(rest=lambda A, T2, tD: (A.less(T2, tD)[1],) * 2),
    "T2 for T2 - tD": SOIL(rest=lambda A, T2, tD: A.num(T2)),
    "T2's low end divides": SOIL(divisor=lambda A, T2: (A.num(T2)[0],) * 2),
    "T2's high end divides": SOIL(divisor=lambda A, T2: (A.num(T2)[1],) * 2),
    "g for h": SOIL(mean=oracle.g_at),
    "the highest year's soil": (lambda: highest_year, oracle, "soils"),
    "psi's last term once": (lambda: staticmethod(psi_cut), oracle.Pairs, "psi"),
    "produce of hazard": (produce_of_hazard, oracle, "media"),
}
YEAR_WAYS = {**EXPOSURE_WAYS, "years added as pairs, the low end": (lambda: years_as_pairs(0), oracle, "people"),
             "years added as pairs, the high end": (lambda: years_as_pairs(1), oracle, "people")}
tells = collections.Counter()


def told_apart(deck, ways):
    """the ways whose report is another one"""
    rep = answer(deck, None)[1]
    return {w for w, (way, *where) in ways.items() if otherwise(deck, way(), *where) != rep}


def scaled(v, power):
    """six figures of v x 10^power"""
    return f"{v * 10.0 ** power:.5e}".replace("e", "E")


def figures(tD="30"):
    """what makes the roundings of soil and produce others: the soil about the same for any tD, risks of nine figures and more where that can be"""
    more = len(str(int(1 / float(tD)))) if float(tD) < 1 else 2 - len(str(int(float(tD))))
    q, d = max(min(more, 5), -20), max(min(more - 5, 9), 0)
    return dict(Q=scaled(rng.uniform(20, 200), q), Dydp=scaled(rng.uniform(.01, .1), d), Dywp=scaled(rng.uniform(.01, .1), d), HgA="0", Br=digits(rng.uniform(.01, .1), 5),
                CSFo=scaled(1.5, max(more - 14, 0)), RfDo="1E+05", RfDi="1E+05")


def telling_best(make, tD="30", tries=40):
    """of the decks of one exposure the one that tells the most ways apart"""
    best = None, set()
    for _ in range(tries):
        deck = make(figures(tD))
        if answer(deck, None)[0][0] != 0:
            return deck
        apart = told_apart(deck, YEAR_WAYS if call[1] else EXPOSURE_WAYS)
        if best[0] is None or len(apart) > len(best[1]):
            best = deck, apart
    tells.update((call[1], w) for w in best[1])
    return best[0]


def exposed(tD, T2, loss={}, site={}):
    """a receptor's T2 beside a tD"""
    return telling_best(lambda some: one(S(tD=tD, **site), C(**{**some, **loss}), R(T2=T2)), tD)


K = "P4: T2 below tD, at it and above it"
for loss in ({}, dict(ksg="0.9")):
    for T2 in ("1E-20", "0.5", "29.9999999", "30", "30.0000001", "30.5", "60", "75.5"):
        assert put(K, exposed("30", T2, loss), None, {0})
for T2 in ("29", "31", "1E+09"):
    assert put(K, exposed("30", T2, dict(ksg="5E-09", ksv="0"), ONLY), None, {0})

K = "P4: T2 and tD that differ in their last digits"
for tD, T2 in (("30.000000000", "30.000000001"), ("30.000000001", "30.000000000"), ("30.000000001", "30.000000001"), ("30", "30.000000001"), ("30", "29.999999999"),
               ("0.1234567891", "0.1234567892"), ("0.1234567892", "0.1234567891"), ("1.2345678901", "1.2345678909"), ("9.9999999999", "10"),
               ("9.9999999999", "10.000000001"),
               ("10.000000001", "11.111111112"), ("12.345678901", "75.123456789"), ("0.1234567891", "75.5"), ("7.7777777777", "66.666666666"),
               ("0.0000000001", "0.0000000003")):
    assert put(K, exposed(tD, T2), None, {0})
for tD, T2 in (("10000000E-27", "10000001E-27"), ("10000001E-27", "10000000E-27"), ("1.000000E-20", "10000000E-27"), ("1E-20", "1"), ("1E-20", "56.123456789")):
    assert put(K, exposed(tD, T2), None, {0})
for tD, T2 in (("1E-20", "1E+09"), ("1E+09", "1E-20"), ("999999999.98", "999999999.99"), ("999999999.99", "999999999.98"), ("999999999.99", "1000000000.0"),
               ("1E+09", "1000000000.0"), ("1", "999999999.99")):
    assert put(K, exposed(tD, T2, dict(ksg="5E-09", ksv="0"), ONLY), None, {0})

K = "P4: T2 that is tD in another spelling"
for T2 in ("30.0", "3E+01", "0.3E+02", "300E-01", "000000000030", "30.000000000"):
    same, other = (one(S(tD=t), C(Q="1000"), R(T2=u)) for t, u in (("30", "30"), ("30", T2)))
    assert answer(same, None) == answer(other, None) and put(K, other, None, {0})

# no loss: half of the highest year's soil up to tD, three quarters at twice tD
K = "P4: no loss"
for T2, share_of in (("30", "0.5"), ("1E-20", "0.5"), ("15", "0.5"), ("60", "0.75"), ("120", "0.875"), ("1E+09", None)):
    deck = one(XS, XC, with_(XR, REC, T2=T2))
    site, (chemical,), (receptor,) = oracle.read_deck(deck, *ORDINARY)
    highest, (mean,) = oracle.soils(PAIRS, site, chemical, [receptor["T2"]], collections.defaultdict(bool))
    assert share_of is None or all(oracle.value(end) == oracle.F(share_of) * oracle.value(highest[0]) for end in mean)
    assert put(K, deck, None, {0})

K = "P4: k x (T2 - tD) near 64"
for tD, T2, ksg, ksv in (("1", "33", "2", "0"), ("1", "33.0000001", "2", "0"), ("1", "32.9999999", "2", "0"), ("1", "33.000000001", "2", "0"),
                         ("1", "32.999999999", "2", "0"),
                         ("1.0000000001", "33.0000000", "2", "0"), ("1.0000000001", "33.000000001", "2", "0"), ("32", "64", "2", "0"), ("32", "64.000000001", "2", "0"),
                         ("31.999999999", "64", "2", "0"), ("32", "64", "1.9999999", "1.1E-07"), ("1", "65", "1", "0"), ("1", "65", "1.00000001", "0"),
                         ("1", "65", "0.99999999", "1E-20"),
                         ("1", "65", "1", "1E-20"), ("1E-20", "1E+09", "6.4E-08", "0"), ("1E-20", "1E+09", "6.400001E-08", "0"), ("1E-20", "1", "64", "0"),
                         ("1E-20", "1", "64.0000001", "0"),
                         ("30", "30.000000001", "2.1333333", "0"), ("0.5", "100", "64", "0"), ("0.5", "0.5", "64", "0")):
    assert put(K, one(S(tD=tD, **ONLY), C(ksg=ksg, ksv=ksv), R(T2=T2)), None, {0, 41})
for tD, T2 in (("20", "52.1234567"), ("25", "50")):
    loss = lambda t: one(S(tD=tD), C(ksg=t), R(T2=T2))
    for k in adjacent(loss, 0, MOST, eleven):
        assert put(K, loss(eleven(k)), None, {0, 41})

K = "P4: one receptor's k x (T2 - tD) at 64 and above"
for place, chemical, count in ((1, 1, 1), (2, 1, 1), (3, 2, 2), (4, 3, 3), (4, 16, 16)):
    cs = [(i, C(ksg="2" if i == chemical else "0.5", ksv="0")) for i in range(1, count + 1)]
    for T2 in ("33", "33.000000001"):
        assert put(K, deck_text((1, S(tD="1", **ONLY)), cs, [(i, R(T2=T2 if i == place else str(5 * i))) for i in range(1, 5)]), None, {0 if T2 == "33" else 41})
late = [(1, C(ksg="1", ksv="0")), (2, C(ksg="2", ksv="0"))]
assert put(K, deck_text((1, S(tD="1", **ONLY)), late, [(1, R(T2="34")), (2, R(T2="66"))]), None, {41})      # the first chemical, by the second receptor
assert put(K, deck_text((1, S(tD="1", **ONLY)), late[::-1][:1] + [(3, C(ksg="64.1", ksv="0"))], [(1, R(T2="34"))]), None, {41})
hot = [(1, C(CSFo="1E+09", Q="1E+09")), (2, C(ksg="2", ksv="0"))]
assert put(K, deck_text((1, S(tD="1", **ONLY)), hot, [(1, R(T2="1")), (2, R(T2="34"))]), None, {41})
assert put(K, deck_text((1, S(tD="1", **ONLY)), hot, [(1, R(T2="1")), (2, R(T2="34"))]), 95 * 26 - 1, {51})

K = "P4: receptors that differ in T2 alone"
for loss, count in (({}, 1), ({}, 3), (dict(ksg="0.9"), 2), (dict(ksg="0.9", ksv="0"), 16)):
    d = telling_best(lambda some: deck_text((1, S0), [(i, C(**{**some, **loss, "Kds": str(10 * i)})) for i in range(1, count + 1)],
                                            [(i, R(T2=t)) for i, t in enumerate(("12.345678901", "30", "30.000000001", "75.123456789"), 1)]), tries=8)
    assert put(K, d, None, {0})
    assert put(K, deck_text((1, S0), [(1, C(Q="1000", **loss))], [(i, R(T2=t)) for i, t in enumerate(rng.sample(["1", "30", "30.5", "80"], count % 4 + 1), 1)]),
               None, {0})

# a risk at its cap by eleven digits of T2: the mean rises from T2 = tD on, while the soil is above it
K = "P4: a risk near its cap by T2"


def after_ten(k):
    t = str(10_000_000_000 + k)
    return f"{t[:2]}.{t[2:]}"


for p in (2, 5, 6):
    refs = {k: "-" for k in REFS}
    for csf in [f"{m}E{e:+03d}" for e in range(-5, 8) for m in range(10, 100, 2)]:
        make = lambda t: one(None, C(**{**refs, "Q": "1E+05", "RCF": "1E+04", "CSFo": csf}), R(T2=t, **ALONE[p]))
        if [answer(make(t), None)[0][0] for t in ("30", "45")] == [0, 42]:
            break
    for k, number in zip(adjacent(make, 20_000_000_000, 35_000_000_000, after_ten), (0, 42)):
        assert put(K, make(after_ten(k)), None, {number})

K = "P4: T2 missing, misspelled or out of range"
for t, number in (("", 32), ("-", 32), ("0", 33), ("1E-21", 33), ("1.1E+09", 33), ("1E5", 31), ("0.0000000000", 33), ("1000000000.1", 33), ("75.", 31)):
    assert put(K, set_field(EX, 10, 4, t), None, {number})
two = deck_text((1, S0), [(1, C0)], [(1, R0), (2, R0)])
for line, t, number in ((10, "", 32), (14, "", 32), (14, "0", 33)):
    assert put(K, set_field(two, line, 4, t), None, {number})
assert put(K, set_field(set_field(two, 14, 4, ""), 10, 5, "1"), 0, {32})
assert put(K, set_field(two, 14, 4, ""), 0, {32})
K = "P4: a deck from before, without T2"
for deck in (oracle.EXAMPLE, without_exposure(two), without_exposure(big[2])):
    assert put(K, deck, None, {32})
K = "P4: by the reading's own generator"
for number, count in ((0, 8), (41, 4), (42, 1)):
    fill(K, count, lambda: decks.deck(rng, *ORDINARY), {number})

# composites
call = COMPOSITE
K = "document 01's example, 1 as its years"
EX2 = oracle.example(*COMPOSITE)
assert need(EX2) == n == 665
for room in (0, 1, n - 95, n - 1, n, n + 1, n + 95, n + 700):
    assert put(K, EX2, room)

K = "document 002's five stages"
for s, cs in ((None, None), (XS, [XC]), (None, [C(Q="1000"), with_(XC, CHEM, Q="10"), C(Fv="1")]),
              (S(FRsnow="0.61"), [C(AForal="1", AFderm="0.03", RfDo="0.0003", CSFo="1.5")])):
    assert put(K, composite(FIVE, s, cs), None, {0})
assert put(K, composite(FIVE, first=999995), None, {0})
assert put(K, composite(FIVE[:2]), None, {0})

K = "realistic, one to eight stages"
for nr in range(1, 9):
    for nc in (1, 2, 3):
        fill(K, 1, lambda: real_composite(nc, nr), {0})


# each slot in turn: the stages differ in it alone, and the report tells its field from those that other ways give
def weighed(ys, vs): return [PAIRS.mul(PAIRS.num(y), PAIRS.num(v)) for y, v in zip(ys, vs)]
def added(pairs): return oracle.sums(PAIRS, pairs)
def pairs_of(vs): return [PAIRS.num(v) for v in vs]
def averaged(ys, vs): return PAIRS.div(added(weighed(ys, vs)), added(pairs_of(ys)))
def shares(ys): return [PAIRS.div(y, added(pairs_of(ys))) for y in pairs_of(ys)]


SLOT_WAYS = {
    "the first stage's": lambda ys, vs: PAIRS.num(vs[0]),
    "the last stage's": lambda ys, vs: PAIRS.num(vs[-1]),
    "the largest": lambda ys, vs: PAIRS.num(max(vs)),
    "the mean without years": lambda ys, vs: PAIRS.div(added(pairs_of(vs)), PAIRS.num(len(vs))),
    "each stage's share of the years first": lambda ys, vs: added([PAIRS.mul(y, v) for y, v in zip(shares(ys), pairs_of(vs))]),
    "added from the last stage": lambda ys, vs: PAIRS.div(added(weighed(ys, vs)[::-1]), added(pairs_of(ys))),
    "rounded once": lambda ys, vs: oracle.around(sum(y * v for y, v in zip(ys, vs)) / sum(ys)),
    "low by low": lambda ys, vs: tuple(map(oracle.divw, added(weighed(ys, vs)), added(pairs_of(ys)), (False, True))),
}


def worked_otherwise(deck, name, way):
    """the report with one field of the composite got another way, from the years and the stages' values"""
    field = lambda recs: way([r["years"] for r in recs], [r[name] for r in recs])
    return otherwise(deck, lambda A, recs: dict(work(A, recs), **{name: field(recs)}), oracle, "composite_person")


def some_value(name):
    if name in ATMOST366:
        return rng.uniform(100, 365)
    return rng.uniform(.1, 1) if name in ATMOST1 else float(PLAIN[name]) * rng.uniform(.3, 3)


def some_stages(count, *names):
    """the plain receptor but for the years and these slots"""
    return [stage(digits(rng.uniform(.5, 60), rng.randint(9, 11)), **{k: digits(some_value(k), rng.randint(6, 9)) for k in names}) for _ in range(count)]


def slot_in_turn(name):
    """a deck that tells this slot's field from as many other ways as can be, and the ways that it does not tell"""
    kept = None, list(SLOT_WAYS)
    for _ in range(200):
        deck = composite(some_stages(rng.choice([3, 4, 5, 8]), name))
        told, rep = answer(deck, None)
        left = [w for w, way in SLOT_WAYS.items() if told[0] or rep == worked_otherwise(deck, name, way)]
        if len(left) < len(kept[1]):
            kept = deck, left
        if not left:
            break
    return kept


K = "each slot in turn, its values unlike"
never_told = collections.Counter()
for name in oracle.REC:
    if name not in ("ED", "ATc"):
        deck, left = slot_in_turn(name)
        never_told.update(left)
        assert put(K, deck, None, {0})
print("other ways to work a slot's field that a deck does not tell:", dict(never_told))

# ED and ATc of the stages are not used: pairs of decks that differ in them alone
K = "ED and ATc unlike, the same report"
TIMES = ["1E-20", "1E+09", "75", "0.5", "27375", "123.45678901", "000000000001", "1000000000.0", "9.99999E-20"]
for stages in [FIVE] + [some_stages(k, "BW", "IRag") for k in (1, 2, 3, 5, 8)]:
    first = second = composite(stages)
    if_used = lambda deck: [worked_otherwise(deck, k, way) for k in ("ED", "ATc") for way in (SLOT_WAYS["the first stage's"], averaged)]
    while first == second or answer(second, None)[1] in if_used(second):
        second = composite([with_(f, STAGE, ED=rng.choice(TIMES), ATc=rng.choice(TIMES)) for f in stages])
    assert answer(first, None) == answer(second, None)
    assert put(K, first, None, {0}) and put(K, second, None, {0})

# the years
EIGHT = FIVE + each(FIVE[2:], BW="77.7")
for K, lists in {
    "years equal": (["1"] * 5, ["1"] * 8, ["0.1"] * 8, ["0.333333333"] * 3, ["1E-20"] * 8, ["1E+09"] * 2, ["1E+09"] * 8),
    "years of 1E-20 beside 1E+9, and others far apart": (
        ["1E-20", "1E+09"], ["1E+09", "1E-20"], ["1E-20", "1E+09", "1E-20"], ["1E-20", "1E+09"] * 4, ["1E+09"] + ["1E-20"] * 7, ["1E-20"] * 7 + ["1E+09"],
        ["1E-20", "1"], ["1", "1E-20"], ["1E-09", "1", "1E-09"], ["1E-12", "1E+06", "56"], ["1E-20"], ["1E+09"]),
    "years that add to more than 1E+9": (
        ["1E+09", "1"], ["999999999"] * 2, ["999999999", "1", "1E-20"], ["1000000000.0", "0000000000.1"], ["999999999.5"] * 2,
        ["123456789", "987654321"] * 4),
    "years of ten to twelve digits": (
        ["0.1234567891", "4.5678912345", "7.0000000001", "8.9999999999", "56.123456789"], ["12345678.901", "0.0000000001"],
        ["000000000056", "0000000004.5"], ["9.9999999999", "99.999999999"], ["33.333333333"] * 3, ["0.9999999999", "0.0000000001"], ["0.3333333333"],
        ["999999999.99"], ["0.0000000005"] * 8, ["76.000000000"]),
}.items():
    for years in lists:
        assert put(K, slow_if_long([with_(f, STAGE, years=y) for f, y in zip(EIGHT, years)]), None, {0})

K = "values and years of ten to twelve digits"
long_record = lambda names: ["" if k is None else long(lively(k)) for k in names]
for nr in (1, 2, 3, 4, 5, 6, 7, 8):
    fill(K, 1, lambda: deck_text((1, long_record(SITE)), [(1, long_record(CHEM))], [(i, long_record(STAGE)) for i in range(1, nr + 1)]), {0})

K = "fields at the ends of their ranges"
ends_of_stage = {True: ["" if k is None else top(k) for k in STAGE], False: ["" if k is None else "1E-20" for k in STAGE]}
for highs in ((False,), (True,), (False, True), (True, False), (False, True) * 4, (False,) * 8, (True,) * 8):
    assert put(K, composite([ends_of_stage[h] for h in highs], SLOW[0], [C(Q="1E-06", ksg="0", ksv="0")]), None, {0})

# 0 in one stage, and in all
for K, zeros in (("0 in a slot of one stage", 1), ("0 in a slot of all stages", 5)):
    for name in oracle.REC:
        if name not in NONZERO:
            stages = each(FIVE, IRag="0.02", IRbg="0.01")
            for i in rng.sample(range(5), zeros):
                stages[i] = with_(stages[i], STAGE, **{name: rng.choice(NOUGHT + ["0.0000000000"])})
            assert put(K, composite(stages), None, {0})

# at most 1, and at most 366, is asked of each stage and not of the composite
K = "shares of 1 and 366 days in all stages"
FULL = {k: top(k) for k in oracle.REC if k in ATMOST1 | ATMOST366}
for above, lists in {
    True: (["0.123456789", "123.456789"], ["0.123456789", "1234.56789", "56.7891234"], ["0.3333333333"], ["999999999.5", "0.5"], ["1E+09", "1"], ["1E-20", "1"],
           ["7.77777777", "88.8888888", "99999.9999", "0.11111111"], ["12.345678901"] * 8, ["1.0000000001"] * 5),
    False: (["56"], ["0.5", "4.5", "7", "8", "56"], ["1E+09"] * 8),
}.items():
    for years in lists:
        deck = slow_if_long(each(map(stage, years), **FULL))
        person = work(PAIRS, oracle.read_deck(deck, *COMPOSITE)[2])
        for k, t in FULL.items():
            low, high = map(oracle.value, person[k])
            assert low < int(t) < high if above else low == int(t) == high
        assert put(K, deck, None, {0})

K = "one stage alone, the ordinary report"
for deck, _ in singles[4][:6]:
    assert put(K, deck, None, {0})
K = "one stage alone, not the ordinary report"
for years in ("7.7777777", "1.2345678"):
    plain = oracle.example(*ORDINARY, recs=[{"ED": years, "ATc": decks.exactly(365 * value_of(years)), "T2": years}])
    assert put(K, oracle.example(*COMPOSITE, recs=[{"years": years}])) and files["composites"].stored[-1][-665:] != answer(plain, None, ORDINARY)[1]
for deck, _ in unlike[5][:2] + unlike[7][:2]:
    assert put(K, deck, None, {0})

# sums are in deck order, and the id is the first one's
K = "stages in another order"
figures_of = lambda deck: [l[6:] for l in answer(deck, None)[1].splitlines()]
for stages in [FIVE] + [some_stages(k, "BW", "IRinh", "IRsoil") for k in (2, 3, 5, 8)]:
    base = composite(stages, first=11)
    told = stages is not FIVE and len(stages) > 2       # where no sum is rounded, or there are two terms, the order is not seen
    while True:
        turned = composite(rng.sample(stages, len(stages)), first=7)
        if turned[81 * 6 + 8:] != base[81 * 6 + 8:] and (figures_of(turned) != figures_of(base)) == told:
            break
    assert put(K, base, None, {0}) and put(K, turned, None, {0})

K = "reference values missing"
for mask in (1, 2, 4, 8, 3, 12, 15):
    assert put(K, composite(FIVE, None, [C(**{k: "-" for i, k in enumerate(REFS) if mask >> i & 1}), C0][:1 + (mask < 4)]), None, {0})

K = "16 chemicals and 8 stages"
for rooms in ((9215, 9214), (9216,), (9215,), (9215 + 877, 9214)):
    d = accepted(lambda: real_composite(16, 8))
    for room in rooms:
        assert len(d) == 8019 and put(K, d, room, {0 if room >= 9215 else 51})
K = "buffers: a byte short, exact, longer"
for nc, nr in ((1, 1), (1, 8), (2, 5), (5, 8), (16, 1)):
    d, m = accepted(lambda: real_composite(nc, nr)), 95 * (6 * nc + 1)
    for room in (m - 1, m, m + 1) if nr < 8 else (m - 1, m, m * nr - 1):
        assert put(K, d, room, {0 if room >= m else 51})

K = "x near 64"
YEAR = [with_(f, STAGE, years=y) for f, y in zip(FIVE, "0.1 0.2 0.3 0.15 0.25".split())]     # 1 in all
for tD, ksg, ksv in (("1", "64", "0"), ("1", "63.999999999", "0"), ("1", "64.000000001", "0"), ("1", "64", "1E-20"), ("30", "2.13333333", "0"),
                     ("30", "2.13333334", "0")):
    assert put(K, composite(YEAR, S(tD=tD, **ONLY), [C(ksg=ksg, ksv=ksv)]), None, {0, 41})
for place, count in ((2, 3), (16, 16)):
    cs = [C(ksg="65" if i >= place else "63", ksv="0") for i in range(1, count + 1)]
    assert put(K, composite(YEAR, S(tD="1", **ONLY), cs), None, {41})

# a quotient at 10,000 and a risk at 1, and neighbouring values on both sides of the cap
NAMED = ("IRinh", "IRsoil", "IRsoil", "SAh", "IRag", "IRbg")
for p in range(1, 7):
    for field, unit in (("RfD", "1E-03"), ("CSF", "1")):
        refs = {**{k: "-" for k in REFS}, "RCF": "1E+04"}
        ref = field + ("i" if p == 1 else "o")
        K = "figures near their caps, by a reference value"
        make = lambda t: composite(each(FIVE, **ALONE[p]), None, [C(**{**refs, "Q": "1000", ref: t})])
        for k, number in zip(adjacent(make, 0, 90_000_000 * 29), (42, 0) if field == "RfD" else (0, 42)):
            assert put(K, make(nine(k)), None, {number})
        if (p % 2 == 1) == (field == "RfD"):
            K = "figures near their caps, by a field of one stage"
            for q in [f"{m}E{e:+03d}" for e in range(-9, 9) for m in (1, 3)]:
                make = lambda t: composite([with_(f, STAGE, **{**ALONE[p], "SAb": "0", NAMED[p - 1]: u}) for f, u in zip(FIVE, ("1", "1", t))],
                                           None, [C(**{**refs, "Q": q, "Dydp": "1E+04", ref: unit})])
                if len({answer(make(eleven(k)), None)[0][0] for k in (0, MOST)}) == 2:
                    break
            for k, number in zip(adjacent(make, 0, MOST, eleven), (0, 42)):
                assert put(K, make(eleven(k)), None, {number})
K = "figures at their caps"
XR1, XR3 = (with_(XR[:21] + ["", y, ""], STAGE, ED="9", ATc="8") for y in ("1", "3"))
for stages in ([XR1], [XR1, XR3, XR3]):
    for q in ("20000", "20000.000001", "19999.999999"):
        assert put(K, composite(stages, XS, [with_(XC, CHEM, Q=q, CSFo="-")]), None, {0, 42})
    for csf in ("200", "200.00000001", "199.99999999"):
        assert put(K, composite(stages, XS, [with_(XC, CHEM, Q="10", CSFo="-", CSFi=csf)]), None, {0, 42})
K = "42 of the composite alone, or of a stage alone"
apart = [with_(FIVE[3], STAGE, IRinh="1E+08", ETinh="0"), with_(FIVE[4], STAGE, IRinh="0", ETinh="1")]
assert put(K, composite(apart), None, {42}) and all(answer(composite([f]), None)[0][0] == 0 for f in apart)
for i in (0, 2, 4):
    light = [with_(f, STAGE, BW="1E-12") if k == i else f for k, f in enumerate(FIVE)]
    assert put(K, composite(light), None, {0}) and answer(composite([light[i]]), None)[0][0] == 42


def later_cap():
    """the first line above a cap is a later chemical's"""
    while True:
        s, cs, rs = realistic(rng.choice([2, 3, 16]), rng.randint(1, 8), STAGE)
        rng.choice(cs)[1][rng.choice([20, 21])] = "1E+09"
        deck = deck_text(s, cs, rs)
        told = answer(deck, None)[0]
        if told[0] == 42 and told[1] > 6:
            return deck


fill("42 of a later line", 5, later_cap)

# order
K = "two conditions at once; a solvent with one"
fast, hot = C(ksg="65", ksv="0"), C(CSFo="1E+09", Q="1E+09")
for cs, room, number in (([hot], 664, 51), ([hot], 665, 42), ([fast], 664, 51), ([hot, fast], 1235, 41), ([hot, fast], 1234, 51), ([fast, hot], 0, 51)):
    assert put(K, composite(FIVE, S(tD="1", **ONLY), cs), room, {number})
whole = composite(FIVE)
for room, number, *changes in ((0, 32, (10, 4, "1"), (10, 5, "0"), (10, 6, "x")), (0, 33, (10, 5, "0"), (10, 6, "x")), (0, 31, (10, 5, "x"), (14, 4, "1")),
                               (664, 32, (14, 5, ""), (26, 5, "0")), (664, 33, (11, 2, "0"), (14, 5, "")), (0, 32, (7, 3, ""), (10, 5, "")),
                               (665, 31, (10, 6, "x"), (11, 1, "0"))):
    deck = whole
    for change in changes:
        deck = set_field(deck, *change)
    assert put(K, deck, room, {number})
d = [whole[i:i + 81] for i in range(0, len(whole), 81)]
assert put(K, j(d[:9], d[9][:80], b" ", d[10:13], b"R5", d[13][2:], d[14:]), 0, {12})
assert put(K, j(d[:22], b"R5     x", d[22][8:], d[23:]), 0, {21})
assert put(K, most + b"\t" * 81, 0, {11})

# refusals
K = "lengths"
for deck in (b"", whole[:-1], whole + b" ", whole[:80], most + most[-81:], most + b"\n", most[:-1], (EX2 * 10)[:8100]):
    assert put(K, deck, None, {11})
assert put(K, most[:-81], None, {21})
K = "a ninth stage, a 17th chemical, lines that cannot come next"
for nc, nr in ((1, 9), (15, 9), (17, 5)):
    assert put(K, composite((FIVE + FIVE)[:nr], None, [C0] * nc), None, {21})
for deck in (j(d[:26]), j(d[:6], d[26:]), j(d[:10], d[26], d[10:]), j(d, d[22:26]), j(d[:9], d[10:]), j(d[:10], d[2:6], d[10:])):
    assert put(K, deck, None, {21})
for name, texts in {
    "years": (("", 32), ("-", 32), ("0", 33), ("1E-21", 33), ("1.1E+09", 33), ("1E5", 31), ("0.0000000000", 33), ("9.99999E-21", 33),
              ("1000000000.1", 33), ("56.", 31)),
    "ED": (("", 32), ("0", 33), ("-", 32), ("1E-21", 33), ("1000000001", 33), ("4,5", 31)),
    "ATc": (("", 32), ("0", 33), ("-", 32), ("1.1E+09", 33), ("+1", 31)),
}.items():
    line, field = divmod(STAGE.index(name), 6)
    for t, number in texts:
        assert put(f"{name} missing, misspelled or out of range", set_field(whole, 7 + line + 4 * rng.randrange(5), field + 1, t), None, {number})
for t, number in (("", 32), ("-", 32), ("0", 33), ("1E-21", 33), ("1.1E+09", 33), ("1E5", 31)):
    assert put("years missing, misspelled or out of range", set_field(EX2, 10, 5, t), None, {number})
K = "slots 22 and 24 not blank"
for field in (4, 6):
    for t, number in (("1", 32), ("0", 32), ("-", 32), ("1.1E+10", 32), ("x", 31)):
        assert put(K, set_field(whole, 10 + 4 * rng.randrange(5), field, t), None, {number})
K = "ids"
for ids in ((1, 1), (2, 1), (1, 3, 2), (5, 6, 7, 8, 9, 10, 11, 11)):
    assert put(K, deck_text((1, S0), [(1, C0)], list(zip(ids, EIGHT))), None, {22})
for line in (8, 24):
    assert put(K, j(d[:line - 1], d[line - 1][:2], b"     9", d[line - 1][8:], d[line:]), None, {22})
assert put(K, whole[:-2] + b"0\n", None, {22})
assert put(K, deck_text((7, S0), [(7, C0), (999999, C0)], list(zip((7, 8, 999999), FIVE))), None, {0})
K = "an ordinary deck"
for deck in (oracle.example(*ORDINARY, recs=[{}, {}]), one(), real_deck(2, 2), real_deck(16, 4), deck_text((1, S0), [(1, C0)], [(i, R0) for i in range(1, 9)])):
    assert put(K, deck, None, {32})
K = "by the reading's own generator"
for number, count in ((0, 8), (41, 1), (42, 1)):
    fill(K, count, lambda: decks.deck(rng, *COMPOSITE), {number})
K = "damaged decks"
for number, count in ((0, 3), (11, 1), (12, 3), (21, 3), (22, 3), (31, 3), (32, 4), (33, 4)):
    fill(K, count, lambda: decks.damage(rng, real_composite(rng.choice([1, 1, 2]), rng.choice([1, 2, 3, 5])), *COMPOSITE), {number})

# ---- request P4: a composite's T2 is the exact sum of its years ----
def lived(tD, years, loss={}, site={}):
    """these years beside a tD"""
    stages = [with_(f, STAGE, years=y) for f, y in zip(EIGHT, years)]
    return telling_best(lambda some: composite(stages, S(tD=tD, **site), [C(**{**some, **loss})]), tD)


K = "P4: years that add to less than tD, to tD and to more"
for tD, *lists in (("76", "0.5 4.5 7 8 56", "0.5 4.5 7 8 55.999999999", "0.5 4.5 7 8 56.000000001", "0.5 4.5 7 8 56 1E-20", "56 8 7 4.5 0.4999999999",
                   "0.5 4.5 7 8 20"),
                   ("76.000000001", "0.5 4.5 7 8 56", "0.5 4.5 7 8 56.000000001"),
                   ("0.8", "0.1 0.1 0.1 0.1 0.1 0.1 0.1 0.1", "0.1 0.1 0.1 0.1 0.1 0.1 0.1 0.1000000001", "0.1 0.1 0.1 0.1 0.1 0.1 0.1 0.0999999999"),
                   ("1", "0.3333333333 0.3333333333 0.3333333333", "0.3333333333 0.3333333333 0.3333333334", "0.3333333333 0.3333333333 0.3333333335",
                   "0.9999999999 1E-20"),
                   ("99.999999999", "33.333333333 33.333333333 33.333333333", "33.333333333 33.333333333 33.333333334", "33.333333333 33.333333333 33.333333332"),
                   ("30", "30 1E-20", "29.999999999 0.0000000001", "15.000000001 14.999999999", "10.123456789 10.123456789 9.753086423", "1E-20 1E-20"),
                   ("12.345678901", "1.2345678901 2.3456789012 3.4567890123 4.5678901234", "61.728394506 6.1728394506", "40.123456789 0.1111111111 7.7777777777"),
                   ("30000000E-27", "10000000E-27 20000000E-27", "10000000E-27 20000001E-27", "10000000E-27 19999999E-27")):
    for years in lists:
        assert put(K, lived(tD, years.split()), None, {0})
for tD, years in (("1E+09", "1E+09"), ("1E+09", "999999999.99 0.01"), ("1E+09", "999999999.99 0.0099999999"), ("1E+09", "1E+09 1E-20"), ("1E-20", "1E+09 1E-20"),
                  ("1000000000.0", "999999999 1 1E-20"), ("1", "999999999.99 999999999.99 999999999.99 999999999.99"),
                  ("1E-20", "1E+09 1E+09 1E+09 1E+09 1E+09 1E+09 1E+09 1E+09")):
    assert put(K, lived(tD, years.split(), dict(ksg="5E-09", ksv="0"), ONLY), None, {0})

K = "P4: no loss, half and three quarters"
for tD, years in (("30", "15 15"), ("30", "30"), ("30", "5 5 5"), ("30", "20 40"), ("30", "120")):
    assert put(K, composite([with_(XR1, STAGE, years=y) for y in years.split()], with_(XS, SITE, tD=tD), [XC]), None, {0})

K = "P4: k x (T2 - tD) near 64"
for tD, years, ksg, number in (("1", "16 17", "2", 0), ("1", "16 17.0000001", "2", 41), ("1", "16 17.000000001", "2", 41), ("1", "16 16.999999999", "2", 0),
                               ("1", "33 1E-20", "2", 41),
                               ("32", "32 32", "2", 0), ("32", "32 32.000000001", "2", 41), ("1E-20", "1E+09 1E-20", "6.4E-08", 0),
                               ("1E-20", "1E+09 3E-20", "6.4E-08", 41),
                               ("0.5", "100", "64", 41), ("1", "0.5 0.5", "64", 0)):
    assert put(K, composite([with_(f, STAGE, years=y) for f, y in zip(FIVE, years.split())], S(tD=tD, **ONLY),
               [C(ksg="0.01"), C(ksg=ksg, ksv="0")][-1 if "E" in ksg else 0:]),
               None, {number})
print("of the decks for P4 so many tell apart:", {f"{w}{', composites' if c else ''}": n for (c, w), n in sorted(tells.items())})

# ---- request P5: solvents, whose x or k x (T2 - tD) is above 64; ordinary ones and composites, chosen by their answers at level 5 ----
g_kept, h_kept, losses_kept = oracle.g_at, oracle.h_at, oracle.losses


def choice(above):
    """over_64 with another test of the pair k x tD, or k x (T2 - tD)"""
    kept = oracle.over_64
    return lambda site, c, T2s: {t: above(PAIRS.mul(oracle.loss(PAIRS, site, c), PAIRS.num(t))) for t in kept(site, c, T2s)}


def later_by_x(A, site, c, T2s, over):
    return soils_kept(A, site, c, T2s, dict.fromkeys(over, over[site["tD"]]))


def x_by_later(A, site, c, T2s, over):
    """in the mean; hazard's soil as ever"""
    tD = site["tD"]
    return soils_kept(A, site, c, [], over)[0], [soils_kept(A, site, c, [T2], {**over, tD: over.get(T2 - tD, over[tD])})[1][0] for T2 in T2s]


def one_for_all_chemicals(case, rules):
    over = losses_kept(case, rules)
    return [{t: any(o[t] for o in over) for t in over[0]}] * len(over)


def one_for_all_receptors(case, rules):
    tD = case[0]["tD"]
    return [{t: o[t] if t == tD else any(o[u] for u in o if u != tD) for t in o} for o in losses_kept(case, rules)]


def low_from_low(p):
    return oracle.restw(p[0], False), oracle.restw(p[1], True)


SOLVENT_WAYS = {
    "1 / phi as 0 and 0": (lambda: oracle.ZERO, oracle, "TINY"),
    "the low end decides": (lambda: choice(lambda p: oracle.value(p[0]) > 64), oracle, "over_64"),
    "64 counted as above": (lambda: choice(lambda p: oracle.value(p[1]) >= 64), oracle, "over_64"),
    "h by the series": (lambda: lambda A, x, above: h_kept(A, x, False), oracle, "h_at"),
    "h as 1 / x": (lambda: lambda A, x, above: A.div(A.num(1), x) if above else h_kept(A, x, False), oracle, "h_at"),
    "k x (T2 - tD) goes by x": (lambda: later_by_x, oracle, "soils"),
    "x goes by k x (T2 - tD)": (lambda: x_by_later, oracle, "soils"),
    "1 - g low from low": (lambda: staticmethod(low_from_low), oracle.Pairs, "comp"),
    "one chemical decides for all": (lambda: one_for_all_chemicals, oracle, "losses"),
    "one receptor decides for all": (lambda: one_for_all_receptors, oracle, "losses"),
}
# the first two are never told: beside x, whose ninth figure is 1E-7 or more, all that is above 0 and at most that moves the sum's high end alone, by one
# working number; the last is the first way of those above
SAME_WAYS = {
    "1E-26 for 1E-25": (lambda: (None, oracle.of(oracle.F(1, 10 ** 26), True)), oracle, "TINY"),
    "g by the series": (lambda: lambda A, x, above: g_kept(A, x, False), oracle, "g_at"),
    "g as 1 / x": (lambda: lambda A, x, above: A.div(A.num(1), x) if above else g_kept(A, x, False), oracle, "g_at"),
}


def sized(v):
    """six figures of a number in range"""
    return f"{min(max(v, 1e-20), 9e8):.5e}".replace("e", "E")


def fitted(site, chems, people):
    """a deck of these whose largest quotient and risk of each chemical have all their figures printed and are below the caps: first with reference values of 1
    and an emission drawn, then with others"""
    text = lambda cs: deck_text((1, site), [(i, C(**c)) for i, c in enumerate(cs, 1)], list(enumerate(people, 1)))
    drawn = [dict(Q=rng.uniform(20, 200), Dydp=rng.uniform(.01, .1), Dywp=rng.uniform(.01, .1)) for _ in chems]
    some = [{**dict(HgA="0", RfDo="1", CSFo="1", RfDi="1E+05", Br=digits(rng.uniform(.01, .1), 5)), **c, **{k: sized(v) for k, v in d.items()}}
            for c, d in zip(chems, drawn)]
    case, rules = oracle.read_deck(text(some), *call), oracle.Rules(*call)
    largest = [[0, 0] for _ in chems]
    for _, lines in oracle.sheet(PAIRS, case, rules, oracle.losses(case, rules)):
        for i, _, *two in lines:
            largest[i - 1] = [max(a, float(oracle.value(b[1]))) for a, b in zip(largest[i - 1], two)]
    for c, d, (quotient, risk) in zip(some, drawn, largest):
        lift = -2 - round(math.log10(risk))
        q = min(max(lift, -18), 6)
        more = min(max(lift - q, 0), 9)
        c.update(Q=sized(d["Q"] * 10.0 ** q), Dydp=sized(d["Dydp"] * 10.0 ** more), Dywp=sized(d["Dywp"] * 10.0 ** more),
                 RfDo=sized(quotient * 10.0 ** (q + more) / rng.uniform(1000, 9000)), CSFo=sized(rng.uniform(.1, .9) / risk / 10.0 ** (q + more)))
    return text(some)


def telling_solvent(site, chems, people, tries=10):
    """of such decks the one that tells the most ways apart; a loss may be drawn"""
    best = None, set()
    for _ in range(tries):
        deck = fitted(site, [{k: v() if callable(v) else v for k, v in c.items()} for c in chems], people)
        apart = told_apart(deck, SOLVENT_WAYS) if answer(deck, None)[0][0] == 0 else set()
        if best[0] is None or len(apart) > len(best[1]):
            best = deck, apart
    return best[0]


def over_of(deck):
    """for each chemical: whether x is above 64, and whether k x (T2 - tD) of each T2 above tD is"""
    case = site, chems, recs = oracle.read_deck(deck, *call)
    return [(o[site["tD"]], [o[T2 - site["tD"]] for _, T2, _ in oracle.people(recs, oracle.Rules(*call)) if T2 > site["tD"]])
            for o in oracle.losses(case, oracle.Rules(*call))]


def at_64(deck):
    """some x or k x (T2 - tD) of it is 64 or above"""
    site, chems, recs = oracle.read_deck(deck, *call)
    T2s = [T2 for _, T2, _ in oracle.people(recs, oracle.Rules(*call))]
    return any(any(choice(lambda p: oracle.value(p[1]) >= 64)(site, c, T2s).values()) for c in chems)


def exposures(T2):
    """the receptor with this T2, or stages whose years add to it"""
    if not call[1]:
        return [R(T2=T2)]
    return [with_(f, STAGE, years=y) for f, y in zip(EIGHT, T2.split())]


def solvents(kind, *shapes):
    """stores a deck of one chemical for each shape: tD, T2, its loss, whether x is above 64, and where T2 is above tD whether k x (T2 - tD) is"""
    for tD, T2, loss, *above in shapes:
        loss = {"ksg": loss} if type(loss) is not dict else loss
        site = {**ONLY, **{k: v for k, v in loss.items() if k in SITE}}
        chemical = {"ksg": "0", "ksv": "0", **{k: v for k, v in loss.items() if k in CHEM}}
        deck = telling_solvent(S(tD=tD, **site), [chemical], exposures(T2))
        assert over_of(deck) == [(above[0], above[1:])], (tD, T2, loss, over_of(deck))
        assert put(kind, deck, None, {0}), (kind, tD, T2)


def about(v):
    """draws eleven digits, up to a tenth above v"""
    return lambda: digits(v * rng.uniform(1, 1.1), 11)


def straddling(tD, T2):
    """a loss of all kinds whose x has its ends on both sides of 64"""
    site = {k: S0[SITE.index(k)] for k in ONLY}
    case = oracle.read_deck(deck_text((1, S(tD=tD)), [(1, C(ksg="0"))], [(1, exposures(T2)[0])]), *call)
    rest = 64 / case[0]["tD"] - oracle.loss(oracle.Exact(256), case[0], case[1][0])
    return tD, T2, {**site, "ksv": C0[CHEM.index("ksv")], "ksg": f"{float(rest):.10f}"}


UP, DOWN = True, False
THIN = dict(Zs="1E-20", BD="1E-20", th="1E-20")
RUNOFF, RAIN = (dict(THIN, Kds="1E-20", **{k: "1E+09"}) for k in ("RO", "R"))
EROSION = dict(THIN, Kds="1E+09", Xe="1E+09", SD="1E+09", ER="1E+09")
ALL = {**EROSION, **{k: "1E+09" for k in ("RO", "R", "ksg", "ksv")}}

ORDINARY, COMPOSITE = (BEFORE, False), (BEFORE, True)
call = ORDINARY
solvents("P5: x at 64 and a unit of its ninth figure above",
         ("1", "0.5", "64", DOWN), ("1", "1", "64.0000001", UP), ("1", "0.5", "64.0000001", UP), ("10", "4", "6.40000001", UP), ("10", "10.05", "6.4", DOWN, DOWN),
         ("10", "10.05", "6.40000001", UP, DOWN), ("100", "100.5", "0.64", DOWN, DOWN), ("100", "100.5", "0.640000001", UP, DOWN),
         ("100", "300", "0.640000001", UP, UP), ("32", "16", "2", DOWN), ("32", "64", "2", DOWN, DOWN), ("32", "64.000000001", "2", DOWN, UP),
         ("1E+09", "1E+09", {"ksv": "6.4E-08"}, DOWN), ("1E+09", "5", {"ksv": "64000001E-15"}, UP), ("1", "0.25", {"ksg": "32", "ksv": "32.0000001"}, UP),
         ("64.0000001", "65", "1", UP, DOWN), ("64", "64.5", "1", DOWN, DOWN))
solvents("P5: x with its ends on both sides of 64",
         ("1", "0.5", "64.000000001", UP), ("1.0000000001", "0.5", "64", UP), ("32.000000001", "33", "2", UP, DOWN), ("1", "1.001", "64.000000001", UP, DOWN),
         (*straddling("30", "20"), UP), (*straddling("30", "30.01"), UP, DOWN), (*straddling("12.345678901", "75.123456789"), UP, UP))
solvents("P5: x far above 64, T2 within tD",
         ("30", "20", about(33), UP), ("30", "30", about(3.3), UP), ("1", "0.5", about(1e6), UP), ("1", "1", "1E+09", UP), ("1000", "7", "1E+09", UP),
         ("1E+09", "1E+09", "1E+09", UP), ("1E+09", "1E-20", {"ksg": "1E+09", "ksv": "1E+09"}, UP), ("1E+09", "0.5", {"ksv": "1E+09"}, UP),
         ("30", "20", {"RO": "1E+09"}, UP), ("30", "20", {"R": "1E+06"}, UP), ("30", "20", {"Xe": "1E+06"}, UP), ("1E+09", "70", RUNOFF, UP), ("1E+09", "70", RAIN, UP),
         ("1E+09", "70", EROSION, UP), ("1E+09", "1E+09", ALL, UP))
solvents("P5: x above 64, k x (T2 - tD) not",
         ("30", "30.1", about(3.3), UP, DOWN), ("30", "30.000000001", "1E+09", UP, DOWN), ("30", "30.000000001", about(1e7), UP, DOWN),
         ("999999999.99", "1E+09", "100", UP, DOWN), ("33", "65", "2", UP, DOWN), ("75", "85", about(1), UP, DOWN), ("30", "30.001", {"RO": "1E+06"}, UP, DOWN),
         ("30", "30.01", {"Xe": "1E+05"}, UP, DOWN), ("12.345678901", "12.345678912", "1E+09", UP, DOWN), ("1E-07", "1.1E-07", "1E+09", UP, DOWN))
solvents("P5: k x (T2 - tD) above 64, x not",
         ("1", "34", "2", DOWN, UP), ("1", "65.0000001", "1", DOWN, UP), ("1", "33.000000001", "2", DOWN, UP), ("32", "1E+09", "2", DOWN, UP),
         ("1E-20", "1E+09", "1E+09", DOWN, UP), ("1E-20", "1", {"ksg": "1E+09", "ksv": "1E+09"}, DOWN, UP), ("30", "75.5", "2.12345678", DOWN, UP),
         ("30", "1E+09", "1E-07", DOWN, UP), ("0.01", "30", {"RO": "1E+06"}, DOWN, UP), ("12.345678901", "85.123456789", about(1), DOWN, UP))
solvents("P5: x and k x (T2 - tD) above 64",
         ("30", "75.5", about(3.3), UP, UP), ("33", "65.000000001", "2", UP, UP), ("64.0000001", "128.0000002", "1", UP, UP), ("1", "2", "1E+09", UP, UP),
         ("1E-07", "1E+09", "1E+09", UP, UP), ("5E+08", "1E+09", "1E+09", UP, UP), ("1", "1E+09", RUNOFF, UP, UP), ("1", "1E+09", RAIN, UP, UP),
         ("1E-20", "1E+09", EROSION, UP, UP), ("5E+08", "1E+09", ALL, UP, UP))


def several(kind, tD, T2s, losses, tries=4):
    """stores a deck of these chemicals; T2s are the receptors', or one list of years"""
    people = exposures(T2s) if call[1] else [R(T2=t) for t in T2s.split()]
    assert put(kind, telling_solvent(S(tD=tD, **ONLY), [{"ksv": "0", "ksg": k, "Kds": str(10 * i)} for i, k in enumerate(losses, 1)], people, tries), None, {0})


K = "P5: no loss, alone and beside a solvent"
for tD, T2s, losses in (("1E+09", "1E+09", ["0"]), ("30", "1E+09", ["0"]), ("30", "20", ["0", "1E+09"]), ("30", "75", ["1E+09", "0"])):
    several(K, tD, T2s, losses)
K = "P5: one chemical of several a solvent"
for tD, T2s, place, count in (("30", "20", 1, 2), ("30", "31.5", 2, 2), ("30", "30 75", 2, 3), ("30", "75 30.1", 3, 3), ("30", "30.001", 5, 5), ("30", "20", 16, 16)):
    several(K, tD, T2s, [about(3.3) if i == place else about(.01 * i) for i in range(1, count + 1)])
several(K, "1", "1.5", [about(65), "64", "1E+09", "64.0000001", "0.5"])
K = "P5: receptors that differ in T2 alone"
for tD, T2s, losses in (("30", "20 30 30.1 80", [about(3.3)]), ("30", "80 30.1 30 20", [about(3.3)]), ("1", "33 34 1.5 0.5", ["2"]),
                        ("1", "1.5 34 33 40", [about(1.9), "2"]), ("1E-20", "1E+09 1 1E-20", ["1E+09"]), ("30", "30.000000001 75 31", ["1E+09", "2", about(.5)])):
    several(K, tD, T2s, losses)


def with_solvents(records):
    """these records, each chemical with a quick decay"""
    s, cs, rs = records
    for _, c in cs:
        c[11] = decks.spell(rng, 10 ** rng.uniform(.3, 2) * 64 / float(s[1][2]), 9)
    return deck_text(s, cs, rs)


K = "P5: 16 solvents"
full = accepted(lambda: with_solvents(realistic(16, 4)))
assert all(x for x, _ in over_of(full)) and put(K, full, 36860, {0}) and put(K, full, 36859, {51})
assert put(K, accepted(lambda: with_solvents(realistic(16, 1))), None, {0})

K = "P5: ten to twelve digits in all fields"


def long_solvents(nc, nr, receptor):
    record = lambda names: ["" if n is None else long(lively(n)) for n in names]
    s, cs, rs = (1, record(SITE)), [(i, record(CHEM)) for i in range(1, nc + 1)], [(i, record(receptor)) for i in range(1, nr + 1)]
    for _, c in cs:
        c[11] = f"{10 ** rng.uniform(.3, 3) * 64 / float(s[1][2]):.10f}"[:12]
    return deck_text(s, cs, rs)


for nc, nr in ((1, 1), (1, 1), (1, 2), (2, 1), (3, 4)):
    fill(K, 1, lambda: long_solvents(nc, nr, REC), {0})

K = "P5: figures near their caps"


def solvent_at(p, name, T2, t):
    """pathway p alone, this reference value"""
    people = each(exposures(T2), **ALONE[p]) if call[1] else [R(T2=T2, **ALONE[p])]
    return deck_text((1, S0), [(1, C(**{**dict.fromkeys(REFS, "-"), "Q": "1E+05", "RCF": "1E+04", "ksg": "3.3", name: t}))], list(enumerate(people, 1)))


def solvents_at_caps(K, T2s, paths=range(2, 7)):
    for p in paths:
        name = "RfDo" if p % 2 else "CSFo"
        make = functools.partial(solvent_at, p, name, T2s[p // 2 % 2])
        for k, number in zip(adjacent(make, 0, 90_000_000 * 29), (42, 0) if name == "RfDo" else (0, 42)):
            assert put(K, make(nine(k)), None, {number})


solvents_at_caps(K, ("20", "75"))
# x = 100, whose g has the high end 0.01: the high end of pathway 5's quotient is Q / 800
for q, number in (("8000000", 0), ("8000000.01", 42), ("7999999.99", 0)):
    assert put(K, one(with_(XS, SITE, tD="100"), with_(XC, CHEM, Q=q, ksg="1", HgA="0", CSFo="-"), XR), None, {number})
hot, quick = C(CSFo="1E+09", Q="1E+09"), C(ksg="1E+09", CSFo="1E+09", Q="1E+09", Dydp="1E+09")
for cs, room, number in (([C0, quick], None, 42), ([quick, C0], 95 * 13 - 1, 51), ([C(ksg="1E+09"), hot], None, 42)):
    assert put(K, deck_text((1, S0), list(enumerate(cs, 1)), [(1, R0)]), room, {number})


def generated():
    """a deck of the reading's own generator that stopped with 41"""
    while True:
        deck = decks.deck(rng, *call)
        if answer(deck, None, (FIRST, call[1]))[0][0] == 41:
            return deck


K = "P5: by the reading's own generator"
for number, count in ((0, 12), (42, 2)):
    fill(K, count, generated, {number})

# a composite's T2 is the sum of its years
call = COMPOSITE
PERSON = "0.5 4.5 7 8 56"
solvents("P5: x at 64 and a unit of its ninth figure above",
         ("1", "0.2 0.3", "64", DOWN), ("1", "0.5 0.5", "64.0000001", UP), ("32", "16 16.5", "2", DOWN, DOWN), ("10", "10 0.05", "6.40000001", UP, DOWN),
         ("64.0000001", "64 0.5", "1", UP, DOWN), ("100", PERSON, "0.640000001", UP))
solvents("P5: x with its ends on both sides of 64",
         ("32.000000001", "16 17", "2", UP, DOWN), ("1", "0.25 0.75", "64.000000001", UP), (*straddling("30", PERSON), UP, UP), (*straddling("76", PERSON), UP))
solvents("P5: x far above 64, T2 within tD",
         ("76", PERSON, about(3.3), UP), ("76", PERSON, "1E+09", UP), ("1E+09", "1E+09", "1E+09", UP), ("1E+09", PERSON, RUNOFF, UP),
         ("1E+09", PERSON, RAIN, UP), ("1E+09", PERSON, EROSION, UP), ("1E+09", "5E+08 5E+08", ALL, UP))
solvents("P5: x above 64, k x (T2 - tD) not",
         ("30", "15 15.1", about(3.3), UP, DOWN), ("30", "30 1E-20", "1E+09", UP, DOWN), ("76", PERSON + ".000000001", "1E+09", UP, DOWN), ("33", "32 33", "2", UP, DOWN),
         ("0.8", "0.1 " * 7 + "0.1000000001", about(1e8), UP, DOWN), ("75", PERSON, about(2), UP, DOWN), ("1E+09", "1E+09 1E-20", "1E+09", UP, DOWN))
solvents("P5: k x (T2 - tD) above 64, x not",
         ("1", "16 17.0000001", "2", DOWN, UP), ("1", "33 1E-20", "2", DOWN, UP), ("30", PERSON, "2", DOWN, UP), ("1", "65 0.0000001", "1", DOWN, UP),
         ("1E-20", "1E+09 1E+09", "1E+09", DOWN, UP), ("0.01", PERSON, {"RO": "1E+06"}, DOWN, UP))
solvents("P5: x and k x (T2 - tD) above 64",
         ("30", PERSON, about(3.3), UP, UP), ("1", "1 1", "1E+09", UP, UP), ("33", "33 32.000000001", "2", UP, UP),
         ("1", "1E+09 " * 8, "1E+09", UP, UP), ("1", PERSON, ALL, UP, UP))
K = "P5: no loss beside a solvent, one chemical of several a solvent"
for tD, years, losses in (("76", PERSON, ["0", "1E+09"]), ("30", PERSON, ["1E+09", "0"]), ("75.5", PERSON, [about(.1), about(3.3)]),
                          ("75.9", PERSON, [about(3.3), about(.1), about(.2)]), ("30", "15 15.5", [about(3.3 if i == 9 else .03 * i) for i in range(1, 17)])):
    several(K, tD, years, losses)
K = "P5: 16 solvents and 8 stages"
full = accepted(lambda: with_solvents(realistic(16, 8, STAGE)))
assert len(full) == 8019 and put(K, full, 9215, {0}) and put(K, full, 9214, {51})
K = "P5: ten to twelve digits in all fields"
for nc, nr in ((1, 1), (1, 3), (2, 8)):
    fill(K, 1, lambda: long_solvents(nc, nr, STAGE), {0})
K = "P5: figures near their caps"
solvents_at_caps(K, (PERSON, "10 15"), (2, 3, 5, 6))
assert put(K, composite(FIVE, None, [C0, quick]), None, {42})
K = "P5: by the reading's own generator"
for number, count in ((0, 7), (42, 1)):
    fill(K, count, generated, {number})

# ---- request P6: the year in site slot 12, and the air by the 2009 guidance; chosen by the answers stored ----
values_kept = oracle.line_values


def air_otherwise(factor=lambda A, c, r, AT: A.div(oracle.products(A, r["ETinh"], r["EFinh"], r["ED"]), AT), product=lambda A, f, air: A.mul(f, air),
                  hazard_time=lambda A, r: A.mul(A.num(365), r["ED"]), cancer_time=lambda A, r: r["ATc"], quotient=1, risk=1000, refs=("RfDi", "CSFi")):
    """the oracle's line_values, with one part of 2009's first line taken another way"""
    def values(A, site, c, r, p, hazard, cancer):
        if p != 1 or site.get("year") != 2009:
            return values_kept(A, site, c, r, p, hazard, cancer)
        intake = lambda AT, air, times: A.mul(product(A, factor(A, c, r, AT), air), A.num(times))
        rfd, csf = (None if c[k] is None else A.num(c[k]) for k in refs)
        return (rfd and A.div(intake(hazard_time(A, r), hazard, quotient), rfd), csf and A.mul(intake(cancer_time(A, r), cancer, risk), csf))
    return values


def all_lines_by_1000(A, site, c, r, p, hazard, cancer):
    q, k = values_kept(A, site, c, r, p, hazard, cancer)
    return q, k and A.mul(k, A.num(1000)) if p != 1 and site.get("year") == 2009 else k


AIR = lambda **part: (lambda: air_otherwise(**part), oracle, "line_values")
P = oracle.products
AIR_WAYS = {
    "2005's first line": (lambda: lambda A, site, *more: values_kept(A, {**site, "year": None}, *more), oracle, "line_values"),
    "BW divides": AIR(factor=lambda A, c, r, AT: A.div(P(A, r["ETinh"], r["EFinh"], r["ED"]), A.mul(r["BW"], AT))),
    "IRinh multiplies": AIR(factor=lambda A, c, r, AT: A.div(P(A, r["IRinh"], r["ETinh"], r["EFinh"], r["ED"]), AT)),
    "AFinh multiplies": AIR(factor=lambda A, c, r, AT: A.div(P(A, A.num(c["AFinh"]), r["ETinh"], r["EFinh"], r["ED"]), AT)),
    "the risk without 1000": AIR(risk=1),
    "the quotient with 1000": AIR(quotient=1000),
    "all risks with 1000": (lambda: all_lines_by_1000, oracle, "line_values"),
    "RfDo and CSFo": AIR(refs=("RfDo", "CSFo")),
    "365 x ED for cancer": AIR(cancer_time=lambda A, r: A.mul(A.num(365), r["ED"])),
    "ATc for hazard": AIR(hazard_time=lambda A, r: r["ATc"]),
    "ETinh left out": AIR(factor=lambda A, c, r, AT: A.div(P(A, r["EFinh"], r["ED"]), AT)),
    "EFinh x ED first": AIR(factor=lambda A, c, r, AT: A.div(A.mul(r["ETinh"], A.mul(r["EFinh"], r["ED"])), AT)),
    "ED / AT first": AIR(factor=lambda A, c, r, AT: A.mul(A.mul(r["ETinh"], r["EFinh"]), A.div(r["ED"], AT))),
    "hazard's ED cancelled": AIR(hazard_time=lambda A, r: None, factor=lambda A, c, r, AT: A.div(P(A, r["ETinh"], r["EFinh"], r["ED"]), AT) if AT
                                 else A.div(A.mul(r["ETinh"], r["EFinh"]), A.num(365))),
    "A before / AT": AIR(factor=lambda A, c, r, AT: (P(A, r["ETinh"], r["EFinh"], r["ED"]), AT), product=lambda A, f, air: A.div(A.mul(f[0], air), f[1])),
    "A first": AIR(factor=lambda A, c, r, AT: (r, AT), product=lambda A, f, air: A.div(P(A, air, f[0]["ETinh"], f[0]["EFinh"], f[0]["ED"]), f[1])),
}


def of_year(year, **c):
    return S(**c) + [year]


def dated(deck, year):
    return set_field(deck, 2, 6, year)


def first_lines(deck):
    """the air's lines of the report"""
    return [line for line in answer(deck, None)[1].splitlines() if line[12:14] == b" 1"]


def told_best(make, tries=10):
    """of accepted decks that make gives the one that tells the most ways apart"""
    return max((accepted(make) for _ in range(tries)), key=lambda deck: len(told_apart(deck, AIR_WAYS)))


NEW = dict(Q="0.1")        # the plain deck with a risk of the air below its cap under 2009
YEARS = {"2009": ("2009", "2.009E+03", "000000002009", "2009E+00", "2009.0000000", "20090E-01", "2009.0", "02009", "0.2009E+04", "2009E-00", "200900.0E-02"),
         "2005": ("2005", "2.005E+03", "20050E-01", "2005.0", "02005", "000000002005", "2005E+00", "2005.0000000", "0.2005E+04", "2005E-00", "0020.050E+02")}
NO_YEARS = ("2010", "2009.0000001", "2004", "0", "2008.9999999", "20.09E+01", "2007", "2008", "2006", "1", "2005.0000001", "2004.9999999", "2009E+01", "2009E-01",
            "999999999999", "1E-20")
MISSPELLED = ("2009E", "MMIX", "2 009", "+2009", "-2009", "2009.", "2009e+00")


def spelled(K, deck, **stored):
    """stores the deck with so many spellings of each year; in all of them 2009 has one report, and 2005 that of a blank slot 12"""
    plain, new = answer(deck, None), answer(dated(deck, "2009"), None)
    assert plain[0][0] == new[0][0] == 0 and plain != new
    for year, texts in YEARS.items():
        for i, t in enumerate(texts):
            assert answer(dated(deck, t), None) == (new if year == "2009" else plain)
            assert i >= stored["of_" + year] or put(K, dated(deck, t), None, {0})


def stopped(K, deck, *shapes):
    """stores the deck with these fields changed, where it stops at such a place"""
    for told, *changes in shapes:
        changed = deck
        for change in changes:
            changed = set_field(changed, *change)
        assert answer(changed, None)[0] == told and put(K, changed), (told, changes)


ORDINARY, COMPOSITE = (LEVEL, False), (LEVEL, True)
call = ORDINARY
plain = one(None, C(**NEW))
spelled("P6: a year in several spellings", plain, of_2009=6, of_2005=5)
K = "P6: 2005 or no year in realistic decks, the same report"
for nc, nr, t in ((1, 1, "2005"), (2, 2, "2.005E+03")):
    d = accepted(lambda: real_deck(nc, nr))
    assert put(K, d, None, {0}) and put(K, dated(d, t), None, {0})
K = "P6: no such year"
stopped(K, plain, *[((33, 2, 6), (2, 6, t)) for t in NO_YEARS])
K = "P6: a lone -, misspelled"
stopped(K, plain, ((32, 2, 6), (2, 6, "-")), *[((31, 2, 6), (2, 6, t)) for t in MISSPELLED])
K = "P6: the year in another slot"
pair = deck_text((1, S0), [(1, C(**NEW)), (2, C0)], [(1, R0), (2, R0)])
stopped(K, pair, ((32, 6, 5), (6, 5, "2009")), ((32, 10, 6), (10, 6, "2005")), ((32, 14, 5), (14, 5, "2009")), ((32, 18, 6), (18, 6, "2005")),
        ((33, 2, 5), (2, 5, "2009")))

# ---- under 2009
K = "P6: 2009, realistic"
for nc, nr in ((1, 1), (1, 1), (2, 1), (1, 2), (3, 2), (1, 4), (8, 1), (16, 1), (16, 4)):
    assert put(K, told_best(lambda: dated(real_deck(nc, nr), rng.choice(YEARS["2009"])), 10 if nc * nr < 8 else 2), None, {0})
K = "P6: 2009, ten to twelve digits in all fields"
for nc, nr in ((1, 1), (1, 1), (2, 1), (3, 4)):
    assert put(K, told_best(lambda: dated(long_deck(nc, nr), "2009.0000000"), 10 if nc * nr < 8 else 2), None, {0})

K = "P6: 2009, each slot of line 1 in turn with eleven digits"
SPAN = {**dict.fromkeys("HgA Fv Cyv Cyp ETinh RfDi CSFi".split(), (.1, 1)), "Q": (1, 1.7), "EFinh": (100, 365), "ED": (10, 90), "ATc": (20000, 30000)}


def at_2009(**texts):
    """the plain deck of 2009 with these fields"""
    texts = {**NEW, **texts}
    c, r = ({k: v for k, v in texts.items() if RECORD[k] == kind} for kind in "CR")
    return one(of_year("2009"), C(**c), R(**r))


def telling_air(name):
    """a deck whose line 1 tells its value from the working numbers next to it"""
    for _ in range(400):
        t = digits(rng.uniform(*SPAN[name]), 11)
        low, high = ends_of(t)
        decks_of_it = [at_2009(**{name: u}) for u in (t, nine_figures(low), nine_figures(high))]
        if low != high and answer(decks_of_it[0], None)[0][0] == 0:
            mine, *others = map(first_lines, decks_of_it)
            if mine not in others:
                return decks_of_it[0]
    raise SystemExit(f"{name}: no value tells its ends in line 1")


for name in SPAN:
    assert put(K, telling_air(name), None, {0})

# BW, IRinh and AFinh are not read by line 1, and the last two by no line
K = "P6: 2009, slots that line 1 does not read"
base = at_2009()
for changes in (dict(IRinh="0"), dict(IRinh="1.2345678901"), dict(AFinh="0"), dict(BW="1E+09"), dict(BW="1.2345678901"),
                dict(BW="8.2", IRinh="1E+09", AFinh="1E-20")):
    deck = at_2009(**changes)
    assert first_lines(deck) == first_lines(base) and ("BW" in changes or answer(deck, None) == answer(base, None))
    assert answer(dated(deck, ""), None) != answer(dated(base, ""), None) and put(K, deck, None, {0})

K = "P6: 2009, reference values missing"
for mask in (2, 8, 10, 5, 7, 13, 15):       # each set of RfDi and CSFi, with and without the others
    assert put(K, at_2009(**{k: "-" for i, k in enumerate(REFS) if mask >> i & 1}), None, {0})
assert put(K, deck_text((1, of_year("2009")), [(i, C(**NEW, **{k: "-" for b, k in enumerate(("RfDi", "CSFi")) if i >> b & 1})) for i in (1, 2, 3, 4)],
                        [(1, R0), (2, R0)]), None, {0})

K = "P6: 2009, figures of 0"
for changes in (dict(Q="0"), dict(HgA="0"), dict(ETinh="0"), dict(EFinh="0"), dict(CSFi="0"), dict(Cyv="0", Cyp="0"), dict(EFinh="0.0000000000", RfDi="-")):
    deck = at_2009(**changes)
    assert all(b" 0 " in line for line in first_lines(deck)) and put(K, deck, None, {0})

# with XR the factor is 1 for hazard, and for cancer where ATc is 1825: the quotient is Q, the risk Q x CSFi
K = "P6: 2009, figures of line 1 at and near their caps"
XS9 = XS + ["2009"]
for q, number in (("10000", 0), ("10000.000001", 42), ("9999.9999999", 0)):
    assert put(K, one(XS9, with_(XC, CHEM, Q=q), XR), None, {number})
for csf, number in (("1", 0), ("1.0000000001", 42), ("0.9999999999", 0)):
    assert put(K, one(XS9, with_(XC, CHEM, Q="1", CSFi=csf), with_(XR, REC, ATc="1825")), None, {number})
none = dict.fromkeys(REFS, "-")
for name, changes, spelling, last, numbers in (("RfDi", dict(none), nine, 90_000_000 * 29, (42, 0)), ("Q", dict(none, CSFi="0.5"), nine, 90_000_000 * 29, (0, 42)),
                                               ("CSFi", dict(none, Q="0.3"), eleven, MOST, (0, 42))):
    make = lambda t: at_2009(**{**changes, name: t})
    for k, number in zip(adjacent(make, 0, last, spelling), numbers):
        assert put(K, make(spelling(k)), None, {number})
for cs, rs, line in (([with_(XC, CHEM, Q="1"), with_(XC, CHEM, Q="10000.000001")], [XR], 7),
                     ([with_(XC, CHEM, Q="10000", CSFi="0.001")], [with_(XR, REC, ATc="18250"), with_(XR, REC, ATc="18249.999999")], 8),
                     ([with_(XC, CHEM, Q="1", CSFi="0.5"), with_(XC, CHEM, Q="1", CSFi="1")], [with_(XR, REC, ATc="1825"), with_(XR, REC, ATc="1824.9999999")], 20)):
    d = deck_text((1, XS9), list(enumerate(cs, 1)), list(enumerate(rs, 1)))
    assert answer(d, None)[0] == (42, line, 0) and put(K, d), answer(d, None)[0]
# the one year's line 1 above its cap, and not the other's
only_2005, only_2009 = one(of_year("2009"), C(**NEW), R(IRinh="1E+09")), one(of_year("2009"), C(**{**NEW, "CSFi": "20"}))
assert put(K, only_2005, None, {0}) and put(K, dated(only_2005, "2005"), None, {42}) and put(K, only_2009, None, {42}) and put(K, dated(only_2009, ""), None, {0})

K = "P6: 2009, a solvent, T2 beyond tD"
for tD, T2, ksg in (("30", "20", "3.3"), ("30", "75.5", "1E+09"), ("1", "34", "2"), ("30", "75.123456789", "0.03"), ("30", "30.000000001", "0.03"),
                    ("1E-20", "1E+09", "1E-09")):
    site = ONLY if "E" in tD else {}
    assert put(K, one(of_year("2009", tD=tD, **site), C(Q="0.4", ksg=ksg), R(T2=T2)), None, {0})
K = "P6: 2009, a buffer too short"
for d, room in ((at_2009(), 664), (at_2009(), 0), (dated(plain, "2005"), 664)):
    assert put(K, d, room, {51})
d = accepted(lambda: dated(real_deck(16, 4), "2009"))
assert put(K, d, 36859, {51})
K = "P6: two conditions at once"
stopped(K, pair, ((31, 2, 5), (2, 5, "x"), (2, 6, "2010")), ((33, 2, 6), (2, 6, "2010"), (3, 1, "x")), ((31, 2, 6), (2, 6, "2009E"), (19, 1, "1")),
        ((32, 6, 5), (2, 6, "2009"), (6, 5, "2009"), (10, 4, "")), ((32, 14, 4), (2, 6, "2009"), (14, 4, "")))
for d, room, number in ((dated(plain, "2010"), 0, 33), (dated(plain, "-"), 664, 32), (dated(plain, "2009")[:-81], 665, 21)):
    assert put(K, d, room, {number})
d = dated(plain, "2010")
for d, number in ((d[:161] + b" " + d[162:], 12), (d[:88] + b"2" + d[89:], 22), (d[:81] + b"S3" + d[83:], 21)):
    assert put(K, d, None, {number})
d = one(of_year("2009"), C(Q="1E+09", CSFo="1E+09", CSFi="1E+09"))
assert answer(d, None)[0] == (42, 1, 0) and put(K, d, 665) and put(K, d, 664, {51})

K = "P6: 2009, the receptor that a composite of one stage equals"
# of the pairs from P2's kind, with a CSFi that keeps the risk below 1
singles_2009 = [tuple(set_field(dated(d, "2009"), 6, 4, "0.01") for d in two) for two in singles[4]]
assert all(answer(a, None, COMPOSITE) == answer(b, None, ORDINARY) for a, b in singles_2009)
singles_2009 = [(a, b) for a, b in singles_2009 if answer(b, None, ORDINARY)[0][0] == 0]
print("of the pairs of one stage and its receptor, accepted under 2009:", len(singles_2009))
for _, deck in singles_2009[:4]:
    assert put(K, deck, None, {0})


def generated_year(year, most_bytes=1300):
    """a deck of the reading's own generator with this year, or a damaged one that stops at slot 12"""
    while True:
        deck = decks.deck(rng, *call)
        if year is None:
            deck = decks.damage(rng, deck, *call)
            if len(deck) <= most_bytes and need(deck) is None and answer(deck, None)[0][1:] == (2, 6):
                return deck
        elif len(deck) <= most_bytes and oracle.read_number(slot_12(deck).rjust(12)) == year:
            return deck


K = "P6: by the reading's own generator"
for year, number, count in ((2009, 0, 5), (2009, 42, 1), (2005, 0, 2), (None, 33, 1), (None, 32, 1)):
    fill(K, count, lambda: generated_year(year), {number})

# ---- composites
call = COMPOSITE
five = composite(FIVE, None, [C(**NEW)])
K = "P6: a year in several spellings"
spelled(K, five, of_2009=4, of_2005=3)
spelled(K, EX2, of_2009=1, of_2005=1)
K = "P6: no such year"
stopped(K, five, *[((33, 2, 6), (2, 6, t)) for t in NO_YEARS[:6]])
K = "P6: a lone -, misspelled"
stopped(K, five, ((32, 2, 6), (2, 6, "-")), *[((31, 2, 6), (2, 6, t)) for t in MISSPELLED[:3]])
K = "P6: the year in another slot"
stopped(K, five, ((32, 6, 6), (6, 6, "2009")), ((32, 10, 4), (10, 4, "2009")), ((32, 26, 6), (26, 6, "2005")))

K = "P6: 2009, document 002's five stages, realistic decks"
for cs in ([C(**NEW)], [C(**NEW), with_(XC, CHEM, Q="10"), C(Q="0.1", Fv="1")]):
    assert put(K, composite(FIVE, of_year("2009"), cs), None, {0})
for nc, nr in ((1, 1), (1, 2), (2, 3), (1, 5), (3, 8)):
    assert put(K, told_best(lambda: dated(real_composite(nc, nr), rng.choice(YEARS["2009"])), 6), None, {0})
K = "P6: 2009, ten to twelve digits in all fields"
for nc, nr in ((1, 3), (2, 8)):
    d = told_best(lambda: dated(deck_text((1, long_record(SITE)), [(i, long_record(CHEM)) for i in range(1, nc + 1)],
                                          [(i, long_record(STAGE)) for i in range(1, nr + 1)]), "000000002009"), 6)
    assert put(K, d, None, {0})
K = "P6: 2009, 16 chemicals and 8 stages"
d = accepted(lambda: dated(real_composite(16, 8), "2009"))
assert put(K, d, 9215, {0}) and put(K, d, 9214, {51})

K = "P6: 2009, each slot of line 1 in turn, the stages unlike in it"
for name in ("ETinh", "EFinh"):
    for _ in range(200):
        d = composite(some_stages(rng.choice([3, 5]), name), of_year("2009"), [C(**NEW)])
        told, rep = answer(d, None)
        if told[0] == 0 and all(rep != worked_otherwise(d, name, way) for way in SLOT_WAYS.values()):
            break
    else:
        raise SystemExit(f"{name}: no deck tells the other ways")
    assert put(K, d, None, {0})
K = "P6: 2009, slots that line 1 does not read"
at_five = lambda stages, **c: composite(stages, of_year("2009"), [C(**{**NEW, **c})])
base = at_five(FIVE)
for stages, c in (([with_(f, STAGE, IRinh=v) for f, v in zip(FIVE, ("1E+09", "0", "1.2345678901", "1E-20", "7"))], {}), (FIVE, dict(AFinh="0")),
                  ([with_(f, STAGE, BW=v, ED="1E-20", ATc="1E+09") for f, v in zip(FIVE, ("1E+09", "8", "9.9", "70", "1E+03"))], {})):
    d = at_five(stages, **c)
    assert first_lines(d) == first_lines(base) and answer(dated(d, ""), None) != answer(dated(base, ""), None) and put(K, d, None, {0})
K = "P6: 2009, reference values missing, figures of 0"
for c in (dict(RfDi="-"), dict(CSFi="-"), dict(RfDi="-", CSFi="-")):
    assert put(K, at_five(FIVE, **c), None, {0})
for name in ("ETinh", "EFinh"):
    assert put(K, at_five([with_(f, STAGE, **{name: "0"}) if i == 1 else f for i, f in enumerate(FIVE)]), None, {0})
    assert put(K, at_five(each(FIVE, **{name: "0"})), None, {0})

K = "P6: 2009, figures of line 1 at and near their caps"
at_caps = ((dict(Q="10000"), 0), (dict(Q="10000.000001"), 42), (dict(Q="9999.9999999"), 0), (dict(Q="1", CSFi="1"), 0), (dict(Q="1", CSFi="1.0000000001"), 42),
           (dict(Q="1", CSFi="0.9999999999"), 0))
for stages, shapes in (([XR1], at_caps), ([XR1, XR3, XR3], at_caps[::4])):
    for c, number in shapes:
        assert put(K, composite(stages, XS9, [with_(XC, CHEM, CSFo="-", **c)]), None, {number})
for name, below in (("RfDi", (42, 0)), ("CSFi", (0, 42))):
    make = lambda t: at_five(FIVE, **{**none, name: t})
    for k, number in zip(adjacent(make, 0, 90_000_000 * 29), below):
        assert put(K, make(nine(k)), None, {number})
d = composite(FIVE, of_year("2009"), [C(**NEW), C(Q="0.1", CSFi="1E+09")])
assert answer(d, None)[0] == (42, 7, 0) and put(K, d)
K = "P6: 2009, one stage alone, the ordinary report"
for deck, _ in singles_2009[:4]:
    assert put(K, deck, None, {0})
K = "P6: 2009, a solvent, years beyond tD"
for tD, ksg in (("76", "3.3"), ("30", "1E+09"), ("75.999999999", "0.03")):
    assert put(K, composite(FIVE, of_year("2009", tD=tD), [C(Q="0.4", ksg=ksg)]), None, {0})
K = "P6: two conditions at once"
stopped(K, five, ((33, 2, 6), (2, 6, "2010"), (10, 5, "")), ((32, 10, 5), (2, 6, "2009"), (10, 5, "")))
for d, room, number in ((dated(five, "2010"), 0, 33), (composite(FIVE, of_year("2009"), [C(CSFi="1E+09")]), 664, 51)):
    assert put(K, d, room, {number})
K = "P6: by the reading's own generator"
for year, number, count in ((2009, 0, 3), (2009, 42, 1), (2005, 0, 1), (None, 33, 1)):
    fill(K, count, lambda: generated_year(year, 2600), {number})

# what the decks of 2009 tell, those from before P6 too
air_tells = collections.Counter()
for name, file in files.items():
    call = COMPOSITE if name == "composites" else ORDINARY
    for deck in file.accepted:
        if slot_12(deck) and oracle.read_deck(deck, *call)[0]["year"] == 2009:
            air_tells.update((name, w) for w in told_apart(deck, AIR_WAYS) | {"all"})
print("of the decks of 2009 so many tell apart:", {f"{name}, {w}": n for (name, w), n in sorted(air_tells.items())})

# what all decks tell that are stored, those from before P5 too
solvent_tells = collections.Counter()
for name, file in files.items():
    call = COMPOSITE if name == "composites" else ORDINARY
    for deck in file.accepted:
        if at_64(deck):
            apart = told_apart(deck, {**SOLVENT_WAYS, **SAME_WAYS})
            assert not apart & {"1E-26 for 1E-25", "g by the series"} and ("g as 1 / x" in apart) == ("1 / phi as 0 and 0" in apart)
            solvent_tells.update((name, w) for w in apart)
            solvent_tells[name, "all"] += 1
print("of the decks with a product at 64 or above so many tell apart:", {f"{name}, {w}": n for (name, w), n in sorted(solvent_tells.items())})

for name, file in files.items():
    data = b"".join(file.stored)
    open(f"{sys.argv[3]}/{name}", "wb").write(data)
    numbers = sum(file.by_kind.values(), collections.Counter())
    accepted, refused = numbers[0], len(file.stored) - numbers[0]
    print(f"{name}: {len(file.stored)} decks, {len(data)} bytes; accepted {accepted}, refused {refused}; {dict(sorted(numbers.items()))}")
    for kind, told in file.by_kind.items():
        print(f"{kind:56} {sum(told.values()):4}", dict(sorted(told.items())))
    with open(f"{sys.argv[3]}/stdout", "a" if name == "composites" else "w") as f:
        f.write(f"decks {len(file.stored)}\naccepted {accepted}\nrefused {refused}\ndiffering 0\n")
for composites, whose in ((False, "ordinary"), (True, "a composite's")):
    print(f"{whose} decks that stop with 41 before P5, and now with:", {number: n for (c, number), n in sorted(moved.items()) if c == composites and n})
for composites, place, year, then, now in renewed:
    print(f"{'composites' if composites else 'decks'} {place}, {year} in slot 12: {then} before P6, {now} now")
