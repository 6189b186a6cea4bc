#!/usr/bin/env python3
"""Writes data/decks, data/composites and stdout: the stored decks, each with the answer of an independent reading of documents 01
and 02.

  python3 make_decks.py ORACLE

ORACLE is the folder of that reading (its oracle.py and decks.py), written in Python from the documents alone; nothing of it is
copied here. It gives number, line and field, or which records a deck has, with P1 to P6 landed: level 6. P6 changes the site's slot
12 alone: a deck that does not stop there must have the same answer at level 5 with slot 12 cleared, and so one whose slot 12 is
blank the same as it is. P5 changes nothing in how a deck is read: with slot 12 cleared each must have the same answer at levels 4
and 5. P4 changes T2 alone: an ordinary deck that does not stop at a T2 must have the same answer at level 2 with slot 22 cleared
too, and a composite's deck the same as it is. No answer comes from the crate deck.
The checksum needs digits and power as printed, which the oracle does not keep: they are taken from the fields' bytes here, and
their value is held to the oracle's.

The first 452 decks stand in data/decks since before P1 and are answered afresh, with a T2 where they had none. One that did not stop
at slot 22, or at slot 12 of the site, must keep its number, line and field. The others are made anew on each run, from document
01's example but for one or two fields:
  each slot with ten, eleven and twelve digits in range, and above its largest value
  both ends of each range, on both sides, and 0 where it is never 0
  later slots, and fields that spell no number, with that many digits
  a long field before and after a field that stops the deck
  whole decks by the oracle's own generator, half of them damaged
  for P2: slots 23 and 24 filled, five receptors and more, a composite's decks, lengths above 6,723
  for P4: T2 in range, out of range, missing and misspelled, alone and beside another condition; decks from before P4
  for P6: the year blank, spelled in several ways, none that there is, - and misspelled, alone and beside another condition; in a
  later slot; whole decks by the oracle's own generator, half of them damaged

The decks of data/composites are made anew too, from document 01's example with one to eight stages:
  each number of stages; years, and each slot of a stage, in range, above it, and 0
  years, ED and ATc missing or misspelled; slots 22 and 24 filled
  ids, lines and lengths that stop a deck; two conditions at once; ordinary decks
  whole decks by the oracle's own generator, half of them damaged
  for P6: the year as above
"""
import random
import sys
from fractions import Fraction
from pathlib import Path

LEVEL, BEFORE = 6, 5
ORDINARY, COMPOSITE = (LEVEL, False), (LEVEL, True)
OLD = 452
MODULUS = 999983
SEED = 20270101
HERE = Path(__file__).parent

sys.dont_write_bytecode = True
sys.path.insert(0, sys.argv[1])
import decks as generator
import oracle

RECORDS = {"S": "site", "C": "chems", "R": "recs"}


# ---- answers

def fields(line):
    return [line[8 + 12 * f:20 + 12 * f] for f in range(6)]


def printed(part):
    """digits and power of the number in a field, or None for a blank and a lone -"""
    text = part.decode().strip()
    if text in ("", "-"):
        return None
    mantissa, _, exponent = text.partition("E")
    whole, _, places = mantissa.partition(".")
    digits, power = int(whole + places), int(exponent or 0) - len(places)
    assert oracle.read_number(part, LEVEL) == digits * Fraction(10) ** power
    return digits, power


def mixed(total, x):
    return (total * 31 + x) % MODULUS


def mixed_record(total, lines):
    total = mixed(total, int(lines[0][2:8]) if lines else 0)
    values = [printed(part) for line in lines for part in fields(line)]
    for value in values + [None] * (24 - len(values)):
        if value is None:
            total = mixed(total, 1)
        else:
            total = mixed(mixed(mixed(total, value[0]), max(value[1], 0)), max(-value[1], 0))
    return total


def checksum(lines, chemicals, receptors, most):
    """of the case: the site, 16 chemicals and the most receptors, 4 or a composite's 8, those that the deck lacks empty"""
    total = mixed_record(0, lines[:2])
    for first, count, room in ((2, chemicals, 16), (2 + 4 * chemicals, receptors, most)):
        for i in range(room):
            total = mixed_record(total, lines[first + 4 * i:first + 4 * i + 4] if i < count else [])
    return total


def told(deck, how):
    """number, line and field, or 0, chemicals and receptors"""
    try:
        _, chemicals, receptors = oracle.read_deck(deck, *how)
        return 0, len(chemicals), len(receptors)
    except oracle.Refusal as refusal:
        return refusal.answer


def at_exposure(deck, numbers):
    """the deck stops at a T2"""
    number, line, field = numbers
    return number > 30 and field == 4 and deck[81 * (line - 1):][:2] == b"R4"


def at_year(numbers):
    """the deck stops at slot 12 of the site"""
    return numbers[0] > 30 and numbers[1:] == (2, 6)


def is_text(part):
    return all(32 <= b <= 126 for b in part)


def answer(deck, how=ORDINARY):
    """the five numbers that are stored before a deck"""
    numbers, undated = told(deck, how), put(deck, 2, 6, "") if deck[81:83] == b"S2" and is_text(deck[149:161]) else deck
    before = told(undated, (BEFORE, how[1]))
    assert numbers == before or at_year(numbers), "P6 changes more than the year"
    assert before == told(undated, (4, how[1])), "P5 changes how a deck is read"
    unexposed = undated if how == COMPOSITE else with_exposure(undated, "", is_text)
    assert before == told(unexposed, (2, how[1])) or at_exposure(undated, before), "P4 changes more than T2"
    lines = [deck[i:i + 81] for i in range(0, len(deck), 81)] if numbers[0] == 0 else []
    return (len(deck), *numbers, checksum(lines, *(numbers[1:] if lines else (0, 0)), oracle.Rules(*how).receptors))


# ---- the decks from before

def stored():
    data, at = (HERE / "data/decks").read_bytes(), 0
    for _ in range(OLD):
        head = tuple(int(data[at + 6 * k:at + 6 * k + 6]) for k in range(5))
        at += 31 + head[0]
        yield head, data[at - head[0]:at]


def with_exposure(deck, text, wanted):
    """this T2 in each receptor whose slot 22 is a wanted one"""
    for line in range(1, len(deck) // 81 + 1):
        if deck[81 * (line - 1):][:2] == b"R4" and wanted(fields(deck[81 * (line - 1):])[3]):
            deck = put(deck, line, 4, text)
    return deck


def exposed():
    """with a T2 where slot 22 was blank; an answer that was given before may change at slot 22 alone, or at slot 12 of the site"""
    for i, (head, deck) in enumerate(stored()):
        full = with_exposure(deck, EXPOSURES[0][i % len(EXPOSURES[0])], lambda part: not part.strip())
        free = at_exposure(deck, head[1:4]) or at_year(head[1:4])
        assert answer(full)[1:4] == head[1:4] or free, "P4 or P6 changes an answer from before"
        yield full


def many_digits(deck):
    """some field has ten digits or more"""
    return any(sum(48 <= b <= 57 for b in part) > 9 for i in range(0, len(deck), 81) for part in fields(deck[i:i + 81]))


# ---- the decks made anew

def with_fields(*changes):
    """document 01's example, (letter, slot's name, text) changed"""
    given = {"site": {}, "chems": [{}], "recs": [{}]}
    for letter, name, text in changes:
        slot = given[RECORDS[letter]]
        (slot if letter == "S" else slot[0])[name] = text
    return oracle.example(LEVEL, **given)


def put(deck, line, field, text):
    at = 81 * (line - 1) + 8 + 12 * (field - 1)
    return deck[:at] + text.rjust(12).encode() + deck[at + 12:]


def within(rng, largest, count):
    """a number of so many digits, above 0 and below the largest"""
    if count == 12:
        return str(rng.randrange(1, largest + 1)).rjust(12, "0")
    whole = rng.randrange(largest)
    places = count - len(str(whole))
    return f"{whole}.{rng.randrange(1, 10 ** places):0{places}}"


TOPS = {
    1: (["1.000000000", "1.0000000000", "000000000001", "0.9999999999", "0.999999999", "00000.999999"],
        ["1.000000001", "1.0000000001", "000000000002", "1.0000000010", "00001.000001", "000000000010"]),
    366: (["366.0000000", "366.00000000", "000000000366", "365.99999999", "365.9999999"],
          ["366.0000001", "366.00000001", "000000000367", "366.10000000", "000000003660"]),
    10 ** 9: (["1000000000", "1000000000.0", "001000000000", "999999999.5", "999999999.99", "01000000000"],
              ["1000000001", "1000000000.1", "001000000001", "1000000000.9", "100000000000", "999999999999", "10000000000"]),
}
BOTTOMS = (["1.000000E-20", "1.000001E-20", "00000001E-20", "10000000E-27", "0.000001E-14", "0.0000000001"],
           ["9.99999E-21", "9.999999E-21", "0.999999E-20", "99999999E-28", "00000009E-21", "0.000001E-99"])
ZEROS = ["0000000000", "00000000000", "000000000000", "0.000000000", "0.0000000000", "0000000000.0"]
NO_NUMBERS = ["12345678901.", ".12345678901", "1..234567890", "1.2345.67890", "1234567890E5", "1234567E+123", "123456789E+0",
              "12345678E+1", "1234567890E+", "-12345678901", "+12345678901", "1234567890 1", "12345678901 ", "1234567890+1",
              "1,234567890", "123456789O12", "1.234567890-", "1234567890-2", "0x1234567890", "1.23456789e1", "------------"]


def largest(name):
    return 1 if name in oracle.ATMOST1 else 366 if name in oracle.ATMOST366 else 10 ** 9


def slots():
    """all but the year's, whose range is two values"""
    return [(letter, name) for letter in RECORDS for name in oracle.Rules(BEFORE).slots[letter] if name is not None]


def in_every_slot(rng):
    for i, (letter, name) in enumerate(slots()):
        top = largest(name)
        good, bad = TOPS[top]
        yield with_fields((letter, name, within(rng, top, 10 + i % 2)))
        yield with_fields((letter, name, within(rng, top, 12)))
        yield with_fields((letter, name, good[i % len(good)]))
        yield with_fields((letter, name, bad[i % len(bad)]))


def at_the_ends():
    for letter, name in (("C", "Fv"), ("R", "EFs"), ("C", "Kds")):
        for texts in TOPS[largest(name)] + BOTTOMS:
            for text in texts:
                yield with_fields((letter, name, text))
    never = sorted((name, letter) for letter, name in slots() if name in oracle.NONZERO)
    for i, (name, letter) in enumerate(never):
        yield with_fields((letter, name, ZEROS[i % len(ZEROS)]))
    for text in ZEROS:
        yield with_fields(("C", "Q", text))


def misplaced():
    example = oracle.example(LEVEL)
    for line, field in ((2, 6), (6, 5), (6, 6), (10, 5), (10, 6)):
        yield put(example, line, field, "123456789012")
    for i, text in enumerate(NO_NUMBERS):
        yield put(example, 1 + i % 10, 1 + i % 5, text)


def around_a_stop():
    long = ("C", "Cyv", "0.1234567891")
    for text in ("1.0000000001", "12345678901.", "", "-"):
        yield with_fields(long, ("C", "HgD", text))
        yield with_fields(long, ("C", "Dydv", text))
    whole = with_fields(long)
    yield whole[:-81]
    yield whole[:81 * 5] + b"\t" + whole[81 * 5 + 1:]
    yield with_fields(long, ("S", "Zs", "0000000000.0"))


def generated(rng, composite=False):
    """as the generator makes them at level 4; at level 5 it would draw others, which are read in the same way"""
    how = 4, composite
    for i in range(28):
        deck = generator.deck(rng, *how)
        while not many_digits(deck) or len(deck) > 2500:
            deck = generator.deck(rng, *how)
        yield generator.damage(rng, deck, *how) if i % 2 else deck


# ---- P2

def with_id(deck, line, text):
    return deck[:81 * line - 79] + text + deck[81 * line - 73:]


def stages(count, **last):
    """the fields that tell the stages of a composite apart; the last one's as given"""
    each = [{"BW": f"{8 * i}.{i}", "ED": f"{i}.5", "EFs": f"{200 + i}", "years": f"{9 * i}.25"} for i in range(1, count + 1)]
    each[-1].update(last)
    return each


def composite(count, chemicals=1, **last):
    return oracle.example(*COMPOSITE, chems=[{}] * chemicals, recs=stages(count, **last))


def no_composites():
    """ordinary decks that a composite call would take otherwise, or that are near to such"""
    example, two = oracle.example(LEVEL), oracle.example(LEVEL, recs=[{}, {}])
    for field in (5, 6):
        for text in ("1", "0", "-", "1E5", "0.1234567891"):
            yield put(example, 10, field, text)
    yield put(two, 14, 5, "56")
    for chemicals, receptors in ((1, 5), (12, 5), (1, 8), (1, 9)):
        yield oracle.example(LEVEL, chems=[{}] * chemicals, recs=[{}] * receptors)
    for count, chemicals in ((1, 1), (2, 2), (4, 16), (5, 1), (8, 1), (5, 16), (8, 16)):
        yield composite(count, chemicals)
    longest = oracle.example(LEVEL, chems=[{}] * 16, recs=[{}] * 4)
    yield longest + longest[-81:]
    yield longest[:-81] + longest[-405:]


# of a length of exposure or a life stage: in range, and not
EXPOSURES = (["1", "0.5", "75", "1E-20", "1E+09", "1.000000E-20", "1000000000.0", "0.0000000001", "000000000056", "12.345678901"],
             ["", "-", "0", "1E-21", "1.1E+09", "1E5", "0.0000000000", "9.999999E-21", "1000000000.1", "56.", "-1", "1 2"])


def some_years():
    for i, text in enumerate(EXPOSURES[0] + EXPOSURES[1]):
        yield composite(1, years=text)
        yield put(composite(5), 10 + 4 * (i % 5), 5, text)


def in_every_stage_slot(rng):
    for i, name in enumerate(oracle.REC):
        good, bad = TOPS[largest(name)]
        yield composite(1 + i % 8, **{name: within(rng, largest(name), 10 + i % 3)})
        yield composite(8 - i % 8, **{name: bad[i % len(bad)]})
        if name in ("BW", "ED", "ATc"):
            for text in ("", "-", "0", ZEROS[i], "1E-21", NO_NUMBERS[i]):
                yield composite(2, **{name: text})


def stopped_composites():
    five, longest = composite(5), composite(8, 16)
    for field in (4, 6):
        for text in ("1", "0", "-", "x", "123456789012"):
            yield put(five, 10 + 4 * (field % 5), field, text)
    for deck in (b"", five[:-1], five + b" ", longest, longest + longest[-81:], longest[:-81], longest[:-1], longest + b"\n"):
        yield deck
    for count, chemicals in ((9, 1), (9, 15), (5, 17)):
        yield composite(count, chemicals)
    for line, text in ((7, b"     0"), (8, b"     9"), (11, b"     1"), (15, b"     2"), (15, b"999999"), (23, b"    05"),
                       (26, b"      ")):
        yield with_id(five, line, text)
    lines = [five[i:i + 81] for i in range(0, len(five), 81)]
    for order in (range(26), [*range(6), 26], [*range(10), *range(9, 27)], [*range(9), *range(10, 27)], [*range(27), 26],
                  [*range(10), *range(2, 27)]):
        yield b"".join(lines[i] for i in order)
    # the years beside another field that stops the deck
    for changes in (((10, 4, "1"), (10, 5, "0")), ((10, 5, "0"), (10, 6, "x")), ((10, 3, "367"), (10, 5, "")),
                    ((10, 5, "x"), (11, 1, "0")), ((14, 5, ""), (7, 2, "-"))):
        deck = five
        for change in changes:
            deck = put(deck, *change)
        yield deck
    yield put(five, 10, 5, "0")[:810] + b"R5" + five[812:]
    yield put(five, 10, 5, "0")[:809] + b" " + five[810:]
    for receptors in ([{}], stages(2), stages(4), stages(8)):
        yield oracle.example(LEVEL, recs=receptors)


def composites(rng):
    for count in range(1, 9):
        yield composite(count, 1 + count % 3)
    for decks in (some_years(), in_every_stage_slot(rng), stopped_composites(), generated(rng, True), guidance(True),
                  dated(rng, True)):
        yield from decks


# ---- P4

def exposures():
    four = oracle.example(LEVEL, recs=[{"T2": f"{10 * i}.5"} for i in range(1, 5)])
    yield four
    for i, text in enumerate(EXPOSURES[0] + EXPOSURES[1]):
        yield with_fields(("R", "T2", text))
        yield put(four, 10 + 4 * (i % 4), 4, text)
    # beside another field that stops the deck, and beside years
    for changes in (((10, 3, "367"), (10, 4, "")), ((10, 4, ""), (10, 5, "1")), ((10, 4, "0"), (10, 6, "x")),
                    ((10, 4, "0"), (11, 1, "0")), ((14, 4, ""), (7, 2, "-")), ((10, 4, "1"), (10, 5, "1")),
                    ((22, 4, "x"), (18, 4, "-"))):
        deck = four
        for change in changes:
            deck = put(deck, *change)
        yield deck
    yield put(four, 10, 4, "0")[:809] + b" " + four[810:]
    yield put(four, 10, 4, "")[:810] + b"R5" + four[812:]
    for receptors in (1, 2, 4):
        yield oracle.example(2, recs=[{}] * receptors)


# ---- P6

# of the year: 2009 and 2005 in several spellings, values that are neither, and fields that spell no number
YEARS = ["2009", "2009.0", "2.009E+03", "02009", "20090E-01", "000000002009", "2009E+00", "2009.0000000",
         "2005", "2005.0", "2.005E+03", "02005", "20050E-01", "000000002005", "2005E+00", "2005.0000000"]
NO_YEARS = ["2010", "2004", "2006", "2007", "2008", "0", "1", "2009.0000001", "2008.9999999", "2005.0000001", "2004.9999999",
            "20.09E+01", "2009E+01", "2009E-01", "999999999999", "1E-20", "0.0000000000", "1E+09"]
UNSPELLED = ["2009E", "MMIX", "2 009", "+2009", "-2009", "2009.", "2009 ", "2009E+0", "2009e+00", ".2009E+04", "--"]


def guidance(composites=False):
    """the year in the smallest deck and in one of two chemicals, with four receptors or five stages"""
    if composites:
        small, large = composite(1), composite(5, 2)
    else:
        small = oracle.example(LEVEL)
        large = oracle.example(LEVEL, chems=[{}] * 2, recs=[{"T2": f"{10 * i}.5"} for i in range(1, 5)])
    last = len(large) // 81 - 1         # the last line before EN
    yield large
    for text in YEARS:
        yield put(small, 2, 6, text)
    for i, text in enumerate(["-"] + NO_YEARS + UNSPELLED):
        yield put((small, large)[i % 2], 2, 6, text)
    # in the larger deck too; in a later slot of a chemical and of a receptor; beside another field that stops the deck
    for changes in (((2, 6, "2009"),), ((2, 6, "20050E-01"),), ((2, 6, "2.009E+03"),), ((2, 6, "-"),),
                    ((6, 5, "2009"),), ((10, 6, "2005"),), ((last, 6, "2009"),), ((2, 6, "2009"), (last - 4, 6, "2009")),
                    ((2, 5, "2009"),), ((2, 5, "1.1"), (2, 6, "2010")), ((2, 5, ""), (2, 6, "x")), ((2, 6, "2010"), (3, 1, "x")),
                    ((2, 6, "-"), (3, 1, "")),
                    ((1, 1, "0"), (2, 6, "2008")), ((2, 6, "2009"), (3, 4, "1.1")), ((2, 6, "2005"), (last, 4 + composites, "0"))):
        deck = large
        for change in changes:
            deck = put(deck, *change)
        yield deck
    wrong = put(small, 2, 6, "2010")
    yield wrong[:161] + b" " + wrong[162:]
    yield with_id(wrong, 2, b"     2")
    yield wrong[:81] + b"S3" + wrong[83:]
    yield wrong[:-81]
    yield wrong + b" "
    yield put(small, 2, 6, "2009")[:-81]


def dated(rng, composites=False):
    """decks of the generator with slot 12 filled, half of them damaged"""
    how = LEVEL, composites
    for i in range(16):
        deck = b""
        while not deck[149:161].strip() or len(deck) > 1800:
            deck = generator.deck(rng, *how)
        yield generator.damage(rng, deck, *how) if i % 2 else deck


def made():
    rng = random.Random(SEED)
    for decks in (in_every_slot(rng), at_the_ends(), misplaced(), around_a_stop(), generated(rng), no_composites(), exposures(),
                  guidance(), dated(rng)):
        yield from decks


def write(name, decks, how):
    """the file of these decks; gives what a trial of them prints"""
    data, stopped = b"", 0
    for deck in decks:
        numbers = answer(deck, how)
        stopped += numbers[1] != 0
        data += "".join(f"{n:6}" for n in numbers).encode() + b"\n" + deck
    (HERE / "data" / name).write_bytes(data)
    print(f"{name}: {len(decks)} decks, {stopped} stopped, {len(data)} bytes")
    return f"{len(decks)} decks, {stopped} of them stopped, 0 answered otherwise\n"


def main():
    heads, old = [head for head, _ in stored()], list(exposed())
    changed = [i for i, (head, deck) in enumerate(zip(heads, old), 1) if answer(deck)[1:4] != head[1:4]]
    print(f"of the first {OLD} these changed their number, line or field: {changed}")
    printed_lines = [write("decks", old + list(made()), ORDINARY),
                     write("composites", list(composites(random.Random(SEED))), COMPOSITE)]
    (HERE / "stdout").write_text("".join(printed_lines))


main()
