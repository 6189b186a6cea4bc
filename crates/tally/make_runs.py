#!/usr/bin/env python3
"""make_runs.py ORACLE CRATES: the stored runs of both programs, CRATES/tally/runs and CRATES/tally_composite/runs.

Each NAME.deck is made here, the short ones from the program's example deck, `stdin`. Each NAME.out is the answer of the independent reading in the folder
ORACLE, at level 6; a name begins with the number that is told, and the script stops where that reading tells another.
"""
import pathlib
import sys
sys.path.insert(0, sys.argv[1])
import oracle

LEVEL, LINE = 6, 81


def with_field(deck, line, field, text):
    """field of line, both counted from 1"""
    at = LINE * (line - 1) + 8 + 12 * (field - 1)
    return deck[:at] + text.rjust(12).encode() + deck[at + 12:]


def with_bytes(deck, line, column, text):
    at = LINE * (line - 1) + column - 1
    return deck[:at] + text + deck[at + len(text):]


def without_line(deck, line):
    return deck[:LINE * (line - 1)] + deck[LINE * line:]


def longest(composite):
    """sixteen chemicals and all receptors, no two alike; one in four chemicals has no RfDo, one in five no CSFo"""
    chems = [dict(Q=f"{i}E-03", ksg=f"0.{i}", Kds=f"{3 * i}", RfDo="-" if i % 4 == 0 else f"0.00{i}", CSFo="-" if i % 5 == 0 else f"1.{i}", CSFi=f"0.{i}") for i in range(1, 17)]
    recs = [dict(BW=f"{10 * j}.5", ED=f"{j}.25", IRsoil=f"{20 * j}", **({"years": f"{j}.5"} if composite else {"T2": f"{12 * j}.5"})) for j in range(1, 9 if composite else 5)]
    return oracle.example(LEVEL, composite, chems=chems, recs=recs)


def runs(example, composite):
    lines = len(example) // LINE
    whole = longest(composite)
    first_receptor = next(n for n in range(1, lines) if example[LINE * (n - 1):].startswith(b"R1"))
    r2, r3 = first_receptor + 1, first_receptor + 2
    return {
        "0_longest": whole,
        "11_a_byte_more": whole + b" ",
        "11_a_line_more": whole + b" " * 80 + b"\n",
        "11_empty": b"",
        "11_no_last_line_feed": example[:-1],
        "12_tab": with_bytes(example, 4, 12, b"\t"),
        "21_no_first_receptor_line": without_line(example, first_receptor),
        "21_no_end": without_line(example, lines),
        "22_other_id": with_bytes(example, 5, 3, b"   777"),
        "31_comma": with_field(example, r2, 3, "1,5"),
        "32_blank": with_field(example, 2, 4, ""),
        "33_share_above_one": with_field(example, r3, 5, "1.5"),
        "42_reference": with_field(example, first_receptor - 1, 1, "1E-20"),
        # far down the report: by the last chemical's CSFo, or by the last receptor's weight
        "42_late": with_field(whole, 66, 3, "1E+09") if composite else with_field(whole, 79, 1, "1E-20"),
    }


for crate, composite in (("tally", False), ("tally_composite", True)):
    crate = pathlib.Path(sys.argv[2], crate)
    (crate / "runs").mkdir(exist_ok=True)
    for name, deck in runs((crate / "stdin").read_bytes(), composite).items():
        out = oracle.tally(deck, None, LEVEL, composite)
        number = int(name.split("_")[0])
        assert (len(out) != 19 and number == 0) or int(out[:6]) == number, (name, out)
        (crate / "runs" / f"{name}.deck").write_bytes(deck)
        (crate / "runs" / f"{name}.out").write_bytes(out)
        print(crate.name, name, len(deck), out.decode().rstrip("\n") if number else len(out))
