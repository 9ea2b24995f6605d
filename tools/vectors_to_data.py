#!/usr/bin/env python3
"""Writes the outside vectors in the form that the program `vectors` reads.

  vectors_to_data.py [VECTORS]

VECTORS is the folder of the vectors, ../shared/vectors if it is not given. Writes crates/vectors/data/*.txt and prints a line for each.

Every file is a text of rows of one length, each ended by a line feed. A number is sixteen hexadecimal digits and a blank, a negative one
in two's complement. `row` is the line of the vectors' file, counted from 1. A row that no record can hold (a flag of 2, a message in
subframe 5, a number outside its type) has `run` 0, and its record is left out.

  record      43 numbers: the case (0 none, 1 subframe 1, 2 subframe 2, 3 type 5, 4 type 7, 5 type 9, 6 type 11, 7 type 26, 8 null,
              9 unread) and the fields in the table's order, as many as the case has, then zeros; the 28 bytes beside the record, the
              fifteen GIVEI and the fifteen GIVD, two, two and four digits each, and a blank behind each of the three
  cases       row, whether this piece of the input is its last, the piece's length, the line's six numbers; the piece, 610 bytes with
              blanks behind
  read        the record; row, room, the line's six numbers; the lent bytes afterwards, two digits each, 40 with blanks behind, a blank;
              600 symbols
  write       the record; row, run, room, refusal, the number beside it; the lent bytes afterwards, '0', '1' or 'a' for A5 hex, 603 with
              blanks behind
  pair        the two records; row, run, refusal, the 26 bit patterns of the ephemeris
  time        row, count, refusal, second
  recordings  the number of rows of `walk` over it, its length, whether it is nothing but zeros; its symbols as digits, 3050 with blanks
              behind
  walk        row, start, the four numbers of the answer; in the order of the recordings
"""
import json
import os
import re
import sys

HERE = os.path.dirname(os.path.abspath(__file__))
ROOT = os.path.dirname(HERE)
DATA = os.path.join(ROOT, "crates/vectors/data")

HEAD = "tlm towc alert autonav sub spare30".split()
SUBFRAME1 = "wn af0 af1 af2 ura toc tgd deltan iodec reserved145 l5flag sflag cuc cus cic cis crc crs idot spare261".split()
SUBFRAME2 = "m0 toe e sqrta omega0 omega omegadot i0 spare261".split()
ALMANAC = "wna e toa i0 omegadot sqrta omega0 omega m0 af0 af1 prnal isc spare251".split()
TIME = "a0utc a1utc a2utc dtls toutc wnoutc wnlsf dn dtlsf a0 a1 a2 tot wnot gnssid spare194".split()
EARTH = "teop pmx pmxdot pmy pmydot dut1 dut1dot alpha0 alpha1 alpha2 alpha3 beta0 beta1 beta2 beta3 spare239".split()
GRID = ["mask", "region"] + [f"{name}.{k}" for k in range(15) for name in ("givei", "givd")] + ["iodi", "spare249"]
BYTES = [f"byte.{k}" for k in range(28)]

# of each case: its number, its message ID, its own fields in the table's order
CASES = {
    "sf1": (1, None, SUBFRAME1),
    "sf2": (2, None, SUBFRAME2),
    "mt5": (3, 5, GRID),
    "mt7": (4, 7, ALMANAC),
    "mt9": (5, 9, TIME),
    "mt11": (6, 11, EARTH),
    "mt26": (7, 26, TIME),
    "null": (8, 0, BYTES),
    "unread": (9, None, BYTES),
}
FLAGS = {"alert", "autonav", "l5flag", "sflag"}
SIGNED = set(
    "af0 af1 af2 tgd deltan cuc cus cic cis crc crs idot m0 omega0 omega omegadot i0 isc a0utc a1utc a2utc dtls dtlsf a0 a1 a2 "
    "pmx pmxdot pmy pmydot dut1 dut1dot alpha0 alpha1 alpha2 alpha3 beta0 beta1 beta2 beta3".split()
)
WIDE = {"spare194"}
MOST = 42
EPHEMERIS = (
    "wn af0 af1 af2 ura toc tgd deltan iodec l5flag sflag cuc cus cic cis crc crs idot m0 toe e sqrta omega0 omega omegadot i0".split()
)
PIECE = 610


def number(n):
    assert -(2**63) <= n < 2**64, n
    return "%016x " % (n % 2**64)


def range_of(name):
    """The numbers that a field of the record can hold."""
    if name in FLAGS:
        return range(0, 2)
    if name in SIGNED:
        return range(-(2**31), 2**31)
    return range(0, 2**64 if name in WIDE else 2**32)


def fields_of(record):
    """The fields of a record in the table's order, as pairs of name and number."""
    _, message, own = CASES[record["case"]]
    numbers = dict(record["f"])
    numbers["sub"] = record["sub"] - 1
    for k, (givei, givd) in enumerate(record["pairs"]):
        numbers[f"givei.{k}"], numbers[f"givd.{k}"] = givei, givd
    data = bytes.fromhex(record["bits"])
    for k in range(28):
        numbers[f"byte.{k}"] = data[k] if k < 27 else data[k] // 16
    numbers["id"] = record.get("msgid", message)
    names = HEAD + own if record["case"] in ("sf1", "sf2") else HEAD + ["id"] + own + ["prn"]
    return [(name, numbers[name]) for name in names]


def holds(record):
    """Whether a record of the project's types can be this one."""
    subframe = {"sf1": [1], "sf2": [2]}.get(record["case"], [3, 4])
    pairs = all(givei in range(2**8) and givd in range(2**16) for givei, givd in record["pairs"])
    return record["sub"] in subframe and pairs and all(n in range_of(name) for name, n in fields_of(record))


def block(record):
    """A record as text; `None` as one of zeros."""
    if record is None:
        return number(0) * (1 + MOST) + "0" * 56 + " " + "0" * 30 + " " + "0" * 60 + " "
    numbers = [n for _, n in fields_of(record)]
    text = number(CASES[record["case"]][0])
    text += "".join(map(number, numbers + [0] * (MOST - len(numbers))))
    text += record["bits"] + " "
    text += "".join("%02x" % givei for givei, _ in record["pairs"]) + " "
    return text + "".join("%04x" % givd for _, givd in record["pairs"]) + " "


def lines(folder, name):
    with open(os.path.join(folder, name)) as text:
        return [(row, line.rstrip("\n")) for row, line in enumerate(text, 1)]


def json_lines(folder, name):
    return [(row, json.loads(line)) for row, line in lines(folder, name)]


def unescaped(text):
    found = lambda m: b"\n" if m.group(1) is None else bytes([int(m.group(1), 16)])
    return re.sub(rb"\\n|\\x([0-9a-f]{2})", found, text.encode())


def cases(folder):
    for row, line in lines(folder, "cases.tsv"):
        _, _, text, answer = line.split("\t")
        given = unescaped(text)
        pieces = [given[i : i + PIECE] for i in range(0, len(given), PIECE)] or [b""]
        for i, piece in enumerate(pieces):
            numbers = [row, int(i == len(pieces) - 1), len(piece)] + [int(n) for n in answer.split(" ")]
            yield "".join(map(number, numbers)).encode() + piece.ljust(PIECE)


def read(folder):
    for row, given in json_lines(folder, "read.jsonl"):
        assert len(given["symbols"]) == 600 and set(given["symbols"]) <= set("01")
        assert len(given["lent_after"]) == 2 * given["room"] <= 80
        assert given["record"] is None or holds(given["record"])
        numbers = [row, given["room"]] + [int(n) for n in given["line"].split(" ")]
        yield block(given["record"]) + "".join(map(number, numbers)) + given["lent_after"].ljust(80) + " " + given["symbols"]


def write(folder):
    letters = {0: "0", 1: "1", 0xA5: "a"}
    for row, given in json_lines(folder, "write.jsonl"):
        if given["level"] != "base":
            continue
        run = holds(given["record"])
        lent = "".join(letters[byte] for byte in bytes.fromhex(given["lent_after"]))
        assert len(lent) == given["room"] <= 603
        numbers = [row, int(run), given["room"], given["refusal"], given["beside"]]
        yield block(given["record"] if run else None) + "".join(map(number, numbers)) + lent.ljust(603)


def pair(folder):
    for row, given in json_lines(folder, "pair.jsonl"):
        if given["w201"]:
            continue
        records = [given["first"], given["second"]]
        run = all(map(holds, records))
        assert set(given["f64"]) == set(EPHEMERIS)
        numbers = [row, int(run), given["refusal"]] + [int(given["f64"][name], 16) for name in EPHEMERIS]
        yield "".join(block(record if run else None) for record in records) + "".join(map(number, numbers))[:-1]


def time(folder):
    for row, line in lines(folder, "time.tsv"):
        yield "".join(map(number, [row] + [int(n) for n in line.split("\t")[:3]]))[:-1]


def by_recording(folder):
    """The rows of the walk, those of one recording together."""
    groups = {}
    for row, given in json_lines(folder, "walk.jsonl"):
        groups.setdefault(json.dumps(given["recording"]), []).append((row, given))
    return groups.values()


def recordings(folder):
    for group in by_recording(folder):
        symbols = group[0][1]["recording"]
        zeros = isinstance(symbols, dict)
        length, text = (symbols["zeros"], "") if zeros else (len(symbols), symbols)
        assert len(text) <= 3050 and text.isdigit() != zeros
        yield "".join(map(number, [len(group), length, int(zeros)])) + text.ljust(3050)


def walk(folder):
    for group in by_recording(folder):
        for row, given in group:
            yield "".join(map(number, [row, given["start"]] + given["answer"]))[:-1]


def main():
    folder = sys.argv[1] if len(sys.argv) > 1 else os.path.join(ROOT, "../shared/vectors")
    os.makedirs(DATA, exist_ok=True)
    for make in (cases, read, write, pair, time, recordings, walk):
        rows = [row if isinstance(row, bytes) else row.encode() for row in make(folder)]
        assert len({len(row) for row in rows}) == 1
        with open(os.path.join(DATA, make.__name__ + ".txt"), "wb") as file:
            file.write(b"".join(row + b"\n" for row in rows))
        print(f"{make.__name__}: {len(rows)} rows of {len(rows[0]) + 1} bytes")


if __name__ == "__main__":
    main()
