#!/usr/bin/env python3
"""Compares the field table with the text of document 003.

  table_against_003.py [DOCUMENT]

Reads place, size, sign and scale out of 003's tables and figures and compares every row of the consts in
crates/fields/src/lib.rt and of the lists in crates/fields/specs/Table.antt with them. Prints a line for each difference and a
closing line. The status is 1 where a row differs or was not compared.
"""
import glob
import os
import re
import sys

HERE = os.path.dirname(os.path.abspath(__file__))
ROOT = os.path.dirname(HERE)
SOURCE = os.path.join(ROOT, "crates/fields/src/lib.rt")
DEFINITION = os.path.join(ROOT, "crates/fields/specs/Table.antt")

# a list of the definition, and the tables and figures that it must agree with: (table, figure)
PARTS = {
    "subframe1": [("Table 11", "Figure 13")],
    "subframe2": [("Table 12", "Figure 14")],
    "iono_grid": [("Table 15", "Figure 15")],
    "almanac": [("Table 16", "Figure 16")],
    "time_offsets": [("Table 17", "Figure 17"), ("Table 21", "Figure 21")],
    "earth_iono": [("Table 18", "Figure 18")],
}

# the consts and the macros that put the common rows round them, each as the lists that it holds one behind the other
CONSTS = {
    "subframe!": ["head"],
    "message!": ["message_id", "prn"],
    "SUBFRAME1": ["subframe1"],
    "SUBFRAME2": ["subframe2"],
    "IONO_GRID": ["iono_grid"],
    "ALMANAC": ["almanac"],
    "TIME_OFFSETS": ["time_offsets"],
    "EARTH_IONO": ["earth_iono"],
    "DATA": ["data_bytes"],
}

# a field that every subframe or every message has: the sentence of 5.9.1 on it, and its column in Figure 12
HEAD = [
    ("TLM", r"The (?P<size>\d+) bits of TLM word", "TLM"),
    ("TOWC", r"Following the TLM word is (?P<size>\d+) bits of Time Of Week Count", "TOWC"),
    ("alert", r"Bit (?P<first>\d+) is allotted to the Alert Flag", "ALERT"),
    ("AutoNav", r"Bit (?P<first>\d+) is allotted to the Autonav", "AUTONAV"),
    ("subframe ID", r"(?P<size>\d+) bit subframe ID allotted in bit number (?P<first>\d+) and (?P<last>\d+)", "SUBFRAME ID"),
    ("spare", r"Bit (?P<first>\d+) is identified as spare bit", "SPARE"),
]
MESSAGE_ID = ("message ID", r"message identifier are Bit (?P<first>\d+) to Bit (?P<last>\d+)", "MESSAGE ID")
PRN = ("PRN", r"PRN ID is allocated Bit (?P<first>\d+) - Bit (?P<last>\d+)", "PRN ID")


def cells(line):
    return [cell.strip() for cell in line.strip().strip("|").split("|")]


def rule(line):
    return re.fullmatch(r"[|\s:-]+", line) is not None


def block_after(lines, at):
    """The rows of the first table at or after a line."""
    while not lines[at].startswith("|"):
        at += 1
    rows = []
    while at < len(lines) and lines[at].startswith("|"):
        if not rule(lines[at]):
            rows.append(cells(lines[at]))
        at += 1
    return rows


def blocks_before(lines, at, stop):
    """The rows of the tables between two lines, the later one a figure's caption."""
    rows = []
    for line in lines[stop:at]:
        if line.startswith("|") and not rule(line):
            rows.append(cells(line))
    return rows


def caption(lines, name):
    """The line of a caption: the last that begins so, since the lists at the front of 003 have each too."""
    found = [number for number, line in enumerate(lines) if re.match(r"\W*%s ?:" % re.escape(name), line)]
    if not found:
        raise SystemExit("003 has no caption of %s" % name)
    return found[-1]


def size_of(text):
    found = re.fullmatch(r"(\d+) ?(\*?)", text)
    return int(found.group(1)), found.group(2) == "*"


def scale_of(text):
    """The exponent of a scale: 2^-31 is -31, 16 is 4, 0.125 is -3, none is 0."""
    text = text.strip("$ `")
    power = re.fullmatch(r"2\^\{?(-?\d+)\}?", text)
    if power:
        return int(power.group(1))
    if text in ("", "PRN ID"):
        return 0
    number = float(text)
    for exponent in range(-80, 81):
        if number == 2.0 ** exponent:
            return exponent
    raise SystemExit("003 has a scale that is no power of two: %s" % text)


def table(lines, name):
    """A table's fields in order: (size, signed, scale)."""
    rows = block_after(lines, caption(lines, name))
    size = next(i for i, head in enumerate(rows[0]) if head.startswith("Size"))
    scale = next(i for i, head in enumerate(rows[0]) if head.startswith("Scale"))
    return [(*size_of(row[size]), scale_of(row[scale])) for row in rows[1:] if row[size] and row[0] != "PRN ID"]


def figure(lines, name, after):
    """A figure's fields in order: (first, last, size, signed). The columns may lie down or stand, and the figure may go over two pages."""
    end = caption(lines, name)
    start = caption(lines, after)
    while not lines[start].startswith("|"):
        start += 1
    while lines[start].startswith("|"):
        start += 1
    rows = blocks_before(lines, end, start)
    if rows[0][0] == "Bit Index" and re.match(r"\d", rows[0][1]):
        rows = [list(column) for column in zip(*rows)]
    heads = rows[0]
    place, size, notation = heads.index("Bit Index"), heads.index("Size (bits)"), heads.index("Notation")
    fields = []
    for row in rows[1:]:
        if row == heads or re.sub(r"</?b>", "", row[notation]) == "PRN ID":
            continue
        first, _, last = row[place].partition("-")
        fields.append((int(first), int(last or first), *size_of(row[size])))
    return fields


def part(lines, table_name, figure_name):
    """The rows that a table and its figure say together, or a difference between the two."""
    sizes, places = table(lines, table_name), figure(lines, figure_name, table_name)
    if len(sizes) != len(places):
        raise SystemExit("%s has %d fields and %s %d" % (table_name, len(sizes), figure_name, len(places)))
    rows = []
    for number, ((size, signed, scale), (first, last, drawn, starred)) in enumerate(zip(sizes, places), 1):
        if (size, signed) != (drawn, starred) or last - first + 1 != size:
            raise SystemExit("%s and %s differ at field %d" % (table_name, figure_name, number))
        rows.append((first, size, signed, scale))
    return rows


def head(lines):
    """The fields around the data: first bits and sizes of Figure 12, held against the sentences of 5.9.1."""
    end = caption(lines, "Figure 12")
    columns = list(zip(*blocks_before(lines, end, end - 6)[-3:]))
    drawn = {name: (int(first), int(re.match(r"\d+", size).group())) for first, name, size in columns}
    text, rows = "\n".join(lines), []
    for name, sentence, column in HEAD + [MESSAGE_ID, PRN]:
        found = re.search(sentence, text)
        if not found:
            raise SystemExit("5.9.1 says nothing of %s" % name)
        first, size = drawn[column]
        wanted = {"first": first, "last": first + size - 1, "size": size}
        for what, number in found.groupdict().items():
            if int(number) != wanted[what]:
                raise SystemExit("5.9.1 and Figure 12 differ on the %s of %s" % (what, name))
        rows.append((first, size, False, 0))
    return rows[:6], rows[6:7], rows[7:]


def data(lines, message_id, prn):
    """The 220 bits between message ID and PRN, by the byte; Figure 22 has their first and last place."""
    end = caption(lines, "Figure 22")
    drawn = blocks_before(lines, end, end - 5)[0]
    bits = [int(cell) for cell in drawn if cell.isdigit()]
    first, last = bits[0], bits[-1]
    if (first, last + 1) != (message_id[0] + message_id[1], prn[0]) or last - first + 1 != 220:
        raise SystemExit("Figure 22 does not draw the 220 bits between message ID and PRN")
    return [(at, min(8, last + 1 - at), False, 0) for at in range(first, last + 1, 8)]


def consts():
    text = open(SOURCE, encoding="utf-8").read()
    found = {}
    macros = [(name + "!", body) for name, body in re.findall(r"^macro_rules! (\w+) \{\n(.*?)^\}", text, re.M | re.S)]
    for name, body in macros + re.findall(r"^const (\w+): &\[Row\] = &\w+!\[\n(.*?)^\];", text, re.M | re.S):
        rows = re.findall(r"Row\((\d+), (\d+), (true|false), (-?\d+)\)", body)
        found[name] = [(int(f), int(w), s == "true", int(e)) for f, w, s, e in rows]
    return found


def definitions():
    text = open(DEFINITION, encoding="utf-8").read()
    found = {}
    for name, body in re.findall(r"^unfoldable pub (\w+) : (?:List )?Row\n\1 =(.*?)(?=\n\n|\Z)", text, re.M | re.S):
        rows = re.findall(r"row (\d+) (\d+) (true|false) \((pos|minus) (\d+)\)", body)
        found[name] = [(int(f), int(w), s == "true", int(n) if sign == "pos" else -int(n)) for f, w, s, sign, n in rows]
    return found


def shown(row):
    return "none" if row is None else "first bit %d, %d bits, %s, scale 2^%d" % (row[0], row[1], "signed" if row[2] else "unsigned", row[3])


def compare(where, rows, expected, source):
    """Prints a line for each row that differs, and gives the numbers of rows compared and of rows that differ."""
    differ = 0
    for number in range(max(len(rows), len(expected))):
        here = rows[number] if number < len(rows) else None
        there = expected[number] if number < len(expected) else None
        if here != there:
            differ += 1
            print("%s, row %d: %s; %s: %s" % (where, number + 1, shown(here), source, shown(there)))
    return max(len(rows), len(expected)), differ


def main():
    if len(sys.argv) > 1:
        path = sys.argv[1]
    else:
        found = sorted(glob.glob(os.path.join(ROOT, "../shared/documents/003_*.txt")))
        if not found:
            raise SystemExit(__doc__)
        path = found[0]
    lines = open(path, encoding="utf-8").read().split("\n")
    expected = {name: [("%s and %s" % pair, part(lines, *pair)) for pair in pairs] for name, pairs in PARTS.items()}
    first, message_id, prn = head(lines)
    expected["head"] = [("5.9.1 and Figure 12", first)]
    expected["message_id"] = [("5.9.1.7 and Figure 12", message_id)]
    expected["prn"] = [("5.9.1.8 and Figure 12", prn)]
    expected["data_bytes"] = [("Figures 12 and 22", data(lines, message_id[0], prn[0]))]
    compared = differ = missed = 0
    lists, arrays = definitions(), consts()
    for name, sources in expected.items():
        for source, rows in sources:
            n, m = compare("Table.antt, " + name, lists.get(name, []), rows, source)
            compared, differ = compared + n, differ + m
    for name, parts in CONSTS.items():
        at, rows = 0, arrays.get(name, [])
        for piece in parts:
            size = len(expected[piece][0][1])
            here = rows[at:] if piece == parts[-1] else rows[at:at + size]
            for source, wanted in expected[piece]:
                n, m = compare("lib.rt, %s, %s" % (name, piece), here, wanted, source)
                compared, differ = compared + n, differ + m
            at += size
    for name in [n for n in lists if n not in expected] + [n for n in arrays if n not in CONSTS]:
        missed += 1
        print("%s was not compared" % name)
    print("%d rows compared, %d differ" % (compared, differ))
    return 1 if differ or missed else 0


if __name__ == "__main__":
    sys.exit(main())
