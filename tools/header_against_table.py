#!/usr/bin/env python3
"""Compares the named rows of include/navic.h with the proved table.

  header_against_table.py

Reads the rows (first bit, width, sign, exponent of the scale) and the layouts out of crates/fields/specs/Table.antt and the
fields' names and order out of the .._fields functions of crates/message/specs/Numbers.antt. Every named row of the header must
have that index, and its comment that first bit, width, sign and scale; no row may be left out, none may be there besides, and
the constants must stand in the table's order. Prints a line for each difference and a closing line. The status is 1 where
something differs.
"""
import os
import re
import sys

ROOT = os.path.dirname(os.path.dirname(os.path.abspath(__file__)))
HEADER = os.path.join(ROOT, "include/navic.h")
TABLE = os.path.join(ROOT, "crates/fields/specs/Table.antt")
NUMBERS = os.path.join(ROOT, "crates/message/specs/Numbers.antt")

# the layout's prefix in the header; its fields are named by the function LAYOUT_fields
PREFIX = {"Subframe1": "SF1", "Subframe2": "SF2", "IonoGrid": "GRID", "Almanac": "ALM", "TimeOffsets": "OFFSETS", "EarthIono": "EOP", "Data": "DATA"}

# what the functions take as a number of its own, and the head's spare bit, which has its place in its name
HEAD_NAMES = {"id": "subframe_id", "spare": "spare30"}
MESSAGE_NAMES = {"id": "message_id", "prn": "prn"}


def read(path):
    with open(path, encoding="utf-8") as file:
        return file.read()


def definition(text, name):
    """The right side of a definition, up to the next blank line or comment."""
    found = re.search(r"^%s\b[^\n:]*=(.*?)(?=\n\s*\n|\n--|\n\w|\Z)" % name, text, re.M | re.S)
    if not found:
        raise SystemExit("no definition of %s" % name)
    return " ".join(re.sub(r" *-- .*", "", found.group(1)).split())


def table_rows(text, name):
    """The rows of a list of the table, or of a single row: (first bit, width, sign, exponent)."""
    body = definition(text, name)
    row = r"row (\d+) (\d+) (true|false) \((pos|minus) (\d+)\)"
    if re.sub(row, "", body).replace("∷", "").replace("[]", "").strip():
        raise SystemExit("%s is not a list of rows" % name)
    return [(int(first), int(width), "s" if signed == "true" else "u", int(n) if kind == "pos" else -int(n))
            for first, width, signed, kind, n in re.findall(row, body)]


def layouts(text):
    """The rows of each layout, as rows_of and message put them together."""
    if definition(text, "message rows") != "head ++ (message_id ∷ (rows ++ (prn ∷ [])))":
        raise SystemExit("message is not what this script takes it for")
    head, message_id, prn = (table_rows(text, name) for name in ("head", "message_id", "prn"))
    found = {}
    for layout, body in re.findall(r"^rows_of (\w+) = (.*)$", text, re.M):
        subframe, message = re.fullmatch(r"head \+\+ (\w+)", body), re.fullmatch(r"message (\w+)", body)
        if not subframe and not message:
            raise SystemExit("rows_of %s is not what this script takes it for" % layout)
        found[layout] = head + table_rows(text, subframe.group(1)) if subframe else head + message_id + table_rows(text, message.group(1)) + prn
    if set(found) != set(PREFIX):
        raise SystemExit("the layouts are %s" % ", ".join(found))
    return found


def field_names(text, function, own=None):
    """The names of a .._fields function in order, each with its sort; `own` names its numbers that are no part of a record."""
    body = definition(text, function)
    if "pair_fields" in body:
        pattern = r"list_of (\d+) \(λ i\. pick \(eqb \(i % 2\) 0\) \(Givei \(i / 2\)\) \(Givd \(i / 2\)\)\)"
        count = int(re.fullmatch(pattern, definition(text, "pair_fields")).group(1))
        body = body.replace("pair_fields", " ".join("%s·%d" % (("Givei", "Givd")[i % 2], i // 2) for i in range(count)))
    data = re.fullmatch(r"list_of (\d+) \(λ k\. Byte k\)", body)
    if data:
        body = " ".join("Byte·%d" % k for k in range(int(data.group(1))))
    item = r"(Plain|Signed|Flag|WeekNumber|Wide) (?:\w+\.«?(\w+?)»?(?:\.0)?|(\w+))(?![\w.»])|(Givei|Givd|Byte)·(\d+)"
    if re.sub(r"∷|\+\+|\[\]|[() ]|\bfields\b", "", re.sub(item, "", body)):
        raise SystemExit("%s has more than this script reads" % function)
    names = []
    for sort, part, number, array, place in re.findall(item, body):
        if array:
            names.append(("%s(%s)" % (array.upper(), place), array))
        else:
            name = part or number
            names.append(((own or {}).get(name, name).upper(), sort))
    return names


def expected():
    """For each layout, the names and the rows that the header must have, in order."""
    table, numbers = read(TABLE), read(NUMBERS)
    head = field_names(numbers, "head_fields", HEAD_NAMES)
    message_id, prn = field_names(numbers, "message_fields", MESSAGE_NAMES)
    wanted = {}
    for layout, rows in layouts(table).items():
        own = field_names(numbers, re.sub(r"(?<=[a-z])(?=[A-Z])", "_", layout).lower() + "_fields")
        prefixed = [("%s_%s" % (PREFIX[layout], name), sort) for name, sort in own]
        if not layout.startswith("Subframe"):
            prefixed = [message_id] + prefixed + [("%s_%s" % (PREFIX[layout], prn[0]), prn[1])]
        names = head + prefixed
        if len(names) != len(rows):
            raise SystemExit("%s: %d names, %d rows" % (layout, len(names), len(rows)))
        for (name, sort), row in zip(names, rows):
            if (sort == "Signed") != (row[2] == "s"):
                raise SystemExit("%s is %s, but its row is %s" % (name, sort, row[2]))
        wanted[layout] = [("NAVIC_" + name, index, row) for index, ((name, _), row) in enumerate(zip(names, rows))]
    return wanted


def header(text):
    """The header's named rows: {name: (index, row)} with the macros' places one by one, and the enumerators' names in order."""
    row = r"(\d+) ([us]) 2\^(-?\d+) {2,}\S.*\*/"
    found, order = {}, []

    def take(name, index, first, width, sign, exponent):
        if name in found:
            raise SystemExit("%s is there twice" % name)
        found[name] = (index, (first, int(width), sign, int(exponent)))

    for body in re.findall(r"^enum \{\n(.*?)^\};", text, re.M | re.S):
        for line in body.splitlines():
            at = re.fullmatch(r"    (NAVIC_\w+) = (\d+),? +/\* +(\d+) +" + row, line)
            if not at:
                raise SystemExit("not understood: %s" % line)
            take(at.group(1), int(at.group(2)), int(at.group(3)), *at.group(4, 5, 6))
            order.append(at.group(1))
    sizes = {name: int(size) for name, size in re.findall(r"^#define (NAVIC_\w+) (\d+)", text, re.M)}
    macro = r"^#define (NAVIC_\w+)\(k\) \((\d+) \+ (?:(\d+) \* )?\(k\)\) +/\* (\d+)\+(\d+)k " + row
    macros = re.findall(macro, text, re.M)
    if len(macros) != len(re.findall(r"^#define NAVIC_\w+\(k\)", text, re.M)):
        raise SystemExit("a macro of k is not understood")
    for name, base, stride, first, step, width, sign, exponent in macros:
        for k in range(sizes["NAVIC_DATA_BYTES" if name.startswith("NAVIC_DATA") else "NAVIC_GRID_PLACES"]):
            take("%s(%d)" % (name, k), int(base) + k * int(stride or 1), int(first) + k * int(step), width, sign, exponent)
    return found, order, sizes


def main():
    wanted = expected()
    found, order, sizes = header(read(HEADER))
    differ = []
    # the last number of the 220 bits is narrower than the macro's comment says of the others: its own constant has the comment
    last = "NAVIC_DATA_BYTE(%d)" % (sizes["NAVIC_DATA_BYTES"] - 1)
    if found[last][0] != found["NAVIC_DATA_LAST"][0] or found[last][1][0] != found["NAVIC_DATA_LAST"][1][0]:
        differ.append("NAVIC_DATA_LAST is not %s" % last)
    found[last] = found["NAVIC_DATA_LAST"]
    compared = {"NAVIC_DATA_LAST"}
    for layout, rows in wanted.items():
        for name, index, row in rows:
            compared.add(name)
            if name not in found:
                differ.append("%s of %s is not in the header" % (name, layout))
            elif found[name] != (index, row):
                differ.append("%s of %s: the header has %s, the table %s" % (name, layout, found[name], (index, row)))
        place = {name: index for name, index, _ in rows}
        place.setdefault("NAVIC_DATA_LAST", place.get(last, 0))
        own = [place[name] for name in order if name in place and (name != "NAVIC_DATA_LAST" or layout == "Data")]
        if own != sorted(own):
            differ.append("the constants of %s are not in the table's order" % layout)
    differ += ["%s is in no layout" % name for name in found if name not in compared]
    if sizes["NAVIC_NUMBERS"] != max(len(rows) for rows in wanted.values()):
        differ.append("NAVIC_NUMBERS is %d" % sizes["NAVIC_NUMBERS"])
    for line in differ:
        print(line)
    print("%d constants compared, %d differ" % (len(compared), len(differ)))
    return 1 if differ else 0


if __name__ == "__main__":
    sys.exit(main())
