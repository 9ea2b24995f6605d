#!/usr/bin/env python3
"""Brings the repository's own definitions and lemmas to the spelling that Rattle's library has: functions, lemmas, fields and constructors in
snake case, types and modules in camel case. It was run once at the top, after the kit's own script (docs/PORT.md says when); run again it would
turn the names of goals too.

usage: tools/respell.py [--list]

--list prints the table, old and new, and writes nothing. Names of src/, exported names, strings, inputs and outputs stay as they are; what the
proof of a function answers (a type that begins 'tie.') has a name that the checker makes, and stays too.
"""

import glob
import os
import re
import sys

WORD = re.compile(r"[^\s(){}.;,@\"«»\[\]|`]+")
DECLARED = re.compile(r"^(\s*)((?:(?:abbrev|unfoldable|pub|data|record|pattern|let)\s+)*)([^\s:(){}.,;]+)\s*(?:\([^:]*:[^=]*\)\s*)*:\s*(.*)$")
LET = re.compile(r"\blet\s+([^\s:(){}.,;=]+)\s*[:=]")
IMPORT = re.compile(r"use\s+(Rattle\.[\w.]+)\.\{([^}]*)\}")
ALIAS = re.compile(r"use\s+(Rattle\.[\w.]+)\s+as\s+(\S+)")
CLAUSE = re.compile(r"(?:requires|ensures)\s*\*?\s*(?:\w+\s*)?\{|ghost\s+use\b")
# where the rule alone reads badly, or gives the name of a field of src/
TAKEN = {"notOf600": "not_of_600", "turnedOver": "turned_levels"}

# the fields of records that have a dash
FIELDS = set("a-is b-is c-is d-is e-is f-is ever-after in-time own-id sound-first sound-second".split())


def files():
    for pattern in ("crates/*/specs/**/*.antt", "crates/*/proofs/**/*.antt"):
        for path in sorted(glob.glob(pattern, recursive=True)):
            if "/out/" not in path:
                yield path


def read(path):
    with open(path, encoding="utf-8") as f:
        return f.read()


def own_proof(path):
    return re.search(r"/proofs/.*/", path) is not None


def declared(path, text):
    """The names that a file declares: (name, whether it is a definition of specs/)."""
    for line in text.splitlines():
        m = DECLARED.match(line)
        if m and not m.group(3).startswith("--") and not m.group(4).startswith("tie."):
            yield m.group(3)
        for m in LET.finditer(line):
            yield m.group(1)


def is_camel(name):
    return bool(re.match(r"[a-z][A-Za-z0-9]*[A-Z]", name)) and not re.search(r"_[A-Z]", name)


def snake(name):
    return re.sub(r"(?<=[a-z0-9])([A-Z])", lambda m: "_" + m.group(1).lower(), name)


def undashed(name):
    head, _, rest = name.partition("-")
    return (head + "-" if re.match(r"[A-Z]", head) else head + "_") + rest.replace("-", "_")


def table():
    texts = {p: read(p) for p in files()}
    says = {p: set(declared(p, t)) for p, t in texts.items()}
    every = set().union(*says.values())
    camel = {n: TAKEN.get(n, snake(n)) for n in every if is_camel(n)}
    for n in sorted(every):
        if "-" in n and any(is_camel(x) for x in n.split("-")):
            camel[n] = "-".join(camel.get(x, snake(x) if is_camel(x) else x) for x in n.split("-"))
    taken = {n for n in every if "-" not in n} | set(camel.values())
    dashed = {}
    for n in sorted(every):
        if "-" in n:
            new = undashed(camel.get(n, n))
            if new != n and new in taken:
                new += "_lem"
            if new != n:
                dashed[n] = new
    back = {}
    for a in every:
        back.setdefault(dashed.get(a, camel.get(a, a)), set()).add(a)
    for b, olds in sorted(back.items()):
        if len(olds) > 1:
            print("falls together:", b, sorted(olds), file=sys.stderr)
    return texts, says, camel, dashed


def respell(path, text, says, camel, dashed):
    local = dict(camel)
    seen = set(says.get(path, ()))
    aliases = set()
    for m in IMPORT.finditer(text):
        seen |= {x.strip().split(" as ")[0].strip() for x in m.group(2).split(",")}
    for m in ALIAS.finditer(text):
        aliases.add(m.group(2))
    fields = FIELDS & set(dashed)
    local.update({n: dashed[n] for n in seen if n in dashed})

    def word(m):
        w = m.group(0)
        head = text[: m.start()]
        if head.endswith(".") and not head.endswith(".."):
            before = re.search(r"([^\s(){},;.\[\]|]+)\.$", head)
            if before and before.group(1) in aliases and w in dashed:
                return dashed[w]
            return camel.get(w, dashed[w] if w in fields else w)
        if w in fields and re.match(r" =", text[m.end():m.end() + 2]):
            return dashed[w]
        bare = w.rstrip(":'`")
        if w in local:
            return local[w]
        if bare in local and path.endswith(".md"):
            return local[bare] + w[len(bare):]
        return w

    return WORD.sub(word, text)


def main():
    texts, says, camel, dashed = table()
    if "--list" in sys.argv:
        for a, b in sorted({**camel, **dashed}.items()):
            print(a, b, sep="\t")
        return
    for path, text in texts.items():
        new = respell(path, text, says, camel, dashed)
        if new != text:
            with open(path, "w", encoding="utf-8") as f:
                f.write(new)
    for path in sorted(glob.glob("crates/*/src/**/*.rt", recursive=True)):
        text = read(path)
        out = []
        for line in text.split("\n"):
            if re.match(r"\s*(ghost|requires|ensures)\b", line) or line.lstrip().startswith("//"):
                line = WORD.sub(lambda m: camel.get(m.group(0), m.group(0)), line)
            out.append(line)
        new = "\n".join(out)
        if new != text:
            with open(path, "w", encoding="utf-8") as f:
                f.write(new)
    both = {**camel, **dashed}
    for path in sorted(glob.glob("*.md") + glob.glob("docs/*.md") + glob.glob("compare/*.md")):
        text = read(path)
        new = re.sub(r"`[^`\n]+`", lambda s: WORD.sub(lambda m: both.get(m.group(0), m.group(0)), s.group(0)), text)
        if new != text:
            with open(path, "w", encoding="utf-8") as f:
                f.write(new)


if __name__ == "__main__":
    main()
