#!/usr/bin/env python3
"""Respells the repository's own definitions, lemmas, fields and constructors as today's Rattle spells names.

Run once, at the top, after the kit's port.py. Words are joined by `_`; a dash stays where it joins two functions of which a lemma
speaks (`place-then`); what is a type has a capital. Names that Rattle makes for goals and steps keep their dashes.
"""
import glob
import re
import sys

FILES = sorted(glob.glob("crates/*/specs/**/*.antt", recursive=True) + glob.glob("crates/*/proofs/**/*.antt", recursive=True)
               + glob.glob("crates/*/src/**/*.rt", recursive=True))
MARK = r"(?:(?:pattern|unfoldable|abbrev|pub|axiom) )*"
# Functions after which lemmas are named: between two of them the dash stays.
FUNCTIONS = set("""place then inverse standing dimension digit pack digits level factors product count form lines length map decimal
append nth remains""".split())
# Lower camel case, types in lower case, and names whose respelling would meet another name.
BY_HAND = {"dimensionTo": "dimension_to", "stepAt": "step_at", "leftAfter": "left_after", "factorAt": "factor_at", "readOn": "read_on",
           "readOn-more": "read_on_more", "readOn-push": "read_on_push", "readOn-small": "read_on_small", "read-on": "reads_on", "getD-none": "get_or_none",
           "leveled": "Leveled", "writes-if": "WritesIf"}
# Types in lower case whose name is elsewhere a function's.
IN_FILE = {"crates/diagrams/specs/Examples.antt": {"written": "Written", "holds": "Holds", "comes_out": "ComesOut"},
           "crates/numbering/specs/Examples.antt": {"fetches": "Fetches", "places": "Places"},
           "crates/sweeps/specs/Examples.antt": {"sweeps": "Sweeps"},
           "crates/engine/proofs/engine/Engine/+joined_solve_work/Answers.antt": {"blank": "Blank"}}
LEFT, RIGHT = r"(?<![^\s(){}\[\];,.∷])", r"(?![^\s(){}\[\];,.∷])"


def respelled(name):
    if name in BY_HAND:
        return BY_HAND[name]
    parts = name.split("-")
    out = parts[0]
    for before, after in zip(parts, parts[1:]):
        out += ("-" if before in FUNCTIONS and after in FUNCTIONS else "_") + after
    return out


def declared():
    """Own names with a dash, and which of them are fields of records."""
    names, fields = set(), set()
    for path in FILES:
        if not path.endswith(".antt"):
            continue
        inside = False
        for line in open(path):
            if re.match(r"\s*(pub )?record .*where\s*$", line) or re.match(r"\s*" + MARK + r"record ", line):
                inside = True
            elif line.strip() and not line[0].isspace():
                inside = False
            m = re.match(r"\s*(?:let )?" + MARK + r"([^\n:(){}=,;.λ?]+?) :\s(.*)", line)
            if not m or "goal." in m.group(2):
                continue
            for n in m.group(1).split():
                if n == "let":
                    continue
                names.add(n)
                if inside:
                    fields.add(n)
    return names, fields


def main():
    names, fields = declared()
    turn = {n: respelled(n) for n in names | set(BY_HAND) if "-" in n[1:-1] or n in BY_HAND}
    turn = {a: b for a, b in turn.items() if a != b}
    meets = sorted((a, b) for a, b in turn.items() if b in names and b not in turn)
    if "--list" in sys.argv:
        for a, b in meets:
            print("meets:", a, b)
        print(sorted(turn.items()))
        print("fields", sorted(f for f in fields if f in turn))
        return
    word = re.compile(LEFT + r"(" + "|".join(re.escape(n) for n in sorted(turn, key=len, reverse=True)) + r")" + RIGHT)
    for path in FILES:
        text = open(path).read()
        here = IN_FILE.get(path, {})

        def put(m):
            n, before = m.group(1), text[max(0, m.start() - 60):m.start()]
            if before.endswith(".") and n not in fields and not re.search(r"(?:[A-Z][\w']*|goal)\.$", before):
                return n
            if re.search(r"(^|[^\w])goal\.$", before) or re.match(r"[^\n]*: goal\.", text[m.end():]) and text[:m.start()].endswith(("\n", "\npub ")):
                return n
            return turn[n]

        new = word.sub(put, text)
        for a, b in here.items():
            new = re.sub(r"(?<![^\s(){}\[\];,])" + re.escape(a) + r"(?![^\s(){}\[\];,])", b, new)
        if new != text:
            open(path, "w").write(new)


main()
