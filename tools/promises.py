#!/usr/bin/env python3
"""Writes the last part of docs/DESIGN-PASS.md anew: each promise that changed since the commit in its first line, old and new.

Reads both trees by text, with the kit's port/contracts.py; tools/promises.json has what is said by hand of what is gone."""
import collections, difflib, glob, json, os, re, subprocess, sys, tempfile

TOP = os.path.dirname(os.path.dirname(os.path.abspath(__file__)))
PAGE = TOP + "/docs/DESIGN-PASS.md"
START = "## What changed, old and new\n"
KIT = "/opt/rattle/port/contracts.py"
HAND = json.load(open(TOP + "/tools/promises.json"))
CRATES = [l.split(":")[0] for l in open(TOP + "/crates.txt") if l.strip() and not l.startswith("#")]


def place(crate):
    return CRATES.index(crate) if crate in CRATES else len(CRATES)


def tree(commit):
    folder = tempfile.mkdtemp()
    pack = subprocess.run(["git", "-C", TOP, "archive", commit], check=True, capture_output=True).stdout
    subprocess.run(["tar", "-x", "-C", folder], input=pack, check=True)
    return folder


def types(root):
    """The public structs, enums and traits, without their comments."""
    found = {}
    for path in sorted(glob.glob(root + "/crates/*/src/**/*.rt", recursive=True)):
        crate = path[len(root) + 8:].split("/")[0]
        text = re.sub(r"(?m)^\s*//.*\n", "", open(path).read())
        for m in re.finditer(r"(?m)^((?:#\[derive\([^\]]*\)\]\n)?)pub(?:\([a-z]+\))? (struct|enum|trait) (\w+)", text):
            at = re.compile(r"[{(;]").search(text, m.end()).start()
            end, deep = at, 0
            while text[at] != ";":
                deep += (text[end] in "{(") - (text[end] in "})")
                if deep == 0:
                    break
                end += 1
            found[crate, m[3]] = text[m.start():end + 1]
    return found


def definition(root, crate, name):
    """The text of a definition of specs/."""
    begins = re.compile(r"\s*(unfoldable |abbrev )?(pub )?(unfoldable |abbrev )?(pub )?(record |data )?" + re.escape(name) + r"( |$)")
    for path in sorted(glob.glob(f"{root}/crates/{crate}/specs/**/*.antt", recursive=True)):
        lines = open(path).read().split("\n")
        for i, line in enumerate(lines):
            if begins.match(line) and (" : " in line or " where" in line):
                indent = len(line) - len(line.lstrip())
                end = i + 1
                while end < len(lines) and lines[end].strip() and not (lines[end].lstrip().startswith("--") and len(lines[end]) - len(lines[end].lstrip()) <= indent):
                    end += 1
                return [x[indent:] for x in lines[i:end]]
    return None


def compared(old, new):
    return [l.rstrip() for l in difflib.ndiff(old, new) if not l.startswith("? ")]


def clauses(kind, given):
    return [f"{kind}{' ' + n if n else ''} {{ {t} }}" for n, t in given]


def flat(text):
    return re.sub(r"\s+", " ", text).replace("( ", "(").replace(", )", ")")


def main():
    began = open(PAGE).readline().split()[-1]
    old, new = tree(began), tree("HEAD")
    facts = json.loads(subprocess.run(["python3", KIT, old, new, "--json"], check=True, capture_output=True, text=True).stdout)
    out = []
    say = out.append

    def block(kind, lines):
        out.extend(["```" + kind, *lines, "```", ""])

    def said(part, key):
        if key not in HAND[part]:
            print(f"not said by hand ({part}): {key}", file=sys.stderr)
        return HAND[part].get(key, "??")

    out.extend([START.rstrip("\n"), "", "Made by `tools/promises.py` from the commit of the first line and the kit's list of contracts. In each block, a line with `-`",
                "stood then and one with `+` stands now.", "", "### Public types and traits", ""])
    was, now = types(old), types(new)
    order = lambda k: (place(k[0]), k[1])
    for k in sorted((k for k in was if k in now and was[k].split() != now[k].split() and not k[0].endswith("_tests")), key=order):
        out.extend([f"`{k[0]}`: `{k[1]}`", ""])
        block("diff", compared(was[k].split("\n"), now[k].split("\n")))
    for k in sorted((k for k in was if k not in now), key=order):
        out.extend([f"`{k[0]}`: `{k[1]}` is gone: " + said("types", " ".join(k)), ""])
    out.extend(["New ones: " + ", ".join(f"`{k[1]}` (`{k[0]}`)" for k in sorted((k for k in now if k not in was), key=order)) + ".", ""])

    out.extend(["### Signatures and clauses", "", "Of each function that is found again under its name, public or not. Clauses that are the same are left out.", ""])
    signatures = {s[0]: s[1:3] for s in facts["signatures changed"]}
    contracts = {c[0]: c[1:5] for c in facts["contracts changed"]}
    for crate in sorted({n.split()[0] for n in [*signatures, *contracts]}, key=place):
        lines = []
        for name in sorted(n for n in {*signatures, *contracts} if n.split()[0] == crate):
            before, after = [], []
            if name in signatures:
                a, b = map(flat, signatures[name])
                if a != b:
                    before, after = ["fn " + name.split()[-1] + a], ["fn " + name.split()[-1] + b]
            if name in contracts:
                ro, eo, rn, en = contracts[name]
                o, n = clauses("requires", ro) + clauses("ensures", eo), clauses("requires", rn) + clauses("ensures", en)
                before += ["    " + x for x in o if x not in n]
                after += ["    " + x for x in n if x not in o]
            if before or after:
                lines += ([""] if lines else []) + ["  // " + " ".join(name.split()[2:])] + ["- " + x for x in before] + ["+ " + x for x in after]
        if lines:
            out.extend([f"#### `{crate}`", ""])
            block("diff", lines)

    out.extend(["### Functions that are gone", "", "| crate | function | what states its promise now |", "| --- | --- | --- |"])
    rows = collections.OrderedDict()
    for name in facts["functions not found again"] + HAND["also gone"]["functions"]:
        parts = name.split(" (")[0].split()
        rows.setdefault((parts[0], said("functions", " ".join([parts[0], *parts[2:]]))), []).append(" ".join(parts[2:]))
    for (crate, text), names in sorted(rows.items(), key=lambda r: place(r[0][0])):
        say(f"| `{crate}` | {', '.join(f'`{n}`' for n in names)} | {text} |")

    out.extend(["", "### Constants, and what an impl or a trait says", "", "| crate | of | was | is |", "| --- | --- | --- | --- |"])
    rows = collections.OrderedDict()
    for crate, of, name in facts["ghost items and constants"]["gone"] + HAND["also gone"]["constants"]:
        rows.setdefault((crate, said("constants", f"{crate} {of} {name}")), []).append((of, name))
    for (crate, text), names in sorted(rows.items(), key=lambda r: place(r[0][0])):
        each = [", ".join(dict.fromkeys(f"`{n[i]}`" for n in names)) for i in (0, 1)]
        say(f"| `{crate}` | {each[0]} | {each[1]} | {text} |")

    defs = facts["definitions"]
    out.extend(["", "### Definitions of specs/", "", f"{defs['same']} are the same text. These changed:", ""])
    for crate, name, o, n in sorted(defs["changed"], key=lambda x: place(x[0])):
        note = HAND["definitions"].get(f"{crate} {name}", "")
        out.extend([f"`{crate}`: `{name}`" + (f". {note}" if note else ""), ""])
        block("diff", compared(definition(old, crate, name) or o, definition(new, crate, name) or n))
    out.extend(["New definitions that these and the clauses cite:", ""])
    for crate, name in sorted(HAND["new definitions"], key=lambda x: place(x[0])):
        out.extend([f"`{crate}`: `{name}`", ""])
        block("", definition(new, crate, name) or ["??"])
    out.extend(["| crate | gone | what states it now |", "| --- | --- | --- |"])
    for crate, name in sorted(defs["gone"], key=lambda x: place(x[0])):
        say(f"| `{crate}` | `{name}` | {said('definitions', f'{crate} {name}')} |")

    head = open(PAGE).read().split(START)[0]
    open(PAGE, "w").write(head + "\n".join(out) + "\n")


main()
