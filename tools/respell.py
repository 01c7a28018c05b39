#!/usr/bin/env python3
"""Spells this repository's own definitions and lemmas as the library spells its own: words joined by `_`, facts in camel case.

usage: python3 tools/respell.py     at the top of a checkout, once, right behind the kit's port.py

It goes by the names that specs/ and proofs/ define with a dash: `row-of-model` becomes `row_of_model`, and a fact such as
`States-lead-to-states` becomes `StatesLeadToStates`. Names that Rattle makes (goals, and the steps that a proof cites) are no
definitions of ours and stay, and so do the names of functions in src/. It stops before it writes anything if two names would
become one.
"""

import os
import re
import sys

NAME = r"[^\W\d][\w'≡≢≤-]*"
TOKEN = re.compile(rf"(?<![\w'≡≢≤-])({NAME})")
SIGNATURE = re.compile(
    rf"^\s*(?:(?:abbrev|unfoldable|pub|data|record)\s+)*({NAME})[ \t]*(?::|\{{[^}}\n]*\}}[^\n]*:|\([^\n]*:)", re.M
)
GOAL = re.compile(rf"^\s*(?:(?:abbrev|unfoldable|pub)\s+)*({NAME})\s*:\s*goal\.", re.M)
LET = re.compile(rf"\blet\s+({NAME})")
BOUND = re.compile(r"[({]([^(){}:]*?)\s:\s")
LAMBDA = re.compile(r"λ ([^.]*)\.")

# Names that no signature, let or binder shows, and one that has a name of the library inside which the library spells anew.
ELSE = {
    "every-getD": "every_get_or",
    "Move-row": "move_row",
    "by-effect": "by_effect",
    "by-entry": "by_entry",
    "same-variable": "same_variable",
    "same-value": "same_value",
}


def files(ending):
    for folder, dirs, names in os.walk("crates"):
        dirs[:] = sorted(d for d in dirs if d not in ("out", "must-fail"))
        for name in sorted(names):
            if name.endswith(ending):
                yield os.path.join(folder, name)


def read(path):
    with open(path, encoding="utf-8") as f:
        return f.read()


def write(path, text):
    with open(path, "w", encoding="utf-8") as f:
        f.write(text)


def without_comments(text):
    return re.sub(r"--[^\n]*", "", text)


def spelled(name):
    if name in ELSE:
        return ELSE[name]
    if name[0].isupper():
        return "".join(part[:1].upper() + part[1:] for part in name.split("-"))
    return name.replace("-", "_")


def names_of(text):
    """The names that a file of specs/ or proofs/ gives: by signature, let, binder."""
    found = set(SIGNATURE.findall(text)) | set(LET.findall(text))
    for binder in (BOUND, LAMBDA):
        for names in binder.findall(text):
            found |= {w for w in re.split(r"[\s(),]+", names) if re.fullmatch(NAME, w)}
    return found


def turn_line(line, comment, turned):
    code, mark, rest = line.partition(comment)

    def one(m):
        before = code[: m.start()]
        return m.group(1) if before.endswith("goal.") else turned.get(m.group(1), m.group(1))

    return TOKEN.sub(one, code) + mark + rest


def turn(text, comment, turned):
    return "\n".join(turn_line(line, comment, turned) for line in text.split("\n"))


def main():
    antt = {p: without_comments(read(p)) for p in files(".antt")}
    goals = set().union(*(GOAL.findall(t) for t in antt.values()))
    names = set().union(ELSE, *(names_of(t) for t in antt.values())) - goals
    turned = {n: spelled(n) for n in names if "-" in n}

    met = {}
    for old, new in sorted(turned.items()):
        if new in names or new in met:
            sys.exit(f"respell: {old} and {met.get(new, new)} would both be {new}; nothing was written")
        met[new] = old

    for path in files(".antt"):
        write(path, turn(read(path), "--", turned))
    for path in files(".rt"):
        write(path, turn(read(path), "//", turned))

    # Pages name definitions between backticks; the kit's script does not turn them.
    known = names | set(turned.values())
    for page in ["README.md"] + sorted(os.path.join("docs", p) for p in os.listdir("docs") if p.endswith(".md") and not p.startswith("PORT")):
        def quoted(m):
            return TOKEN.sub(lambda t: spelled(t.group(1)) if "-" in t.group(1) and spelled(t.group(1)) in known else t.group(1), m.group(0))
        write(page, re.sub(r"`[^`\n]*`", quoted, read(page)))
    print(f"respell: {len(turned)} names")


if __name__ == "__main__":
    main()
