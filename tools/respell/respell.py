#!/usr/bin/env python3
"""Brings the repository's own names to the spelling of today's Rattle, once, after port.py and before any edit by hand.

usage: tools/respell/respell.py [--table FILE]

Definitions, lemmas, constructors and fields in lower camel case become snake case (firstOf, first_of); the module `inner` of specs/
becomes `Inner`, and the short names of modules, as some-hour, become SomeHour. Where two names would fall together the table SPECIAL
and LEMMAS below say what stands. Functions of src/, exported C names, strings, inputs and outputs keep their names.

It turns the .antt and .rt files of crates/ and the pages README.md, CONTRIBUTING.md, docs/CLAIMS.md, docs/DECISIONS.md and
docs/REFERENCE.md by the kit's own snake.py, which moves what an indented block needs; the must-fail edits, which port.py
leaves alone, are turned here, from the older clauses (λ r. ⌜ .. ⌝, x .f, •) to today's.
"""

import glob
import os
import re
import subprocess
import sys

SNAKE = "/opt/rattle/port/notes/2026-11-18-names-are-in-snake-case/snake.py"
CAMEL = re.compile(r"(?<![A-Za-z0-9_'])[a-z][a-z0-9_']*(?:[A-Z][A-Za-z0-9']*)+(?![A-Za-z0-9_])")
WORD = re.compile(r'[^\s(){}.;,@"«»]+')

# Names of the kit, and bytes.
KEPT = {"room_Sc", "reads_Sc", "s_Typed", "uint_Tells", "walk_Meets", "is_IsWord", "shr_slice_Tells", "mut_slice_Tells"}

# A definition whose plain snake case would be the name of a crate (planText, textListing) or of a field beside it (goesOn).
SPECIAL = {
    "planText": "text_of_plan",
    "textListing": "listing_of_text",
    "goesOn": "does_go_on",
}

# Lemmas that port.py gave the name which a definition now has: in these crates the lemma ends in _lem.
LEMMAS = {
    "in_bounds": ["calendar", "schedule", "steps"],
    "no_step": ["steps", "turns", "propagation"],
}
# The same in single files.
FILES = {"in_order": ["crates/units/proofs/Ranges.antt"]}

PAGES = ["README.md", "CONTRIBUTING.md", "docs/CLAIMS.md", "docs/DECISIONS.md", "docs/REFERENCE.md"]
MODULES = {
    "some-hour": "SomeHour",
    "some-duration": "SomeDuration",
    "some-height": "SomeHeight",
    "some-calendar": "SomeCalendar",
    "some-room": "SomeRoom",
    "some-bounds": "SomeBounds",
}


def snake(name):
    if name in KEPT:
        return name
    if name in SPECIAL:
        return SPECIAL[name]
    name = re.sub(r"([a-z0-9'])([A-Z])", lambda m: m[1] + "_" + m[2].lower(), name)
    return re.sub(r"[A-Z]", lambda m: m[0].lower(), name)


def turned(word):
    return CAMEL.sub(lambda m: snake(m[0]), word)


def antt_files():
    return sorted(glob.glob("crates/*/specs/**/*.antt", recursive=True) + glob.glob("crates/*/proofs/**/*.antt", recursive=True))


def table():
    rows = {}
    for path in antt_files() + sorted(glob.glob("crates/*/src/**/*.rt", recursive=True)):
        for word in WORD.findall(open(path, encoding="utf-8").read()):
            if path.endswith(".rt") and "'" in word:
                continue
            new = turned(word)
            if new != word:
                rows[word] = new
    for old in list(rows):
        for part in CAMEL.findall(old):
            rows.setdefault(part, snake(part))
    rows = {old: new for old, new in rows.items() if old != new}
    rows.update(MODULES)
    return rows


def run_snake(path, rows, targets, more=()):
    with open(path, "w", encoding="utf-8") as f:
        f.writelines(f"{old}\t{new}\n" for old, new in sorted(rows.items()))
    subprocess.run([sys.executable, SNAKE, "--table", path, *more, *targets], check=True, stdout=subprocess.DEVNULL)


def inner():
    """The module `inner` of specs/ becomes `Inner`."""
    for folder in sorted(glob.glob("crates/*/specs/inner")):
        subprocess.run(["git", "mv", folder, folder[:-5] + "Inner"], check=True)
        subprocess.run(["git", "mv", folder + ".antt", folder[:-5] + "Inner.antt"], check=True)
    for path in antt_files() + sorted(glob.glob("crates/*/src/**/*.rt", recursive=True)) + PAGES:
        text = open(path, encoding="utf-8").read()
        new = re.sub(r"\bspecs\.inner\.", "specs.Inner.", text)
        new = new.replace("specs/inner/", "specs/Inner/")
        if path.endswith("specs/Lib.antt"):
            new = re.sub(r"\bmod inner\b", "mod Inner", new)
        if new != text:
            open(path, "w", encoding="utf-8").write(new)


def clause(text):
    """The text of an edit in today's spelling: of clauses, and of definitions."""
    text = re.sub(r"λ r\. ⌜ (.*) ⌝", lambda m: re.sub(r"(?<![\w.'])r(?![\w'])", "result", m[1]), text)
    text = re.sub(r"⌜ (.*?) ⌝", r"\1", text)
    text = re.sub(r"\((\w+) \.(\w+)\)", r"\1.\2", text)
    text = re.sub(r"(?<=[\w)]) \.(\w+)", r".\1", text)
    text = re.sub(r"\bnow (\w+)", r"\1.now", text)
    text = text.replace("«", "").replace("»", "")
    text = re.sub(r"[A-Za-z_'-]+", lambda m: turned(m[0]), text)
    return text


def edits():
    for path in sorted(glob.glob("crates/*/must-fail/*.edit")):
        lines = open(path, encoding="utf-8").read().split("\n")
        out = []
        for line in lines:
            head, colon, rest = line.partition(":")
            if colon and head in ("old", "new"):
                line = head + ":" + clause(rest)
            elif colon and head == "file":
                line = line.replace("specs/inner/", "specs/Inner/")
            out.append(line)
        open(path, "w", encoding="utf-8").write("\n".join(out))


def main():
    path = sys.argv[sys.argv.index("--table") + 1] if "--table" in sys.argv else "/tmp/respell.tsv"
    for name, crates in LEMMAS.items():
        run_snake(path, {name: name + "_lem"}, [f"crates/{c}/proofs" for c in crates], ("--only", "antt"))
    for name, files in FILES.items():
        run_snake(path, {name: name + "_lem"}, files, ("--only", "antt"))
    rows = table()
    run_snake(path, rows, ["crates"], ("--only", "antt,rt"))
    run_snake(path, rows, PAGES, ("--only", "md", "--prose", "all"))
    inner()
    edits()


if __name__ == "__main__":
    os.chdir(os.path.join(os.path.dirname(os.path.abspath(__file__)), "../.."))
    main()
