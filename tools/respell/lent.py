#!/usr/bin/env python3
"""In the contracts of crates/*/src, `old x` and `left x` of a parameter become today's words: x.now of a &, x.old and x.new of a &mut.

usage: tools/respell/lent.py, once, after respell.py
"""

import glob
import os
import re

HEAD = re.compile(r"fn \w+\s*(?:<[^>]*>)?\(([^)]*)\)", re.S)


def clauses(text):
    """The functions' heads: where each begins, and where its body does."""
    for m in HEAD.finditer(text):
        end = re.compile(r"^ *\{$|;$", re.M).search(text, m.end())
        yield m, end.start()


def turned(clause, params):
    def word(m):
        kind, name = m[1], m[2]
        if name not in params:
            return m[0]
        if kind == "left":
            return name + ".new"
        return name + (".old" if params[name] else ".now")

    clause = re.sub(r"\((old|left) (\w+)\)", word, clause)
    return re.sub(r"(?<![.\w])(old|left) (\w+)\b", word, clause)


def main():
    for path in sorted(glob.glob("crates/*/src/**/*.rt", recursive=True)):
        text = open(path, encoding="utf-8").read()
        out, last = [], 0
        for m, end in clauses(text):
            params = {p[0]: bool(p[2]) for p in re.findall(r"(\w+)\s*:\s*(&)\s*(?:'\w+\s+)?(mut )?", m[1])}
            out += [text[last : m.end()], turned(text[m.end() : end], params)]
            last = end
        text = "".join(out) + text[last:]
        used = re.sub(r"ghost use [^;]*;", "", text)

        def imports(m):
            names = [n for n in m[1].split(", ") if n not in ("old", "left") or re.search(r"(?<![.\w])%s (?!use)\w" % n, re.sub(r"//[^\n]*", "", used))]
            return "ghost use Rattle.plan.specs.Lent.{%s};\n" % ", ".join(names) if names else ""

        text = re.sub(r"ghost use Rattle\.plan\.specs\.Lent\.\{([^}]*)\};\n", imports, text)
        open(path, "w", encoding="utf-8").write(text)


if __name__ == "__main__":
    os.chdir(os.path.join(os.path.dirname(os.path.abspath(__file__)), "../.."))
    main()
