#!/usr/bin/env python3
"""Fields and constructors of the repository's own records and data types, and the lemmas called like them, in snake case: few-tasks, few_tasks.

usage: tools/respell/fields.py, once, after respell.py and lent.py
"""

import glob
import os
import re

FIELDS = """
is-shortest is-longest shortest-inside longest-inside is-valid first-open last-open in-overtime ends-worked none-earlier some-hours
at-the-end starts-earlier is-shorter in-the-box work-times some-room calendar-length some-work work-time some-calendar task-calendars
of-symbols of-cells symbol-count kept-symbols kept-tasks symbols-few tasks-few rooms-few same-boxes same-kinds same-tasks same-hours
each-task each-hour at-end logs-more all-tasks all-hours some-digit few-rooms few-tasks rooms-ready in-order-none
""".split()
NAME = re.compile(r"(?<![\w'₀-₉≢-])(%s)(?![\w'₀-₉-])" % "|".join(map(re.escape, FIELDS)))
PAGES = ["README.md", "CONTRIBUTING.md", "docs/CLAIMS.md", "docs/DECISIONS.md", "docs/REFERENCE.md"]


def main():
    files = []
    for kind in ("specs/**/*.antt", "proofs/**/*.antt", "must-fail/*.edit"):
        files += glob.glob("crates/*/" + kind, recursive=True)
    for path in sorted(files) + PAGES:
        text = open(path, encoding="utf-8").read()
        if path.endswith(".md"):
            new = re.sub(r"`[^`\n]*`", lambda m: NAME.sub(lambda n: n[0].replace("-", "_"), m[0]), text)
        else:
            new = re.sub(r"(?m)^((?:(?!--).)*)", lambda m: NAME.sub(lambda n: n[0].replace("-", "_"), m[0]), text)
        if new != text:
            open(path, "w", encoding="utf-8").write(new)


if __name__ == "__main__":
    os.chdir(os.path.join(os.path.dirname(os.path.abspath(__file__)), "../.."))
    main()
