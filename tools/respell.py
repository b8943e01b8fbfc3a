#!/usr/bin/env python3
"""Brings the definitions and lemmas of this repository to the spelling of today's Rattle: words in snake case.

usage: python3 tools/respell.py     at the top, once, after the kit's port.py

Every name in camel case in specs/, proofs/, the ghost parts of src/, the edits of must-fail/ and the pages is one of the repository's own, and is
turned to snake case; types, records and modules are in upper camel case already. A dash in a lemma's name joins what it speaks of, as in the library, and stays.
TOGETHER has the names that would fall together otherwise, each with the files that hold it.
"""

import os
import re
import sys

CAMEL = re.compile(r"(?<![\w'\\])([a-z][a-z0-9]*(?:[A-Z][a-z0-9]*)+)(?![\w'])")
TOGETHER = [
    # lemmas whose dash port.py turned to the underscore of a definition's name: they get it back
    ("size_in", "size-in", ["series/proofs/SeriesJudged.antt", "promises/proofs/JoinTheorems.antt", "sets/proofs/Size.antt", "days/proofs/SeriesSizes.antt"]),
    ("ends_of", "ends-of", ["log/proofs/Runs.antt", "log/proofs/PairRuns.antt", "cuts/proofs/EndsOf.antt", "groups/proofs/PlanCall.antt"]),
    ("tidy_of", "tidy-of", ["log/proofs/TidyForm.antt"]),
    ("run_ends", "run-ends", ["log/proofs/TidyCount.antt"]),
    ("end_after", "end-after", ["days/proofs/SeriesLoops.antt"]),
    # a field beside a constant
    ("no_source", "sourceless", ["chains/specs/Traces.antt", "chains/proofs/TraceForm.antt", "chains/proofs/TraceLaws.antt", "chains/proofs/TraceUnique.antt"]),
]
# fields and constructors: a dash in their names is the library's way for lemmas alone
MEMBERS = {
    "all-so-far", "as-index", "as-reached", "by-18", "by-19", "by-22", "by-9", "by-check", "by-larger", "by-log", "by-member", "by-smaller", "by-sources",
    "circles-size", "core-numbers", "ends-size", "few-badges", "few-contacts", "few-ticks", "first-rises", "in-packs", "its-first", "its-last", "its-order",
    "large-size", "large-so-far", "last-rises", "length-of", "log-refused", "members-high", "members-low", "members-size", "never-rises", "no-values",
    "order-high", "order-low", "orders-size", "packs-room", "packs-size", "plan-ends", "plan-sum", "records-few", "rows-to", "scores-size", "ticks-high",
    "ticks-low", "with-enough", "words-enough", "words-few", "work-room",
}
MEMBER = re.compile(r"(?<![\w'·-])(" + "|".join(sorted(MEMBERS, key=len, reverse=True)) + r")(?![\w'-])")
# names that port.py turned already, as they stand in the edits and the pages, and older ones that the pages tell of
TURNED = {
    "andThen", "atLeast", "groupsOf", "inRange", "inWord", "isGroup", "joinOf", "keptBytes", "maxGroups", "mostBytes", "neighboursBefore", "numberOf",
    "offsetOf", "partsOf", "pieceOf", "planOf", "readOf", "setAt", "sideOf", "tidyBytes", "wordsOf",
}


def snake(name):
    return re.sub(r"(?<=[a-z0-9])([A-Z])", lambda m: "_" + m.group(1).lower(), name)


def texts():
    for folder, dirs, files in os.walk("crates"):
        dirs[:] = sorted(d for d in dirs if d not in ("out", ".git"))
        for f in sorted(files):
            if f.endswith((".antt", ".rt", ".edit")):
                yield os.path.join(folder, f)


def main():
    if not os.path.isdir("crates"):
        sys.exit("run it at the top of the repository")
    own = set(TURNED)
    for p in texts():
        with open(p, encoding="utf-8") as f:
            t = f.read()
        if p.endswith(".antt"):
            own |= set(CAMEL.findall(t))
    pages = [os.path.join("docs", f) for f in sorted(os.listdir("docs")) if f.endswith(".md")] + ["README.md"]
    for p in list(texts()) + pages:
        with open(p, encoding="utf-8") as f:
            old = t = f.read()
        for name, other, files in TOGETHER:
            if os.path.relpath(p, "crates") in files:
                t = re.sub(r"(?<![\w'-])" + name + r"(?![\w'-])", other, t)
        t = CAMEL.sub(lambda m: snake(m.group(1)) if m.group(1) in own else m.group(1), t)
        if p.endswith((".antt", ".edit")) or p.startswith("docs"):
            t = MEMBER.sub(lambda m: m.group(1).replace("-", "_"), t)
        if t != old:
            with open(p, "w", encoding="utf-8") as f:
                f.write(t)


main()
