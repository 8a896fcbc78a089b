#!/usr/bin/env python3
"""Brings the repository's own definitions and lemmas to today's spelling: words in snake case, types and modules in camel case.

usage: python3 tools/respell.py            at the top, once, right after port.py of the kit
       python3 tools/respell.py --dry      says what would fall together, and writes nothing

A name is the repository's own where a file of specs/ or proofs/ declares it: a definition, a lemma, a field, or a name under a `where`. A name that a
file imports from elsewhere stays as it is in that file, and so does a name of a function of src/. In a comment a name with a dash is turned only between
backticks, since it may be two English words.
"""

import os
import re
import sys

# a lemma whose name would be that of the definition that it is about, or of another lemma
TOLD_APART = {
    "count-in": "count_in_lem",
    "entries-in": "entries_in_lem",
    "fields-of": "fields_of_lem",
    "fields-with": "fields_with_lem",
    "form-of": "form_of_lem",
    "grade-known": "grade_known_lem",
    "has-serial": "has_serial_lem",
    "heard-list": "heard_list_lem",
    "holds-serial": "holds_serial_lem",
    "in-force": "in_force_lem",
    "in-limits": "in_limits_lem",
    "in-ranges": "in_ranges_lem",
    "in-ring": "in_ring_lem",
    "judged-from": "judged_from_lem",
    "line-bytes": "line_bytes_lem",
    "listed-at": "listed_at_lem",
    "marked-shape": "marked_shape_lem",
    "marks-shape": "marks_shape_lem",
    "no-row": "no_row_lem",
    "no-entry": "no_entry_lem",
    "pairs-read": "pairs_read_lem",
    "pairs-within": "pairs_within_lem",
    "put-big": "put_big_lem",
    "queries-after": "queries_after_lem",
    "reached-by": "reached_by_lem",
    "serials-of": "serials_of_lem",
    "term-at": "term_at_lem",
    "threshold-sum": "threshold_sum_lem",
    "up-to": "up_to_lem",
    "weight-at": "weight_at_lem",
    "fields_in": "fields_in_lem",
    "marked_by": "marked_by_lem",
    "put_four": "put_four_lem",
    "put_word": "put_word_lem",
    # (a function of src/ has the name in_use)
    "inUse": "is_in_use",
}

WORD = r"[A-Za-z\u0370-\u03ff\u2100-\u214f][\w\u2070-\u209f\u2100-\u214f\u2200-\u22ff'\u2032]*(?:-[\w\u2070-\u209f\u2100-\u214f\u2200-\u22ff'\u2032]+)*"
TOKEN = re.compile(r"(?<![\w'\u2070-\u209f-])" + WORD)
DECLARED = re.compile(
    r"^\s*(?:abbrev\s+|unfoldable\s+|pub\s+|data\s+|record\s+|ruleset\s+|constructor\s+)*(" + WORD + r")\s*(?:\{[^}\n]*\}\s*|\([^)\n]*\)\s*)*:(?!:)", re.M
)
IMPORTS = re.compile(r"^\s*(?:ghost\s+|pub\s+)*use\s+([\w.\u00b7+'-]+?)\.?(?:\{([^}]*)\})?(?:\s+as\s+[\w-]+)?\s*;?\s*$", re.M)


def files():
    for folder, dirs, names in os.walk("crates"):
        dirs[:] = sorted(d for d in dirs if d not in ("out", "must-fail"))
        for n in sorted(names):
            if n.endswith((".antt", ".rt")):
                yield os.path.join(folder, n)


def respelled(name):
    if name in TOLD_APART:
        return TOLD_APART[name]
    if name[0].isupper():
        return name
    name = name.replace("-", "_")
    return re.sub(r"([a-z0-9\u2070-\u209f'])([A-Z])", lambda m: m.group(1) + "_" + m.group(2).lower(), name)


def declared():
    own = {}
    for p in files():
        if p.endswith(".antt"):
            text = "\n".join(line.split("-- ")[0] for line in open(p, encoding="utf-8").read().split("\n"))
            for m in DECLARED.finditer(text):
                own.setdefault(m.group(1), set()).add(p)
    return own


def of_others(text, crates):
    """The names that a file imports from what is not the repository's."""
    found = set()
    for m in IMPORTS.finditer(text):
        module = re.split(r"[.\u00b7]", m.group(1))
        if m.group(2) and not (module[0] == "Rattle" and len(module) > 1 and module[1] in crates):
            found |= {w.strip() for w in m.group(2).split(",")}
    return found


def turned(text, names):
    def word(m):
        return names.get(m.group(0), m.group(0))

    def line_of(line, mark):
        code, dash, comment = line.partition(mark)
        comment = re.sub(r"`[^`]*`", lambda m: TOKEN.sub(word, m.group(0)), comment)
        comment = TOKEN.sub(lambda m: m.group(0) if "-" in m.group(0) else word(m), comment)
        return TOKEN.sub(word, code) + dash + comment

    return lambda mark: "\n".join(line_of(line, mark) for line in text.split("\n"))


def main():
    own = declared()
    crates = set(os.listdir("crates"))
    want = {n: respelled(n) for n in own if respelled(n) != n}
    alike = {}
    for n in own:
        alike.setdefault(respelled(n), set()).add(n)
    for k, v in sorted(alike.items()):
        if len(v) > 1:
            print("together:", k, [(x, sorted(own[x])[:3]) for x in sorted(v)])
    for p in files():
        text = open(p, encoding="utf-8").read()
        others = of_others(text, crates)
        names = {k: v for k, v in want.items() if k not in others}
        used = set(TOKEN.findall(text))
        for k in sorted(used & names.keys()):
            if names[k] in used and names[k] not in want.values() or names[k] in others:
                print("hides:", p, k, names[k])
        new = turned(text, names)("//" if p.endswith(".rt") else "-- ")
        if new != text and "--dry" not in sys.argv:
            open(p, "w", encoding="utf-8").write(new)


main()
