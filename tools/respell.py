#!/usr/bin/env python3
"""Brings the names of this repository's definitions, lemmas and record fields to the spelling that Rattle's library uses:
words in snake case, types and facts in camel case. Run once, at the top of a checkout, right after the toolchain's own port script.

A name is one that a file of specs/ or proofs/ declares: a signature, a record or a data type, a field, a constructor or an alias.
Names of functions of src/, strings and generated names of goals and steps stay.
usage: python3 tools/respell.py [--list]"""

import collections
import os
import re
import sys

WORD = r"[A-Za-zℕℤ_0-9'₀-₉\-]+"
# Names that would fall together with another, and what they are called instead.
APART = {
    "after-blanks": "after_blanks_lem",
    "datum-range": "datum_range_lem",
    "finite-meaning": "finite_meaning_lem",
    "is-le": "is_le_lem",
    "is-less": "is_less_lem",
    "nearest-half-root": "nearest_half_root_lem",
    "nearest-quotient": "nearest_quotient_lem",
    "Nearest-quotient": "IsNearestQuotient",
    "oneByOne": "one_over_one",
    "place-on": "place_on_lem",
    "product-sign": "product_sign_lem",
    "Quotient-lines": "AreQuotientLines",
    "Reciprocal-seed": "IsReciprocalSeedLine",
    "reciprocals-close": "reciprocals_are_close",
    "root-from": "stretch_from",
    "root-length": "stretch_length",
    "Root-lines": "AreRootLines",
    "Root-seed": "IsRootSeedLine",
    "roots-close": "roots_are_close",
    "sign-of": "is_negative_with_sign",
    "tab-range": "tab_range_lem",
}


def files():
    for folder, dirs, names in os.walk("crates"):
        dirs[:] = sorted(d for d in dirs if d != "out")
        for f in sorted(names):
            if f.endswith((".antt", ".rt")):
                yield os.path.join(folder, f)


def declared():
    found = collections.defaultdict(set)
    for p in files():
        text = open(p, encoding="utf-8").read()
        if not p.endswith(".antt"):
            for line in re.findall(r"(?m)^ *ghost use .*$", text):
                for n in re.findall(r"\bas ([a-z]" + WORD + ")", line):
                    found[n].add(p)
            continue
        goals = set(re.findall(r"goal\.(" + WORD + ")", text))
        for line in text.splitlines():
            if line.lstrip().startswith("--"):
                continue
            m = re.match(r"\s*(?:(?:abbrev|unfoldable|pub|ruleset)\s+)*(" + WORD + r")\s+:\s", line)
            names = [m.group(1)] if m else []
            m = re.match(r"(?:(?:abbrev|unfoldable|pub)\s+)*(?:record|data)\s+(?:pub\s+)?(" + WORD + ")", line)
            names += [m.group(1)] if m else []
            names += re.findall(r"\bas (" + WORD + ")", line)
            for n in names:
                if n not in goals:
                    found[n].add(p)
    return found


def new_name(n):
    if n in APART:
        return APART[n]
    if n[0].isupper():
        return "".join(w[:1].upper() + w[1:] for w in n.split("-"))
    n = n.replace("-", "_")
    n = re.sub(r"(?<=[a-z0-9₀-₉])([A-Z])", lambda m: "_" + m.group(1).lower(), n)
    return re.sub(r"(?<=[a-z])([ℕℤ])", r"_\1", n)


def table():
    return {n: new_name(n) for n in declared() if new_name(n) != n}


def respelled(text, names, answers):
    # in an answer a step of the proof's record, as c.first-bits, is named after the source and stays
    kept = r"\bc\.|\bw\.|goal\." if answers else r"goal\."
    word = re.compile(r"(?<![A-Za-zℕℤ_0-9'₀-₉\-])(" + kept + ")?(" + WORD + ")")
    out = []
    for line in text.split("\n"):
        code, dashes, comment = line.partition("-- ") if not line.lstrip().startswith("//") else ("", "", line)
        code = word.sub(lambda m: m.group(0) if m.group(1) else names.get(m.group(2), m.group(2)), code)
        out.append(code + dashes + comment)
    return "\n".join(out)


def main():
    names = table()
    if "--list" in sys.argv:
        for n in sorted(names):
            print(n, names[n])
        return
    for p in files():
        old = open(p, encoding="utf-8").read()
        new = respelled(old, names, p.endswith(("Answers.antt", "Invariants.antt", "Proof.antt")))
        if new != old:
            with open(p, "w", encoding="utf-8") as f:
                f.write(new)


if __name__ == "__main__":
    main()
