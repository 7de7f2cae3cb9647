#!/usr/bin/env python3
"""Brings the names that this repository declares in specs/ and proofs/ to snake case.

usage: tools/respell.py        at the top of the repository, once, right after port.py of the toolchain

A name is respelled if an .antt file below crates/ declares it and it has a dash or an inner capital:
`layerOf` becomes `layer_of`, `led-value` becomes `led_value`. Types, modules and facts, which begin with a
capital, keep their names; so does everything that Rust code declares, and each name that the checker makes up
(an answer declared as `NAME : goal.NAME`). Where two names would fall together, or a name would become one that
the library or the code has, the table APART says what to write. Strings are left alone.
"""

import collections
import glob
import re
import sys

# names that would fall together with another one, and what they become
APART = {
    # definitions beside a function of the code with the plain name
    "allBlank": "only_blank",
    "allLetters": "only_letters",
    "classOf": "class_by_rule",
    "edgesOf": "edges_of_lines",
    "isMissing": "missing_depth",
    "numeralOf": "numeral_spelt",
    "operandOf": "operand_spelt",
    "operatorOf": "operator_spelt",
    "sameOperand": "operands_same",
    "stopsEarly": "too_early",
    # definitions beside a lemma with the plain name
    "allKnown": "every_known",
    "rowBelow": "row_values_below",
    "runsOn": "run_goes_on",
    "sameLine": "same_line_number",
    "sameNumber": "same_integer",
    # lemmas beside a definition with the plain name
    "all-below": "all_below_joined",
    "at-entry": "entry_holds",
    "bit-and": "bit_of_and",
    "bit-or": "bit_of_or",
    "heads-from": "heads_by_tail",
    "is-sign": "one_byte",
    "variable-by": "variable_by_letter",
}

DECLARED = re.compile(r"^\s*((?:abbrev |unfoldable |pub )*)([^\s(){}\[\]:.,;\"]+)(?:\s+[({][^)}]*[)}])*\s*:\s(.*)$")
# a name is a longest run of these
NAME = re.compile(r"\"[^\"\n]*\"|[^\s(){}\[\].,;\"]+")
# an answer's known facts are named after the code, as in `c.at-entry.result`
STEP = re.compile(r"(?<![^\s(){}\[\].,;\"])c\.$")


def files(kind):
    return sorted(p for p in glob.glob("crates/**/*." + kind, recursive=True) if "/out/" not in p)


def declared():
    """The names that .antt files declare, but for answers to goals."""
    found = set()
    for p in files("antt"):
        for line in open(p, encoding="utf-8"):
            m = DECLARED.match(line.rstrip("\n"))
            if m and not re.match(r"goal\.", m.group(3).strip()):
                found.add(m.group(2))
    return found


def snake(name):
    name = name.replace("-", "_")
    return re.sub(r"(?<=[a-z0-9])([A-Z])", lambda m: "_" + m.group(1).lower(), name)


def respelled(names):
    table = {}
    for n in names:
        if re.match(r"[a-z]", n) and re.search(r"-|[a-z0-9][A-Z]", n):
            table[n] = APART.get(n, snake(n))
    return table


def words(kind):
    seen = collections.Counter()
    for p in files(kind):
        for m in NAME.finditer(open(p, encoding="utf-8").read()):
            seen[m.group(0)] += 1
    return seen


def main():
    table = respelled(declared())
    old = words("antt") + words("rt")
    apart = True
    by_new = collections.defaultdict(list)
    for n, new in table.items():
        by_new[new].append(n)
        if old[new]:
            print(f"falls together with a name in use: {n} -> {new}", file=sys.stderr)
            apart = False
    for new, ns in by_new.items():
        if len(ns) > 1:
            print(f"fall together: {', '.join(sorted(ns))} -> {new}", file=sys.stderr)
            apart = False
    if not apart:
        return 1
    if "--dry" in sys.argv:
        for n in sorted(table):
            print(n, table[n])
        return 0
    changed = 0
    for p in files("antt") + files("rt"):
        text = open(p, encoding="utf-8").read()
        new = NAME.sub(lambda m: m.group(0) if STEP.search(text[max(0, m.start() - 3) : m.start()]) else table.get(m.group(0), m.group(0)), text)
        if new != text:
            open(p, "w", encoding="utf-8").write(new)
            changed += 1
    print(f"{len(table)} names respelled in {changed} files")
    return 0


if __name__ == "__main__":
    sys.exit(main())
