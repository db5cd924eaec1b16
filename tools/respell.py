#!/usr/bin/env python3
"""Spells this repository's own definitions and lemmas as today's Rattle does: words in snake case, types in camel case.

usage: python3 tools/respell.py      at the top of the repository, once, after /opt/rattle/port/port.py

It goes over crates/ (.antt and .rt files, outside string literals), README.md and docs/ (inside backquotes).
Functions of src/, names that Rattle makes and names of its library are not in the table.
"""
import os
import re

WORDS = """
above-both above-end above-pick above-up admitted-fits admitted-is after-lacks all-over all-over-values
answer-by answer-of apart-inside apart-keeps applied-across applied-in applied-is applied-parts
arithmetic-negate arm-inside arm-keeps backward-inside backward-keeps backward-of backward-one-of
backward-two-of below-down below-fit below-from below-pick bounds-cut bounds-made by-ends by-ends-inside
by-ends-keeps by-fair by-leq by-mark by-meet by-same by-sort by-step by-truth column-same compare-ends
compare-of contained-rule contains-of contains-rule count-ends counted-above counted-below counted-in
counted-rises counted-short counted-there counted-up covers-across covers-one-in covers-two covers-two-in
dark-from decide-of decision-of difference-above difference-end difference-end-is difference-holds
difference-mono difference-undone difference-undone-left down-below down-keeps down-previous each-push
end-down end-lacks end-or end-up ends-fair ends-known ends-ordered equal-keeps equal-known equal-truth
fair-down fair-from fair-parts fair-same false-unsure fault-text filter-column filter-number
filter-operator filter-words first-end first-in first-same fit-end fit-end-pick fit-pick fit-was fits-at
fits-of for-one for-two forward-holds forward-of forward-one forward-one-of forward-sort forward-two-of
from-made from-opens from-to gives-column gives-once gives-this greater-by greater-narrows
greater-narrows-all higher-is holding-of inside-between inside-up inverse-of is-from is-no-step is-over
is-parts is-sort is-span is-time joined-laws joined-order joined-order-laws kept-is last-inside last-keeps
left-held left-holds left-inside left-keeps left-kept left-of leq-antisym leq-of leq-refl leq-total
leq-trans lesser-is lift-boolean lift-number lower-is lower-within lowered-keeps lowered-tighter
made-within make-made make-of maybe-two meet-holds meet-inside meet-keeps meet-made meet-shares meet-sorts
narrows-across narrows-in narrows-other narrows-two negate-holds negate-one negate-sort negated-above
negated-below negated-end negated-end-is negated-in negated-is negated-mono negated-parts negated-range
negated-undone new-spans next-greater next-in next-least next-none no-bounds no-column no-columns
no-crossed no-filter-four no-filter-none no-filter-one no-filter-two no-mark no-upper none-some not-true
number-lacks numbered-up of-sort of-sorts one-made one-other one-read one-sort one-this one-within
or-refused order-laws other-not over-known over-truth over-wider pair-up previous-greatest previous-in
previous-none previous-pick previous-smaller previous-up raised-tighter range-contains-rule range-made
range-meet range-of range-within reads-fair refusal-text result-is result-two results-in right-held
right-holds right-inside right-keeps same-end-self same-ends-from same-is same-sort same-within same-words
satisfied-back second-end self-inside sentence-of solved-back some-equal some-not-over some-over
some-unequal sort-from sort-in sort-laws sort-of sort-parts sorts-inside sorts-keep star-lacks star-none
starts-word step-up sum-above sum-end sum-end-is sum-holds sum-undone sum-undone-left swapped-fair
swapped-of symbol-of tally-text then-right time-laws time-order to-left touching-inside touching-keeps
true-false true-unsure truth-contains truth-meet truth-rule try-new-of two-left two-read uncrossed-down
uncrossed-up up-keeps upper-within value-is whole-laws whole-order with-end with-end-was with-ends
within-down within-up written-whole zipped-inside zipped-keeps
"""
TYPES = {
    "Cut-inside": "CutInside",
    "Cut-keeps": "CutKeeps",
    "Pair-inside": "WholePairInside",
    "Pair-keeps": "WholePairKeeps",
}
NAMES = {n: n.replace("-", "_") for n in WORDS.split()} | TYPES
PART = r"[\w'\u2260\u2261\u2262\u2264\u00b7-]"
TOKEN = re.compile(r"(?<!%s)[A-Za-z]%s*" % (PART, PART))
PIECE = re.compile(r'"(?:[^"\\]|\\.)*"')
QUOTED = re.compile(r"`[^`\n]*`")


def turned(text):
    return TOKEN.sub(lambda m: NAMES.get(m.group(0), m.group(0)), text)


def outside_strings(text):
    done, last = [], 0
    for m in PIECE.finditer(text):
        done += [turned(text[last:m.start()]), m.group(0)]
        last = m.end()
    return "".join(done) + turned(text[last:])


def main():
    changed = 0
    for top in ("crates", "docs", "README.md"):
        walk = os.walk(top) if os.path.isdir(top) else [(".", [], [top])]
        for folder, dirs, files in walk:
            dirs[:] = [d for d in dirs if d not in ("out", "data")]
            for name in files:
                path = os.path.join(folder, name)
                if name.endswith((".antt", ".rt")):
                    turn = lambda t: "\n".join(outside_strings(l) for l in t.split("\n"))
                elif name.endswith(".md") and name not in ("PORT.md",):
                    turn = lambda t: QUOTED.sub(lambda m: turned(m.group(0)), t)
                else:
                    continue
                with open(path, encoding="utf-8") as f:
                    old = f.read()
                new = turn(old)
                if new != old:
                    changed += 1
                    with open(path, "w", encoding="utf-8") as f:
                        f.write(new)
    print("respell: %d files changed" % changed)


main()
