#!/usr/bin/env python3
"""Brings the definitions and lemmas of this repository to snake case.

usage: python3 tools/respell.py        at the top of the repository, once, after /opt/rattle/port/port.py

NAMES are the names that specs/ and proofs/ declare with dashes; each dash becomes an underscore, in every .antt and .rt
file and, between backquotes, in README.md and docs/. Names that Rattle makes (of goals and of steps) and names of its
library are not in the list. Functions of src/, strings, inputs and outputs have no dash and stay. No two names fall
together: where a definition or lemma now has the name of a function (`in_book`, `in_order`, `in_range`, `mask_of`,
`order_summary`, `only_masks`, `only_card`, `place_line`, `number_field`, `stroke_field`, `too_short`), clauses and proofs
mean the definition or lemma and code means the function.
"""
import os
import re

NAMES = """
accepted-drawn accepted-few accepted-refused accepted-small accepted-tells after-past after-unique again-none
again-same and-given and-when appended-from appended-none appended-same below-closed below-passed between-less
bit-flip-other bit-flip-same bits-same book-form book-plain book-summary book-tests book-text both-open
by-time-then-grade byte-lost byte-same card-exchanged card-laws card-only card-pins card-places card-shown
cell-index close-step closed-below closed-bytes closed-less cut-fields cut-pieces cut-put cut-rule
decimal-lacks decimal-short digit-flip digit-xor digits-end digits-small digits-turn drawn-pairs ended-line
ends-failed ends-refused ends-stated ends-stopped ends-without-rule exchange-done exchange-none exchanged-card
exchanged-open fails-unique fault-line few-after few-parts few-rules field-unique fielded-ended fielded-lacks
fielded-short fielded-then fielded-unique filled-all filled-here filled-shown filled-size filled-start
first-limit first-none first-parts five-by-five flip-above flip-closes flip-opens flip-rest flip-shown
found-more found-over found-stops free-price front-number front-stroke grade-laws grade-of grade-ops
grade-text greatest-of-three has-mark if-open in-book in-range in-text is-both is-grade is-pair is-parts
is-place is-stroke is-time kind-read last-digit last-tests lawful-of layer-name layer-of leads-refused
lent-laws lesser-of letter-of letter-opens lettered-strokes letters-lack limit-known limit-letter limit-name
limit-of limit-once limit-same limit-text line-by-kind line-none line-past line-text line-unique
listed-letters lower-above lower-bit mask-all mask-before mask-bit mask-laws mask-more mask-multiple mask-of
mask-only mask-pins mask-places mask-push mask-shown mask-small masks-in masks-same more-fields multiple-digit
never-short newly-parts newly-shut next-above next-below next-push no-grade no-letter no-letters no-memory
no-notes no-pair no-parts no-stroke no-time not-open number-field number-first number-lacks number-unique
numbered-push numbers-left on-sheet one-ending one-letter one-once only-bit only-card only-digit only-less
only-low only-mask only-masks only-test open-byte open-if-ok open-letters opened-at opened-none order-form
order-letters order-plain order-summary order-tests outcome-filled outcome-short page-text pair-numbers
pair-pieces pair-rule parts-pieces parts-told passes-fails past-number past-stroke place-field place-line
places-length places-more places-told power-bit power-digit-above power-digit-below power-digit-same
range-from range-parts reads-few reads-small reads-sound refused-start refused-unended refused-unique
replaced-rest replaced-shown rises-all rises-at rises-lack rises-more rises-push rises-take row-shown
rule-known rule-lacks rule-letter rule-once rule-said rule-spelled rule-text rules-length rules-listed
rules-same rules-told said-by said-known same-capped same-digit same-grade same-pair same-places same-time
same-time-grade sheet-text shown-at shown-here shown-only shown-there side-length side-lettered side-short
small-after sofar-more sofar-sound some-letter some-parts some-rules sound-after source-layer span-unique
starts-has starts-here starts-line starts-shorter starts-unique stated-after stated-by stated-in
stated-refused stated-with states-once stop-closes stopped-at stops-leads stops-unique stroke-at stroke-bounds
stroke-field stroke-first stroke-here stroke-lacks stroke-unique strokes-length strokes-more struck-memory
take-front tells-accepted text-size then-places then-rules time-grade time-grade-laws time-grade-ops
time-grade-text time-laws time-ops time-text told-by two-by-two two-lines two-numbers two-once unknown-letter
unknown-line with-lower without-limit without-notes write-here write-rest write-shown write-size write-there
writes-digit writes-digits writes-first writes-some writes-value written-more written-rule written-short
written-tells
""".split()
# these port.py respelled in crates/, because a library had the same spelling; docs/ still has the old ones
PORTED = """
closed-at filled-at found-all in-order number-of only-at only-ending open-step row-laws too-short
""".split()
TURN = {n: n.replace("-", "_") for n in NAMES + PORTED}
WORD = re.compile(r"[^\s(){}\[\];,.`\"«»]+")


def respell(text):
    return WORD.sub(lambda m: TURN.get(m.group(0), m.group(0)), text)


def rewrite(path, turn):
    with open(path, encoding="utf-8") as f:
        before = f.read()
    after = turn(before)
    if after != before:
        with open(path, "w", encoding="utf-8") as f:
            f.write(after)


def main():
    for folder, dirs, files in os.walk("crates"):
        dirs[:] = sorted(d for d in dirs if d != "out")
        for name in sorted(files):
            if name.endswith((".antt", ".rt")):
                rewrite(os.path.join(folder, name), respell)
    pages = ["README.md"] + [os.path.join("docs", n) for n in sorted(os.listdir("docs")) if n.endswith(".md")]
    for page in pages:
        rewrite(page, lambda text: re.sub(r"`[^`\n]*`", lambda m: respell(m.group(0)), text))


main()
