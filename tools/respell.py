#!/usr/bin/env python3
"""Brings this repository's own definitions, lemmas and fields to today's spelling: words in snake case, types in camel
case. Run once, at the top, on what port.py of the kit leaves. It touches the files of specs/ and proofs/, and in src/
only clauses, ghost fields, ghost members and ghost imports. Names of functions, strings, inputs and outputs stay."""
import glob
import re

# Words that a dash joined.
WORDS = """
advance-is advance-most advance-sum all-dials all-zero answer-cases areas-placed asked-all asked-more at-dial
at-other-length back-length before-day before-other before-trans beyond-limits beyond-limits-lawful both-none
both-reading both-taken both-too-large both-wrong by-rule by-rule-at by-rule-each by-rule-most c-is
comes-before counted-on counter-lawful counter-meaning d-is day-periods day-shape-of day-written
de-minimis-lawful de-minimis-meaning dial-lawful dial-meaning dial-refusal dial-told dials-are disc-advance
disc-fault disc-lawful disc-meaning each-below-false each-below-is each-below-more each-its-own either-periods
either-some energy-of entries-right entry-above-last entry-category entry-count entry-day entry-in-range
entry-of-below entry-offset entry-right entry-shape entry-well-formed entry-within even-fault even-lawful
even-meaning every-entry everywhere-lawful fault-counted fault-dial fault-in fault-reading fault-text
few-dials filled-all first-heavy first-none first-that first-that-is first-that-none first-wrong-entry
first-wrong-row front-is full-scale full-scale-most given-told header-entries header-periods header-rows
header-zero here-none here-some in-range is-first-that is-reading joint-extent joint-fits keeps-zero kept-else
last-after layer-name layer-of length-told listing-text lower-more mapped-some mark-below may-have-periods
may-pair no-advance no-category no-day no-entry no-fault none-heavy none-that not-of-day not-wrong
nothing-else of-day off-round on-round one-most one-number-dial one-number-from one-number-gives
one-number-length one-shape one-weight-each only-dial other-category other-day pair-lawful pair-meaning
pair-refusal panel-lawful panel-meaning past-told periods-most profile-fault profile-lawful profile-meaning
r-is ranks-trans rate-most reading-length remote-lawful remote-meaning round-limits row-most row-right
row-weight s-is scan-found scan-none shape-most side-by-side-lawful since-last size-least size-most some-dial
sound-lawful sound-parts standing-in steps-are steps-most steps-triangle stood-in substitute-fault
substitute-lawful substitute-meaning table-fault table-lawful table-meaning taken-both taken-second
tells-its-entries told-both told-cases told-second turning-lawful two-rate-lawful two-rate-meaning u16-at
u16-most u32-at under-kept unless-under upper-more weight-most weight-of weight-past weight-told weight-within
well-formed wrong-length zero-past
""".split()

# Names that get another spelling than a dash turned into a line: facts, which are types, and two definitions that would
# fall together with a field of the code.
OTHERS = {
    "Tells-its-entries": "TellsItsEntries",
    "Well-formed": "WellFormed",
    "In-range": "InRange",
    "index-offset": "header_index_offset",
    "row-offset": "header_row_offset",
}

TABLE = {word: word.replace("-", "_") for word in WORDS}
TABLE.update(OTHERS)

# A whole name: dashes and primes belong to it.
NAME = re.compile(r"(?<![\w'-])[^\W\d][\w']*(?:-[\w']+)+(?![\w'-])")


def respell(text):
    return NAME.sub(lambda name: TABLE.get(name.group(0), name.group(0)), text)


def respell_code(text):
    """Only the lines that a proof reads: clauses and ghost items, also where they go over several lines."""
    lines = []
    inside = False
    for line in text.split("\n"):
        opens = re.match(r"\s*(requires|ensures|ghost)\b", line)
        if opens or inside:
            line = respell(line)
            inside = line.count("{") > line.count("}") if opens else line.count("}") <= line.count("{")
        lines.append(line)
    return "\n".join(lines)


def main():
    for path in sorted(glob.glob("crates/*/specs/**/*.antt", recursive=True) + glob.glob("crates/*/proofs/**/*.antt", recursive=True)):
        change(path, respell)
    for path in sorted(glob.glob("crates/*/src/**/*.rt", recursive=True)):
        change(path, respell_code)


def change(path, respelled):
    with open(path) as file:
        old = file.read()
    new = respelled(old)
    if new != old:
        with open(path, "w") as file:
            file.write(new)


if __name__ == "__main__":
    main()
