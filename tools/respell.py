#!/usr/bin/env python3
"""Respells this repository's own definitions and lemmas: words in snake case, types in camel case.

usage: python3 tools/respell.py      at the top of the repository, once, after the toolchain's own scripts

Reads code, definitions and proofs below crates/ (not their comments and texts), and what README.md and docs/ set in backticks.
Names that the toolchain makes, and those of its library, keep their dash.
"""

import os
import re

NAMES = """
Accepted-when Added-stand All-fit All-symbol-free Any-refusals Every-run Fails-alike Fails-first Finds-places First-bad
First-failing For-places Free-row Has-value Holds-at Keeps-matrices Keeps-values Known-after Known-at Known-terms Known-variable
Lists-refused Lists-worth Made-fits Matrices-exact Merges-rise Named-before One-answer Opened-when Places-refused Places-suffice
Places-taken Read-back Reads-back Refused-well Refuses-list Run-promised Same-failing Symbol-free Symbol-free-row Tables-fit
Variables-refused Well-formed Work-stands Worths-meant accepted-constraints accepted-named accepted-when accumulated-means
accumulated-none added-after added-at added-count added-free added-kept added-placed added-right added-row added-rows
added-rows-hold added-short added-stand added-values added-window added-worth after-all after-answer after-append after-log
agreed-from-rows agreed-from-stood all-at all-free all-kept all-kept-of all-long all-placed-back all-placed-long all-placed-only
all-placed-push all-placed-rises all-placed-worth all-unmap all-values all-variables and-false and-then-ok and-then-well and-true
answer-of any-refusals append-worth as-marked as-placed assigned-value at-instance at-limit at-plus at-scale at-start at-term
at-witness at-xtimes bare-calls bare-none bare-run bare-written before-kept before-length before-rises before-worth below-15
below-back below-known below-limit below-not binary-bit bit-false bit-true bit-xor by-refusal byte-number calls-due calls-fit
calls-run carried-all carried-more cell-counted cell-counts cell-worth cells-worth changed-counts changed-extends check-answer
check-iff check-keeps check-marlin check-refusal check-right clear-more column-at column-long column-of combination-worths
compactify-back compactify-only compactify-rises compactify-worth constraint-fits constraint-in constraint-lists constraint-of
constraint-written constraints-append constraints-at constraints-kept constraints-plain constraints-triple constraints-worths
digit-back digit-gone divided-by drop-cut drop-on due-at due-other each-by each-from-list early-after else-11 empty-row end-found
ends-from enforce-constraint entries-first entries-found entries-refusal entry-missed equal-means equal-swap err-is err-ok
error-handed error-number error-small errors-numbered evaluated-all evaluated-from evaluated-means evaluated-more evaluated-stops
event-counts event-extends every-run expanded-symbol-free expanded-worth extends-on extends-same failing-calls failing-of
failing-right fails-alike fails-append fails-same filled-after filled-means finalised-alike finalised-exact finalised-formed
finalize-iff finish-after finish-agrees finish-early finish-holds finish-long finish-more finish-numbered finish-of finish-picked
finish-symbol-free finish-taken finish-well finish-within finished-fails finished-holds finished-instance finished-lists
finished-means finished-places finished-read finished-rows finished-witness first-append first-bad first-fails first-here
first-instance first-is first-list first-none first-worth fit-after fit-event fit-from for-values free-within fresh-from fresh-iff
fresh-means from-means from-none from-ok gained-set gained-worth gathered-is getD-means gf8-by-19 gf8-of gf8-product given-places
held-freed if-any if-known if-known-none if-plain in-setup index-fit index-rows inlined-long inserted-cut inserted-worth
instance-count instances-fit instances-kept is-written kept-long kept-means kept-one kept-value known-append known-counted known-iff
known-list known-lists known-wider lc-index leading-passes leading-stops length-gained list-from-each list-refusal listed-check
lists-counted lists-free lists-refused lists-worth location-window log-counts log-due log-from log-grows log-of longer-table
made-fits made-right made-with marks-each marlin-fails marlin-first marlin-holds matrices-exact matrices-from matrices-in
matrices-of matrices-of-rows matrix-checks means-same merged-above merged-difference merged-difference-scaled merged-length
merged-means merged-pick merged-rises merged-sum merged-sum-scaled merged-worth merges-rise met-check met-instance met-list
met-marlin met-value met-witness met-writing minus-by minus-stands mod-mul-mod mode-before-work more-before more-calls more-entries
more-log more-more more-terms most-places mul-mod-mod named-counted named-instances named-lists named-of named-witnesses
names-instance names-lists names-witness nat-add-zero nat-zero-add needs-14-terms neg-one neg-times never-17 new-input-variable
new-lc new-witness-variable no-added no-constraint no-lack no-list no-starts no-witness no-writings none-accepted none-fails
none-outlined none-picked none-refused nonzero-worth not-asked not-empty not-kept not-outlined not-read not-refused not-symbol
not-unused nth-copied nth-means nth-none nth-there number-byte numbered-after numbered-push of-added of-difference
of-difference-scaled of-negated of-scaled of-sum of-sum-scaled ok-is ok-well one-bad one-instance one-stands one-times only-named
open-means open-read opened-right opened-sound opened-when opening-refusal or-zero or-zero-means or-zero-some original-long
other-bare other-check other-first other-known other-list other-question other-unsound other-value other-when other-work
other-writing outline-by-weight outline-none outlined-five outlined-plain outlined-three own-16 own-list own-marked own-plain p31-of
p31-product parts-back pick-both pick-left pick-right picked-after place-before-error placed-above placed-back placed-long
placed-only placed-rises placed-there placed-worth places-append places-before-terms places-found places-more places-refusal
places-refused places-suffice places-taken plain-lists plus-four plus-neg plus-same plus-self plus-stands plus-swap plus-zero
product-append product-from product-more product-none product-one product-past pushed-above pushed-rises put-after put-fits
put-short put-window question-iff question-refusal read-means reads-fail refusal-here refusal-in refusal-other remainder-byte
remainder-product remainder-scaled remainder-sum replaced-symbol-free replaced-worth residue-path residues-laws right-changed
right-event right-run rises-drop rises-left row-each row-holds row-lists row-marks row-places row-places-push row-worth rows-counted
rows-each rows-free rows-read rows-symbol-free rows-worth rule-of run-extends run-future same-checks same-constraints same-held
same-means same-value same-variable same-worth same-worths scale-plus scaled-in scaled-only second-fails seek-window set-mode
set-optimization-goal sets-goal sets-mode settled-holds settled-well setup-calls setup-circuit setup-finalises setup-limit setup-run
single-worth solved-after some-instance some-none sound-changed sound-event sound-run space-before-terms stage-after stage-by
stages-iff stages-of stages-other step-found stood-from-agreed stood-from-rows sum-coefficient sum-of-zero symbol-16 symbol-free
symbol-free-counted symbol-free-more symbol-free-wider symbol-none symbol-numbers symbol-value tables-fit taken-after taken-agrees
taken-earlier taken-early taken-numbered taken-one taken-picked taken-taken terms-before-witnesses terms-fit terms-known terms-more
terms-next terms-refusal terms-short tests-other then-merged third-list three-each times-assoc times-at times-by times-comm
times-one times-plus times-stands to-matrices told-ok triples-append true-iff turn-append turn-rows unless-bare unless-below
unless-enough unless-ok unless-well unsound-first unsound-iff upper-add upper-all upper-more upper-none upper-skip used-after
used-by used-entries used-in used-plain used-terms used-twice used-twice-in-one uses-in value-iff value-means value-original
value-places value-refusal valued-rows values-fit values-iff variable-refusal variables-refused weighs-more weighs-used well-formed
when-none when-not when-there which-is-unsatisfied window-free window-sums window-worth with-constraints with-finished with-given
with-goal with-instances with-witnesses witness-count witnesses-before-entries witnesses-fit witnesses-found witnesses-kept
witnesses-short work-iff work-refusal work-stands worked-out worth-by worth-kept worth-original worths-after worths-kept worths-long
worths-meant worths-original worths-original-after worths-solve writing-iff writing-refusal written-fails written-list
written-out-first written-spare x-times xor-back xor-bit xor-byte xor-exchange xor-false xor-number xor-stays xor-swap xtimes-code
xtimes-high xtimes-low xtimes-plus xtimes-right xtimes-scale zero-plus zero-stands zero-times
""".split()

# Where the plain rule would give a name that is taken, or the name has no dash.
OTHERWISE = {
    "bit-xor": "xor_of_bits",
    "merges-rise": "merges_rise_lem",
    "zero?": "is_zero",
    "one?": "is_one",
    "instance?": "is_instance",
    "witness?": "is_witness",
    "symbol?": "is_lc",
    "Known_here": "KnownHere",
    "getD_means": "get_or_means",
    # lemmas that were named by words of the library that it has renamed
    "nth-copied": "slice_get_copied",
    "nth-means": "slice_get_means",
    "nth-none": "slice_get_none",
    "nth-there": "slice_get_there",
    "leading-passes": "prefix_len_passes",
    "leading-stops": "prefix_len_stops",
    "inserted-cut": "insert_cut",
    "inserted-worth": "insert_worth",
}

# Words of the library that were imported under another word of it.
ALIASES = {
    "All": "AllByRecursion",
    "Has": "ContainsAt",
}


def respelled(name):
    if name[0].isupper():
        return "".join(word[0].upper() + word[1:] for word in name.split("-"))
    return name.replace("-", "_")


TABLE = {name: respelled(name) for name in NAMES} | OTHERWISE
NAME = re.compile(r"[^\W\d][\w'◌]*(?:-[\w'◌]+)*\??")
TEXT = re.compile(r'("(?:[^"\\]|\\.)*")')
ANTT_COMMENT = re.compile(r"(?:^|(?<=\s))--(?=\s|$)")
RATTLE_COMMENT = re.compile(r"//")


def turned(text, table=TABLE):
    return NAME.sub(lambda found: table.get(found.group(), found.group()), text)


def code(line, comment, table=TABLE):
    """The line with the names of its code respelled: a text in quotes and what follows the comment's mark stay."""
    parts = TEXT.split(line)
    for i in range(0, len(parts), 2):
        mark = comment.search(parts[i])
        if mark:
            return "".join(parts[:i]) + turned(parts[i][: mark.start()], table) + parts[i][mark.start() :] + "".join(parts[i + 1 :])
        parts[i] = turned(parts[i], table)
    return "".join(parts)


def page(line):
    return re.sub(r"`[^`]*`", lambda found: turned(found.group()), line)


def lines(text, turn):
    return "".join(turn(line) for line in text.splitlines(keepends=True))


def antt(text):
    """Definitions and proofs: the names, and then the library's words under their own names."""
    text = lines(text, lambda line: code(line, ANTT_COMMENT))
    table = {name: word for name, word in ALIASES.items() if f"{word} as {name}" in text}
    for name, word in table.items():
        text = text.replace(f"{word} as {name}", word)
    return lines(text, lambda line: code(line, ANTT_COMMENT, table))


def rewrite(path, turn):
    with open(path, encoding="utf-8", newline="") as file:
        old = file.read()
    new = turn(old)
    if new != old:
        with open(path, "w", encoding="utf-8", newline="") as file:
            file.write(new)


def main():
    for folder, folders, files in os.walk("crates"):
        folders[:] = sorted(name for name in folders if name != "out")
        for file in sorted(files):
            path = os.path.join(folder, file)
            if file.endswith(".antt"):
                rewrite(path, antt)
            elif file.endswith(".rt"):
                rewrite(path, lambda text: lines(text, lambda line: code(line, RATTLE_COMMENT)))
    for path in ["README.md"] + sorted(os.path.join("docs", file) for file in os.listdir("docs")):
        # The page on the port cites the names as they were.
        if path.endswith(".md") and path != "docs/PORT.md":
            rewrite(path, lambda text: lines(text, page))


main()
