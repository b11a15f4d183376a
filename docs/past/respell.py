#!/usr/bin/env python3
"""Turns the names of this repository's own definitions and lemmas to snake case: 'gates-of' to 'gates_of'.

usage: respell.py [FOLDER]

Run once at the top, after the kit's port.py. A dash is kept where it joins two names, as in length-gates_of, the length
of gates_of. What turns: .antt files, and the clauses and ghost items of .rt files, whole names alone. Names that
Rattle makes, as loop-i-preserved, are not listed here and stay.
"""
import pathlib
import re
import sys

NAMES = """
a-gate a-header a-line after-blanks-same after-delay after-kind agrees-drawing agrees-ending agrees-in agrees-naming
agrees-telling all-drawn all-gates all-outputs all-rows-repeated all-rows-set an-end an-input an-output answer-of
at-end at-ending at-gate at-gates at-inputs at-outputs begun-leads blank-if-all blanks-more by-letter cases-le
circuit-of closed-unique columns-at columns-of-fields columns-past-letter complete-is count-below count-is
counted-all counted-more counted-small cut-joined cut-last cut-one dead-then decimal-by-value decimal-no-blank
deck-no-fault deck-stops deck-text delay-fits digit-decimal digitValue-is done-letter drafts-one drawn-in drawn-is
end-follows end-letter end-next every-at every-push expects-end expects-gate expects-input expects-output
failed-after failed-left failed-one failed-right fails-here fails-one fault-of fault-row fault-stops few-begun
few-in few-records fields-one fields-shown fields-tests first-failed first-failed-one first-left first-right
folded-all folded-within follows-passes fours-on-lines fours-said from-delay from-kind from-reads gate-accepted
gate-added gate-answer gate-follows gate-grown gate-is-next gate-lengths gate-letter gate-long gate-next gate-of
gate-of-place gate-one gate-passes gate-row-at gate-rows gate-rows-push gate-said gate-stands gate-taken gates-are
gates-few gates-first gates-lead gates-legal gates-of gates-of-more gates-of-same gates-stay grows-refl grows-trans
has-decides header-letter header-next in-columns in-columns-is in-range input-follows input-grown input-letter
input-next input-rows input-stands inputs-few inputs-first inputs-lead inputs-stay its-gate its-record judged-free
judged-open judged-reached kind-facts kind-known kind-name kind-of-sum kind-one kind-takes kind-text last-gate
last-input last-output layer-letter leads-append legal-in legal-leads length-begun length-columns
length-decimal-step length-gate-rows length-gates-of length-in-columns length-input-rows length-spelled
length-spelled-fit letter-fault letter-first letter-of limits-answer limits-stay line-pass line-passes line-tests
line-then looped-marked lower-reached lowest-one mark-grows mark-sound marked-looped marks-more marks-none means-one
means-spelled named-is narrow-small next-gate next-input next-output no-fit no-gate no-gate-line no-gates
no-leading-zero no-outputs none-empty none-failed not-ahead not-before not-both nothing-ahead nothing-follows
nothing-next number-if-decimal number-pass number-passes number-some number-tests number-then on-lines on-lines-of
on-lines-step on-table one-meaning outcome-unique output-added output-answer output-follows output-grown
output-is-next output-letter output-next output-rows output-stands output-taken outputs-are outputs-few outputs-lead
outputs-on-lines over-at past-inputs progress-in progress-of put-before put-more put-none put-place read-bounds
reader-expects-end reader-expects-gate reader-expects-input reader-expects-output reader-legal reads-at-gate
reads-at-input reads-count reads-failed reads-on-lines reads-pass reads-past reads-row reads-shown reads-tests
refused-one right-letter room-for-second room-for-third row-of-line row-two row-two-is rows-begun rows-gate
rows-input rows-output said-passes same-gate same-gates says-one says-text says-unended second-blank seen-before
seen-stays shown-means shows-none shows-number shows-one sound-refused spell-more spelled-before spelled-bound
spelled-injective spelled-no-newline spelled-not-blank spelled-or-blank start-stays still-told stop-one takes-gate
takes-gate-is takes-output takes-output-is text-one text-unended third-blank took-here took-some took-within
unreadable-if-neither visit-marked visit-seen with-gate with-output within-limits wrong-letter
""".split()

# A name ends at white space, brackets and these signs; a dot parts a module or a value from its name.
WORD = re.compile(r"[^\s(){}.;,@\"«»]+")
# Names that the kit's port turns by itself stand here for docs/ alone.
PORTED = {
    "all-seen": "all_seen",
    "all-there": "all_there",
    "no-row": "no_row",
    "not-after": "not_after",
    "one-more": "one_more",
    "out-of-order": "out_of_order",
    "row-of": "row_of",
}


def turned(name):
    head = "length-" if name.startswith("length-") else ""
    rest = name[len(head) :].replace("digitValue", "digit_value")
    return head + rest.replace("-", "_")


TABLE = {name: turned(name) for name in NAMES}


def respell(text, table):
    return WORD.sub(lambda m: table.get(m[0], m[0]), text)


def spans(text):
    """Code spans of a page, with the names that port.py turned too."""
    table = {**TABLE, **PORTED}
    return re.sub(r"`[^`\n]+`", lambda m: respell(m[0][1:-1], table).join("``"), text)


def main():
    top = pathlib.Path(sys.argv[1] if len(sys.argv) > 1 else ".")
    new = set(TABLE.values())
    for old, name in TABLE.items():
        assert list(TABLE.values()).count(name) == 1, f"{old} falls together with another name"
    # What rt makes in out/ is not ours.
    sources = [it for kind in ("antt", "rt") for it in sorted(top.glob(f"crates/*/**/*.{kind}")) if "out" not in it.parts]
    for path in sources:
        text = path.read_text(encoding="utf-8")
        there = sorted(new & set(WORD.findall(text)))
        if there and path.suffix == ".antt":
            print(f"look: {path}: already there: {' '.join(there)}")
        path.write_text(respell(text, TABLE), encoding="utf-8")
    for path in sorted(top.glob("docs/*.md")) + [top / "README.md"]:
        path.write_text(spans(path.read_text(encoding="utf-8")), encoding="utf-8")


main()
