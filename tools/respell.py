#!/usr/bin/env python3
"""Respells this repository's own definitions and lemmas, once, after the kit's port.py: words in snake case.

A dash stays only between two names of which one is an operator, as in `neg-*ℤ`. Functions of src/, exported C names,
strings, inputs and outputs keep their names. Definitions whose name falls together with another meaning get another name
(OTHER). Names that Rattle makes, as `loop-j-preserved`, are not touched: behind a dot only fields of records are turned.

usage: tools/respell.py, at the top of the repository
"""
import os
import re
import sys

# fields of records of laws and facts
FIELDS = """
blend-grows blend-tight ceiling-law divided-apart dot-grows dot-tight earlier-solved few-columns few-rows floor-law
growth-law hull-least hull-left hull-right in-dividend in-divisor in-of inside-tight join-tight kept-cell kept-is
meet-in meet-out nested-within not-zero-apart of-cells of-layouts product-grows product-tight quotient-law
quotient-tight read-written rounding-law rows-done solve-grows solve-tight solved-earlier sum-grows sum-tight
uniqueness-law within-nested zero-beyond zero-outside
"""

# definitions and lemmas
NAMES = """
*ℤ-anti *ℤ-assoc *ℤ-cancel *ℤ-cancel-< *ℤ-cancel-≡ *ℤ-left-comm *ℤ-mono *ℤ-mono-< *ℤ-pos above-corner all-sums
all-zero apart-told as-meant at-add at-dip at-fault at-least-out at-most-out at-negative at-ratio at-rescale
attains-add attains-mul band-entry band-fit band-fits band-inside band-place band-read band-small band-sound bar-text
below-corner between-add between-mul between-negative between-ordered between-rescale between-same between-weaken
blend-at blend-cell blended-sum calibration-of ceiling-high ceiling-negated ceiling-next cell-ordered cell-value
chosen-holds dense-fit dense-fits dense-inside dense-place dense-sound diagonal-entry diagonal-sound dip-text dot-cell
end-inside entry-ordered equal-bounds equal-nested equal-within exact-add exact-between exact-mul exact-negative
exact-rescale exact-tight exact-within exact-zero exactly-inside exactly-opposite exactly-plus exactly-rescaled
exactly-tightly exactly-times exactly-total first-zero floor-high floor-low floor-negated floor-next found-more
greatest-quotient greatest4-high greatest4-ind greatest4-size has-alike has-inside has-self holds-zero hull-admits
hull-alike hull-assoc hull-attained hull-comm hull-contains hull-end hull-isotone hull-keeps hull-same if-ordered
in-band inside-same is-blank is-filled kept-before kept-behind kept-side kpa-text lack-of lack-when le-floor leZ-true
least-quotient least4-ind least4-low least4-size loose-value lower-across lower-at lower-inside ltZ-true mark-at
max-size meet-admits meet-alike meet-assoc meet-attained meet-contains meet-isotone meet-keeps meet-same met-in
met-out min-size minus-text mirrored-cell mono-law mul-above mul-above-4 mul-below mul-below-4 mul-same near-ceiling
near-floor near-floor⁺ negative-case negatives-grow nested-apart nested-told no-dip nonzero-at not-broken not-compared
not-empty not-le nothing-sound offset-of on-side one-positive ordered-between outside-empty own-lack own-records
packed-entry packed-fit packed-fits packed-inside packed-place packed-read packed-sound past-limit plus-empty
plus-zeros positive-case positive-nonzero positive-product pressure-tight product-cell products-exactly products-grow
push-more quotient-least quotient-most quotients-grow quotients-in quotients-tightly ratio-inside reached-at
read-ordered reading-of remainder-sum round-along round-law rounded-in rounded-out rounded-tightly row-sum
rows-in-order same-fraction same-negative same-sym same-trans same-yes scale-positive shaped-entry shaped-sound
sign-size size-add size-mul size-negative size-positive size-product small-interval small-more small-opposite
small-plus small-scale small-totals smaller-few solve-at solve-cell solved-count solved-from solved-sum sound-kept
standing-of stored-cell stored-read sub-size sum-at sum-cell sum-of-products sum-value sums-grow symmetric-sound
tight-high tight-low tight-order tight-unique tightly-holds tightly-nested tightly-ordered tightly-unique times-empty
times-zeros told-fault told-nested total-empty total-more total-value totals-grow transposed-sound triangle-sound
true-T true-leZ true-ltZ unit-cell unit-diagonal unit-entry unit-fit unit-sound upper-across upper-inside weighted-sum
within-limit worked-at worked-out yes-same zero-cell zero-here zero-later zero-term ≤ℤ-trans
"""

# `holds_zero` is a function of cells, on a cell; this one is on two bounds, as the function `spans_zero` is
OTHER = {"holds-zero": "spans_zero"}


def respelled(name):
    return OTHER.get(name) or name.replace("leZ", "le_z").replace("ltZ", "lt_z").replace("-", "_")


EDGE = r"\s(){}\[\],;:.`|"
FIELD = set(FIELDS.split())
TABLE = {name: respelled(name) for name in FIELDS.split() + NAMES.split()}
TOKEN = re.compile(
    r"(?P<dot>(?<=[\w')⁺]\.))?(?<![^" + EDGE + r"])(?P<name>" + "|".join(re.escape(n) for n in sorted(TABLE, key=len, reverse=True)) + r")(?![^" + EDGE + r"])"
)


def turn(text, left):
    def one(m):
        if m["dot"] is not None and m["name"] not in FIELD:
            left.append(m["name"])
            return m[0]
        return TABLE[m["name"]]

    return TOKEN.sub(one, text)


def turn_source(text, left):
    """A .rt file: what is between braces of a ghost line or a clause; comments only between backticks."""
    out = []
    for line in text.split("\n"):
        code, mark, comment = line.partition("//")
        if re.search(r"\b(ghost|requires|ensures|decreases)\b|[◌≡≤→λ×≢⊎]|\b(IsTrue|Small|IfOk|MatchOption|MatchResult|OnErr|OnOk)\b", code):
            code = turn(code, left)
        out.append(code + mark + turn_ticks(comment, left))
    return "\n".join(out)


def turn_ticks(text, left):
    return re.sub(r"`[^`]*`", lambda m: turn(m[0], left), text)


def turn_lemmas(text, left):
    """An .antt file: all but comments; these only between backticks."""
    out = []
    for line in text.split("\n"):
        m = re.search(r"(^|\s)--(\s|$)", line)
        code, comment = (line[: m.start()], line[m.start() :]) if m else (line, "")
        out.append(turn(code, left) + turn_ticks(comment, left))
    return "\n".join(out)


def main():
    for folder, dirs, files in os.walk("crates"):
        dirs[:] = sorted(d for d in dirs if d != "out")
        for name in sorted(files):
            path = os.path.join(folder, name)
            how = {".rt": turn_source, ".antt": turn_lemmas, ".edit": turn_lemmas}.get(os.path.splitext(name)[1])
            if not how:
                continue
            with open(path, encoding="utf-8") as f:
                old = f.read()
            left = []
            new = how(old, left)
            for n in sorted(set(left)):
                print(f"left: {path}: .{n}")
            if new != old:
                with open(path, "w", encoding="utf-8") as f:
                    f.write(new)


if __name__ == "__main__":
    sys.exit(main())
