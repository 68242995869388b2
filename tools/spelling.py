#!/usr/bin/env python3
"""Brings the repository's own definitions and lemmas to the spelling of the library: words in snake case.

usage: python3 tools/spelling.py            at the top of the repository, once

Each name of NAMES is written with `_` for `-`, in .antt files, in .rt files outside of strings, and between
backticks in README.md and docs/. A lemma that is an equation named by its left side keeps its dash, as
`length-laid`, and so do the names that the check makes, as `loop-i-preserved`. It stops, and writes nothing,
where a new name is already in use, but for the label of a clause, which no definition can be taken for.
"""

import os
import re
import sys

NAMES = """
    above-code
    accepted-keeps-a-world
    accepted-or-refused
    added-text
    after-each
    against-tells
    ahead-on
    all-answered
    answer-text
    answered-there
    any-has
    around-ascends
    around-below
    around-few
    around-found
    around-has
    around-keeps
    around-last
    around-length
    around-many
    around-missing
    around-one
    around-plant
    ascending-after
    ascending-append
    ascending-back
    ascending-cons
    ascending-consequences
    ascending-counting
    ascending-front
    ascending-head
    ascending-kept
    ascending-map
    ascending-none
    ascending-push
    ascending-tail
    ascending-up
    ascends-now
    at-is
    at-most-follow
    below-bound
    book-places
    call-keeps-a-world
    call-keeps-ascending
    can-enter
    can-place
    cases-has
    cases-max
    causes-clash
    changed-text
    clash-holds-nowhere
    clash-in-worlds
    clash-is-no-common-world
    clash-is-symmetric
    clash-itself
    clash-nowhere
    clash-tells
    clash-text
    clash-turned
    climb-end
    climb-step
    come-count
    comes-below
    comes-to-staying
    coming-to-stay
    common-world
    compatible-facts-stay
    consequence-has
    consequences-ascend
    consequences-count
    consequences-known
    consequences-list
    consequences-nth
    consequences-unknown
    count-told
    counting-all
    counting-new
    counting-old
    counting-small
    counting-start
    cut-above
    cut-passed
    cut-stays
    deeper-here
    deeper-later
    delivered-are-held
    delivery-by-worlds
    delivery-keeps-a-world
    descends-to
    do-not-clash
    draft-places
    each-carried-out
    each-writes
    fact-lines
    facts-left
    facts-of
    facts-stay
    false-from-not-true
    few-come
    few-consequences
    few-places
    fewer-kept
    first-calls
    first-calls-run
    first-clash-is-a-clash
    first-clash-tells
    first-following-tells
    first-known
    first-place-is-least
    first-unknown-is-least
    follow-few
    follow-small
    follows-by-worlds
    follows-from-it
    follows-in-64-bits
    follows-in-worlds
    follows-known
    follows-stays
    free-long
    free-some
    from-members
    front-ascends
    gap-new
    gap-now
    gap-old
    gone-count
    has-around
    has-at
    has-cases
    has-consequence
    has-counting
    has-head
    has-map
    has-none
    has-tail
    has-tells
    head-is
    height-falls
    held-long
    held-there
    high-long
    high-now
    highs-above
    highs-ascend
    highs-is
    highs-within
    hold-what-follows
    holds-before
    holds-nowhere-clash
    in-first-cells
    is-held-told
    itself-follows
    itself-of
    kept-has
    kept-laid
    known-b
    known-cause
    known-codes-fit
    known-parts
    laid-again
    laid-fewer
    laid-parts
    largest-is
    largest-left
    law-of-runs
    leaves-both
    leaves-some
    left-fits
    left-gone
    left-in-peace
    left-kept
    left-leaves
    left-row
    line-more
    lines-push
    listing-all
    listing-text
    lows-below
    map-has
    merging-all
    merging-more
    most-is-small
    moved-above
    moved-now
    moved-parts
    named-are-gone
    named-later
    new-accepted
    new-facts-hold
    new-fits
    new-gone
    new-kept
    new-laid
    new-leaves
    new-long
    next-is
    no-world-is-a-clash
    none-against
    none-at-first
    none-clash
    none-is-new
    none-tells
    not-among
    not-around
    not-with
    nothing-by-places
    nothing-clashes
    nth-none
    nth-push
    nth-some
    nth-take
    nth-told
    nth-within
    number-come
    number-gone
    one-count
    one-delivery
    one-delivery-refusal
    one-first-clash
    one-least
    one-list-refusal
    one-row
    one-withdrawal
    only-in-front
    only-known-clash
    only-known-follow
    only-one-run
    only-run
    other-facts-stay
    parent-read
    peaceful-world
    place-book-lawful
    place-meaning
    placed-tells
    places-around
    refusal-text
    refused-by-worlds
    refused-is-not-short-and-known
    replaying-more
    replaying-start
    rest-is-code
    returned-by
    rightly-not-contradictory
    room-for-next
    room-left
    row-of-both
    row-with
    same-facts
    same-pair
    same-thing
    same-used
    says-the-same
    seat-deepest
    seat-elsewhere
    seat-here
    seat-named
    seat-of
    seats-stand
    second-known
    second-place-is-least
    short-and-known
    smaller-push
    some-follow
    some-not-none
    some-world
    some-world-holds-exactly
    spoken-itself
    stay-ascends
    stay-fits
    stay-is
    stay-within
    staying-ascends
    staying-has
    stays-tells
    then-holds
    thing-of
    to-come
    to-members
    unknown-has-no-consequences
    unknown-stay
    untouched-tells
    used-part
    valueOr-nth
    withdrawal-by-worlds
    withdrawal-keeps-a-world
    within-chain
    within-le
    within-other
    within-tells
    within-trans
    within-up
    world-after
    world-exact
    world-holds-what-follows
    world-of
    world-of-nothing
    written-elsewhere
    written-here
    written-more
    zero-i
    zero-p
    zeros-long
""".split()
OTHERS = {"valueOr-nth": "value_or_nth"}

RENAMED = {n: OTHERS.get(n, n.replace("-", "_")) for n in NAMES}
WORD = re.compile(r"[^\s(){}\[\],;:.`'\"]+'*")
LABEL = re.compile(r"\b(ensures|requires) \w+ \{")
STRING = re.compile(r'"(?:[^"\\]|\\.)*"')
QUOTED = re.compile(r"`[^`\n]*`")


def files(ending):
    for folder, dirs, names in os.walk("crates"):
        dirs[:] = sorted(d for d in dirs if d != "out")
        for name in sorted(names):
            if name.endswith(ending):
                yield os.path.join(folder, name)


def pages():
    found = ["README.md"] + sorted(os.path.join("docs", n) for n in os.listdir("docs") if n.endswith(".md"))
    return [p for p in found if os.path.isfile(p)]


def words(text):
    return WORD.sub(lambda m: RENAMED.get(m[0], m[0]), text)


def outside(pattern, text):
    """Turns the words of the text that lie outside of what the pattern matches."""
    parts, end = [], 0
    for m in pattern.finditer(text):
        parts += [words(text[end : m.start()]), m[0]]
        end = m.end()
    return "".join(parts + [words(text[end:])])


def read(path):
    with open(path, encoding="utf-8") as f:
        return f.read()


def main():
    new = set(RENAMED.values())
    if len(new) < len(RENAMED):
        sys.exit("two names fall together")
    turned = {}
    for path in [*files(".antt"), *files(".rt"), *pages()]:
        text = read(path)
        if not path.endswith(".md"):
            taken = new.intersection(m[0] for m in WORD.finditer(LABEL.sub("", STRING.sub("", text))))
            if taken:
                sys.exit(f"{path}: already in use: {', '.join(sorted(taken))}")
        if path.endswith(".antt"):
            turned[path] = words(text)
        elif path.endswith(".rt"):
            turned[path] = outside(STRING, text)
        else:
            turned[path] = QUOTED.sub(lambda m: words(m[0]), text)
    for path, text in turned.items():
        if text != read(path):
            with open(path, "w", encoding="utf-8") as f:
                f.write(text)
            print(path)


main()
