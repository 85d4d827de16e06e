#!/usr/bin/env python3
"""Turns the names of definitions and lemmas from the older spelling to snake case.

usage: python3 tools/spelling.py        at the top of the repository, once, after /opt/rattle/port/port.py

It goes over the definitions of specs/, the lemmas of proofs/ and the clauses of src/, and over README.md and docs/
where a name stands between back quotes. Functions of src/, strings, inputs and outputs keep their names. What it
renames, and where a name would have fallen together with another, the tables below say.
"""
import glob
import re

# a name of several words: the words, each after the first with a capital
HUMPED = """
afterGiving allInPlace allNamed allScripts andPair anyBelow anyScript associationIn associationOf atEnd ballsOf barsFit
barsIn capIn countBelow countIn hasBall hasSource hasTeam ifLong inFirstHalf inPlace isMate isShape isThis
layerNumber lineLength lowerIn matesIn noRoom ofShape onceOrdered pairsIn pairsOf potOf refusedText scriptIn scriptOf
scriptedIn seatOf seedIn sheetCap sheetMates sheetPairs standsBefore standsIn teamCount teamIn teamsOf textNumber
toldAbove withBars withCap withMate withPair withScript withSeed withTeam withoutBall
""".split()

# or joined by dashes
DASHED = """
accepted-reads admitted-part after-clear after-put again-refused all-agree all-not all-zero answers-places any-more
apart-places association-said at-pot ball-number balls-few bars-at bars-bytes bars-form bars-said before-is-some
before-none begun-drop by-record by-seed by-verdict cap-at cap-bytes cap-form cap-low cap-said caps-kept caps-made
cases-some clear-lettered clear-single closed-early closed-late code-said contained-equal contained-from count-fewer
count-more count-once count-up count-zero decides-all decides-any decides-before decides-fits decides-fresh decides-has
decides-named decides-no-script decides-none decides-order decides-ordered decides-place decides-places decides-room
decides-scripts decides-shape decides-some decides-source decides-team decides-unless decides-whole decides-yes
decimal-short decoded-size each-ball end-at end-bytes end-form end-or-not ends-early ends-here every-at exactly-like
exactly-no fails-read fewer-mates first-cut first-fails first-held first-kept first-same first-shape for-other for-same
form-size fresh-no front-few full-from-settled full-settled going-err going-put has-lower holds-teams in-below in-shape
is-each is-in is-run kind-long kind-none kind-short layer-digit least-all led-all length-each length-step length-text
lettered-prop line-short line-written listed-said lower-at lower-at-pot lower-once mate-is mates-same next-taken
no-entry no-from no-mate no-to nobody-yet none-noted none-of-pot none-past none-seated none-some not-before-itself
not-shape-end not-to noted-before noted-first numbers-short of-pot order-refused others-held pair-at pair-bytes
pair-form part-admitted place-gone place-low place-past put-err put-lettered put-more put-single range-refused
reading-out record-err refused-reads room-no room-refused row-length said-none same-err same-lead same-placements
same-seats script-at script-bytes script-form script-reads script-said script-there seat-empty seat-here seat-other
seat-past seed-at seed-bytes seed-form seed-reads seed-said set-each set-for set-over set-pairs settled-from
settled-placed settled-team shape-begun shape-bytes shape-form shape-no shape-or-not shape-refused shape-said
shape-teams shaped-long single-prop size-some sized-from sized-to start-err stood-before team-bytes team-form team-from
team-pot team-product team-reads team-said team-there team-to text-short this-is together-before typed-gave urn-gave
was-in without-same
""".split()

# a name that would fall together with a definition's or a field's
FALLEN = {
    "isIn": "is_in_set",
    "at-end": "at_end_lem",
    "is-mate": "is_mate_lem",
    "is-shape": "is_shape_lem",
    "is-this": "is_this_lem",
    "script-in": "script_in_lem",
    "shape-of": "shape_of_lem",
    "getD-each": "get_or_each",
}


def renamings():
    table = {name: re.sub(r"[A-Z]", lambda m: "_" + m.group().lower(), name) for name in HUMPED}
    table |= {name: name.replace("-", "_") for name in DASHED}
    return table | FALLEN


TABLE = renamings()
# a name of antt ends at a blank, a bracket, a dot, a comma or a sign of its own; a dash is a part of it
TOKEN = re.compile(r"[^\s(){}\[\];,.:|`«»⟦⟧@\"&*!?=]+")


def turned(text):
    return TOKEN.sub(lambda m: TABLE.get(m.group(), m.group()), text)


def turned_page(text):
    return re.sub(r"`[^`\n]+`", lambda m: turned(m.group()), text)


def files():
    for folder in ("specs", "proofs"):
        for path in glob.glob(f"crates/*/{folder}/**/*.antt", recursive=True):
            yield path, turned
    for path in glob.glob("crates/*/src/*.rt"):
        yield path, turned
    for path in ["README.md", *glob.glob("docs/*.md")]:
        yield path, turned_page


def main():
    changed = 0
    for path, turn in files():
        with open(path, encoding="utf-8", newline="") as f:
            old = f.read()
        new = turn(old)
        if new != old:
            changed += 1
            with open(path, "w", encoding="utf-8", newline="") as f:
                f.write(new)
    print(f"spelling: {len(TABLE)} names, {changed} files changed")


if __name__ == "__main__":
    main()
