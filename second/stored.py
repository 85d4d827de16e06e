#!/usr/bin/env python3
"""Compares what the repository stores with what the second program makes anew. Status 1 where anything differs.

    python3 second/stored.py

Stored are: the sample sheets; the input and the expected output of the Rattle programs (crates/*/stdin and stdout);
and those parts of README.md and docs/ that stand behind one of these comments:

    <!-- listing: SHEET -->    the next fenced block is the listing of that file, or its refusal line
    <!-- answer: SHEET -->     the next fenced block is its one-line answer
    <!-- bytes: SHEET -->      the next table gives an offset and then the bytes there, all of the file's
    <!-- draw answers -->      the next fenced block has draw cases, each with its answer in the line below it

A number of cases that a document tells must be so, and it must say of which kind, as in "1,234 sheet cases" or
"1,234 draw cases". The marks that have to be there are in NEEDED; a comment that is no such mark is a fault.
"""
import glob
import os
import re
import sys
import tempfile

import cases
import draw_cases
import draws
import sheets

TOP = os.path.dirname(os.path.dirname(os.path.abspath(__file__)))
MARK = re.compile(r"^<!-- (listing|answer|bytes): (\S+) -->$")
DRAW_MARK = "<!-- draw answers -->"
NEEDED = {
    ("listing", "sheets/worked.sheet"),
    ("listing", "sheets/one_group.sheet"),
    ("listing", "sheets/cup.sheet"),
    ("listing", "sheets/cup_damaged.sheet"),
    ("answer", "sheets/worked.sheet"),
    ("bytes", "sheets/worked.sheet"),
    ("bytes", "sheets/cup.sheet"),
}


def stored(path):
    with open(os.path.join(TOP, path), "rb") as file:
        return file.read()


def answer_lines(sheet, form):
    return (sheets.answer(sheet, form) + "\n").encode("ascii")


# Files. --------------------------------------------------------------------------------------------------------

def sample_sheets():
    """The path of each sample sheet, stored or made anew, with its bytes anew."""
    with tempfile.TemporaryDirectory() as directory:
        cases.write_sheets(directory)
        made = {}
        for name in os.listdir(directory):
            with open(os.path.join(directory, name), "rb") as file:
                made["sheets/" + name] = file.read()
    for path in glob.glob(os.path.join(TOP, "sheets", "*")):
        made.setdefault("sheets/" + os.path.basename(path), None)
    return made


def ascii_lines(lines):
    return "".join(line + "\n" for line in lines).encode("ascii")


def program_files(sheet_lines, draw_lines):
    """What the Rattle programs are run on, and what they must write."""
    text = ascii_lines(sheet_lines)
    answers = b"".join(answer_lines(sheet, form) for form, sheet in sheets.cases(text.decode("ascii")))
    worked = b"".join(cases.WORKED)
    return {
        "crates/compare_draws/stdin": ascii_lines(draw_lines),
        "crates/compare_draws/stdout": ascii_lines(draws.answer(line) for line in draw_lines),
        "crates/compare_sheets/stdin": text,
        "crates/compare_sheets/stdout": answers,
        "crates/sheet_check/stdin": worked,
        "crates/sheet_check/stdout": answer_lines(worked, sheets.listing),
    }


def differing_files(made):
    for path, anew in sorted(made.items()):
        if not os.path.exists(os.path.join(TOP, path)):
            yield f"{path}: not stored"
        elif anew is None:
            yield f"{path}: stored, but not made by second/cases.py"
        elif stored(path) != anew:
            yield f"{path}: differs from what the second program makes"


# Documents. ----------------------------------------------------------------------------------------------------

def fenced(lines, at):
    """The lines of the fenced block that begins within two lines, as bytes, or None."""
    start = next((k for k in range(at, min(at + 2, len(lines))) if lines[k].startswith("```")), None)
    if start is None:
        return None
    end = next(k for k in range(start + 1, len(lines)) if lines[k].startswith("```"))
    return "".join(line + "\n" for line in lines[start + 1:end]).encode("utf-8")


def table_bytes(lines, at):
    """The bytes that the next table gives, or None where an offset is not where its bytes come to stand."""
    found = bytearray()
    row = re.compile(r"^\| (\d+) \| `([0-9A-Fa-f ]+)` \|")
    rows = [row.match(line) for line in lines[at:]]
    first = next(k for k, match in enumerate(rows) if match)
    for match in rows[first:]:
        if not match:
            break
        if int(match.group(1)) != len(found):
            return None
        found += bytes.fromhex(match.group(2))
    return bytes(found)


def is_so(what, sheet, lines, at):
    if what == "listing":
        return fenced(lines, at) == answer_lines(sheet, sheets.listing)
    if what == "answer":
        return fenced(lines, at) == answer_lines(sheet, sheets.one_line)
    return table_bytes(lines, at) == sheet


def are_draw_answers(block, known):
    """Whether a block has some of the known draw cases, each with its answer below it."""
    lines = (block or b"").decode("utf-8").splitlines()
    told = list(zip(lines[::2], lines[1::2]))
    return told and 2 * len(told) == len(lines) and all(case in known and draws.answer(case) == answer for case, answer in told)


def document_faults(path, lines_of, seen):
    """What is wrong in a document. Adds to `seen` each mark, and each kind of cases whose number is told."""
    text = stored(path).decode("utf-8")
    lines = text.split("\n")
    for at, line in enumerate(lines):
        mark = MARK.match(line)
        if mark:
            seen.add(mark.groups())
            if not is_so(mark.group(1), stored(mark.group(2)), lines, at + 1):
                yield f"{path}:{at + 1}: not the {mark.group(1)} of {mark.group(2)}"
        elif line == DRAW_MARK:
            seen.add(DRAW_MARK)
            if not are_draw_answers(fenced(lines, at + 1), lines_of["draw"]):
                yield f"{path}:{at + 1}: not draw cases and their answers"
        elif line.lstrip().startswith("<!--"):
            yield f"{path}:{at + 1}: a comment that is no mark"
    for told, kind in re.findall(r"\b(\d+(?:,\d{3})*)\s+(?:(\w+)\s+)?cases\b", text):
        seen.add(kind)
        if kind not in lines_of:
            yield f"{path}: tells of {told} cases, and not of which kind"
        elif told.replace(",", "") != str(len(lines_of[kind])):
            yield f"{path}: tells of {told} {kind} cases, and there are {len(lines_of[kind])}"


def documents():
    return ["README.md"] + sorted(os.path.relpath(path, TOP) for path in glob.glob(os.path.join(TOP, "docs", "*.md")))


def main():
    lines_of = {"sheet": cases.all_cases(), "draw": draw_cases.all_cases()}
    made = {**sample_sheets(), **program_files(lines_of["sheet"], lines_of["draw"])}
    faults = list(differing_files(made))
    seen = set()
    for path in documents():
        faults += document_faults(path, lines_of, seen)
    faults += [f"no document has the {what} of {sheet}" for what, sheet in sorted(NEEDED - seen)]
    if DRAW_MARK not in seen:
        faults.append("no document has draw cases and their answers")
    faults += [f"no document tells the number of {kind} cases" for kind in lines_of if kind not in seen]
    for fault in faults:
        print(fault)
    counts = " and ".join(f"{len(lines)} {kind} cases" for kind, lines in lines_of.items())
    print(f"{len(made)} stored files and {len(documents())} documents compared over {counts}, {len(faults)} faults")
    sys.exit(1 if faults else 0)


if __name__ == "__main__":
    main()
