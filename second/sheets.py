#!/usr/bin/env python3
"""The second program: reads sheets by the rules of docs/SHEET.md.

    python3 second/sheets.py listing < SHEET     the listing or the refusal line (docs/LISTING.md)
    python3 second/sheets.py answers < CASES     one answer for each case (docs/SECOND.md)
    python3 second/sheets.py counts  < CASES     how many cases are taken, and refused by each number

It works in three steps, each over the whole sheet: cut the bytes into records; collect every complaint against
every record; let the earliest complaint decide. Complaints behind the first one may be nonsense (a bad shape
makes every later range doubtful); they are never looked at.
"""
import collections
import sys

TAKEN_BY_PROGRAM = 4096
MOST_PAIRS = 64

# Whole length of a record, by its kind.
LENGTH = {"G": 3, "T": 7, "X": 3, "C": 3, "B": 4, "U": 9, "S": 18, "Z": 1}

Record = collections.namedtuple("Record", "at kind body")

# Sorts as the format wants it: first by record, then by number.
Complaint = collections.namedtuple("Complaint", "record number place")


class Refused(Exception):
    def __init__(self, number, place):
        super().__init__(number, place)
        self.number = number
        self.place = place

    def line(self):
        return f"refused 1 {self.number} {self.place}"


# Step one: cutting. ------------------------------------------------------------------------------------------

def cut(sheet):
    """The records from the front up to the first Z, and the complaints that the cutting itself meets."""
    records = []
    at = 0
    while at < len(sheet):
        kind = chr(sheet[at])
        if kind not in LENGTH:
            return records, [Complaint(len(records), 1, at)]
        end = at + LENGTH[kind]
        if end > len(sheet):
            return records, [Complaint(len(records), 2, at)]
        records.append(Record(at, kind, tuple(sheet[at + 1:end])))
        if kind == "Z":
            surplus = [Complaint(len(records) - 1, 8, end)] if end < len(sheet) else []
            return records, surplus
        at = end
    return records, [Complaint(len(records), 2, len(sheet))]


# Step two: complaints about whole records. ------------------------------------------------------------------

def shape_of(records):
    """Groups and pots; of no use when the first record is at fault, and then nobody uses them."""
    if records and records[0].kind == "G":
        return records[0].body
    return (0, 0)


def teams_of(groups, pots):
    return {16 * pot + ball for pot in range(pots) for ball in range(groups)}


def fields_in_range(record, groups, pots, teams):
    body = record.body
    if record.kind == "G":
        return body[0] in range(1, 17) and body[1] in range(1, 7)
    if record.kind == "T":
        pot, ball, association = body[:3]
        letters = bytes(body[3:])
        return (pot in range(pots) and ball in range(groups) and association in range(0, 65)
                and all(letter in b"ABCDEFGHIJKLMNOPQRSTUVWXYZ" for letter in letters))
    if record.kind == "X":
        return len(teams.intersection(body)) == 2
    if record.kind == "C":
        return body[0] in range(1, 65) and body[1] in range(1, 7)
    if record.kind == "B":
        return body[0] in teams and bits_of(record) in range(2 ** groups)
    if record.kind == "S":
        return body[0] in range(pots)
    return True


def bits_of(record):
    return int.from_bytes(bytes(record.body[1:]), "big")


def subject(record):
    """What only one record of a sheet may speak of; None for kinds that may repeat."""
    if record.kind == "T":
        return ("T",) + record.body[:2]
    if record.kind in ("B", "C", "S"):
        return (record.kind, record.body[0])
    if record.kind == "U":
        return ("U",)
    return None


def is_order(sixteen, groups):
    balls, rest = sixteen[:groups], sixteen[groups:]
    return sorted(balls) == list(range(groups)) and set(rest) <= {255}


def complaints(records):
    groups, pots = shape_of(records)
    teams = teams_of(groups, pots)

    # Where each subject is first spoken of.
    first = {}
    for index, record in enumerate(records):
        first.setdefault(subject(record), index)

    found = []

    def complain(index, number):
        found.append(Complaint(index, number, records[index].at))

    for index, record in enumerate(records):
        if (index == 0) != (record.kind == "G"):
            complain(index, 3)
        if not fields_in_range(record, groups, pots, teams):
            complain(index, 4)
        if subject(record) is not None and first[subject(record)] != index:
            complain(index, 5)
        if record.kind == "S" and not is_order(record.body[1:], groups):
            complain(index, 7)
        if record.kind == "Z" and not all_said(first, groups, pots):
            complain(index, 9)

    pairs = [index for index, record in enumerate(records) if record.kind == "X"]
    for index in pairs[MOST_PAIRS:]:
        complain(index, 6)
    return found


def all_said(subjects, groups, pots):
    """Whether the subjects of a sheet name every team once and exactly one kind of source."""
    teams = all(("T", pot, ball) in subjects for pot in range(pots) for ball in range(groups))
    scripts = {pot for pot in range(256) if ("S", pot) in subjects}
    if ("U",) in subjects:
        return teams and not scripts
    return teams and scripts.issuperset(range(pots))


# Step three: the verdict. ------------------------------------------------------------------------------------

class Sheet:
    """What a sheet in order says."""

    def __init__(self, records):
        by_kind = collections.defaultdict(list)
        for record in records:
            by_kind[record.kind].append(record)
        self.groups, self.pots = by_kind["G"][0].body
        self.teams = {16 * r.body[0] + r.body[1]: (r.body[2], bytes(r.body[3:]).decode("ascii")) for r in by_kind["T"]}
        self.pairs = [r.body for r in by_kind["X"]]
        self.caps = dict(r.body for r in by_kind["C"])
        self.bars = {r.body[0]: bits_of(r) for r in by_kind["B"]}
        self.seeds = [int.from_bytes(bytes(r.body), "big") for r in by_kind["U"]]
        self.orders = {r.body[0]: r.body[1:1 + self.groups] for r in by_kind["S"]}

    def code(self, number):
        return self.teams[number][1]


def read(sheet):
    records, cutting = cut(sheet)
    verdict = min(cutting + complaints(records), default=None)
    if verdict is not None:
        raise Refused(verdict.number, verdict.place)
    return Sheet(records)


# Printing. ---------------------------------------------------------------------------------------------------

def some(number, noun):
    return f"{number} {noun}" if number == 1 else f"{number} {noun}s"


def letter(group):
    return "ABCDEFGHIJKLMNOP"[group]


def block(title, lines):
    return [title + ":"] + lines if lines else [title + ": none"]


def listing(sheet):
    letters = "A" if sheet.groups == 1 else f"A to {letter(sheet.groups - 1)}"
    size = sheet.groups * sheet.pots
    lines = [f"{some(sheet.groups, 'group')} ({letters}), {some(sheet.pots, 'pot')}, {some(size, 'team')}"]
    for pot in range(sheet.pots):
        lines.append(f"Pot {pot + 1}")
        for number in range(16 * pot, 16 * pot + sheet.groups):
            association, code = sheet.teams[number]
            belongs = f"association {association}" if association else "no association"
            lines.append(f"  {number:2} {code} {belongs}")
    lines += block("Pairs", [f"  {a:2} {sheet.code(a)} and {b} {sheet.code(b)}" for a, b in sheet.pairs])
    lines += block("Caps", [f"  association {a}: at most {c} in a group" for a, c in sorted(sheet.caps.items())])
    barred = []
    for number, bits in sorted(sheet.bars.items()):
        letters = ", ".join(letter(group) for group in range(16) if bits & (1 << group))
        barred.append(f"  {number:2} {sheet.code(number)} " + (f"not in {letters}" if letters else "in any group"))
    lines += block("Bars", barred)
    if sheet.seeds:
        lines.append(f"Source: urn, seed {sheet.seeds[0]}")
    else:
        lines.append("Source: script")
        for pot, order in sorted(sheet.orders.items()):
            lines.append(f"  pot {pot + 1}:" + "".join(" " + sheet.code(16 * pot + ball) for ball in order))
    return "\n".join(lines)


def one_line(sheet):
    parts = [["ok", sheet.groups, sheet.pots]]
    parts += [["T", number, *entry] for number, entry in sorted(sheet.teams.items())]
    parts += [["X", a, b] for a, b in sheet.pairs]
    parts += [["C", *cap] for cap in sorted(sheet.caps.items())]
    parts += [["B", *bars] for bars in sorted(sheet.bars.items())]
    parts += [["U", seed] for seed in sheet.seeds]
    parts += [["S", pot, *order] for pot, order in sorted(sheet.orders.items())]
    return ", ".join(" ".join(str(word) for word in part) for part in parts)


def answer(sheet, form):
    try:
        return form(read(sheet))
    except Refused as refusal:
        return refusal.line()


def cases(text):
    """Each case as its form and its bytes."""
    lines = text.split("\n")
    if lines[-1] == "":
        lines.pop()
    for line in lines:
        form = one_line
        if line.startswith("list "):
            form, line = listing, line[len("list "):]
        yield form, bytes.fromhex(line)


def counts(text):
    tally = collections.Counter()
    for form, sheet in cases(text):
        try:
            read(sheet)
            tally["ok"] += 1
        except Refused as refusal:
            tally[f"refused {refusal.number}"] += 1
        tally["cases"] += 1
        tally["listed"] += form is listing
    return "".join(f"{name} {tally[name]}\n" for name in ["cases", "listed", "ok"] + [f"refused {n}" for n in range(1, 10)])


def main(words):
    if words == ["listing"]:
        out = answer(sys.stdin.buffer.read(TAKEN_BY_PROGRAM), listing) + "\n"
    elif words == ["answers"]:
        text = sys.stdin.buffer.read().decode("ascii")
        out = "".join(answer(sheet, form) + "\n" for form, sheet in cases(text))
    elif words == ["counts"]:
        out = counts(sys.stdin.buffer.read().decode("ascii"))
    else:
        sys.exit("usage: sheets.py listing | answers | counts")
    sys.stdout.buffer.write(out.encode("ascii"))
    sys.stdout.buffer.flush()


if __name__ == "__main__":
    main(sys.argv[1:])
