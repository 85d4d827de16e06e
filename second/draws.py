#!/usr/bin/env python3
"""The second program's tables, clash rules and ball sources, by docs/TABLES.md, docs/RULES.md and docs/SOURCES.md.

    python3 second/draws.py answers < CASES      one answer for each draw case (docs/SECOND.md)
    python3 second/draws.py counts  < CASES      how many cases of each kind, and how they are answered

A table is a dict from team to group. A rule is asked by turning the table into sets and counting in them; a source
keeps its balls in lists and takes them out.
"""
import collections
import sys

TEAMS = 96
GROUPS = 16
MOST_PAIRS = 64
WORD = 2 ** 64


def teams_of(groups, pots):
    """The teams of a shape of any size: what the numbers of teams leave of it."""
    return [team for team in range(TEAMS) if team % 16 < groups and team // 16 < pots]


# Ball sources. -------------------------------------------------------------------------------------------------

def split_mix(seed):
    """The outputs of SplitMix64, without end."""
    s = seed
    while True:
        s = (s + 0x9E3779B97F4A7C15) % WORD
        z = s
        z = (z ^ z // 2 ** 30) * 0xBF58476D1CE4E5B9 % WORD
        z = (z ^ z // 2 ** 27) * 0x94D049BB133111EB % WORD
        yield z ^ z // 2 ** 31


class Urn:
    def __init__(self, groups, pots, seed):
        self.balls = teams_of(groups, pots)
        self.chance = split_mix(seed)

    def give(self, pot):
        of_pot = sorted(team for team in self.balls if team // 16 == pot)
        if not of_pot:
            return None
        # The balls before a place of the sorted list are those that are lower.
        team = of_pot[next(self.chance) % len(of_pot)]
        self.balls.remove(team)
        return team

    def still_in(self):
        return sorted(self.balls)


class Script:
    def __init__(self, orders):
        """By pot, the balls in the order in which they come."""
        self.coming = {pot: collections.deque(16 * pot + ball for ball in order) for pot, order in enumerate(orders)}

    def give(self, pot):
        if not self.coming.get(pot):
            return None
        return self.coming[pot].popleft()

    def still_in(self):
        return sorted(team for coming in self.coming.values() for team in coming)


def script_of(groups, pots, orders):
    """The script of a shape and of orders of sixteen numbers, or None."""
    if groups not in range(1, 17) or pots not in range(1, 7):
        return None
    taken = []
    for pot in range(pots):
        order = orders[pot] if pot < len(orders) else None
        if order is None or collections.Counter(order[:groups]) != collections.Counter(range(groups)):
            return None
        if order[groups:] != [255] * (16 - groups):
            return None
        taken.append(order[:groups])
    return Script(taken)


# Tables. -------------------------------------------------------------------------------------------------------

class Table:
    def __init__(self):
        self.group = {}

    def seats(self):
        """The pots and groups that have a team, with that team."""
        return {(team // 16, group): team for team, group in self.group.items()}

    def place(self, team, group):
        refused = team >= TEAMS or group >= GROUPS or team in self.group or (team // 16, group) in self.seats()
        if not refused:
            self.group[team] = group
        return not refused

    def place_all(self, placings):
        for team, group in placings:
            self.place(team, group)
        return self

    def placements(self):
        return set(self.group.items())

    def groups(self):
        """The teams of each group that has any."""
        found = collections.defaultdict(set)
        for team, group in self.group.items():
            found[group].add(team)
        return found

    def is_full_draw(self, groups, pots):
        return set(self.group) == set(teams_of(groups, pots)) and set(self.group.values()) <= set(range(groups))


# Clash rules: each is asked whether it admits a table. ----------------------------------------------------------

def pairs_rule(pairs):
    listed = [set(pair) for pair in pairs]
    return lambda table: not any(pair <= teams for teams in table.groups().values() for pair in listed)


def caps_rule(association, caps):
    def admits(table):
        count = collections.Counter((group, association.get(team)) for team, group in table.group.items())
        return all(number <= caps[one] for (_, one), number in count.items() if one in caps)
    return admits


def bars_rule(bars):
    barred = {(team, group) for team, bits in bars.items() for group in range(GROUPS) if bits // 2 ** group % 2}
    return lambda table: not barred & table.placements()


def both(first, second):
    return lambda table: first(table) and second(table)


# Cases and their answers. --------------------------------------------------------------------------------------

def numbers(words):
    return [int(word) for word in words]


def two(words):
    """Words such as 16:3, each as two numbers."""
    return [tuple(numbers(word.split(":"))) for word in words]


def named(name, part):
    """The words of a part behind its name."""
    if part[0] != name:
        raise ValueError(part)
    return part[1:]


def said(yes):
    return "yes" if yes else "no"


def or_dash(number):
    return "-" if number is None else str(number)


def mixed(head, parts):
    seed, count = numbers(head)
    return [str(number) for number, _ in zip(split_mix(seed), range(count))]


def asked(source, words):
    if source is None:
        return ["refused"]
    gave = [or_dash(source.give(pot)) for pot in numbers(words)]
    return ["gave", *gave, "in", *map(str, source.still_in())]


def asked_urn(head, parts):
    ask, = parts
    return asked(Urn(*numbers(head)), named("give", ask))


def order_of(words):
    return None if words == ["none"] else numbers(words) + [255] * (16 - len(words))


def asked_script(head, parts):
    *orders, ask = parts
    orders = [order_of(named("order", order)) for order in orders]
    return asked(script_of(*numbers(head), orders), named("give", ask))


def stepped(table, what, words):
    """The answers of a table to the words of one part."""
    if what == "place":
        return [said(table.place(*placing)) for placing in two(words)]
    if what == "take":
        return [or_dash(table.group.pop(team, None)) for team in numbers(words)]
    if what == "group":
        return [or_dash(table.group.get(team)) for team in numbers(words)]
    if what == "seat":
        return [or_dash(table.seats().get(seat)) for seat in two(words)]
    if what == "together":
        return [said(any({*pair} <= teams for teams in table.groups().values())) for pair in two(words)]
    raise ValueError(what)


def stepped_table(head, parts):
    table = Table()
    answers = [answer for what, *words in parts for answer in stepped(table, what, words)]
    placements = [f"{team}:{group}" for team, group in sorted(table.placements())]
    return [*answers, "table", *placements, "full", said(table.is_full_draw(*numbers(head)))]


def compared(head, parts):
    tables = {"one": Table(), "other": Table()}
    for name, *words in parts:
        tables[name].place_all(two(words))
    one, other = (table.placements() for table in tables.values())
    return ["contains", said(other <= one), "contained", said(one <= other), "same", said(one == other)]


def judged(head, parts):
    found = {name: [] for name in ("pairs", "of", "caps", "bars", "place")}
    for name, *words in parts:
        found[name] += two(words)
    table = Table().place_all(found["place"])
    caps = caps_rule(dict(found["of"]), dict(found["caps"]))
    bars = bars_rule(dict(found["bars"]))
    pairs, joined = "refused", "refused"
    if len(found["pairs"]) <= MOST_PAIRS:
        rule = pairs_rule(found["pairs"])
        pairs, joined = said(rule(table)), said(both(rule, both(caps, bars))(table))
    return ["pairs", pairs, "caps", said(caps(table)), "bars", said(bars(table)), "all", joined]


KINDS = {
    "mix": mixed,
    "urn": asked_urn,
    "script": asked_script,
    "table": stepped_table,
    "compare": compared,
    "rules": judged,
}


def answer(line):
    (kind, *head), *parts = [part.split() for part in line.split(",")]
    return " ".join(KINDS[kind](head, parts))


def tallied(line):
    """What a case and its answer count for."""
    kind = line.replace(",", " ").split()[0]
    words = answer(line).split()
    yield "cases"
    yield f"{kind} cases"
    if kind in ("urn", "script"):
        yield f"{kind} " + ("refused" if words == ["refused"] else "made")
        gave = words[1:words.index("in")] if "in" in words else []
        yield from (f"{kind} asks " + ("refused" if word == "-" else "given") for word in gave)
    if kind == "table":
        yield from (f"table steps {word}" for word in words[:words.index("table")] if word in ("yes", "no", "-"))
    if kind in ("table", "compare", "rules"):
        words = words[words.index("full"):] if kind == "table" else words
        yield from (f"{kind} {what} {word}" for what, word in zip(words[::2], words[1::2]))


def counts(lines):
    tally = collections.Counter(name for line in lines for name in tallied(line))
    return "".join(f"{name} {number}\n" for name, number in tally.items())


def main(words):
    if words not in (["answers"], ["counts"]):
        sys.exit("usage: draws.py answers | counts")
    lines = sys.stdin.buffer.read().decode("ascii").splitlines()
    out = counts(lines) if words == ["counts"] else "".join(answer(line) + "\n" for line in lines)
    sys.stdout.buffer.write(out.encode("ascii"))
    sys.stdout.buffer.flush()


if __name__ == "__main__":
    main(sys.argv[1:])
