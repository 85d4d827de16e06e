#!/usr/bin/env python3
"""Writes draw cases (docs/SECOND.md): tables, clash rules and ball sources. Always the same bytes.

    python3 second/draw_cases.py

The first are those worked out by hand. No answer is worked out here. That each question is answered both ways often enough is told by
`second/draws.py counts`.
"""
import sys

from by_hand import DRAWS
from cases import Chance

SEEDS = [0, 1, 2, 3, 41, 42, 255, 256, 1234567, 20260611, 2 ** 31, 2 ** 32 - 1, 2 ** 32, 2 ** 53 + 1, 2 ** 63 - 1, 2 ** 63,
         2 ** 64 - 2, 2 ** 64 - 1, 0x9E3779B97F4A7C15, 2 ** 64 - 0x9E3779B97F4A7C15, 0x0102030405060708, 10 ** 19]
SIZES = [(groups, pots) for groups in range(1, 17) for pots in range(1, 7)]
ODD_SIZES = [(groups, pots) for groups in (0, 1, 3, 16, 17, 18, 31, 32, 255) for pots in (0, 1, 2, 6, 7, 8, 16, 255)
             if not (groups in range(1, 17) and pots in range(1, 7))]


def part(word, items):
    return " ".join([word, *map(str, items)])


def doubles(items):
    return [f"{first}:{second}" for first, second in items]


def case(*parts):
    return ", ".join(parts)


def some_seed(chance):
    return chance.below(2 ** 31) * 2 ** 33 + chance.below(2 ** 31) * 4 + chance.below(4)


# Ball sources. -------------------------------------------------------------------------------------------------

def mixes(out, chance):
    for seed in SEEDS:
        out.append(f"mix {seed} 5")
    for count in (0, 1, 2, 100):
        out.append(f"mix 7 {count}")
    for _ in range(230):
        out.append(f"mix {some_seed(chance)} {1 + chance.below(4)}")


def whole_draw(groups, pots):
    return [pot for pot in range(pots) for _ in range(groups)]


def asks(chance, groups, pots):
    """Pots in any order: about as many of each as it has balls, and some that there are not."""
    wanted = [pot for pot in range(pots) for _ in range(chance.below(groups + 3))]
    wanted += [chance.pick([pots, pots + 1, 6, 15, 16, 17, 127, 255]) for _ in range(chance.below(3))]
    return chance.shuffled(wanted)


def urns(out, chance):
    def urn(groups, pots, seed, asked):
        out.append(case(f"urn {groups} {pots} {seed}", part("give", asked)))

    for seed in SEEDS:
        urn(4, 1, seed, [0] * 5)
        urn(3, 2, seed, [1, 0, 0, 1, 1, 1, 0, 0])
    for groups, pots in SIZES:
        urn(groups, pots, some_seed(chance), whole_draw(groups, pots))
        urn(groups, pots, some_seed(chance), chance.shuffled(whole_draw(groups, pots)))
        for _ in range(3):
            urn(groups, pots, some_seed(chance), asks(chance, groups, pots))
    for groups, pots in ODD_SIZES:
        urn(groups, pots, some_seed(chance), [])
        urn(groups, pots, some_seed(chance), asks(chance, min(groups, 16), min(pots, 6)))
    # A refusal leaves the number as it is: the same balls, with refusals between and without.
    for _ in range(40):
        seed = some_seed(chance)
        pots = chance.shuffled(whole_draw(4, 3))
        urn(4, 3, seed, pots)
        urn(4, 3, seed, [ask for pot in pots for ask in [chance.pick([3, 6, 255])] * chance.below(2) + [pot]])
    for pot in range(256):
        if pot < 8 or pot % 16 in (0, 5, 15):
            urn(16, 6, pot, [pot, pot, 5])


def order(chance, groups):
    return chance.shuffled(range(groups))


def damaged(chance, balls):
    """An order that is none any more, in most cases, or None for a pot without one."""
    balls = list(balls)
    at = chance.below(len(balls))
    way = chance.below(6)
    if way == 0:
        balls[at] = chance.pick(balls)
    elif way == 1:
        balls[at] = chance.pick([len(balls), 15, 16, 254, 255])
    elif way == 2:
        del balls[at]
    elif way == 3:
        balls.insert(at, chance.pick([0, len(balls), 255]))
    elif way == 4 and len(balls) < 16:
        balls += [255] * chance.below(16 - len(balls)) + [chance.pick([0, 1, len(balls), 254])]
    else:
        return None
    return balls[:16]


def scripts(out, chance):
    def script(groups, pots, orders, asked):
        # An order of no number is written as one of 255, which it is filled up with.
        parts = [part("order", ["none"] if balls is None else balls or [255]) for balls in orders]
        out.append(case(f"script {groups} {pots}", *parts, part("give", asked)))

    for groups, pots in SIZES:
        orders = [order(chance, groups) for _ in range(pots)]
        script(groups, pots, orders, whole_draw(groups, pots))
        script(groups, pots, orders, chance.shuffled(whole_draw(groups, pots)))
        for _ in range(2):
            # Orders for pots that the shape has not do no harm, whatever they are.
            more = [chance.pick([None, [0], order(chance, groups)]) for _ in range(chance.below(7 - pots))]
            script(groups, pots, [order(chance, groups) for _ in range(pots)] + more, asks(chance, groups, pots))
        spoilt = chance.below(pots)
        orders[spoilt] = damaged(chance, orders[spoilt])
        script(groups, pots, orders, [spoilt])
        script(groups, pots, [order(chance, groups) for _ in range(pots - 1)], [0])
    for groups, pots in ODD_SIZES:
        balls = order(chance, min(groups, 16))
        script(groups, pots, [balls] * min(pots, 6), [0, 1])
    for _ in range(250):
        groups, pots = 1 + chance.below(5), 1 + chance.below(3)
        orders = [order(chance, groups) for _ in range(pots)]
        spoilt = chance.below(pots)
        orders[spoilt] = damaged(chance, orders[spoilt])
        script(groups, pots, orders, asks(chance, groups, pots))
    for balls in ([0, 1], [1, 0], [0, 0], [1, 1], [0], [1], [0, 2], [2, 0], [0, 1, 0], [0, 1, 2], [255, 0, 1], [0, 255, 1], [0, 1, 255, 0], []):
        script(2, 1, [balls], [0, 0, 0])
        script(2, 2, [balls, [1, 0]], [1, 0, 1, 0])
        script(2, 2, [[1, 0], balls], [1, 0, 1, 0])


# Tables. -------------------------------------------------------------------------------------------------------

def full_draw(chance, groups, pots):
    return [(16 * pot + ball, group) for pot in range(pots) for ball, group in enumerate(chance.shuffled(range(groups)))]


def partial(chance, placings):
    """Some of the placings, in any order."""
    return chance.shuffled(placings)[:chance.below(len(placings) + 1)]


def some_steps(chance, groups, pots):
    """Placings, many of which meet a team or a seat that is taken, takings and questions."""
    teams = [16 * pot + ball for pot in range(pots) for ball in range(groups)]

    def team():
        return chance.pick([chance.pick(teams)] * 12 + [95, 96, 97, 255])

    def group():
        return chance.pick([chance.below(groups)] * 12 + [15, 16, 17, 255])

    steps = []
    for _ in range(1 + chance.below(5)):
        steps.append(part("place", doubles((team(), group()) for _ in range(1 + chance.below(2 * groups)))))
        if chance.once_in(2):
            steps.append(part("take", [team() for _ in range(1 + chance.below(3))]))
        if chance.once_in(3):
            steps.append(part("group", [team() for _ in range(1 + chance.below(3))]))
        if chance.once_in(3):
            steps.append(part("seat", doubles((chance.below(pots + 1), group()) for _ in range(1 + chance.below(3)))))
        if chance.once_in(3):
            steps.append(part("together", doubles((team(), team()) for _ in range(1 + chance.below(3)))))
    return steps


def nearly_full(chance, groups, pots):
    """Steps to a table that misses a full draw by one placement, if at all."""
    placings = chance.shuffled(full_draw(chance, groups, pots))
    team, group = placings[-1]
    way = chance.below(5)
    if way == 0:
        placings.pop()
    elif way == 1:
        placings[-1] = (team, chance.pick([groups, 15]))
    elif way == 2:
        placings.append((16 * (team // 16) + chance.pick([groups, 15]), chance.pick([groups, 15])))
    elif way == 3:
        placings.append((16 * pots, group))
    return [part("place", doubles(placings))]


def tables(out, chance):
    def table(groups, pots, steps):
        out.append(case(f"table {groups} {pots}", *steps))

    table(1, 1, [])
    for groups, pots in ODD_SIZES:
        table(groups, pots, [])
        placings = full_draw(chance, min(groups, 16), min(pots, 6))
        table(groups, pots, [part("place", doubles(placings))])
    for groups, pots in SIZES:
        table(groups, pots, [part("place", doubles(full_draw(chance, groups, pots)))])
        table(groups, pots, nearly_full(chance, groups, pots))
    for _ in range(150):
        groups, pots = 1 + chance.below(5), 1 + chance.below(4)
        table(groups, pots, nearly_full(chance, groups, pots))
    # Every number as a team and as a group.
    for number in range(256):
        table(16, 6, [part("place", doubles([(number, 3), (17, 3), (16, number)])), part("group", [number]), part("take", [number])])
    for number in range(0, 256, 5):
        table(16, 6, [part("place", doubles([(35, number % 16)])), part("seat", doubles([(2, number), (number, number % 16)]))])
    for _ in range(500):
        groups, pots = 1 + chance.below(5), 1 + chance.below(4)
        table(groups, pots, some_steps(chance, groups, pots))


def compares(out, chance):
    def compare(one, other):
        out.append(case("compare", part("one", doubles(one)), part("other", doubles(other))))

    compare([], [])
    for _ in range(120):
        full = full_draw(chance, 1 + chance.below(6), 1 + chance.below(4))
        compare(partial(chance, full), partial(chance, full))
        # The same in another order.
        some = partial(chance, full)
        compare(some, chance.shuffled(some))
        # One less, one more, and one that stands elsewhere.
        less = some[1:]
        compare(chance.shuffled(some), less)
        compare(less, chance.shuffled(some))
        moved = [(team, (group + 1) % 16 if at == 0 else group) for at, (team, group) in enumerate(some)]
        compare(moved, some)


# Rules. --------------------------------------------------------------------------------------------------------

def some_pairs(chance, teams, count):
    return [tuple(chance.shuffled(teams)[:2]) if len(teams) > 1 else (teams[0], teams[0]) for _ in range(count)]


def rule_parts(chance, groups, pots):
    """Pairs, associations, caps and bars, so few that many tables are admitted."""
    teams = [16 * pot + ball for pot in range(pots) for ball in range(groups)]
    pairs = some_pairs(chance, teams, chance.below(3 + groups))
    associations = [1, 2, 3, 63, 64][:1 + chance.below(5)]
    of = [(team, chance.pick(associations)) for team in teams if not chance.once_in(4)]
    caps = [(association, 1 + chance.below(max(1, pots - 2))) for association in chance.shuffled(associations)[:chance.below(4)]]
    barred = chance.shuffled(teams)[:chance.below(5)]
    bars = [(team, chance.below(2 ** groups) & chance.below(2 ** groups)) for team in barred]
    return pairs, of, caps, bars


def rules(out, chance):
    def rule(pairs, of, caps, bars, placings):
        named = (("pairs", pairs), ("of", of), ("caps", caps), ("bars", bars), ("place", placings))
        out.append(case("rules", *(part(word, doubles(items)) for word, items in named if items)))

    rule([], [], [], [], [])
    for _ in range(1500):
        groups, pots = 1 + chance.below(5), 1 + chance.below(5)
        placings = full_draw(chance, groups, pots)
        rule(*rule_parts(chance, groups, pots), chance.pick([placings, partial(chance, placings)]))
    for _ in range(60):
        rule(*rule_parts(chance, 16, 6), partial(chance, full_draw(chance, 16, 6)))
    # One rule at a time, so that the others cannot decide.
    for _ in range(250):
        groups, pots = 2 + chance.below(4), 2 + chance.below(4)
        pairs, of, caps, bars = rule_parts(chance, groups, pots)
        placings = full_draw(chance, groups, pots)
        rule(pairs, [], [], [], placings)
        rule([], of, caps, [], placings)
        rule([], [], [], bars, placings)
        rule([], of, [], [], placings)
    # About as many pairs as can be listed; only the last one may be broken.
    placings = [(team, team % 16) for team in range(32)]
    for count in (1, 2, 63, 64, 65, 66, 70):
        apart = [(chance.below(8), 24 + chance.below(8)) for _ in range(count - 1)]
        for last in ((3, 19), (19, 3), (3, 20), (3, 3), (96, 96), (40, 40), (3, 96), (255, 0)):
            rule(apart + [last], [], [], [], placings)
            rule([last] + apart, [(3, 1), (19, 1)], [(1, 1)], [(3, 8)], placings[:19])
    # The edges of what the rules can be told.
    six = [(16 * pot, 5) for pot in range(6)]
    for association in (0, 1, 2, 63, 64, 65, 128, 255):
        of = [(team, association) for team, _ in six]
        for cap in (0, 1, 5, 6, 7, 255):
            rule([], of, [(association if association <= 64 else 1, cap)], [], six)
            rule([], of, [(1, cap)], [], six[:1])
    for group in range(16):
        for bits in (2 ** group, 2 ** 16 - 1 - 2 ** group, 0, 2 ** 16 - 1, 2 ** ((group + 1) % 16)):
            rule([], [], [], [(95, bits), (0, 1)], [(95, group), (1, 0)])
    # The count is by group, not over the table.
    for cap in range(1, 4):
        spread = [(16 * pot + ball, group) for pot in range(3) for ball, group in enumerate(chance.shuffled(range(3)))]
        for one in range(3):
            rule([], [(team, 1 if team % 16 == one else 2) for team, _ in spread], [(1, cap), (2, 4 - cap)], [], spread)


def all_cases():
    out = [case for _, case, _ in DRAWS]
    chance = Chance(20261118)
    mixes(out, chance)
    urns(out, chance)
    scripts(out, chance)
    tables(out, chance)
    compares(out, chance)
    rules(out, chance)
    return list(dict.fromkeys(out))


if __name__ == "__main__":
    sys.stdout.buffer.write("".join(line + "\n" for line in all_cases()).encode("ascii"))
    sys.stdout.buffer.flush()
