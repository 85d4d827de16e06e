#!/usr/bin/env python3
"""Runs the second program over cases whose answers were worked out by hand, from the text of docs/.

Offsets of sheets are counted by hand too: G takes 3 bytes, T 7, X 3, C 3, B 4, U 9, S 18, Z 1.
"""
import sys

import draws
import sheets

WORKED = ("47 02 02  54 00 00 01 41 41 41  54 00 01 02 42 42 42  54 01 00 01 43 43 43  54 01 01 03 44 44 44  43 01 01 "
          "53 00 01 00" + " ff" * 14 + " 53 01 01 00" + " ff" * 14)
ONE = "54 00 00 00 41 41 41"
URN = "55 00 00 00 00 00 00 00 2a"

SHEETS = [
    # What                                                  the sheet                                    the answer
    ("the empty sheet",                                     "",                                          "refused 1 2 0"),
    ("the worked sheet",                                    WORKED + " 5a",                              "ok 2 2, T 0 1 AAA, T 1 2 BBB, T 16 1 CCC, T 17 3 DDD, C 1 1, S 0 1 0, S 1 1 0"),
    ("no Z",                                                WORKED,                                      "refused 1 2 70"),
    ("a byte after Z",                                      WORKED + " 5a 00",                           "refused 1 8 71"),
    ("a second Z counts as a byte after Z",                 WORKED + " 5a 5a",                           "refused 1 8 71"),
    ("unknown first kind: 1, not 3",                        "00",                                        "refused 1 1 0"),
    ("Z first: 3, not 8 or 9",                              "5a 00",                                     "refused 1 3 0"),
    ("Z alone",                                             "5a",                                        "refused 1 3 0"),
    ("T first and cut short: 2, not 3",                     "54 00 00 00 41 41",                         "refused 1 2 0"),
    ("T first and whole",                                   "54 00 00 00 41 41 41",                      "refused 1 3 0"),
    ("G cut short",                                         "47 02",                                     "refused 1 2 0"),
    ("a later G, out of range as well: 3, not 4",           "47 01 01 47 00 00",                         "refused 1 3 3"),
    ("a later G cut short: 2",                              "47 01 01 47 00",                            "refused 1 2 3"),
    ("17 groups",                                           "47 11 01",                                  "refused 1 4 0"),
    ("a bad shape is told before the bad kind behind it",   "47 00 01 ff",                               "refused 1 4 0"),
    ("G and Z: no team, no source",                         "47 01 01 5a",                               "refused 1 9 3"),
    ("bytes after Z come before what is missing",           "47 01 01 5a 5a",                            "refused 1 8 4"),
    ("the shortest sheet in order",                         "47 01 01" + ONE + URN + "5a",               "ok 1 1, T 0 0 AAA, U 42"),
    ("U beside an S for every pot",                         "47 01 01" + ONE + URN + "53 00 00" + "ff" * 15 + "5a", "refused 1 9 37"),
    ("second T with a bad letter: 4, not 5",                "47 01 01" + ONE + "54 00 00 00 41 41 5b",   "refused 1 4 10"),
    ("second T",                                            "47 01 01" + ONE + ONE,                      "refused 1 5 10"),
    ("association 65 in a T",                               "47 01 01 54 00 00 41 41 41 41",             "refused 1 4 3"),
    ("association 64 in a T",                               "47 01 01 54 00 00 40 41 41 41" + URN + "5a", "ok 1 1, T 0 64 AAA, U 42"),
    ("association 0 in a C",                                "47 01 01 43 00 01",                         "refused 1 4 3"),
    ("cap 7",                                               "47 01 01 43 01 07",                         "refused 1 4 3"),
    ("second C with another cap",                           "47 01 01 43 01 06 43 01 05",                "refused 1 5 6"),
    ("X of one team with itself",                           "47 02 01 58 01 01",                         "refused 1 4 3"),
    ("X: ball 2 of a pot of two",                           "47 02 02 58 00 02",                         "refused 1 4 3"),
    ("X: 17 is ball 1 of pot 1",                            "47 02 02 58 00 11",                         "refused 1 2 6"),
    ("the 65th X",                                          "47 02 01" + "58 00 01" * 65,                "refused 1 6 195"),
    ("the 65th X out of range: 4, not 6",                   "47 02 01" + "58 00 01" * 64 + "58 00 02",   "refused 1 4 195"),
    ("the 65th X cut short: 2",                             "47 02 01" + "58 00 01" * 64 + "58 00",      "refused 1 2 195"),
    ("bar bit at the number of groups",                     "47 02 01 42 00 00 04",                      "refused 1 4 3"),
    ("bar bits below it",                                   "47 02 01 42 00 00 03",                      "refused 1 2 7"),
    ("bit 15 of sixteen groups",                            "47 10 01 42 0f 80 00",                      "refused 1 2 7"),
    ("second B, the first without a bit",                   "47 02 01 42 00 00 00 42 00 00 01",          "refused 1 5 7"),
    ("S: a ball past the pot is 7",                         "47 02 01 53 00 00 02" + "ff" * 14,          "refused 1 7 3"),
    ("S: a ball where 255 should be",                       "47 02 01 53 00 00 01" + "ff" * 13 + "00",   "refused 1 7 3"),
    ("S: a ball missing",                                   "47 02 01 53 00 00" + "ff" * 15,             "refused 1 7 3"),
    ("S: pot and order wrong: 4, not 7",                    "47 02 01 53 01 00 00" + "ff" * 14,          "refused 1 4 3"),
    ("second S, wrong order: 5, not 7",                     "47 02 01 53 00 00 01" + "ff" * 14 + "53 00 00 00" + "ff" * 14, "refused 1 5 21"),
    ("second U",                                            "47 01 01" + URN + URN,                      "refused 1 5 12"),
    ("S for one pot of two",                                "47 01 02" + ONE + "54 01 00 00 42 42 42 53 01 00" + "ff" * 15 + "5a", "refused 1 9 35"),
    ("U beside that S",                                     "47 01 02" + ONE + "54 01 00 00 42 42 42 53 01 00" + "ff" * 15 + URN + "5a", "refused 1 9 44"),
    ("X, C and B before their teams; the largest seed",     "47 02 01 58 01 00 43 40 06 42 01 00 00 54 00 01 40 5a 5a 5a 54 00 00 00 41 41 41 55" + "ff" * 8 + "5a",
     "ok 2 1, T 0 0 AAA, T 1 64 ZZZ, X 1 0, C 64 6, B 1 0, U 18446744073709551615"),
]

# The published outputs of SplitMix64.
MIXED_0 = (0xE220A8397B1DCDAF, 0x6E789E6AA1B965F4, 0x06C45D188009454F, 0xF88BB8A8724C81EC, 0x1B39896A51A8749B)
MIXED_1234567 = (6457827717110365317, 3203168211198807973, 9817491932198370423, 4593380528125082431, 16408922859458223821)

DRAWS = [
    # What, the case, the answer
    ("SplitMix64 from 0", "mix 0 5", " ".join(map(str, MIXED_0))),
    ("SplitMix64 from 1234567", "mix 1234567 5", " ".join(map(str, MIXED_1234567))),
    ("no output", "mix 0 0", ""),

    ("the urn of the text", "urn 4 1 0, give 0 0 0 0 0", "gave 3 0 2 1 - in"),
    ("a refusal does not move the number", "urn 4 2 0, give 7 0 2 0 0 255 0", "gave - 3 - 0 2 - 1 in 16 17 18 19"),
    # z mod 4 is 3, then 0. The sums of the hexadecimal digits of the next two z are 94 and 139; 16 is 1 modulo 3.
    ("one number for all pots", "urn 4 2 0, give 0 1 0 1", "gave 3 16 1 18 in 0 2 17 19"),
    ("an urn of one ball", "urn 1 1 5, give 0 0", "gave 0 - in"),
    ("an urn of no group", "urn 0 6 0, give 0", "gave - in"),
    ("more groups than there are balls", "urn 255 1 0, give", "gave in 0 1 2 3 4 5 6 7 8 9 10 11 12 13 14 15"),
    ("more pots than there are", "urn 1 255 0, give 6 5", "gave - 80 in 0 16 32 48 64"),

    ("two orders", "script 2 2, order 1 0, order 0 1, give 0 1 0 1 0", "gave 1 16 0 17 - in"),
    ("a pot that is not asked", "script 3 2, order 2 0 1, order 1 2 0, give 1 1 2 6", "gave 17 18 - - in 0 1 2 16"),
    ("an order past the last pot does not matter", "script 2 1, order 0 1, order 0 0, give 1 0", "gave - 0 in 1"),
    ("a pot without an order", "script 2 2, order 0 1, give 0", "refused"),
    ("a pot with none, before one that has", "script 2 2, order none, order 0 1, give 1", "refused"),
    ("a ball twice", "script 2 1, order 0 0, give 0", "refused"),
    ("a ball missing", "script 2 1, order 1, give 0", "refused"),
    ("a ball past the pot", "script 2 1, order 0 2, give 0", "refused"),
    ("a ball where 255 should be", "script 2 1, order 0 1 255 0, give 0", "refused"),
    ("sixteen balls leave no place for 255", "script 16 1, order 15 14 13 12 11 10 9 8 7 6 5 4 3 2 1 0, give 0 0", "gave 15 14 in 0 1 2 3 4 5 6 7 8 9 10 11 12 13"),
    ("17 groups", "script 17 1, order 0 1 2 3 4 5 6 7 8 9 10 11 12 13 14 15, give 0", "refused"),
    ("no group", "script 0 1, order 255, give 0", "refused"),
    ("no pot", "script 1 0, give 0", "refused"),
    ("seven pots", "script 1 7, order 0, order 0, order 0, order 0, order 0, order 0, give 0", "refused"),

    ("a seat taken, a team placed, no team, no group", "table 2 1, place 0:1 1:1 1:0 0:0 96:2 2:16", "yes no yes no no no table 0:1 1:0 full yes"),
    ("the same group takes a team of another pot", "table 2 2, place 0:1 16:1 17:1", "yes yes no table 0:1 16:1 full no"),
    ("taken off, and then again", "table 2 1, place 0:1, take 0 0 96, place 1:1 0:0", "yes 1 - - yes yes table 0:0 1:1 full yes"),
    ("the questions", "table 1 1, place 0:3 17:3, group 0 17 1 96, seat 0:3 1:3 2:3 0:2 6:3, together 0:17 17:0 0:1 1:2 0:0",
     "yes yes 3 3 - - 0 17 - - - yes yes no no yes table 0:3 17:3 full no"),
    ("a full draw", "table 2 2, place 0:0 1:1 16:1 17:0", "yes yes yes yes table 0:0 1:1 16:1 17:0 full yes"),
    ("a team too few", "table 2 2, place 0:0 1:1 16:1", "yes yes yes table 0:0 1:1 16:1 full no"),
    ("a team too many", "table 2 1, place 0:0 1:1 16:1", "yes yes yes table 0:0 1:1 16:1 full no"),
    ("a group that the shape has not", "table 2 1, place 0:0 1:2", "yes yes table 0:0 1:2 full no"),
    ("a shape of no team", "table 0 6", "table full yes"),

    ("one placement less", "compare, one 0:0 16:0, other 16:0", "contains yes contained no same no"),
    ("one placement more", "compare, one 16:0, other 0:0 16:0", "contains no contained yes same no"),
    ("another order", "compare, one 16:0 0:0, other 0:0 16:0", "contains yes contained yes same yes"),
    ("another group", "compare, one 0:0, other 0:1", "contains no contained no same no"),

    ("no rule, no placement", "rules", "pairs yes caps yes bars yes all yes"),
    ("a pair in one group", "rules, pairs 0:16, place 0:0 16:0", "pairs no caps yes bars yes all no"),
    ("a pair in two groups", "rules, pairs 0:16, place 0:0 17:0 16:1", "pairs yes caps yes bars yes all yes"),
    ("half a pair", "rules, pairs 0:16, place 0:0", "pairs yes caps yes bars yes all yes"),
    ("64 pairs", "rules, pairs" + " 1:17" * 63 + " 0:16, place 0:0 16:0", "pairs no caps yes bars yes all no"),
    ("65 pairs", "rules, pairs" + " 1:17" * 65 + ", bars 0:1, place 0:0", "pairs refused caps yes bars no all refused"),
    ("three of one association with cap 2, as drawn", "rules, of 0:1 16:1 32:1, caps 1:2, place 0:0 16:0 33:0 1:1 17:1 32:1", "pairs yes caps yes bars yes all yes"),
    ("the same in one group", "rules, of 0:1 16:1 32:1, caps 1:2, place 0:0 16:0 32:0 1:1 17:1 33:1", "pairs yes caps no bars yes all no"),
    ("the count is by group", "rules, of 0:1 1:1, caps 1:1, place 0:0 1:1", "pairs yes caps yes bars yes all yes"),
    ("another association does not count", "rules, of 0:1 16:2, caps 1:1, place 0:0 16:0", "pairs yes caps yes bars yes all yes"),
    ("nor does one without a cap", "rules, of 0:2 16:2, caps 1:1, place 0:0 16:0", "pairs yes caps yes bars yes all yes"),
    ("barred from B, in B", "rules, bars 1:2, place 1:1", "pairs yes caps yes bars no all no"),
    ("barred from B, in A", "rules, bars 1:2, place 1:0 0:1", "pairs yes caps yes bars yes all yes"),
    ("barred from P alone, and from all but P", "rules, bars 1:32768 2:32767, place 1:14 2:15", "pairs yes caps yes bars yes all yes"),
    ("pair 0 and 16, team 16 barred from B, as drawn", "rules, pairs 0:16, bars 16:2, place 1:0 16:0 0:1 17:1", "pairs yes caps yes bars yes all yes"),
    ("the same, otherwise", "rules, pairs 0:16, bars 16:2, place 0:0 17:0 1:1 16:1", "pairs yes caps yes bars no all no"),
    ("pair 0 and 16, as drawn", "rules, pairs 0:16, place 0:0 17:0 1:1 16:1", "pairs yes caps yes bars yes all yes"),
    ("the same, otherwise", "rules, pairs 0:16, place 0:0 16:0 1:1 17:1", "pairs no caps yes bars yes all no"),
    ("team 1 barred from B, as drawn", "rules, bars 1:2, place 0:1 1:0", "pairs yes caps yes bars yes all yes"),
    ("the same, otherwise", "rules, bars 1:2, place 0:0 1:1", "pairs yes caps yes bars no all no"),
    ("the worked sheet, as drawn", "rules, of 0:1 1:2 16:1 17:3, caps 1:1, place 1:0 0:1 17:1 16:0", "pairs yes caps yes bars yes all yes"),
    ("the same with DDD in A", "rules, of 0:1 1:2 16:1 17:3, caps 1:1, place 1:0 0:1 17:0 16:1", "pairs yes caps no bars yes all no"),
]


def answers():
    for what, text, expected in SHEETS:
        yield what, expected, sheets.answer(bytes.fromhex(text), sheets.one_line)
    for what, case, expected in DRAWS:
        yield what, expected, draws.answer(case)


def main():
    wrong = 0
    for what, expected, answer in answers():
        if answer != expected:
            wrong += 1
            print(f"{what}: by hand '{expected}', by program '{answer}'")
    print(f"{len(SHEETS)} sheets and {len(DRAWS)} draw cases worked out by hand, {wrong} answered otherwise")
    sys.exit(1 if wrong or not SHEETS or not DRAWS else 0)


if __name__ == "__main__":
    main()
