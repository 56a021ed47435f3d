#!/usr/bin/env python3
"""Writes five rule tables beside this script, the same bytes each time.

harbour.table           the small rulebook T of the requirements, 63 bytes
harbour-standard.table  the same by the convention profile: its two rules beside a group have a group of their own
scouts.table            an expansion for either of these: the scout may not attack
rulebook.table          a rulebook of a whole game: 12 characters, 20 places, 10 deeds
naval.table             a naval game: 6 seats in a ring, 8 waters round an island, 4 deeds

A group is one of the four combining ways over a list of groups and cards. A card is permit(number, ..) or
deny(number, ..). Each names the characters, places and deeds that it is for, as "thief" or "smuggler..thief"; what is
left out is all of them. A range may go round from the last name to the first: "seat4..seat1".
"""
from pathlib import Path

HARBOUR = """
00 3D 01 02 01 01 00 05
03 00 05 00 00 00 02 00 01 00 01
04 00 01 00 0A 00 02 00 01 00 00
05 00 01 00 14 02 02 00 00 00 00
00 00 02 00 00 01 01 00 01 01 01
04 00 01 00 1E 00 02 01 01 00 01
"""

HARBOUR_STANDARD = """
00 48 01 02 01 01 00 06
03 00 06 00 00 00 02 00 01 00 01
03 00 03 00 00 00 02 00 01 00 01
04 00 01 00 0A 00 02 00 01 00 00
05 00 01 00 14 02 02 00 00 00 00
00 00 02 00 00 01 01 00 01 01 01
04 00 01 00 1E 00 02 01 01 00 01
"""

SCOUTS = """
00 1C 01 02 01 01 00 02
00 00 02 00 00 00 02 00 01 01 01
05 00 01 00 28 00 00 00 01 00 01
"""

# Subjects, resources and actions; cards speak of neighbours together.
CHARACTERS = """
scout captain pilot carpenter
merchant innkeeper healer priest
guard judge
smuggler thief
""".split()

PLACES = """
quay shipyard lighthouse warehouse customs
market tavern chapel hospital bathhouse
courthouse prison barracks gate
road bridge mill
forest cave ruins
""".split()

DEEDS = """
talk trade rest heal
search arrest
attack
smuggle steal burn
""".split()


def values(names, words):
    """Low and high of "name" or "first..last"; of all names for None."""
    if words is None:
        return 0, len(names) - 1
    first, _, last = words.partition("..")
    return names.index(first), names.index(last or first)


def node(kind, card, children, *target):
    return kind, card, target, children


def first_applicable(children, character=None, place=None, deed=None):
    return node(0, 0, children, character, place, deed)


def only_one_applicable(children, character=None, place=None, deed=None):
    return node(1, 0, children, character, place, deed)


def permit_overrides(children, character=None, place=None, deed=None):
    return node(2, 0, children, character, place, deed)


def deny_overrides(children, character=None, place=None, deed=None):
    return node(3, 0, children, character, place, deed)


def permit(card, character=None, place=None, deed=None):
    return node(4, card, [], character, place, deed)


def deny(card, character=None, place=None, deed=None):
    return node(5, card, [], character, place, deed)


# Cards 100 to 199: what everyone does.
DAILY_LIFE = permit_overrides([
    permit(101, deed="talk"),
    permit(102, deed="trade", place="market"),
    permit(103, deed="rest", place="tavern..bathhouse"),
    first_applicable([
        deny(111, character="smuggler..thief", place="chapel"),
        permit(112, deed="rest", place="chapel"),
        permit(113, character="priest", place="chapel"),
    ], place="chapel"),
    first_applicable([
        permit(121, character="healer"),
        permit(122, character="priest", place="chapel..hospital"),
        deny(123, place="forest..ruins"),
        permit(124, character="scout", place="road..ruins"),
    ], deed="heal"),
])

# Cards 200 to 299: the harbour, where the crew trades and customs looks on.
HARBOUR_LAW = deny_overrides([
    permit(201, character="scout..carpenter", deed="talk..rest"),
    permit(202, character="merchant", deed="trade"),
    deny(203, place="customs", deed="attack..burn"),
    first_applicable([
        permit(211, character="carpenter"),
        permit(212, character="captain..pilot", deed="talk..search"),
        deny(213, deed="trade..rest"),
    ], place="shipyard"),
    only_one_applicable([
        permit(221, character="captain", deed="search"),
        permit(222, character="guard", deed="search"),
        permit(223, character="captain..guard", place="warehouse", deed="search"),
    ], place="quay..warehouse", deed="search"),
    permit_overrides([
        permit(231, character="pilot"),
        deny(232, character="merchant..thief"),
        permit(233, character="guard..judge", deed="search..arrest"),
    ], place="lighthouse"),
    deny(241, character="smuggler..thief", deed="trade"),
], place="quay..customs")

# Cards 300 to 399: the watch. Of the cards and groups on searching only one may apply. The group of the prison and the
# barracks applies to everyone there: beside it the judge has card 312 in the prison, and the players must agree.
WATCH = first_applicable([
    deny_overrides([
        permit(301, character="guard", deed="arrest"),
        deny(302, place="chapel..hospital", deed="arrest"),
        permit(303, character="judge", place="courthouse", deed="arrest"),
    ], character="guard..judge", deed="arrest"),
    deny(304, deed="arrest"),
    only_one_applicable([
        permit(311, character="guard", place="quay..gate"),
        permit(312, character="judge", place="courthouse..prison"),
        permit(313, character="captain", place="quay..shipyard"),
        deny(314, place="chapel"),
        permit_overrides([
            permit(315, character="guard", place="prison..barracks"),
            permit(316, character="priest", place="prison"),
        ], place="prison..barracks"),
    ], deed="search"),
], deed="search..arrest")

# Cards 400 to 499: crime, and where it pays.
CRIME = first_applicable([
    deny(401, character="priest"),
    permit_overrides([
        permit(411, character="smuggler", place="warehouse"),
        permit(412, character="smuggler", place="forest..ruins"),
        permit(413, character="captain", place="cave"),
        deny(414, place="customs..gate"),
        only_one_applicable([
            permit(415, character="smuggler..thief"),
            permit(416, character="pilot..smuggler"),
        ], place="road"),
    ], deed="smuggle"),
    deny_overrides([
        permit(421, character="thief"),
        deny(422, place="chapel..hospital"),
        deny(423, place="prison..barracks"),
        only_one_applicable([
            permit(424, character="thief"),
            permit(425, character="smuggler..thief", place="market"),
        ], place="market..tavern"),
    ], deed="steal"),
    deny(431, place="quay..gate", deed="burn"),
    first_applicable([
        permit(432, character="carpenter", place="mill"),
        deny(433, place="forest..cave"),
        permit(434, character="thief", place="ruins"),
    ], place="mill..ruins", deed="burn"),
], deed="smuggle..burn")

# Cards 500 to 599: fights, inside the walls and outside.
FIGHTS = deny_overrides([
    deny(501, place="chapel..hospital"),
    first_applicable([
        permit(511, character="guard", place="quay..gate"),
        permit(512, character="scout..captain", place="quay..shipyard"),
        deny(513, place="quay..gate"),
    ]),
    only_one_applicable([
        permit(521, character="scout..pilot"),
        permit(522, character="smuggler..thief"),
        permit(523, character="captain..guard", place="bridge"),
        permit_overrides([
            permit(524, character="guard"),
            deny(525, character="judge"),
        ], character="guard..judge", place="road..bridge"),
    ], place="road..ruins"),
    deny(531, character="innkeeper..priest"),
], deed="attack")

# What outranks the other cards: a truce at the bridge and the mill, and the judge's word in court.
TRUCE = first_applicable([
    deny(601, place="bridge..mill", deed="attack..burn"),
    deny_overrides([
        permit(602, character="judge"),
        deny(603, character="smuggler..thief", deed="trade..rest"),
    ], place="courthouse", deed="talk..arrest"),
])

# The truce outranks harbour law, and that the rest. Of the last three only one applies: each has deeds of its own.
RULEBOOK = first_applicable([
    TRUCE,
    HARBOUR_LAW,
    permit_overrides([DAILY_LIFE, only_one_applicable([WATCH, FIGHTS, CRIME])]),
])

# The naval game: a captain on each seat, and waters clockwise round an island.
SEATS = [f"seat{number}" for number in range(6)]

WATERS = """
north northeast east southeast
south southwest west northwest
""".split()

NAVAL_DEEDS = "sail fish board fire".split()

# Seats 4, 5, 0 and 1 are the northern fleet, seats 2 and 3 the southern. Card 701 is for every seat, from seat 3 all
# the way round. In the duels of the south seats 2 and 5 have both cards, and the players must agree.
NAVAL = first_applicable([
    deny(701, "seat3..seat2", "south", "fish"),
    permit(702, "seat4..seat1", "west..east", "fish"),
    permit(703, "seat2..seat3", "east..west", "fish"),
    permit(704, deed="sail"),
    first_applicable([
        deny(711, "seat5..seat0", "northwest..north", "fire"),
        permit(712, "seat0..seat4", "northwest..east"),
    ], "seat4..seat1", deed="board..fire"),
    only_one_applicable([
        permit(721, "seat5..seat2"),
        deny(722, "seat2..seat5"),
    ], place="southeast..southwest", deed="board..fire"),
])


def records(tree, fields):
    """A record of 11 bytes for each node, a node before those under it."""
    kind, card, target, children = tree
    under = b"".join(records(child, fields) for child in children)
    span = 1 + len(under) // 11
    ends = bytes(end for names, words in zip(fields, target) for end in values(names, words))
    return bytes([kind]) + span.to_bytes(2, "big") + card.to_bytes(2, "big") + ends + under


def table(tree, *fields):
    body = records(tree, fields)
    maxima = bytes(len(names) - 1 for names in fields)
    rest = bytes([1]) + maxima + (len(body) // 11).to_bytes(2, "big") + body
    return len(rest).to_bytes(2, "big") + rest


if __name__ == "__main__":
    here = Path(__file__).parent
    (here / "harbour.table").write_bytes(bytes.fromhex(HARBOUR))
    (here / "harbour-standard.table").write_bytes(bytes.fromhex(HARBOUR_STANDARD))
    (here / "scouts.table").write_bytes(bytes.fromhex(SCOUTS))
    (here / "rulebook.table").write_bytes(table(RULEBOOK, CHARACTERS, PLACES, DEEDS))
    (here / "naval.table").write_bytes(table(NAVAL, SEATS, WATERS, NAVAL_DEEDS))
