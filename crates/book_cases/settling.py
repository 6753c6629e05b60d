"""The statement of a book, worked out from docs/statement.md, and the cases of it. cases.py keeps the records and writes the
files.

`settle L` settles the book by largest remainder, `settle R` by running; with a number behind, so many times in a row, of which the
last is told. `line` tells the line at a place, `read deemed` a deemed energy. `statement` tells how many lines and runs there are,
whether the book stands settled (1) or not (0), and all lines; where a book is left for another, and at the end, this is told too.
"""
import random
from collections import Counter
from itertools import product
from typing import NamedTuple

import charging
from charging import CENT, GIVEN, INTERVALS, MOST_ENERGY, MOST_GIVEN, MOST_PRICE, MOST_TELEMETRY, QUARTERS
from charging import Demand, Election, Energy, Given, Tag, Test, Transfer, post, trial

FULL = 4_096
MOST_RUNS = 65_535
LEAST, MOST = -(2**63), 2**63 - 1


class Line(NamedTuple):
    run: int
    interval: int
    account: int
    code: int
    cents: int


def refused(number, part, interval=0, id=0):
    return f"refused {number} part {part} interval {interval} id {id}"


def keys(hour):
    """Interval, account and code of all that may be billed, in the order in which a settle goes through them."""
    for interval in INTERVALS:
        for party in hour.parties:
            yield from ((interval, party, code) for code in (6470, 6474, 6475, 6476, 6477))
        yield interval, 0, 6476


def billed(lines):
    """What the lines come to, by interval, account and code."""
    totals = Counter()
    for line in lines:
        totals[line.interval, line.account, line.code] += line.cents
    return totals


class Statement:
    """A book's lines and the room for them, how many runs it had, whether it stands settled, and its ties' deemed energies."""

    def __init__(self, asked):
        self.room = min(asked, FULL)
        self.lines = []
        self.runs = 0
        self.settled = False
        self.deemed = {}

    def changed(self):
        """After an accepted call that enters or posts, whatever it changed."""
        self.settled = False

    def differences(self, hour, charges):
        """The lines of a new run. What is billed so far is gathered anew, from all lines."""
        so_far = billed(self.lines)
        for key in keys(hour):
            cents = charges.amounts[key] - so_far[key]
            if cents != 0:
                yield Line(self.runs + 1, *key, cents)

    def settle(self, hour, outcome):
        """The outcome is the charges of the hour, or why they are refused."""
        if self.runs == MOST_RUNS:
            return refused(7, 4)
        if isinstance(outcome, charging.Refusal):
            return refused(outcome.number, 1, outcome.interval, outcome.id)
        added = list(self.differences(hour, outcome))
        if len(added) > self.room - len(self.lines):
            return refused(11, 4)
        self.lines += added
        self.runs += 1
        self.settled = True
        self.deemed = outcome.deemed
        return f"run {self.runs} lines {len(added)}"

    def settles(self, hour, letter, times="1"):
        """The answer to the last of some settles in a row, between which no record changes."""
        outcome = charging.work_out(hour, charging.RULES[letter])
        told = [self.settle(hour, outcome) for _ in range(int(times))]
        assert_promises(self, hour)
        return told[-1]

    def energies(self):
        """The deemed energies that the book holds, each under the key by which it is read."""
        return {("deemed", id, interval): [units[interval - 1]] for id, units in self.deemed.items() for interval in INTERVALS}

    def line(self, place):
        if not 1 <= place <= len(self.lines):
            return refused(2, 4)
        return " ".join(map(str, self.lines[place - 1]))

    def block(self, hour):
        assert_promises(self, hour)
        yield f"statement {len(self.lines)} {self.runs} {int(self.settled)}"
        yield from (" ".join(map(str, line)) for line in self.lines)

    def answer(self, hour, call, *words):
        if call == "settle":
            yield self.settles(hour, *words)
        elif call == "line":
            yield self.line(int(words[0]))
        else:
            yield from self.block(hour)


# What docs/statement.md says always holds


def assert_balanced(statement):
    totals = Counter()
    for line in statement.lines:
        totals[line.run, line.interval, line.code == 6476] += line.cents
    assert not any(totals.values())


def assert_billed(statement, hour):
    """Of a book that stands settled: all lines of a key come to its amount, or to less than a cent from its part of a pool."""
    charging.assert_ties(hour, statement.deemed)
    totals = billed(statement.lines)
    for interval in INTERVALS:
        for party, code in product(hour.parties, GIVEN):
            own = charging.own_amount(hour, statement.deemed, party, code, interval)
            assert totals.pop((interval, party, code), 0) == own
        surcharges = 0
        for _, _, code, pool, weights in charging.pools(hour, statement.deemed, interval):
            shares = [totals.pop((interval, party, code), 0) for party in weights]
            charging.assert_shared(pool, shares, [*weights.values()])
            surcharges += pool if code == 6476 else 0
        assert totals.pop((interval, 0, 6476), 0) == -surcharges
    # and nothing else is billed in all
    assert not any(totals.values())


def assert_promises(statement, hour):
    places = {key: place for place, key in enumerate(keys(hour))}
    order = [(line.run, places[line[1:4]]) for line in statement.lines]
    assert order == sorted(set(order)) and all(line.cents != 0 for line in statement.lines)
    assert len(statement.lines) <= statement.room and all(1 <= line.run <= statement.runs for line in statement.lines)
    assert_balanced(statement)
    if statement.settled:
        assert_billed(statement, hour)


# The cases

BOTH = ("settle L", "settle R")


def opened(areas, parties, resources, room=FULL):
    return f"open {areas} {parties} {resources} {room}"


def read(record, *key):
    return " ".join(["read", record, *map(str, key)])


def energies(ids, intervals=INTERVALS):
    return [read("deemed", id, interval) for id in ids for interval in intervals]


def demands(units, *parties):
    """The same demand of these parties in all intervals."""
    return [post(Demand(units), party, interval) for party in parties for interval in INTERVALS]


def by_transfer(*areas, cap=CENT):
    """So that an area's quantity is what was transferred to it."""
    for area in areas:
        yield post(Election(1, cap), area)
        yield from (post(Test(MOST_ENERGY), area, quarter) for quarter in QUARTERS)


def sample(iie=12_000):
    return post(Energy(lmp=5_000_000, iie=iie), 20, 1)


def sample_hour(room=FULL):
    yield from (opened(16, 64, 128, room), "area 1 C", "party 7 1", "party 9 1", "resource 20 7 P 0 0")
    yield from (sample(), post(Demand(1), 7, 1), post(Demand(2), 9, 1))


def recalculation():
    yield from (*sample_hour(), *BOTH, sample(6_000), "statement", "settle R")
    yield from (f"line {place}" for place in range(1, 9))


# what docs/statement.md has of it
DOCUMENTED = (
    *("1 1 7 6470 -5000", "1 1 7 6477 1667", "1 1 9 6477 3333", "2 1 7 6477 -1", "2 1 9 6477 1"),
    *("3 1 7 6470 2500", "3 1 7 6477 -833", "3 1 9 6477 -1667"),
)


def assert_documented(answers):
    """The answers to `recalculation`."""
    assert answers[7:10] == ["run 1 lines 3", "run 2 lines 2", "ok"] and answers[10] == "statement 5 2 0"
    assert answers[16:25] == ["run 3 lines 3", *DOCUMENTED] and answers[-9:] == ["statement 8 3 1", *DOCUMENTED]


def no_difference():
    """Runs that bill nothing: by the same rule again, by the other where both share alike, after a post that changes nothing."""
    yield from (*recalculation(), "settle R", "statement", "settle L", "settle L", "settle R", "settle R", "settle R")
    yield from (post(Demand(1), 9, 1), *BOTH, "statement", sample(6_000), "statement", *BOTH)
    yield from (post(Demand(), 7, 12), "settle L", "statement")


def nothing_at_all():
    yield from (opened(0, 0, 0, 0), "statement", "line 0", "line 1", "settle R", "statement", "line 1", "settle L 3")
    yield from ("read deemed 1 1", opened(16, 64, 128), *BOTH, "area 2 C", "statement", *BOTH, "party 2 2", "settle L")
    yield from ("resource 2 2 D 0 0", "settle L", *energies([2], (1, 12)), "statement")
    # no room for a line, and none to bill; then one to bill, and none again
    yield from (opened(1, 1, 1, 0), "area 1 W", "party 1 1", "settle L", *by_transfer(1), post(Transfer(3), 1, 5), "settle L")
    yield from ("statement", post(Transfer(), 1, 5), "settle R", "statement")


def larger_hour():
    """Each kind of resource, both kinds of areas, and a settle that is refused between two that are not; small, to be followed by
    hand."""
    yield from (opened(4, 8, 8), "area 1 C", "area 2 W", "party 7 1", "party 9 1", "party 8 2", "party 11 1")
    yield from ("resource 20 7 P 0 0", "resource 30 9 S 0 0", "resource 40 11 D 0 0")
    yield from (post(Energy(lmp=CENT, iie=600), 20, 1), post(Energy(lmp=CENT // 2, iie=101), 20, 2))
    yield from (post(Tag(300), 30, 1), post(Tag(200), 30, 2))
    yield from (post(Energy(lmp=CENT, oa=320), 30, 1), post(Energy(lmp=CENT, oa=180), 30, 2))
    yield from (post(Tag(kw, 5), 40, interval) for interval, kw in ((1, 34), (2, 33), (3, 33)))
    yield from (post(Energy(lmp=CENT, oa=33), 40, interval) for interval in (1, 2, 3))
    yield from (post(Demand(1), id, 1) for id in (7, 9, 11))
    yield from (post(Demand(1), 7, 2), post(Demand(2), 9, 2), post(Demand(2), 11, 3))
    yield from (post(Given(100), 7, 1, 6474), post(Given(-40), 9, 2, 6475))
    yield from (post(Election(1, CENT, 50, 10), 1), post(Test(100, 80, 5), 1, 1))
    yield from (post(Transfer(150, 20, 30, 10), 1, 1), post(Transfer(60), 1, 2), post(Transfer(35), 1, 3))
    yield from (post(Election(1, CENT // 2, 9), 2), post(Test(0, 40), 2, 1), post(Transfer(9), 2, 1), post(Transfer(41), 2, 2))
    yield from ("settle L", post(Energy(lmp=CENT, iie=500), 20, 1), post(Transfer(39), 2, 2), post(Demand(), 11, 3), "settle R")
    yield from ("statement", post(Demand(3), 11, 3), "settle R")


def few_lines():
    """The sample hour with room for so many lines: exactly enough for a settle, one too few, and more."""
    for room in (0, 2, 3, 4, 5, 7, 8):
        yield from (*sample_hour(room), *BOTH, "statement", sample(6_000), "settle R", "statement", "settle L")
        yield from (sample(), "settle R")


def room_again():
    """A table that is full takes a run with no line. What is refused for its lines is settled once there is less to bill."""
    yield from (*sample_hour(4), "settle L", "settle R", "settle L", "statement", sample(6_000), *BOTH, sample(), "settle L")
    yield "statement"
    # room for one line, and there is no run of just one
    yield from (post(Given(7), 7, 12, 6474), post(Given(-7), 7, 12, 6475), *BOTH, post(Demand(1), 7, 12), *BOTH)
    yield from (post(Given(), 7, 12, 6474), post(Given(), 7, 12, 6475), "settle L", "line 3", "line 4", "statement")
    # many keys, and room for no more than the few lines that there are
    yield from (opened(3, 64, 1, 5), "area 2 W", "area 1 C", *(f"party {id} 1" for id in range(1, 64)), "party 99 2")
    yield from (post(Demand(1), 44, 7), post(Given(-50), 3, 7, 6475), "settle L", post(Given(8), 63, 7, 6470), "settle R")
    yield from ("statement", post(Given(9), 62, 7, 6470), "settle L", post(Given(7), 63, 7, 6470), "settle L")
    yield from (post(Demand(1), 62, 7), "settle R", "statement", post(Demand(), 62, 7), post(Given(), 62, 7, 6470))
    yield from (post(Given(8), 63, 7, 6470), *BOTH)


def line_places():
    places = (0, 1, 2, 3, 4, -1, -2, -3, -4, 5, 65_536, 65_537, -65_535, 2**32 + 1, 2**32, 257, 256 + 3, LEAST, LEAST + 1, MOST)
    yield from sample_hour()
    yield from (f"line {place}" for place in (0, 1, -1, LEAST, MOST))
    for letter in "LRL":
        yield f"settle {letter}"
        yield from (f"line {place}" for place in (*places, 6, 7, 8))


def each_code():
    """Under each code alone a difference of each sign, in intervals next to each other; then all of them are taken back."""
    yield from (opened(2, 3, 2), "area 2 W", "area 1 C", "party 9 1", "party 8 2", "party 7 1")
    yield from ("resource 20 7 P 0 0", "resource 21 9 P 0 0", *demands(1, 7, 9), *by_transfer(2, 1))
    changes = [
        *((post(Energy(lmp=CENT, iie=units), 20, 4), post(Energy(lmp=CENT, iie=-units), 21, 4)) for units in (5, -3, 0)),
        *((post(Given(cents), 7, 5, code), post(Given(-cents), 9, 5, code)) for code in GIVEN for cents in (5, -3, 0)),
        *((post(Transfer(units), 1, 6),) for units in (10, 4, 0)),
        *((post(Transfer(sent=units), 2, 7),) for units in (10, 4, 0)),
        *((post(Given(cents), 9, 6, 6474),) for cents in (5, -3, 0)),
        *((post(Demand(units), 7, 6), post(Given(6), 9, 6, 6475), post(Transfer(6), 1, 6)) for units in (2, 5, 0)),
    ]
    for place, change in enumerate(changes):
        yield from (*change, BOTH[place % 2])
    yield from ("statement", post(Given(), 9, 6, 6475), post(Transfer(), 1, 6), post(Demand(1), 7, 6), *BOTH)


def back_and_forth():
    """Amounts of several keys go up and down and to 0, so that all runs count of what was billed, and not the last one alone."""
    yield from (opened(1, 2, 2), "area 1 C", "party 5 1", "party 3 1", "resource 3 3 P 0 0", "resource 5 5 P 0 0")
    yield from demands(1, 3)
    yield from demands(2, 5)
    for place, cents in enumerate((100, 0, 50, 50, -30, 0, 0, 100, 101, 1, -1, 100)):
        yield post(Given(cents), 3, 8, 6474)
        if place % 3 != 1:
            yield from (post(Given(-2 * cents), 5, 8, 6474), post(Energy(lmp=CENT, iie=cents), 5, 9))
        if place % 4 == 0:
            yield post(Energy(lmp=CENT, iie=cents), 3, 8)
        yield BOTH[place // 2 % 2]
    yield "statement"


def order_of_lines():
    """All codes of all parties in three intervals. The ids are mixed, those of an area, a party and a resource are the same, and
    what comes first is posted last."""
    yield from (opened(4, 6, 4), "area 30 W", "area 9 C", "area 7 W", "party 50 9", "party 30 30", "party 7 9", "party 9 7")
    yield from ("party 40 9", "resource 50 7 P 0 0", "resource 7 40 P 1 0", "resource 30 50 S 0 0", "resource 9 7 D 0 0")
    for interval in (12, 5, 1):
        yield from (post(Energy(lmp=CENT, mss=-CENT, iie=10 + id + interval), id, interval) for id in (30, 9, 7, 50))
        yield from (post(Given(100 * id + interval + code), id, interval, code) for id in (40, 7, 50) for code in GIVEN[::-1])
        yield from (post(Demand(id + interval), id, interval) for id in (40, 50, 7))
        yield from (post(Transfer(1_000 * id + interval), id, interval) for id in (9, 30, 7))
    yield from (post(Tag(id + interval, interval), id, interval) for id in (9, 30) for interval in (12, 1, 5))
    yield from by_transfer(7, 9, 30, cap=CENT // 2)
    yield from ("settle L", "statement", "charge R", "settle R")
    # in each of them one is changed, in the order turned round
    for interval, code in ((12, 6475), (5, 6474), (1, 6470)):
        yield post(Given(-1), 40, interval, code)
    yield from ("settle L", post(Transfer(1), 7, 1), post(Transfer(1), 9, 12), "settle R", *demands(3, 7), "settle L")


def late_rows():
    """Rows that are entered after a settle, behind the others: in a book of W areas the C area, its parties and resources."""
    yield from (opened(4, 6, 4), "area 9 W", "area 8 W", "party 9 9")
    yield from (post(Election(1, CENT, 5), 9), post(Test(9), 9, 1), post(Transfer(20), 9, 3), "settle L", "statement")
    yield from ("party 5 8", *BOTH, *by_transfer(8, cap=2 * CENT), post(Transfer(7), 8, 3), "settle R", "area 1 C", "settle L")
    yield from (*by_transfer(1), post(Transfer(sent=10), 1, 3), *BOTH, "party 7 1", "settle L", post(Demand(1), 7, 3), *BOTH)
    yield from ("resource 4 7 D 0 0", *energies([4], (3,)), "statement", "settle L", post(Tag(100, 2), 4, 3))
    yield from (post(Tag(0, 9), 4, 4), post(Tag(50, 3), 4, 5), post(Energy(lmp=CENT), 4, 3))
    yield from (*energies([4], (3, 4, 5)), "settle L", *energies([4], (3, 4, 5)))
    # another party takes a part of what one party had alone
    yield from ("party 3 1", "statement", "settle L", post(Demand(2), 3, 3), *BOTH)
    yield from ("party 2 1", post(Demand(4), 2, 3), "settle R")
    yield from ("resource 3 3 P 0 0", post(Energy(lmp=CENT, iie=-40), 3, 3), "settle L", "resource 2 2 S 0 0", post(Tag(6), 2, 3))
    yield from (*energies([2, 3, 4], (3, 5)), post(Energy(lmp=CENT, oa=1), 2, 3), "settle R", *energies([2, 3, 4], (3, 5)))
    yield from ("area 3 W", "settle R", "line 1", "party 1 3", post(Given(1), 1, 3, 6470), "settle L")


ACCEPTED = (
    *("area 5 W", "party 5 5", "resource 21 7 S 0 1"),
    *(post(Energy(lmp=CENT, iie=50), 20, 1), post(Tag(5, 5), 40, 2), post(Election(1, CENT), 1)),
    *(post(Test(6), 1, 1), post(Transfer(9), 1, 1), post(Demand(7), 7, 1)),
    *(post(Given(-4), 7, 1, 6470), post(Given(40), 7, 1, 6474), post(Given(-4), 9, 1, 6475)),
)
UNCHANGED = (
    *(post(Energy(lmp=CENT, iie=50), 20, 1), post(Energy(), 20, 5), post(Tag(5, 5), 40, 2), post(Tag(), 40, 12)),
    *(post(Election(1, CENT), 1), post(Election(), 5), post(Test(6), 1, 1), post(Test(), 2, 3)),
    *(post(Transfer(9), 1, 1), post(Transfer(), 5, 6), post(Demand(7), 7, 1), post(Demand(), 9, 9)),
    *(post(Given(-4), 7, 1, 6470), post(Given(), 9, 12, 6474), post(Given(), 9, 1, 6470)),
)
REFUSED = (
    *("area 0 W", "area 6 w", "area 1 W", "area 6 C", "party 7 0", "party 6 6", "party 7 1", "party 6 2", "party 6 1"),
    *("resource 0 7 P 0 0", "resource 22 7 P 2 0", "resource 22 6 P 0 0", "resource 20 7 P 0 0", "resource 22 8 P 0 0"),
    *(post(Energy(), 20, 13), post(Energy(lmp=MOST_PRICE + 1), 20, 1), post(Energy(ed="TESTS"), 20, 1), post(Energy(), 22, 1)),
    *(post(Tag(), 40, 0), post(Tag(telemetry=-1), 40, 2), post(Tag(), 22, 2), post(Tag(), 20, 2)),
    *(post(Election(2), 1), post(Election(1, 1, 1, 1), 2), post(Election(), 6)),
    *(post(Test(), 1, 5), post(Test(-1), 1, 1), post(Test(), 6, 1)),
    *(post(Transfer(), 1, 0), post(Transfer(-1), 1, 1), post(Transfer(), 6, 1)),
    *(post(Demand(), 7, -1), post(Demand(-1), 7, 1), post(Demand(), 6, 1), post(Demand(), 8, 1)),
    *(post(Given(), 7, 13, 6470), post(Given(), 7, 1, 6476), post(Given(), 6, 1, 6470), post(Given(), 8, 1, 6475)),
)
TRIED = (
    *(trial(Energy(lmp=CENT, iie=9), 20, 1, 0), trial(Energy(lmp=CENT), 40, 2, 77)),
    *(trial(Energy(), 20, 13, 0), trial(Energy(), 22, 1, 0), trial(Energy(), 40, 1, 120_000_001)),
)
READ = (
    *("read energy 20 1", "read tag 40 2", "read election 1", "read test 1 1", "read transfer 1 1", "read demand 7 1"),
    *("read given 7 1 6474", "read deemed 40 2", "read deemed 20 1", "read energy 22 1", "read tag 40 13", "read election 6"),
    *("read test 1 0", "read demand 6 1", "read given 7 1 6477", "read transfer 0 1", "read deemed 40 0", "read deemed 22 1"),
    *("line 1", "line 3", "line 0", "line 99", "statement", "charge L", "charge R"),
)


def unsettling():
    """Each accepted call leaves the book not settled, also one that changes nothing; each other call leaves it as it was."""
    yield from (opened(4, 4, 4), "area 2 W", "area 1 C", "party 8 2", "party 7 1", "party 9 1")
    yield from ("resource 20 7 P 0 0", "resource 40 9 D 0 0", *demands(1, 7, 9))
    yield from (*READ[-2:], "statement", "settle L", "statement")
    for place, call in enumerate((*ACCEPTED, *UNCHANGED)):
        yield from (call, "statement", BOTH[place % 3 // 2], "statement" if place % 4 == 0 else "line 2")
    for call in (*REFUSED, *TRIED, *READ):
        yield from (call, "statement")
    # not settled either way: with nothing changed, and with something
    for call in (post(Transfer(9), 1, 1), post(Transfer(5), 1, 1)):
        yield from (call, *REFUSED[::5], *TRIED, *READ, "statement", "settle L")


def deemed_energies():
    """They are told as of the last accepted settle: before and after posts, charges, settles by each rule, and refused ones."""
    yield from (opened(2, 4, 6), "area 2 W", "area 1 C", "party 8 2", "party 7 1", "resource 20 7 P 0 0", "resource 30 7 S 0 0")
    yield from ("resource 31 7 S 1 1", "resource 40 7 D 1 0", "resource 41 7 D 0 1", *demands(1, 7))
    ties = (30, 31, 40, 41)
    all_ties = (20, *ties)
    hours = {
        30: {1: Tag(300, 9, 1), 2: Tag(-7), 12: Tag(1)},
        31: {1: Tag(-5), 11: Tag(12, 1)},
        40: {1: Tag(100, 1), 2: Tag(0, 1), 3: Tag(-50, 1), 5: Tag(50, 1), 12: Tag(9, 50, 1)},
        41: {interval: Tag(-3 - interval, interval % 5) for interval in INTERVALS},
    }
    yield from (*energies(all_ties, (1, 2, 12)), "charge L", *energies(all_ties, (1,)))
    yield from (post(tag, id, interval) for id, hour in hours.items() for interval, tag in hour.items())
    yield from (post(Tag(1), 20, 1), *energies(all_ties, (1, 12)), "charge R", *energies(all_ties, (1, 12)))
    yield from ("settle L", *energies(all_ties), "charge R", *energies(ties, (1, 3, 5)), "settle R", *energies(all_ties))
    # the energy is posted, so that there is something to bill; what was deemed stays until the settle
    yield from (post(Energy(lmp=CENT, mss=CENT, oa=3), id, interval) for id in all_ties for interval in (1, 3, 12))
    yield from (post(Tag(), 30, 1), post(Tag(8), 31, 2), post(Tag(7, 3), 40, 1), post(Tag(), 41, 6))
    yield from (*energies(all_ties, (1, 2, 6)), "settle L", *energies(all_ties), "statement")
    # a new tie has no deemed energy
    yield from ("resource 42 7 D 0 0", *energies([42], (1, 2, 3)), post(Tag(10, 1), 42, 1), post(Tag(20, 1), 42, 2))
    yield from (*energies([42], (1, 2, 3)), "settle R", *energies([42], (1, 2, 3)))
    # refused, by another tie than those that have changed before and behind it
    yield from (post(Tag(55), 30, 4), post(Tag(1_000), 40, 4), post(Tag(7, 1, 1), 42, 1), post(Tag(7, 1, 1), 42, 2))
    yield from (*BOTH, *energies((30, 40, 42), (1, 2, 4)), "charge L", "statement")
    yield from (post(Tag(-14, 1, 1), 42, 1), post(Tag(14, 1, 1), 42, 2), "settle L", *energies((30, 40, 42), (1, 2, 4)))
    # nothing is tagged any more
    yield from (post(Tag(), id, interval) for id in (*ties, 42) for interval in INTERVALS)
    yield from (*energies((30, 41), (4, 7)), "settle R", *energies((*ties, 42), (1, 4, 7)), "statement")


def deemed_refusals():
    """Each clause with each other. Row 99 is not entered, and what stands in row 1 would be read where a number was cut."""
    yield from (opened(1, 1, 3), "area 1 C", "party 1 1", "resource 1 1 S 0 0", "resource 65535 1 D 0 0", "resource 40 1 P 0 0")
    yield from (post(Tag(1), 1, 1), post(Tag(12), 1, 12), post(Tag(3), 65_535, 1), "settle L", *energies((1, 65_535), (1, 2, 12)))
    for id, interval in product((0, 99, 1), (0, 5)):
        yield read("deemed", id, interval)
    yield from (read("deemed", id, 1) for id in (-1, -65_535, 2, 65_534, 65_536, 65_537, 2**32 + 1, LEAST, MOST))
    far = (-1, -255, 13, 256, 257, 268, 65_537, 2**32 + 1, 2**32 + 12, LEAST, MOST)
    yield from (read("deemed", 1, interval) for interval in far)


def settled_by_one_rule():
    """By one rule the book settles, and by the other its settle is refused; it stands settled all the same."""
    for tags, first, second in (((34, 33, 33), "L", "R"), ((33, 33, 34), "R", "L")):
        yield from (opened(1, 1, 1), "area 1 C", "party 1 1", "resource 1 1 D 0 0")
        yield from (post(Tag(kw, 1), 1, interval) for interval, kw in enumerate(tags, 4))
        yield from (post(Energy(lmp=CENT, oa=kw), 1, interval) for interval, kw in enumerate(tags, 4))
        # what the book before had deemed is not here
        yield from energies([1], (4, 5, 6))
        yield from (f"settle {second}", "statement", f"settle {first}", f"settle {second} 2", "statement")
        yield from energies([1], (4, 5, 6))
        # the last interval is not reached before the first is refused
        yield from (post(Demand(1), 1, 4), f"settle {second}", "statement", post(Demand(1), 1, 6), f"settle {first}")
        yield from (f"settle {second}", *energies([1], (4, 5, 6)), "statement", post(Demand(), 1, 4), f"settle {second}")
        yield from ("statement", *energies([1], (4, 5, 6)), f"settle {first}", *energies([1], (4, 5, 6)))


def refused_hour(room):
    """Five areas, of which two have no party, and two dynamic ties, the later id first. It settles with five lines."""
    yield from (opened(5, 4, 4, room), "area 9 W", "area 8 C", "area 7 W", "area 6 W", "area 5 W")
    yield from ("party 9 9", "party 8 8", "party 4 8", "party 7 7")
    yield from ("resource 41 8 D 0 0", "resource 40 4 D 0 0", "resource 30 8 S 0 0")
    yield from (post(Tag(60, 1), 41, 3), post(Tag(40, 1), 40, 4), post(Tag(20, 1), 40, 5), post(Tag(5), 30, 6))
    yield from (post(Demand(1), 8, interval) for interval in INTERVALS if interval not in (3, 5, 9))
    yield from by_transfer(9, 8, 7, 6, 5)
    yield from (post(Given(10), 4, 1, 6474), post(Transfer(7), 9, 2), post(Transfer(7), 8, 2), "settle L", "statement")


# what stands in the way of a settle, in the order in which it is met, each with what takes it away
IN_THE_WAY = (
    ((post(Tag(60, 1, 1), 41, 3),), (post(Tag(61, 2), 41, 3),)),
    ((post(Tag(40, 1, 1), 40, 4), post(Tag(20, 1, 1), 40, 5)), (post(Tag(20, 3), 40, 5),)),
    ((post(Transfer(sent=3), 6, 2),), (post(Transfer(), 6, 2),)),
    ((post(Transfer(2), 5, 2),), (post(Transfer(2, 2), 5, 2),)),
    ((post(Given(-9), 8, 3, 6475),), (post(Demand(2), 4, 3),)),
    ((post(Transfer(6), 5, 3),), (post(Transfer(0, 0, 1, 1), 5, 3),)),
    ((post(Given(3), 4, 5, 6470),), (post(Given(), 4, 5, 6470),)),
    ((post(Given(1), 8, 9, 6474),), (post(Given(-1), 4, 9, 6474),)),
    ((post(Transfer(4), 8, 9),), (post(Transfer(), 8, 9),)),
    ((post(Transfer(1), 6, 12),), (post(Transfer(), 6, 12),)),
    # four lines, of which two are left
    ([post(Given(1), 8, 12, code) for code in GIVEN], [post(Given(), 8, 12, code) for code in GIVEN[1:]]),
)


def after_refusal():
    """What a refused settle must not have touched."""
    yield from (*energies((41, 40), (3, 4, 5)), *energies([30], (6,)), "statement")


def refusals_in_order():
    """All that stands in the way is taken away one by one, what fits first always first; and it is put there, the last first."""
    for room in (14, 15):
        yield from refused_hour(room)
        yield from (post(Tag(6), 30, 6), post(Energy(lmp=CENT), 30, 6))
        for change, _ in IN_THE_WAY:
            yield from change
        for place, (_, mended) in enumerate(IN_THE_WAY):
            yield from ("settle R" if place % 2 else "settle L", *after_refusal(), *mended)
        yield from (*BOTH, *after_refusal())
    yield from refused_hour(7)
    for place, (change, _) in enumerate(reversed(IN_THE_WAY)):
        yield from (*change, "settle L" if place % 2 else "settle R", *after_refusal())
    for place, (_, mended) in enumerate(reversed(IN_THE_WAY)):
        yield from (*mended, "settle R" if place % 2 else "settle L")
    for code, interval in ((6470, 12), (6475, 3)):
        yield from (*after_refusal(), post(Given(), 8, interval, code), *BOTH)
    yield from after_refusal()


def refusals_alone():
    """Each reason by itself: a settle before it, some that are refused by it, and one after it. Meanwhile the tags are others."""
    for change, mended in IN_THE_WAY[:-1]:
        yield from (*refused_hour(FULL), post(Tag(8), 30, 6), post(Tag(50, 1), 40, 4), *change, *BOTH, *after_refusal())
        yield from (*mended, "settle R", *after_refusal())


def surcharge_refusals():
    """By 10 in the C area, which has demand only in another interval, and in areas with no party by the order entered."""
    yield from (opened(4, 3, 1, 9), "area 3 W", "area 9 W", "area 1 C", "party 2 3", "party 1 1", post(Demand(5), 1, 2))
    yield from by_transfer(3, 9, 1)
    yield from (post(Transfer(4), 3, 1), post(Transfer(4), 1, 2), "settle R", post(Transfer(4), 1, 1), *BOTH, "statement")
    yield from (post(Transfer(4), 9, 1), "settle L", post(Demand(2), 1, 1), "settle L", "party 7 9", "settle L")
    yield from (post(Transfer(), 9, 1), "settle L", "statement", post(Transfer(1), 9, 8), post(Given(1), 1, 7, 6474), "settle R")
    yield from (post(Demand(1), 1, 7), "settle R", "statement", post(Given(), 1, 7, 6474), "settle R")
    yield from (post(Transfer(), 9, 8), *BOTH)


def no_c_area():
    yield from (opened(3, 3, 3), "area 5 W", "area 4 W", "party 6 4", "party 5 5", "resource 5 5 P 0 0", post(Demand(1), 5, 1))
    yield from (post(Election(1, CENT // 3, 10), 5), post(Election(1, 2 * CENT), 4), *BOTH, "statement")
    for interval, units in ((1, 50), (2, -50), (7, 9), (12, 1)):
        yield from (post(Transfer(100 + units, 100), 5, interval), post(Transfer(100, 100 + units), 4, interval))
    yield from (post(Test(20), 5, 1), *BOTH, post(Test(0, 61), 5, 1), "settle L", post(Election(0, CENT), 4), "settle R")
    yield "statement"
    # what one is charged the other is paid, so account 0 has nothing
    yield from (*by_transfer(4, 5), "settle L", post(Transfer(5), 4, 10), post(Transfer(sent=5), 5, 10), *BOTH, "statement")
    yield from (post(Election(0, CENT), 5), *BOTH)


def far_differences():
    """From one end of what is charged to the other: 128 resources of one party, and surcharges of 16 areas. All lines just fit."""
    yield from (opened(16, 64, 128, 75), "area 1 C", *(f"area {id} W" for id in range(2, 17)))
    yield from (*(f"party {id} {id}" for id in range(2, 17)), "party 1 1", "party 17 1")
    yield from (f"resource {id} 1 P 0 0" for id in range(1, 129))
    yield from (post(Demand(1), 17, interval) for interval in (4, 5, 6))
    far = MOST_ENERGY
    for sign in (1, -1, 1):
        yield from (post(Energy(*[sign * MOST_PRICE] * 4, *[-far] * 6, ed="SLIC"), id, 5) for id in range(1, 129))
        yield from (post(Given(sign * MOST_GIVEN), 1, 5, code) for code in GIVEN)
        for area in range(1, 17):
            unpaid = far if area == 1 and sign > 0 else 0
            yield post(Election(1, MOST_PRICE, far if sign < 0 else 0, unpaid), area)
            yield post(Test(far if sign > 0 else 0, 0, unpaid), area, 2)
            yield post(Transfer(far - (area == 1)) if sign > 0 else Transfer(0, far, far, 0), area, 5)
        yield "settle L"
    yield "settle L"


def largest_energies():
    """Deemed energies at the ends of their range, and a settle that turns them round."""
    yield from (opened(1, 1, 2), "area 1 C", "party 1 1", "resource 1 1 D 0 0", "resource 2 1 D 0 0", post(Demand(1), 1, 7))
    yield from (post(Energy(lmp=MOST_PRICE), id, 7) for id in (1, 2))
    for sign in (1, -1):
        for id, interval in product((1, 2), INTERVALS):
            yield post(Tag((sign if id == 1 else -sign) * MOST_ENERGY, MOST_TELEMETRY, int(interval != 7)), id, interval)
        yield from ("settle R", *energies((1, 2), (6, 7)), post(Energy(lmp=MOST_PRICE - 1), 2, 7))
    yield "settle L"


def many_runs():
    """Lines of the runs 255 and on, and settles in a row."""
    yield from (*sample_hour(), "settle R 2", "settle L 252", sample(12), "settle L", sample(24), "settle R")
    yield from (sample(36), "settle L", *(f"line {place}" for place in range(4, 15)), "statement", "settle R 3", "settle L 2")
    yield from (post(Demand(), 7, 1), post(Demand(), 9, 1), "settle L 4", "statement", "settle R")
    yield from (post(Demand(1), 9, 1), "settle L 2", "statement")


def all_runs():
    """After 65,535 runs a settle is refused by 7, whatever else fits: too many lines, a surcharge, an offset, a tie."""
    yield from (opened(1, 1, 2, 2), "area 1 C", "party 1 1", "resource 1 1 P 0 0", "resource 2 1 D 0 0", post(Demand(1), 1, 1))
    yield from (post(Energy(lmp=CENT, iie=1), 1, 1), post(Tag(3, 3), 2, 3), "settle L 65535", "statement", *BOTH, "settle R 2")
    yield from ("statement", post(Energy(lmp=CENT, iie=2), 1, 1), "settle L", "statement", post(Demand(), 1, 1), "settle L")
    yield from (*by_transfer(1), post(Transfer(1), 1, 2), "settle R", post(Energy(), 1, 1), *BOTH, post(Demand(1), 1, 1))
    yield from (post(Tag(4, 3, 1), 2, 3), *BOTH, *energies([2], (3,)), "line 1", "line 2", "line 3")
    yield from ("charge L", "party 2 1", "settle L")


def settled(lines):
    """Cases of charging.py: what is charged there is settled."""
    for line in lines:
        yield f"{line} {FULL}" if line.startswith("open ") else line.replace("charge ", "settle ")


class Drawing:
    """A drawn book: its rows in the order entered, areas with their kinds, parties with their areas, resources with their kinds;
    the intervals in which most is posted; and the posts that stand, by record and key."""

    def __init__(self, draw):
        self.draw = draw
        self.ids = draw.sample(range(1, 100), 40)
        self.areas, self.parties, self.resources = {}, {}, {}
        self.most_rows = draw.randint(2, 5), draw.randint(4, 8), draw.randint(3, 8)
        self.intervals = sorted(draw.sample(INTERVALS, draw.randint(2, 4)))
        self.most = draw.choice((20, 400, 60_000))
        self.price = draw.choice((2 * CENT, 50_000_000))
        self.posted = {}

    def some(self, rows):
        return self.draw.choice(list(rows))

    def chance(self, likely):
        return self.draw.random() < likely

    def homes(self):
        """The areas that may have another party."""
        return [area for area, kind in self.areas.items() if kind == "C" or area not in self.parties.values()]

    def members(self):
        return [party for party, area in self.parties.items() if self.areas[area] == "C"]

    def amount(self):
        return self.draw.choice((1, 2, self.draw.randint(0, self.most), self.draw.randint(0, self.most)))

    def post(self, record, *key):
        line = self.posted[type(record).__name__, *key] = post(record, *key)
        return line

    # rows

    def row(self, table, place, row):
        """A new id, for a row that may be one too many."""
        id = self.some(id for id in self.ids if id not in table)
        if len(table) < self.most_rows[place]:
            table[id] = row
        return id

    def enter_area(self, kind="W"):
        yield f"area {self.row(self.areas, 0, kind)} {kind}"

    def enter_party(self):
        homes = self.homes()
        c_areas = [area for area in homes if self.areas[area] == "C"]
        if homes:
            home = self.some(c_areas if c_areas and self.chance(0.5) else homes)
            yield f"party {self.row(self.parties, 1, home)} {home}"

    def enter_resource(self):
        if self.members():
            kind, owner = self.some("PSDD"), self.some(self.members())
            yield f"resource {self.row(self.resources, 2, kind)} {owner} {kind} {int(self.chance(0.2))} {int(self.chance(0.1))}"

    def enter(self):
        yield from self.some((self.enter_area, self.enter_party, self.enter_party, self.enter_resource, self.enter_resource))()

    # posts

    def interval(self):
        return self.some(self.intervals)

    def post_energy(self):
        if self.resources:
            energy = charging.drawn_energy(self.draw, self.price, self.most)
            adjusted = Energy(lmp=CENT, mss=-CENT, oa=self.amount())
            yield self.post(self.draw.choice((energy, adjusted)), self.some(self.resources), self.interval())

    def post_tag(self):
        ties = [id for id, kind in self.resources.items() if kind != "P"]
        if ties:
            kw, telemetry = self.draw.choice((-1, 1, 1)) * self.amount(), self.draw.choice((0, 1, 3, 900))
            yield self.post(Tag(kw, telemetry, int(self.chance(0.3))), self.some(ties), self.interval())

    def unpaid(self, area):
        return self.amount() if self.areas[area] == "C" and self.chance(0.3) else 0

    def post_election(self):
        area = self.some(self.areas)
        opted_in = int(self.chance(0.9 if area in self.parties.values() else 0.2))
        cap = self.draw.choice((7, CENT // 2, CENT, CENT, 5_000_000))
        yield self.post(Election(opted_in, cap, self.amount(), self.unpaid(area)), area)

    def post_test(self):
        area = self.some(self.areas)
        failed = self.draw.choice((self.amount(), self.most, 2 * self.most)), self.amount()
        yield self.post(Test(*failed, self.unpaid(area)), area, charging.quarter_of(self.interval()))

    def post_transfer(self):
        moved = Transfer(*(self.draw.choice((0, self.amount())) for _ in range(4)))
        yield self.post(moved, self.some(self.areas), self.interval())

    def post_demand(self):
        if self.members():
            demand = Demand(self.draw.choice((0, self.amount(), self.amount(), 1)))
            yield self.post(demand, self.some(self.members()), self.interval())

    def post_given(self):
        if self.members():
            cents = self.draw.choice((-1, 1)) * self.draw.choice((0, self.amount(), self.amount()))
            yield self.post(Given(cents), self.some(self.members()), self.interval(), self.draw.choice(GIVEN))

    def change(self):
        kinds = (self.post_energy, self.post_tag, self.post_transfer, self.post_demand, self.post_given)
        yield from self.draw.choices((*kinds, self.post_election, self.post_test), [5, 4, 2, 3, 3, 1, 1])[0]()

    def repeat(self):
        if self.posted:
            yield self.some(self.posted.values())

    def mend(self):
        """All pools that are likely can be shared then."""
        if self.members():
            member = self.some(self.members())
            yield from (self.post(Demand(1 + self.amount()), member, interval) for interval in self.intervals)
            quarters = [charging.quarter_of(interval) for interval in self.intervals]
            for interval in INTERVALS:
                if charging.quarter_of(interval) in quarters and ("Demand", member, interval) not in self.posted:
                    yield self.post(Demand(1), member, interval)
        for id, kind in self.resources.items():
            if kind == "D":
                yield self.post(Tag(1 + self.amount(), self.draw.choice((0, 1, 2)), 0), id, self.intervals[0])
        for area in self.areas:
            if area not in self.parties.values():
                yield self.post(Election(), area)

    def curtail(self):
        """One of the dynamic ties has no interval that weighs."""
        ties = [id for id, kind in self.resources.items() if kind == "D"]
        if ties:
            id = self.some(ties)
            yield from (self.post(Tag(self.amount(), 1, 1), id, interval) for interval in self.intervals)

    def starve(self):
        """Nobody has a demand in an interval, in which there is something to share."""
        interval = self.interval()
        yield from (self.post(Demand(), member, interval) for member in self.members())
        if self.members():
            yield self.post(Given(self.amount() + 1), self.some(self.members()), interval, 6474)

    def orphan(self):
        """An area has a surcharge, and maybe no party."""
        area = self.some(self.areas)
        yield self.post(Election(1, CENT), area)
        yield self.post(Transfer(0, 0, 1 + self.amount()), area, self.interval())

    # calls that leave a book as it was

    def refuse(self):
        """Calls that are always refused."""
        id = self.some([*self.ids, 0])
        posts = (post(Demand(-1), id, 1), post(Tag(), 200, self.interval()), post(Given(1), id, 1, 6477), post(Energy(), id, 13))
        entries = (f"area {id} X", f"party {id} 200", f"resource {id} 200 P 0 0", "party 0 1")
        yield self.draw.choice((*posts, *entries, "line 0", post(Transfer(MOST_ENERGY + 1), id, 1), trial(Energy(), 200, 1, 0)))

    def look(self):
        if self.resources:
            id, interval = self.some(self.resources), self.interval()
            energy = charging.drawn_energy(self.draw, self.price, self.most)
            tried = trial(energy, id, interval, self.draw.randint(-self.most, self.most))
            yield self.draw.choice((tried, read("energy", id, interval), read("tag", id, interval), "charge L", "charge R"))

    def energies(self):
        yield from (read("deemed", id, interval) for id in self.resources for interval in self.intervals[:2])

    def place(self):
        yield f"line {self.draw.choice((1, self.draw.randint(1, 30), self.draw.randint(1, 200), 4_096, -1))}"

    def settle(self):
        yield f"settle {self.draw.choice('LR')}{self.draw.choice(12 * ('',) + (' 2', ' 3'))}"

    def book(self):
        draw = self.draw
        yield opened(*self.most_rows, draw.choice((FULL, FULL, FULL, draw.randint(20, 120))))
        areas, parties, resources = (most - draw.randint(0, 2) for most in self.most_rows)
        c_area = draw.choice((*range(areas), *range(areas), *range(areas), None))
        for place in range(max(1, areas)):
            yield from self.enter_area("C" if place == c_area else "W")
        yield from self.steps(self.enter_party, parties)
        yield from self.steps(self.enter_resource, resources)
        yield from self.steps(self.change, 8 * len(self.intervals) + 8)
        yield from (*self.steps(self.post_election, areas), *self.steps(self.post_test, areas), *self.mend())
        for _ in range(draw.randint(6, 9)):
            yield from self.turn()

    def steps(self, step, times):
        for _ in range(times):
            yield from step()

    def turn(self):
        """Some changes, or seldom none, and a settle, with calls between that leave the book as it was."""
        draw = self.draw
        calls = (self.change, self.repeat, self.look, self.refuse, self.enter, self.curtail, self.starve, self.orphan)
        for step in draw.choices(calls, [30, 3, 8, 4, 4, 1, 2, 2], k=draw.choice((0, 2, 4, 6, 8, 8))):
            yield from step()
        if self.chance(0.4):
            yield from self.mend()
        yield from self.settle()
        if self.chance(0.3):
            yield from self.energies()
        if self.chance(0.2):
            yield "statement"
        yield from (line for step in draw.choices((self.look, self.refuse, self.place), k=2) for line in step())


def drawn_books(draw):
    for _ in range(20):
        yield from Drawing(draw).book()


def full_hour(draw, room, given):
    """All tables are full, with records in all intervals for every row. It is settled, corrected and settled again by the other
    rule, and once more."""
    areas, parties, resources = (draw.sample(range(1, 65_536), rows) for rows in (16, 64, 128))
    c_area = draw.choice(areas)
    homes = draw.sample([*areas, *[c_area] * 48], 64)
    members = [party for party, home in zip(parties, homes) if home == c_area]
    kinds = [draw.choice("PPSDD") for _ in resources]
    yield opened(16, 64, 128, room)
    yield from (f"area {id} {'C' if id == c_area else 'W'}" for id in areas)
    yield from (f"party {id} {home}" for id, home in zip(parties, homes))
    for id, kind in zip(resources, kinds):
        yield f"resource {id} {draw.choice(members)} {kind} {int(draw.random() < 0.1)} {int(draw.random() < 0.1)}"
    for (id, kind), interval in product(zip(resources, kinds), INTERVALS):
        price, units = draw.randint(1, 30) * 1_000_000, [draw.randint(-200, 900) for _ in range(3)]
        yield post(Energy(lmp=price, mss=price // 2, iie=units[0], oa=units[1], above=draw.choice((0, units[2]))), id, interval)
        if kind != "P":
            yield post(Tag(draw.randint(-100, 900), draw.randint(0, 99), int(draw.random() < 0.1)), id, interval)
    for id in areas:
        yield post(Election(1, draw.randint(1, 9) * 1_000_000, draw.randint(0, 500)), id)
        yield from (post(Test(draw.randint(0, 5_000), draw.randint(0, 3_000)), id, quarter) for quarter in QUARTERS)
        yield from (post(Transfer(draw.randint(0, 7_000), draw.randint(0, 99)), id, interval) for interval in INTERVALS)
    for id, interval in product(members, INTERVALS):
        yield post(Demand(draw.randint(1, 9_999)), id, interval)
        yield from (post(Given(draw.randint(1, 999)), id, interval, code) for code in given)
    yield "settle L"
    ties = [id for id, kind in zip(resources, kinds) if kind == "D"]
    yield from (post(Tag(700, 50), ties[5], 7), post(Demand(10_000), members[3], 12))
    yield from (post(Transfer(), areas[9], 2), post(Tag(), ties[8], 1))
    yield from (*energies(ties[4:6], (6, 7)), "settle R", *energies(ties[4:6], (6, 7)), "line 1999", "line 3133")
    yield from (post(Tag(1, 1), ties[4], 6), post(Tag(900, 77), ties[5], 7), "settle L", *energies(ties[4:6], (6, 7)))


def full_hours(draw):
    """In the one book all lines fit, in the other those of the last settle do not."""
    yield from full_hour(draw, FULL, ())
    yield from full_hour(draw, 2**32 + 10, (6475, 6474))


def whole_table():
    """64 parties with an amount under each code in all intervals, so that a settle adds as many lines as it can. The next would add
    one line more than the table has left, and then just as many."""
    yield from (opened(1, 64, 0, 65_539), "area 1 C", *(f"party {id} 1" for id in range(64, 0, -1)), *by_transfer(1))
    yield from (post(Transfer(6_390 + interval), 1, interval) for interval in INTERVALS)
    for id, interval in product(range(1, 65), INTERVALS):
        yield from (post(Given(cents), id, interval, code) for cents, code in ((2 * id, 6470), (-interval, 6474), (5 + id, 6475)))
        yield post(Demand(7 + id % 3), id, interval)
    yield "settle L"
    # what is given to one is taken from another, so that nothing is shared anew
    pairs = [(id, id + 32, interval) for interval in (11, 2, 7, 6) for id in range(1, 33)][:122]
    for more, less, interval in pairs:
        yield from (post(Given(1 - interval), more, interval, 6474), post(Given(-1 - interval), less, interval, 6474))
    more, less, interval = pairs[-1]
    for id, cents in ((more, 1), (less, 1), (64, -2)):
        yield post(Given(cents - interval), id, interval, 6474)
    yield from (*BOTH, post(Given(-1 - interval), less, interval, 6474), post(Given(-interval), 64, interval, 6474), *BOTH)
    yield from ("line 4096", "line 4097", post(Demand(9), 1, 3), *BOTH, post(Demand(8), 1, 3), "settle L")


def lines():
    small = (recalculation, larger_hour, no_difference, nothing_at_all, few_lines, room_again, line_places)
    keys = (each_code, back_and_forth, order_of_lines, late_rows, no_c_area)
    kept = (unsettling, deemed_energies, deemed_refusals, settled_by_one_rule)
    refusals = (refusals_in_order, refusals_alone, surcharge_refusals)
    for group in (*small, *keys, *kept, *refusals, far_differences, largest_energies, many_runs, all_runs, whole_table):
        yield from group()
    formulas = (charging.charges_by_field, charging.largest_charges, charging.half_cents, charging.sums, charging.offsets)
    areas = (charging.surcharges, charging.surcharge_by_field, charging.largest_surcharges, charging.surcharge_pools)
    others = (charging.ties, charging.corrections, charging.few_rows, charging.many_parties)
    refused_charges = (charging.refusals_by_ties, charging.refusals_by_demand, charging.refusals_by_surcharge)
    for group in (*formulas, *areas, *others, *refused_charges):
        yield from settled(group())
    draw = random.Random(6_477)
    yield from drawn_books(draw)
    yield from full_hours(draw)
