#!/usr/bin/env python3
"""Writes the cases (stdin) and what they should give (stdout), from docs/records.md and docs/refusals.md, not from the program.

A line is a call, its words parted by one space; `-` is the empty word, and `.` no word at all. `open` begins a new book, with so
many rows of each table and room for so many lines. A posting call is named by its kind of record, and so is a reading call, behind
`read`. The lines `trial` and `charge` are those of charging.py; `settle`, `line`, `statement` and `read deemed` are those of
settling.py. Where a book is opened, and at the end, the tables and the statement of the one before are told.
"""
import random
import sys
from collections import defaultdict
from itertools import combinations, cycle, product
from pathlib import Path
from typing import NamedTuple

sys.dont_write_bytecode = True
import charging  # noqa: E402
import settling  # noqa: E402

HERE = Path(__file__).parent

SPAN = range(1, 65_536)
FULL = {"area": 16, "party": 64, "resource": 128}
LEAST, MOST = -(2**63), 2**63 - 1

PRICES = range(-500_000_000, 500_000_001)
BID_CAPS = range(500_000_001)
ENERGIES = range(-10_000_000, 10_000_001)
VOLUMES = range(10_000_001)
TELEMETRY = range(100_000_001)
AMOUNTS = range(-1_000_000_000, 1_000_000_001)
FLAGS = range(2)
# with None, which is no word at all
TYPES = (
    *("SYSEMR", "SYSEMR1", "TEMR", "TMODEL", "TMODEL1", "TMODEL2", "TMODEL3", "TMODEL4", "TMODEL5", "TMODEL6", "TMODEL7", "TMODEL8"),
    *("TMODEL9", "TORETC", "TORETC1", "RMRR", "RMRS", "RMRT", "SLIC", "OTHER", "NONTMOD", "ASTEST", "TEST", None),
)
INTERVALS, QUARTERS = range(1, 13), range(1, 5)
CODES = (6470, 6474, 6475)


class Kind(NamedTuple):
    """A kind of record: the table whose rows have it, what its key has behind the row's id, and its fields."""

    table: str
    key: tuple
    fields: dict


KINDS = {
    "energy": Kind(
        "resource",
        (INTERVALS,),
        dict.fromkeys(("lmp", "mss", "resprice", "edprice"), PRICES)
        | dict.fromkeys(("iie", "oa", "mssiie", "res", "above", "edqty"), ENERGIES)
        | {"resflag": FLAGS, "ed": TYPES},
    ),
    "tag": Kind("resource", (INTERVALS,), {"kw": ENERGIES, "telemetry": TELEMETRY, "curtailed": FLAGS}),
    "election": Kind("area", (), {"in": FLAGS, "cap": BID_CAPS, "up": VOLUMES, "nopay": VOLUMES}),
    "test": Kind("area", (QUARTERS,), dict.fromkeys(("capacity", "ramp", "nopay"), VOLUMES)),
    "transfer": Kind("area", (INTERVALS,), dict.fromkeys(("to", "baseto", "from", "basefrom"), VOLUMES)),
    "demand": Kind("party", (INTERVALS,), {"units": VOLUMES}),
    "given": Kind("party", (INTERVALS, CODES), {"cents": AMOUNTS}),
}

# what is read: a deemed energy too, which is not posted
READINGS = KINDS | {"deemed": Kind("resource", (INTERVALS,), {"units": charging.DEEMED})}

# the clauses of each call, which begin with the number of their reason
CLAUSES = {
    "area": ("2", "3", "5", "6", "7"),
    "party": ("2", "4", "5", "6", "7"),
    "resource": ("2", "3", "4", "5", "6", "7"),
    "energy": ("2 id", "2 slot", "3 field", "4"),
    "tag": ("2 id", "2 slot", "3 field", "4", "6"),
    "election": ("2 id", "3 field", "3 nopay", "4"),
    "test": ("2 id", "2 slot", "3 field", "3 nopay", "4"),
    "transfer": ("2 id", "2 slot", "3 field", "4"),
    "demand": ("2 id", "2 slot", "3 field", "4", "6"),
    "given": ("2 id", "2 slot", "3 code", "3 field", "4", "6"),
    "trial": ("2 id", "2 slot", "3 deemed", "3 field", "4"),
    "read energy": ("2 id", "2 slot", "4"),
    "read tag": ("2 id", "2 slot", "4"),
    "read election": ("2 id", "4"),
    "read test": ("2 id", "2 slot", "4"),
    "read transfer": ("2 id", "2 slot", "4"),
    "read demand": ("2 id", "2 slot", "4"),
    "read given": ("2 id", "2 slot", "3 code", "4"),
    "read deemed": ("2 id", "2 slot", "4"),
}
# the pairs of them that never fit at once
APART = {"area": {("2", "5"), ("3", "6")}, "party": {("4", "6")}, "resource": {("4", "6")}}
APART_IN_POSTS = {("2 id", "3 nopay"), ("2 id", "6"), ("3 nopay", "4"), ("4", "6")}

# where a number is outside: some of these would be 0 or 1 if they were cut
OUTSIDE = (0, -1, -65_535, 65_536, 65_537, 2**32 + 1, MOST, LEAST)
NO_FLAGS = (-1, 2, 256, 2**32 + 1, MOST, LEAST)
NO_AREA_KINDS = ("-", "c", "w", "P", "S", "D", "X", "0", "CC", "CW", "WC", "CISO", "WEIM", "c1", "Ç")
NO_RESOURCE_KINDS = ("-", "p", "s", "d", "C", "W", "X", "1", "PP", "PS", "DS", "SD", "Ś")
NO_SLOTS = (0, -1, -255, 257, 65_537, -65_535, 2**32 + 1, MOST, LEAST)
NO_CODES = (0, 1, 70, 74, 75, 6469, 6471, 6473, 6476, 6477, -6470, 6470 + 2**16, 6474 - 2**16, 6475 + 2**32, MOST, LEAST)
NO_TYPES = (
    *("", "TMODEL0", "TMODEL00", "TMODEL01", "TMODEL10", "TMODEL19", "TMODEL:", "TMODEL/", "TMODEL-1", "SYSEMR0", "SYSEMR2"),
    *("TORETC2", "RMR", "RMRA", "RMRQ", "RMRU", "TEMR1", "SLIC1", "NONTEST", "ASTMOD", "TMOD", "AS", "NONE", "FIRST", "0", "1"),
    *("..", "TEMR.", "Temr", "TEMRTEMR", "TEMR" + 256 * "X", 256 * "X", "ÅSTEST"),
)


def outside(values):
    """Numbers outside a field's values. Some of them would be inside if they were cut."""
    first, last = values[0], values[-1]
    return [*(number for far in (1, 2**8, 2**16, 2**32) for number in (first - far, last + far)), MOST, LEAST]


def nothing(record):
    """The fields of a record that was never posted."""
    return {name: None if values is TYPES else 0 for name, values in READINGS[record].fields.items()}


def shown(argument):
    return {"": "-", None: "."}.get(argument, str(argument))


class Book:
    """Each table's rows by their ids, in the order entered, a row with a list of what stands behind its id; what is posted; and
    the statement."""

    def __init__(self, *rows, lines):
        self.rows = {table: min(asked, full) for asked, (table, full) in zip(rows, FULL.items())}
        self.areas, self.parties, self.resources = {}, {}, {}
        self.tables = {"area": self.areas, "party": self.parties, "resource": self.resources}
        self.posted = {}
        self.statement = settling.Statement(lines)

    def outside_c(self, party):
        """Whether it is entered and no party of the C area."""
        return party in self.parties and self.areas[self.parties[party][0]] != ["C"]

    def about_area(self, id, kind):
        return {
            "2": id not in SPAN,
            "3": kind not in ("C", "W"),
            "5": id in self.areas,
            "6": kind == "C" and ["C"] in self.areas.values(),
            "7": len(self.areas) == self.rows["area"],
        }

    def about_party(self, id, area):
        return {
            "2": id not in SPAN or area not in SPAN,
            "4": area not in self.areas,
            "5": id in self.parties,
            "6": self.areas.get(area) == ["W"] and [area] in self.parties.values(),
            "7": len(self.parties) == self.rows["party"],
        }

    def about_resource(self, id, owner, kind, net, exempt):
        return {
            "2": id not in SPAN or owner not in SPAN,
            "3": kind not in ("P", "S", "D") or net not in (0, 1) or exempt not in (0, 1),
            "4": owner not in self.parties,
            "5": id in self.resources,
            "6": self.outside_c(owner),
            "7": len(self.resources) == self.rows["resource"],
        }

    def about_reading(self, record, id, slot=None, code=None):
        table, key, _ = READINGS[record]
        return {
            "2 id": id not in SPAN,
            "2 slot": len(key) > 0 and slot not in key[0],
            "3 code": len(key) > 1 and code not in key[1],
            "4": id not in self.tables[table],
        }

    def about_posting(self, record, key, fields):
        id, wanted = key[0], KINDS[record].fields
        return self.about_reading(record, *key) | {
            "3 field": any(field not in values for field, values in zip(fields, wanted.values(), strict=True)),
            "3 nopay": "nopay" in wanted and self.areas.get(id) == ["W"] and fields[-1] != 0,
            "6": self.misfits(record, id),
        }

    def misfits(self, record, id):
        if record == "tag":
            return id in self.resources and self.resources[id][1] == "P"
        return record in ("demand", "given") and self.outside_c(id)

    def enter(self, table, id, *rest):
        about = {"area": self.about_area, "party": self.about_party, "resource": self.about_resource}[table](id, *rest)
        if not any(about.values()):
            self.tables[table][id] = list(rest)
            self.statement.changed()
        return about, "ok"

    def post(self, record, *arguments):
        length = 1 + len(KINDS[record].key)
        key, fields = arguments[:length], arguments[length:]
        about = self.about_posting(record, key, fields)
        if not any(about.values()):
            self.posted[record, *key] = fields
            self.statement.changed()
        return about, "ok"

    def trial(self, id, interval, *arguments):
        """A post of energy that is not made, with a deemed energy."""
        *fields, deemed = arguments
        about = self.about_posting("energy", (id, interval), fields) | {"3 deemed": deemed not in charging.DEEMED}
        return about, "" if any(about.values()) else charging.trial_line(self.hour(), id, fields, deemed)

    def hour(self):
        return charging.Hour(self.areas, self.parties, self.resources, self.posted)

    def read(self, record, *key):
        stands = self.statement.energies() if record == "deemed" else self.posted
        fields = stands.get((record, *key), nothing(record).values())
        return self.about_reading(record, *key), " ".join(map(shown, fields))

    def take(self, call, arguments):
        """The clauses that fit, and the line that the call gives. Where none fits, the call is made."""
        *reading, name = call.split(" ")
        if name == "trial":
            about, line = self.trial(*arguments)
        else:
            act = self.read if reading else self.post if name in KINDS else self.enter
            about, line = act(name, *arguments)
        fitting = sorted(clause for clause, fits in about.items() if fits)
        if fitting:
            slot = arguments[1] if name == "trial" or name in READINGS and READINGS[name].key else 0
            line = f"refused {fitting[0][0]} part 3 interval {slot} id {arguments[0]}"
        return fitting, line

    def lines(self):
        tables = {"areas": self.areas, "parties": self.parties, "resources": self.resources}
        for name, table in tables.items():
            yield " ".join([name, *(":".join(map(str, [id, *rest])) for id, rest in table.items())])
        yield from self.statement.block(self.hour())


def arguments(call, words):
    """All are numbers, but for the word of a kind or a type."""
    word = {"area": 1, "resource": 2, "energy": 13, "trial": 13}.get(call)
    given = [text if place == word else int(text) for place, text in enumerate(words)]
    return [{"-": "", ".": None}.get(argument, argument) for argument in given]


def answers(cases, met):
    """The lines that are wanted. Of each call it is noted in `met` which clauses fitted at once."""
    book = None
    for line in cases:
        call, *words = line.split(" ")
        if call == "open":
            if book:
                yield from book.lines()
            *rows, lines = map(int, words)
            book = Book(*rows, lines=lines)
            continue
        if call == "charge":
            yield from charging.charge_lines(book.hour(), *words)
            continue
        if call in ("settle", "line", "statement"):
            yield from book.statement.answer(book.hour(), call, *words)
            continue
        if call == "read":
            record, *words = words
            call = f"read {record}"
        fitting, answer = book.take(call, arguments(call, words))
        met[call].update(combinations(fitting, 2))
        yield answer
    yield from book.lines()


def expected(cases):
    """The lines that are wanted. Each pair of clauses that can fit at once must be among the cases."""
    met = defaultdict(set)
    yield from answers(cases, met)
    for call, clauses in CLAUSES.items():
        assert met[call] == set(combinations(clauses, 2)) - APART.get(call, APART_IN_POSTS), (call, met[call])


def area_edges():
    yield "open 16 64 128"
    yield from (f"area {id} W" for id in OUTSIDE)
    yield from (f"area 7 {word}" for word in NO_AREA_KINDS)
    yield from ("area 7 C", "area 7 W", "area 1 C", "area 65535 W", "area 1 W", "area 65535 W", "area 65534 C")
    # no C area
    yield from ("open 2 2 2", "area 2 W", "party 2 2", "resource 2 2 P 0 0")


def area_pairs():
    yield from ("open 3 0 0", "area 2 W", "area 1 C")
    yield from ("area 0 X", "area 0 C", "area 1 X", "area 1 C", "area 2 C")
    # with area 3 the table is full
    yield from ("area 3 W", "area 0 W", "area 4 X", "area 2 W", "area 4 C", "area 4 W")
    yield from ("area 0 X", "area 0 C", "area 1 X", "area 1 C", "area 2 C")


def party_edges():
    yield from ("open 3 64 128", "area 7 W", "area 1 C", "area 65535 W")
    yield from (f"party {id} 1" for id in OUTSIDE)
    yield from (f"party 7 {area}" for area in OUTSIDE)
    yield from ("party 7 6", "party 7 65534", "party 7 7", "party 7 1", "party 8 7", "party 65535 65535", "party 1 65535")
    # the C area has several
    yield from ("party 1 1", "party 65534 1", "party 2 1", "party 2 1", "party 65535 1")


def party_pairs():
    yield from ("open 3 4 0", "area 1 C", "area 2 W", "area 3 W", "party 1 1", "party 2 2")
    yield from ("party 0 9", "party 0 0", "party 1 0", "party 0 2", "party 1 9", "party 1 2", "party 2 2")
    # with party 4 the table is full
    yield from ("party 3 1", "party 4 3", "party 0 1", "party 5 9", "party 1 1", "party 5 2", "party 5 1")
    yield from ("party 0 9", "party 5 0", "party 1 0", "party 0 2", "party 1 9", "party 1 2", "party 2 2")


def resource_edges():
    yield from ("open 2 3 128", "area 7 W", "area 1 C", "party 7 7", "party 65535 1", "party 1 1")
    yield from (f"resource {id} 1 P 0 0" for id in OUTSIDE)
    yield from (f"resource 7 {owner} S 0 0" for owner in OUTSIDE)
    yield from (f"resource 7 1 {word} 1 0" for word in NO_RESOURCE_KINDS)
    yield from (f"resource 7 1 D {net} 1" for net in NO_FLAGS)
    yield from (f"resource 7 1 D 1 {exempt}" for exempt in NO_FLAGS)
    yield from ("resource 7 7 D 0 0", "resource 7 2 D 0 0", "resource 7 65534 D 0 0", "resource 7 65535 D 0 1")
    yield from ("resource 7 1 P 0 0", "resource 65535 1 P 0 0", "resource 1 1 S 0 0", "resource 65535 65535 P 0 0")
    for kind, id in (("P", 20), ("S", 30), ("D", 40)):
        yield from (f"resource {id + place} 1 {kind} {place // 2} {place % 2}" for place in range(4))


def resource_pairs():
    yield from ("open 2 2 2", "area 2 W", "area 1 C", "party 2 2", "party 1 1", "resource 1 1 P 0 0")
    yield from ("resource 0 1 X 0 0", "resource 5 0 P 0 2", "resource 0 9 P 0 0", "resource 5 0 P 0 0", "resource 1 0 P 0 0")
    yield from ("resource 0 2 P 0 0", "resource 5 9 X 0 0", "resource 5 9 P 2 0", "resource 1 1 - 0 0", "resource 1 1 P 0 2")
    yield from ("resource 5 2 x 0 0", "resource 5 2 P -1 0", "resource 1 9 P 0 0", "resource 1 2 P 0 0")
    # with resource 2 the table is full
    yield from ("resource 2 1 D 1 1", "resource 0 1 P 0 0", "resource 5 0 P 0 0", "resource 5 1 X 0 0", "resource 5 1 P 0 -1")
    yield from ("resource 5 9 P 0 0", "resource 1 1 P 0 0", "resource 5 2 P 0 0", "resource 5 1 P 0 0")
    yield from ("resource 0 9 X 0 0", "resource 0 2 X 0 0", "resource 1 0 X 0 0", "resource 1 9 X 0 0", "resource 1 2 X 0 0")
    yield from ("resource 5 9 X 0 0", "resource 5 2 X 0 0", "resource 1 9 P 0 0", "resource 1 2 P 0 0")


def few_rows():
    yield "open 1000 1000 1000"
    yield from ("open 0 0 0", "area 1 C", "area 0 C", "area 1 c", "party 1 1", "party 0 1", "party 1 0")
    yield from ("resource 1 1 P 0 0", "resource 0 1 P 0 0", "resource 1 1 P 0 2")
    yield from ("open 1 0 1", "area 1 C", "area 1 C", "area 2 W", "party 1 1", "party 1 2", "resource 1 1 P 0 0")
    yield from ("open 1 1 0", "area 1 C", "party 1 1", "party 1 1", "party 2 1", "resource 1 1 P 0 0", "resource 1 2 P 0 0")
    yield from ("open 1 1 0", "area 1 W", "party 1 1", "resource 1 1 P 0 0")


def one_row_too_many():
    """One row more is entered than each table can have. Area 9 is the C area."""
    yield from (f"area {id} {'C' if id == 9 else 'W'}" for id in range(17, 0, -1))
    yield from (f"party {id} {18 - id if id < 17 else 9}" for id in range(1, 66))
    yield from (f"resource {65_536 - n} {17 + n % 48} {'PSD'[n % 3]} {n % 2} {n // 2 % 2}" for n in range(1, 130))


def many_rows():
    """More is asked of each table than it can have."""
    yield from ("open 17 65 1000", *one_row_too_many())


def far_too_many_rows():
    """A million million rows are asked of each table, and as many lines: each table has its full number."""
    yield from (f"open {' '.join(4 * [str(10**12)])}", *one_row_too_many())


def drawn(draw):
    """At first most are areas and parties, then most are resources, so that each call is accepted and refused in many ways."""
    for _ in range(6):
        yield f"open {draw.randint(2, 3)} {draw.randint(2, 3)} {draw.randint(1, 3)}"
        for call in draw.choices(list(FULL), [3, 4, 0], k=12) + draw.choices(list(FULL), [1, 1, 4], k=14):
            id, other = draw.choices(range(5), [1, 8, 8, 4, 1], k=2)
            net, exempt = draw.choices(range(3), [10, 10, 1], k=2)
            words = {
                "area": [id, draw.choice("CCCWWWX")],
                "party": [id, other],
                "resource": [id, other, draw.choice("PPPSSSDDDX"), net, exempt],
            }
            yield " ".join(map(str, [call, *words[call]]))


# In each table the ids 1, 7 and 65,535. A row with the id 1 takes every kind of record, and 7 is of a W area or plain.
BOOK = (
    *("open 4 5 4", "area 65535 W", "area 7 W", "area 1 C", "party 65535 1", "party 7 7", "party 1 1"),
    *("resource 65535 1 D 0 1", "resource 7 65535 P 1 0", "resource 1 1 S 0 0"),
)


def post(record, key, fields):
    """A line. Fields that are not given are 0, and the type absent."""
    return " ".join([record, *map(shown, [*key, *(nothing(record) | fields).values()])])


def read(record, key):
    return " ".join(["read", record, *map(str, key)])


def post_and_read(record, key, fields):
    return post(record, key, fields), read(record, key)


def first_key(record, id):
    return (id, *(part[0] for part in KINDS[record].key))


def keys(*ids):
    """All keys of the rows with these ids."""
    return [(record, key) for record, kind in KINDS.items() for key in product(ids, *kind.key)]


def marked(record, mark):
    """Fields whose numbers tell for which post and in which place they are given."""
    numbered = enumerate(KINDS[record].fields.items(), 13 * mark)
    return {
        name: values[number % len(values)] if values in (FLAGS, TYPES) else number for number, (name, values) in numbered
    }


def field_edges():
    """Each field alone, so that a post shows whether it keeps anything of the one before."""
    yield from BOOK
    for record, kind in KINDS.items():
        key = first_key(record, 1)
        for name, values in kind.fields.items():
            if values is not TYPES:
                yield from post_and_read(record, key, {name: values[0]})
                yield from post_and_read(record, key, {name: values[-1]})
                yield from (post(record, key, {name: number}) for number in outside(values))
                yield read(record, key)


def dispatch_types():
    yield from BOOK
    for word in TYPES:
        yield from post_and_read("energy", (7, 5), {"ed": word})
    yield from post_and_read("energy", (7, 5), {"edqty": 1, "ed": "TEST"})
    words = [word for word in TYPES if word]
    near = [other for word in words for other in (word.lower(), word[:-1], word[1:], word + "X", "X" + word)]
    missed = [word for word in dict.fromkeys((*near, *NO_TYPES)) if word not in TYPES]
    yield from (post("energy", (7, 5), {"ed": word}) for word in missed)
    yield read("energy", (7, 5))
    yield from post_and_read("energy", (7, 5), {"edqty": 1})


def codes():
    yield from BOOK
    yield from (post("given", (1, 5, code), {"cents": code}) for code in CODES)
    yield from (post("given", (1, 5, code), {"cents": 1}) for code in NO_CODES)
    yield from (read("given", (1, interval, code)) for interval in (4, 5, 6) for code in CODES)
    yield from (read("given", (1, 5, code)) for code in NO_CODES)


def span_edges():
    """What is posted first would be changed or read where an id or a slot outside was cut."""
    yield from BOOK
    for record, kind in KINDS.items():
        first, last = first_key(record, 1), (65_535, *(part[-1] for part in kind.key))
        name = list(kind.fields)[0]
        yield from post_and_read(record, first, {name: 1})
        yield from post_and_read(record, last, {name: 1})
        far = [(id, *first[1:]) for id in OUTSIDE]
        for slots in kind.key[:1]:
            far += [(1, slot, *first[2:]) for slot in (*NO_SLOTS, slots.stop, slots.stop + 7, 256 + slots[-1])]
        yield from (post(record, key, {}) for key in far)
        yield from (read(record, key) for key in (first, last, *far))


def clause_pairs():
    """The row 99 is not entered."""
    yield from BOOK
    for record, (_, parts, fields) in KINDS.items():
        name = "nopay" if "nopay" in fields else list(fields)[0]
        tried = [{name: number} for number in (1, fields[name][0] - 1, 0)] + [{"ed": "TESTS"}] * ("ed" in fields)
        for key in product((0, 99, 7, 1), *((0, part[1]) for part in parts)):
            yield from (post(record, key, some) for some in tried)
            yield read(record, key)


def misfits():
    """Row 99 is entered in the midst, of a W area or plain."""
    yield from BOOK
    for row in ((), ("area 99 W", "party 99 99", "resource 99 1 P 0 0")):
        yield from row
        for record, id, nopay in product(("election", "test"), (1, 7, 99), (65_536, VOLUMES[-1], 0)):
            fields = dict.fromkeys(KINDS[record].fields, 1) | {"nopay": nopay}
            yield from post_and_read(record, first_key(record, id), fields)
        for record, id in product(("tag", "demand", "given"), (1, 7, 65_535, 99)):
            fields = dict.fromkeys(KINDS[record].fields, 1)
            yield from post_and_read(record, first_key(record, id), fields)


def own_records(draw):
    """Each key has a record of its own, which stays when another is posted and when rows are entered."""
    yield from BOOK
    all_keys = keys(1, 7, 65_535)
    yield from (read(record, first_key(record, 1)) for record in KINDS)
    for mark, (record, key) in enumerate(draw.sample(all_keys, len(all_keys))):
        unpaid = {"nopay": 0} if record in ("election", "test") and key[0] != 1 else {}
        yield post(record, key, marked(record, mark) | unpaid)
    yield from (read(record, key) for record, key in all_keys)
    yield from ("area 99 W", "party 98 99", "party 99 1", "resource 99 99 S 1 1")
    yield from (post(record, first_key(record, 1), {}) for record in KINDS)
    yield from (read(record, key) for record, key in all_keys)
    yield from (read(record, first_key(record, 99)) for record in KINDS)


def drawn_field(draw, name, values):
    if values is TYPES:
        return draw.choice((*TYPES, None, None, "", "test"))
    inside = 0 if name == "nopay" else draw.randrange(values.start, values.stop)
    return draw.choice((inside, inside, 0, values[0], values[-1]) * 12 + (values[0] - 1, values[-1] + 1))


def drawn_entry(draw):
    id, other = draw.choices(range(1, 4), k=2)
    return draw.choice((f"area {id} {draw.choice('CCW')}", f"party {id} {other}", f"resource {id} {other} {draw.choice('PSD')} 0 1"))


def drawn_call(draw):
    """Of the intervals, quarters and codes three are drawn most, so that records are often replaced."""
    record, kind = draw.choice(list(KINDS.items()))
    id = draw.choice(5 * (1, 2, 3) + (0,))
    key = (id, *(draw.choice(4 * (*part[:2], part[-1]) + (*part, 0, 5)) for part in kind.key))
    fields = {name: drawn_field(draw, name, values) for name, values in kind.fields.items()}
    return draw.choices((drawn_entry(draw), post(record, key, fields), read(record, key)), [1, 10, 5])[0]


def drawn_posts(draw):
    """Rows are entered in the midst of posts. At the end each record of each row is read."""
    yield "open 3 3 3"
    yield from (drawn_call(draw) for _ in range(900))
    yield from (read(record, key) for record, key in keys(1, 2, 3))


def with_room(cases):
    """Where a book is opened, room for its lines: mostly that of a whole table, here and there less, or more than there can be."""
    rooms = cycle((4_096, 4_096, 4_096, 0, 4_096, 4_097, 4_096, 1, 4_096, 65_536, 4_095))
    return [f"{line} {next(rooms)}" if line.startswith("open ") else line for line in cases]


def main():
    rows = (area_edges, area_pairs, party_edges, party_pairs, resource_edges, resource_pairs, few_rows, many_rows)
    posts = (field_edges, dispatch_types, codes, span_edges, clause_pairs, misfits)
    cases = [line for lines in rows for line in lines()] + list(drawn(random.Random(180)))
    cases += [line for lines in posts for line in lines()]
    cases += [*own_records(random.Random(181)), *drawn_posts(random.Random(184)), *charging.lines()]
    cases = [*with_room(cases), *settling.lines(), *far_too_many_rows()]
    settling.assert_documented(list(answers(settling.recalculation(), defaultdict(set))))
    with open(HERE / "stdin", "w", encoding="utf-8") as given, open(HERE / "stdout", "w", encoding="utf-8") as wanted:
        print(*cases, sep="\n", file=given)
        print(*expected(cases), sep="\n", file=wanted)


if __name__ == "__main__":
    main()
