"""What an hour is charged, worked out from docs/charges.md, and the cases of it. cases.py keeps the records and writes the files.

`trial` is a line as `energy` is, with the deemed energy behind. `charge L` works the hour out by largest remainder, `charge R` by
running: then the deemed energies of the ties are told, and every amount that is not 0.
"""
import random
from fractions import Fraction
from itertools import product
from typing import NamedTuple

INTERVALS, QUARTERS = range(1, 13), range(1, 5)
CODES = (6470, 6474, 6475, 6476, 6477)
GIVEN = (6470, 6474, 6475)
CENT = 12_000_000
DEEMED = range(-120_000_000, 120_000_001)
FIRST = (
    *("SYSEMR", "SYSEMR1", "TEMR", "TMODEL", "TMODEL1", "TMODEL2", "TMODEL3", "TMODEL4", "TMODEL5", "TMODEL6", "TMODEL7"),
    *("TMODEL8", "TMODEL9", "TORETC", "TORETC1", "RMRR", "RMRS", "RMRT", "SLIC", "OTHER"),
)
SECOND = ("NONTMOD", "ASTEST", "TEST")

MOST_PRICE, MOST_ENERGY, MOST_TELEMETRY, MOST_GIVEN = 500_000_000, 10_000_000, 100_000_000, 1_000_000_000

# the bounds of docs/charges.md, and the limits of docs/sharing.md
MOST_PRODUCTS, MOST_CENTS, MOST_PARTY, MOST_OFFSET = 240 * 10**15, 20 * 10**9, 2_561 * 10**9, 164_032 * 10**9
MOST_POOL, MOST_WEIGHT, MOST_TOTAL = 10**15, 10**8, 2 * 10**9


class Energy(NamedTuple):
    lmp: int = 0
    mss: int = 0
    resprice: int = 0
    edprice: int = 0
    iie: int = 0
    oa: int = 0
    mssiie: int = 0
    res: int = 0
    above: int = 0
    edqty: int = 0
    resflag: int = 0
    ed: str | None = None


class Tag(NamedTuple):
    kw: int = 0
    telemetry: int = 0
    curtailed: int = 0


class Election(NamedTuple):
    opted_in: int = 0
    cap: int = 0
    up: int = 0
    nopay: int = 0


class Test(NamedTuple):
    capacity: int = 0
    ramp: int = 0
    nopay: int = 0


class Transfer(NamedTuple):
    to: int = 0
    base_to: int = 0
    sent: int = 0
    base_sent: int = 0


class Demand(NamedTuple):
    units: int = 0


class Given(NamedTuple):
    cents: int = 0


class Resource(NamedTuple):
    owner: int
    kind: str
    net: int
    exempt: int


class Hour(NamedTuple):
    """The rows by their ids, in the order entered, with what stands behind the id; and what is posted, by its word and key."""

    areas: dict
    parties: dict
    resources: dict
    posted: dict

    def record(self, shape, *key):
        return shape(*self.posted.get((shape.__name__.lower(), *key), ()))

    def c_area(self):
        return next((id for id, [kind] in self.areas.items() if kind == "C"), None)

    def parties_of(self, area):
        return [id for id, [where] in self.parties.items() if where == area]

    def row(self, id):
        return Resource(*self.resources[id])

    def ties(self):
        return [id for id in self.resources if self.row(id).kind in ("S", "D")]

    def tags(self, id):
        return [self.record(Tag, id, interval) for interval in INTERVALS]


class Refusal(NamedTuple):
    number: int
    interval: int
    id: int

    def lines(self):
        yield f"refused {self.number} part 1 interval {self.interval} id {self.id}"


class Charges(NamedTuple):
    """The deemed energies of each tie; the amounts by interval, account and code; and the pools of 6477 and 6476."""

    deemed: dict
    amounts: dict
    offsets: dict
    surcharges: dict

    def lines(self):
        yield "charged"
        yield from (" ".join(map(str, ["deemed", id, *units])) for id, units in self.deemed.items())
        yield from (" ".join(map(str, [*key, cents])) for key, cents in self.amounts.items() if cents != 0)


# The rules of sharing. With |pool| x weight whole, no even part has to be taken out first.


def signed(size, sign):
    return -size if sign < 0 else size


def largest_remainder(pool, weights):
    total = sum(weights) or 1
    sizes, rests = [abs(pool) * weight // total for weight in weights], [abs(pool) * weight % total for weight in weights]
    missing = abs(pool) - sum(sizes)
    served = sorted(range(len(weights)), key=lambda place: (-rests[place], place))[:missing]
    return [signed(size + (place in served), pool) for place, size in enumerate(sizes)]


def running(pool, weights):
    total = sum(weights) or 1
    return [
        signed(abs(pool) * sum(weights[: place + 1]) // total - abs(pool) * sum(weights[:place]) // total, pool)
        for place in range(len(weights))
    ]


RULES = {"L": largest_remainder, "R": running}


def unshareable(pool, weights):
    return pool != 0 and sum(weights) == 0


# CC 6470


def rounded(products):
    """To the nearest cent, half a cent away from 0."""
    return signed((abs(products) + CENT // 2) // CENT, products)


def dispatch_price(energy):
    if energy.edqty < 0:
        return min(energy.lmp, energy.edprice)
    return max(energy.lmp, energy.edprice) if energy.ed in SECOND else energy.lmp


def resource_products(resource, energy, deemed):
    if resource.exempt:
        return 0
    price = energy.mss if resource.net else energy.lmp
    adjustment = energy.oa if resource.kind == "P" else deemed - energy.oa
    residual = energy.resprice if energy.resflag else price
    dispatched = energy.edqty * dispatch_price(energy) if energy.ed else 0
    return -(price * (energy.iie + adjustment + energy.mssiie + energy.above) + residual * energy.res + dispatched)


def resource_cents(hour, deemed, id, interval):
    units = deemed[id][interval - 1] if id in deemed else 0
    return rounded(resource_products(hour.row(id), hour.record(Energy, id, interval), units))


def own_amount(hour, deemed, party, code, interval):
    """What a party is charged under a code without any sharing."""
    given = hour.record(Given, party, interval, code).cents
    if code != 6470:
        return given
    owned = [id for id in hour.resources if hour.row(id).owner == party]
    return given + sum(resource_cents(hour, deemed, id, interval) for id in owned)


# CC 6476


def quarter_of(interval):
    return (interval + 2) // 3


def surcharge_quantity(hour, area, interval):
    election, test = hour.record(Election, area), hour.record(Test, area, quarter_of(interval))
    moved = hour.record(Transfer, area, interval)
    if not election.opted_in:
        return 0
    failed = max(test.capacity, test.ramp)
    transferred = (moved.to - moved.base_to) - (moved.sent - moved.base_sent)
    credit = election.up - election.nopay - test.nopay
    return transferred - credit if transferred < failed else failed


def surcharge(hour, area, interval):
    return rounded(surcharge_quantity(hour, area, interval) * hour.record(Election, area).cap)


# The hour


def area_weights(hour, area, interval):
    """What each of an area's parties weighs, in the order entered."""
    weighed = hour.areas[area] == ["C"]
    return {id: hour.record(Demand, id, interval).units if weighed else 1 for id in hour.parties_of(area)}


def tag_weight(tag):
    return 0 if tag.curtailed or tag.kw == 0 else max(tag.telemetry, 1)


def deemed_energies(hour, rule):
    """Those of each tie, or the first refusal."""
    answer = {}
    for id in hour.ties():
        tags = hour.tags(id)
        kws, weights = [tag.kw for tag in tags], [tag_weight(tag) for tag in tags]
        if hour.row(id).kind == "S":
            answer[id] = kws
            continue
        if unshareable(sum(kws), weights):
            return Refusal(8, 0, id)
        answer[id] = rule(sum(kws), weights)
    return answer


def pools(hour, deemed, interval):
    """What is shared in an interval: the number that sharing is refused by, the area, the code, the pool and the weights."""
    c_area = hour.c_area()
    if c_area is not None:
        offset = -sum(own_amount(hour, deemed, party, code, interval) for party in hour.parties for code in GIVEN)
        yield 9, c_area, 6477, offset, area_weights(hour, c_area, interval)
    for area in hour.areas:
        yield 10, area, 6476, surcharge(hour, area, interval), area_weights(hour, area, interval)


def charged(hour, deemed, rule):
    """All amounts by these deemed energies, or the first refusal."""
    charges = Charges(deemed, {}, dict.fromkeys(INTERVALS, 0), {})
    for interval in INTERVALS:
        shares = {}
        for number, area, code, pool, weights in pools(hour, deemed, interval):
            if unshareable(pool, weights.values()):
                return Refusal(number, interval, area)
            shares |= {(party, code): cents for party, cents in zip(weights, rule(pool, [*weights.values()]))}
            if code == 6477:
                charges.offsets[interval] = pool
            else:
                charges.surcharges[interval, area] = pool
        for party, code in product(hour.parties, CODES):
            own = own_amount(hour, deemed, party, code, interval) if code in GIVEN else shares.get((party, code), 0)
            charges.amounts[interval, party, code] = own
        charges.amounts[interval, 0, 6476] = -sum(charges.surcharges[interval, area] for area in hour.areas)
    return charges


def work_out(hour, rule):
    deemed = deemed_energies(hour, rule)
    return deemed if isinstance(deemed, Refusal) else charged(hour, deemed, rule)


# What docs/charges.md says always holds


def near(share, pool, weight, total):
    """Whether the share is less than one from its exact part."""
    return abs(share - (Fraction(pool * weight, total) if total else 0)) < 1


def assert_shared(pool, shares, weights):
    total = sum(weights)
    assert sum(shares) == pool and all(near(share, pool, weight, total) for share, weight in zip(shares, weights, strict=True))
    assert abs(pool) <= MOST_POOL and len(weights) <= 64 and max([0, *weights]) <= MOST_WEIGHT and total <= MOST_TOTAL


def assert_ties(hour, deemed):
    assert list(deemed) == hour.ties()
    for id, units in deemed.items():
        tags = hour.tags(id)
        kws = [tag.kw for tag in tags]
        assert len(units) == 12 and all(unit in DEEMED for unit in units)
        if hour.row(id).kind == "D":
            assert_shared(sum(kws), units, [tag_weight(tag) for tag in tags])
        else:
            assert units == kws


def assert_interval(hour, charges, interval):
    amounts = {(account, code): cents for (when, account, code), cents in charges.amounts.items() if when == interval}
    assert sum(cents for (_, code), cents in amounts.items() if code == 6476) == 0
    assert sum(cents for (_, code), cents in amounts.items() if code != 6476) == 0
    for area in hour.areas:
        weights, pool = area_weights(hour, area, interval), charges.surcharges[interval, area]
        assert_shared(pool, [amounts[party, 6476] for party in weights], [*weights.values()])
        assert abs(pool) <= MOST_CENTS
    c_area = hour.c_area()
    weights = {} if c_area is None else area_weights(hour, c_area, interval)
    assert_shared(charges.offsets[interval], [amounts[party, 6477] for party in weights], [*weights.values()])
    outside = [party for party in hour.parties if party not in weights]
    assert not any(amounts[party, code] for party in outside for code in CODES if code != 6476)
    assert all(abs(amounts[party, 6470]) <= MOST_PARTY for party in hour.parties)
    assert all(abs(cents) <= MOST_OFFSET for cents in (charges.offsets[interval], *amounts.values()))


def assert_resources(hour, deemed):
    for id, interval in product(hour.resources, INTERVALS):
        units = deemed[id][interval - 1] if id in deemed else 0
        assert abs(resource_products(hour.row(id), hour.record(Energy, id, interval), units)) <= MOST_PRODUCTS
        assert abs(resource_cents(hour, deemed, id, interval)) <= MOST_CENTS


def assert_rule_shares_only(hour, charges):
    """With the same deemed energies each rule has the same pools, and the same amounts where nothing is shared."""
    for rule in RULES.values():
        other = charged(hour, charges.deemed, rule)
        assert (other.offsets, other.surcharges) == (charges.offsets, charges.surcharges)
        own = [key for key in charges.amounts if key[2] in GIVEN or key[1] == 0]
        assert all(other.amounts[key] == charges.amounts[key] for key in own)


def assert_laws(hour, charges):
    assert_ties(hour, charges.deemed)
    assert_resources(hour, charges.deemed)
    for interval in INTERVALS:
        assert_interval(hour, charges, interval)
    assert_rule_shares_only(hour, charges)


# The answers to the lines


def charge_lines(hour, letter):
    answer = work_out(hour, RULES[letter])
    if isinstance(answer, Charges):
        assert_laws(hour, answer)
    return answer.lines()


def trial_line(hour, id, fields, deemed):
    return f"products {resource_products(hour.row(id), Energy(*fields), deemed)}"


# The cases


def shown(field):
    return "." if field is None else str(field)


def post(record, *key):
    return " ".join([type(record).__name__.lower(), *map(str, key), *map(shown, record)])


def trial(energy, id, interval, deemed):
    return f"trial {id} {interval} {' '.join(map(shown, energy))} {deemed}"


BOTH = ("charge L", "charge R")

# a resource of each kind, by each choice of net and exempt; those of which nothing is exempt come first
KINDS = [(kind, net, exempt) for exempt, kind, net in product((0, 1), "PSD", (0, 1))]
AMOUNTS = ("iie", "oa", "mssiie", "res", "above", "edqty")
PRICES = Energy(lmp=700, mss=1_100, resprice=1_300, edprice=500, ed="TEMR")


def one_party(*kinds):
    """A C area, which is not the first, with one party, which owns a resource of each of these kinds: 20 and on."""
    yield from (f"open 3 3 {len(kinds)}", "area 7 W", "area 2 C", "party 2 7", "party 7 2")
    yield from (f"resource {id} 7 {kind} {net} {exempt}" for id, (kind, net, exempt) in enumerate(kinds, 20))


def trials_of_fields():
    """Each amount alone, and all of them, with prices that tell which of them it has."""
    yield from one_party(*KINDS)
    for id in range(20, 26):
        yield trial(PRICES, id, 5, 0)
        yield trial(PRICES, id, 5, 17)
        yield from (trial(PRICES._replace(**{name: 3}), id, 5, 17) for name in AMOUNTS)
        yield trial(PRICES._replace(res=-3, resflag=1), id, 5, -17)
        yield trial(PRICES._replace(res=2, resflag=1, resprice=0), id, 5, 0)
    for id in range(20, 32):
        every = Energy(700, -1_100, 1_300, 900, 1, 20, 300, 4_000, 50_000, 600_000, id % 2, "TEST")
        yield trial(every, id, 12, 7_000_000)


def trials_of_types():
    """Each type, with edprice above lmp: the classes differ in what is above 0."""
    yield from one_party(*KINDS[:2])
    for word in (*FIRST, *SECOND, None):
        yield from (trial(Energy(lmp=100, edprice=300, edqty=units, ed=word), 20, 1, 0) for units in (2, -3))


def trials_of_dispatch():
    yield from one_party(*KINDS[:2])
    prices = ((100, 300), (300, 100), (200, 200), (-100, 100), (100, -100), (-300, -100), (-100, -300))
    for (lmp, edprice), word, units in product(prices, ("OTHER", "NONTMOD"), (7, -7)):
        yield trial(Energy(lmp=lmp, mss=90, edprice=edprice, edqty=units, ed=word), 21, 1, 0)
    for word, units in product(("OTHER", "NONTMOD", None), (5, 0)):
        yield trial(Energy(lmp=100, mss=90, edprice=300, iie=1, edqty=units, ed=word), 21, 1, 0)


def trials_at_the_edges():
    """All prices and all amounts at an end of their ranges at once."""
    yield from one_party(*KINDS[:6])
    for id, price, amount in product((20, 23, 25), (-1, 1), (-1, 1)):
        # what was expected of a tie counts against its deemed energy
        expected = amount if id == 20 else -amount
        amounts = [MOST_ENERGY * sign for sign in (amount, expected, amount, amount, amount, amount)]
        energy = Energy(*[MOST_PRICE * price] * 4, *amounts, resflag=id % 2, ed="TEST")
        yield trial(energy, id, 5, 120_000_000 * amount)
        yield trial(energy._replace(lmp=-energy.lmp, ed="SLIC", resflag=0), id, 5, 120_000_000 * amount)


def drawn_energy(draw, most_price, most_energy):
    """In some the prices are near each other or the same."""
    prices = [draw.randint(-most_price, most_price) for _ in range(4)]
    if draw.random() < 0.3:
        prices = [draw.choice(prices[:2]) for _ in prices]
    amounts = [draw.choice((0, 1, 1)) * draw.randint(-most_energy, most_energy) for _ in AMOUNTS]
    return Energy(*prices, *amounts, draw.randint(0, 1), draw.choice((None, draw.choice(FIRST), draw.choice(SECOND))))


def drawn_trials(draw):
    yield from one_party(*KINDS)
    for _ in range(60):
        id = draw.choice(range(20, 26)) if draw.random() < 0.9 else draw.choice(range(26, 32))
        energy = drawn_energy(draw, draw.choice((9, 5_000_000, MOST_PRICE)), draw.choice((9, 20_000, MOST_ENERGY)))
        yield trial(energy, id, draw.choice(INTERVALS), draw.randint(-10, 10) * draw.choice((1, 12_000_000)))


def trial_refusals():
    """Each clause with each other, and each field just beyond its values. Row 99 is not entered."""
    yield from one_party(*KINDS[:6])
    standing = PRICES._replace(iie=1, oa=2, mssiie=3, res=4, above=5, edqty=6, resflag=1)
    yield post(standing, 20, 5)
    wrong = Energy(lmp=MOST_PRICE + 1)
    for id, interval, energy, deemed in product((0, 99, 20), (0, 5), (wrong, PRICES), (DEEMED.stop, 0)):
        yield trial(energy, id, interval, deemed)
    yield from (trial(PRICES, id, 5, 0) for id in (-1, 1, 65_535, 65_536, 65_556, 2**32 + 20, 2**63 - 1, -(2**63)))
    yield from (trial(PRICES, 20, interval, 0) for interval in (-1, 1, 12, 13, 261, 2**32 + 5, 2**63 - 1, -(2**63)))
    for names, most in ((Energy._fields[:4], MOST_PRICE), (AMOUNTS, MOST_ENERGY)):
        for name, sign in product(names, (1, -1)):
            yield trial(PRICES._replace(**{name: sign * (most + 1)}), 20, 5, 0)
    yield from (trial(PRICES._replace(resflag=flag), 20, 5, 0) for flag in (-1, 2, 2**32 + 1))
    yield from (trial(PRICES._replace(ed=word), 20, 5, 0) for word in ("-", "test", "TESTS", "TMODEL0"))
    for id, most in product((20, 22, 24), (DEEMED[0], DEEMED[-1])):
        yield from (trial(PRICES, id, 5, deemed) for deemed in (most, most + (1 if most > 0 else -1)))
    yield from (trial(PRICES, 20, 5, deemed) for deemed in (2**32, -(2**32), 2**63 - 1, -(2**63)))
    yield "read energy 20 5"


def trials_change_nothing():
    """What stands is read after trials, and charged. An hour that is charged stays as it was too."""
    yield from one_party(*KINDS[:5], ("P", 0, 1))
    yield from (post(Demand(interval), 7, interval) for interval in INTERVALS)
    for id, interval in product((20, 24), (4, 5)):
        yield post(Energy(lmp=CENT, iie=100 * id + interval), id, interval)
    yield from (post(Tag(7 * interval, interval), 24, interval) for interval in (4, 5))
    for id in (20, 24, 25):
        yield trial(Energy(lmp=CENT, mss=3, edprice=4, iie=9, oa=8, edqty=1, resflag=1, ed="TEST"), id, 5, 6)
        yield trial(Energy(lmp=CENT, iie=MOST_ENERGY + 1), id, 5, 6)
        yield trial(Energy(lmp=CENT, iie=7), id, 5, DEEMED.stop)
        yield from (f"read energy {id} {interval}" for interval in (4, 5))
    yield from (*BOTH, "read energy 24 5", "read tag 24 5", "read demand 7 5")
    yield from (trial(Energy(lmp=CENT), id, 5, 6) for id in (20, 24))
    yield "charge L"


def owners(*kinds):
    """A C area, in the midst, with a party for each of these kinds, which owns a resource of it; their ids are mixed."""
    yield from (f"open 4 {len(kinds) + 3} {len(kinds)}", "area 30 W", "area 9 C", "area 31 W", "party 9 30")
    yield from (f"party {place} 9" for place in range(20, 20 + len(kinds)))
    yield "party 31 31"
    yield from (f"resource {41 - place} {19 + place} {kind} {net} {exempt}" for place, (kind, net, exempt) in enumerate(kinds, 1))


def charges_by_field():
    """In each interval one amount alone, or all; at prices of so many cents a unit."""
    yield from owners(*KINDS[:6], ("P", 1, 1), ("D", 0, 1))
    yield "party 50 9"
    yield from (post(Demand(1), 50, interval) for interval in INTERVALS)
    prices = Energy(lmp=CENT, mss=3 * CENT, resprice=-7 * CENT, edprice=5 * CENT)
    every = prices._replace(iie=1, oa=-20, mssiie=300, res=-4_000, above=50_000, edqty=600_000)
    records = [
        *(prices._replace(**{name: 10}) for name in AMOUNTS[:5]),
        prices._replace(res=-10, resflag=1),
        *(prices._replace(edqty=units, ed=word) for units, word in ((10, "TMODEL9"), (-10, "TMODEL9"), (10, "ASTEST"))),
        prices._replace(lmp=-CENT, mss=-3 * CENT, edprice=-5 * CENT, iie=10, edqty=-10, ed="ASTEST"),
        every._replace(resflag=1, ed="SYSEMR1"),
        every,
    ]
    for id, (interval, energy) in product(range(33, 41), enumerate(records, 1)):
        yield post(energy, id, interval)
    for id, (kind, _, _) in zip(range(40, 32, -1), (*KINDS[:6], ("P", 1, 1), ("D", 0, 1))):
        if kind != "P":
            yield from (post(Tag(1_000 * interval, 1), id, interval) for interval in (2, 7, 12))
    yield "charge L"


def largest_charges():
    """Each figure at an end of its range: a dynamic tie has the energy of the hour in one interval."""
    yield from owners(("D", 0, 0), ("D", 1, 0), ("S", 0, 0), ("P", 0, 0))
    for id, interval in product((40, 39, 38), INTERVALS):
        kw = MOST_ENERGY if id != 39 else -MOST_ENERGY
        yield post(Tag(kw, MOST_TELEMETRY, int(interval != 5)), id, interval)
    for id, sign in ((40, 1), (39, -1), (38, 1), (37, -1)):
        expected = -sign if id != 37 else sign
        amounts = [MOST_ENERGY * one for one in (sign, expected, sign, sign, sign, sign)]
        yield post(Energy(*[MOST_PRICE] * 4, *amounts, resflag=1, ed="TEST"), id, 5)
        yield post(Energy(*[-MOST_PRICE] * 4, *amounts, resflag=0, ed="TEMR"), id, 6)
        # half a cent and a product more or less, far from 0; the static tie has energy there
        rest = 2_000_000 if id == 38 else -2_000_000
        for interval, more in ((7, 0), (8, -1), (9, 1)):
            amounts[3] = sign * (rest + more)
            yield post(Energy(MOST_PRICE, MOST_PRICE, 1, 0, *amounts[:5], 0, 1), id, interval)
    for party, sign in ((20, 1), (21, 1), (22, -1), (23, 1)):
        yield from (post(Given(sign * MOST_GIVEN), party, 5, code) for code in GIVEN)
    for interval in range(5, 10):
        yield from (post(Demand(MOST_ENERGY - interval * (party - 20)), party, interval) for party in range(20, 24))
    yield from BOTH


def half_cents():
    """So many products, of both signs, for one resource each: whole and half cents, and a product to either side."""
    yield from owners(("P", 0, 0), ("P", 0, 0))
    for interval, halves, rest in (
        *((1, 1, -1), (2, 1, 0), (3, 1, 1), (4, 3, -1), (5, 3, 0), (6, 3, 1), (7, 5, -1), (8, 5, 0), (9, 5, 1), (10, 2, -1)),
        *((11, 2, 1), (12, 83_333_333, 0)),
    ):
        for id, sign in ((40, 1), (39, -1)):
            energy = Energy(lmp=halves, resprice=1, iie=sign * CENT // 2, res=sign * rest, resflag=1)
            yield post(energy, id, interval)
            yield trial(energy, id, interval, 0)
    # what is charged to the one is paid to the other, so nothing is left to share
    yield "charge L"


def sums():
    """A party's resources are rounded each by itself, and their total has what is passed through with it."""
    yield "open 2 5 8"
    yield from ("area 5 W", "area 4 C", "party 4 5", *(f"party {id} 4" for id in (7, 5, 6)))
    yield from (f"resource {id} {owner} P 0 0" for id, owner in ((4, 6), (7, 7), (5, 5), (6, 7), (1, 6), (8, 7), (2, 5), (3, 6)))
    for interval, units in enumerate((6_000_000, -6_000_000, 5_999_999, -5_999_999, 4_000_000, 7_000_000), 1):
        yield from (post(Energy(lmp=1, iie=units), id, interval) for id in range(1, 9))
    # each code alone in an interval, then all, for two parties
    for interval, cents in ((7, (100, 0, 0)), (8, (0, 100, 0)), (9, (0, 0, 100)), (10, (-40, 300, -2_000)), (6, (1, 20, -300))):
        yield from (post(Given(amount), 7, interval, code) for code, amount in zip(GIVEN, cents) if amount != 0)
        yield from (post(Given(-3 * amount), 6, interval, code) for code, amount in zip(GIVEN, cents) if amount != 0)
    for interval in INTERVALS:
        yield from (post(Demand(units), party, interval) for party, units in ((7, 3), (5, 1), (6, interval)))
    yield from BOTH


def offsets():
    """Parties of both areas in mixed order. The demands of an interval are those of no other."""
    yield from ("open 3 7 1", "area 1 W", "area 2 C", "area 3 W")
    yield from (f"party {id} {area}" for id, area in ((1, 1), (9, 2), (5, 2), (3, 3), (7, 2), (2, 2), (4, 2)))
    pools = (5_000, -5_000, 100, -100, 10, -10, 0, 1, -1, 1_000_000_000, -999_999_999, 7)
    demands = (
        *((0, 0, 1, 2, 0), (0, 0, 1, 2, 0), (1, 1, 1, 0, 0), (0, 1, 1, 1, 0), (3, 0, 4, 0, 0), (0, 3, 0, 4, 0), (1, 2, 3, 4, 5)),
        *((1, 1, 1, 1, 1), (0, 1, 1, 1, 1), (7_777_777, 1, 10_000_000, 0, 123_456), (5, 4, 3, 2, 1), (0, 0, 0, 0, 1)),
    )
    for interval, (pool, units) in enumerate(zip(pools, demands), 1):
        payer, code = (9, 5, 7, 2, 4)[interval % 5], GIVEN[interval % 3]
        yield post(Given(-pool), payer, interval, code)
        yield from (post(Demand(demand), id, interval) for id, demand in zip((9, 5, 7, 2, 4), units) if demand)
    yield from BOTH


def surcharge_area(id, election, tests, transfers):
    yield post(election, id)
    yield from (post(test, id, quarter) for quarter, test in enumerate(tests, 1))
    yield from (post(moved, id, interval) for interval, moved in enumerate(transfers, 1))


def moving(transferred, more=0):
    """Transfers that come to so much, with each of their figures above 0."""
    base_to, sent, base_sent = 100 + more, 5_000 + 10 * more, 3_000 - more
    return Transfer(transferred + base_to + sent - base_sent, base_to, sent, base_sent)


def surcharges():
    """At a cent a unit, so that a pool shows the quantity. W areas with one party, with none, and one that is opted out."""
    yield from ("open 6 6 1", "area 8 W", "area 3 W", "area 1 C", "area 5 W", "area 4 W")
    yield from ("party 6 8", "party 8 1", "party 1 5", "party 4 1", "party 5 4")
    tests = (Test(1_000, 400, 5), Test(300, 700, 7), Test(0, 0, 11), Test(50, 50, 170))
    unpaid = [test._replace(nopay=0) for test in tests]
    moves = [999, 1_000, 1_001, 700, -500, 100, 0, -1, 5, 49, 50, 51]
    yield from surcharge_area(1, Election(1, CENT, 200, 30), tests, [moving(units, units % 7) for units in moves])
    yield from surcharge_area(8, Election(1, CENT, 200, 0), unpaid, [moving(units) for units in moves])
    yield from surcharge_area(5, Election(0, CENT, 200, 0), unpaid, [moving(units) for units in moves])
    # what has no party has a pool of 0: at first by its cap, later by rounding
    yield from surcharge_area(3, Election(1, 0, 200, 0), unpaid, [moving(units) for units in moves])
    yield from (post(Demand(units), id, interval) for interval in INTERVALS for id, units in ((8, 2), (4, interval)))
    yield from BOTH
    yield post(Election(1, 1, 200, 0), 3)
    yield from surcharge_area(4, Election(1, 2 * CENT, 60, 0), unpaid[::-1], [moving(units) for units in moves[::-1]])
    yield post(Election(1, 3 * CENT, 10, 90), 1)
    yield "charge L"


def surcharge_by_field():
    """Each figure alone, at a cent a unit, in areas of one party each: the C area, and a W area where it can be."""
    yield from ("open 4 4 1", "area 9 W", "area 6 C", "party 6 9", "party 9 6")
    for area in (9, 6):
        # F is the capacity in quarter 2, and the ramp in quarter 3
        yield post(Test(capacity=40), area, 2)
        yield post(Test(ramp=60), area, 3)
        yield from (post(Transfer(to=50), area, interval) for interval in (1, 4, 7, 10))
        yield post(Transfer(100, base_to=30), area, 5)
        yield post(Transfer(100, base_to=70), area, 6)
        yield post(Transfer(sent=20), area, 8)
        yield post(Transfer(base_sent=59), area, 9)
        yield post(Transfer(base_sent=60), area, 12)
        yield post(Transfer(0, 5, 0, 0), area, 2)
        yield post(Transfer(0, 5, 700, 0), area, 3)
    yield post(Test(100, 0, 33), 6, 4)
    yield from (post(Demand(1), 9, interval) for interval in INTERVALS)
    for election in (Election(1, CENT), Election(1, CENT, 1_000), Election(1, CENT, 1_000, 400), Election(0, CENT, 1_000, 400)):
        yield post(election._replace(nopay=0), 9)
        yield post(election, 6)
        yield "charge L"


def largest_surcharges():
    """The ends of all ranges, and half cents of both signs with a unit more or less."""
    yield from ("open 16 17 1", "area 2 C", "party 2 2", "party 1 2")
    yield from (f"area {id} W" for id in range(3, 6))
    yield from (f"party {id} {id}" for id in range(3, 6))
    far = MOST_ENERGY
    least, most = Transfer(0, far, far, 0), Transfer(far, 0, 0, far)
    transfers = [Transfer(far), Transfer(far - 1), least]
    yield from surcharge_area(2, Election(1, MOST_PRICE, 0, far), [Test(far, far, far)], transfers)
    yield from surcharge_area(3, Election(1, MOST_PRICE, far), [Test()], [least, most])
    yield from surcharge_area(4, Election(1, MOST_PRICE), [Test(0, far)], [most, Transfer(far), least])
    halves = [CENT // 2 + rest for rest in (-1, 0, 1)]
    transfers = [*3 * [Transfer()], *(Transfer(half) for half in halves), *(Transfer(sent=half) for half in halves)]
    yield from surcharge_area(5, Election(1, 1), [Test(), Test(far), Test(far)], transfers)
    yield from (post(Demand(units), id, interval) for interval in INTERVALS for id, units in ((2, far), (1, far - interval)))
    yield "charge L"
    for cap in (5, 7, 83_333_333):
        yield post(Election(1, cap), 5)
        yield "charge L"


def surcharge_pools():
    """The C area's pools shared by demand, of both signs, in mixed order with W areas; the rules differ."""
    yield from ("open 4 8 1", "area 3 W", "area 1 C", "area 2 W")
    yield from ("party 30 1", "party 3 3", "party 20 1", "party 2 2", "party 10 1")
    for area in (3, 1, 2):
        yield post(Election(1, CENT // area, 1_000), area)
        yield from (post(Test(4_000 * area, 900), area, quarter) for quarter in (1, 3))
        for interval in INTERVALS:
            yield post(moving(997 * interval // area), area, interval)
    for interval in INTERVALS:
        units = ((1, 1, 1), (1, 0, 2), (0, 5, 2), (7, 7, 3))[interval % 4]
        yield from (post(Demand(demand), id, interval) for id, demand in zip((30, 20, 10), units) if demand)
    yield from BOTH


def ties():
    """The hours of docs/deemed-energy.md, of both signs, and more; oa is what was expected."""
    kinds = [("D", 0, 0)] * 5 + [("S", 0, 0), ("S", 1, 0)]
    yield from owners(*kinds)
    yield "party 50 9"
    yield from (post(Demand(1), 50, interval) for interval in INTERVALS)
    tags = {
        40: (Tag(300, 200), Tag(300)),
        39: (Tag(300, 200), Tag(300, 0, 1)),
        38: (Tag(-40, 7), Tag(-30, 7), Tag(-20, 7), Tag(-10, 7, 1)),
        37: (*[Tag(5, 3)] * 3, Tag(-8, 2), Tag(0, 9), Tag(0, 0), Tag(0, 9, 1), Tag(1, 0, 0), Tag(1, 0, 1)),
        # what comes in and goes out is as much, and no interval weighs
        36: (Tag(70, 1, 1), Tag(-70, 1, 1), Tag(0, 3)),
        35: (Tag(10, 7), Tag(-30, 7, 1), Tag(40, 0, 1), Tag(0, 5)),
        34: tuple(Tag(interval - 5, 100 - interval, interval % 2) for interval in INTERVALS),
    }
    for id, hour in tags.items():
        yield from (post(tag, id, interval) for interval, tag in enumerate(hour, 1))
    for id, interval in product(tags, (1, 3, 4, 8, 11)):
        yield post(Energy(lmp=CENT, mss=-2 * CENT, oa=id - 36, iie=id % 3), id, interval)
    yield from BOTH


def corrections():
    """A record is put in the place of another, and the hour is charged again."""
    yield from owners(("P", 0, 0), ("D", 0, 0))
    yield from (post(Demand(units), id, 3) for id, units in ((20, 1), (21, 2)))
    yield post(Energy(lmp=CENT, iie=100, oa=7), 40, 3)
    yield post(Energy(lmp=CENT, iie=10), 39, 3)
    yield from (post(Tag(100, telemetry), 39, interval) for interval, telemetry in ((3, 1), (4, 1), (5, 1)))
    yield from BOTH
    # a figure that is not given again is 0
    yield post(Energy(lmp=CENT, iie=103), 40, 3)
    yield from BOTH
    yield post(Tag(101, 1, 1), 39, 3)
    yield "charge L"
    yield post(Tag(100, 9), 39, 4)
    yield from ("charge R", "charge L")
    yield from (post(Demand(units), id, 3) for id, units in ((20, 9), (21, 0)))
    yield post(Given(-5), 21, 3, 6474)
    yield from BOTH
    yield post(Demand(), 20, 3)
    yield from (*BOTH, post(Demand(4), 20, 3), "charge L")


def few_rows():
    yield from ("open 0 0 0", *BOTH)
    yield from ("open 2 1 0", "area 1 C", "charge L", "area 2 W", "charge R", "party 1 2", "charge L")
    # a C area that has no party
    yield from (post(Election(1, CENT), 1), post(Transfer(sent=5), 1, 12), *BOTH, post(Election(0, CENT), 1), "charge L")
    # no C area: the surcharges are all that is charged
    yield from ("open 3 3 3", "area 2 W", "area 1 W", "party 1 2", "party 2 1")
    yield from surcharge_area(2, Election(1, CENT, 4), [Test(9)], [Transfer(3), Transfer(20), Transfer(4)])
    yield from surcharge_area(1, Election(1, CENT), [Test(9)], [Transfer(3), Transfer(20), Transfer(0, 7)])
    yield from BOTH


def refusals_by_ties():
    """Of two ties the one that is entered first, before all intervals. A pool of 0, and a static tie, are not refused."""
    yield from owners(("D", 0, 1), ("D", 0, 0), ("S", 0, 0))
    yield from (post(Tag(300, 5, 1), 40, 1), post(Tag(-300, 5, 1), 40, 12))
    yield from (post(Tag(7, 5, 1), 38, 1), post(Tag(0, 50), 38, 2))
    yield "charge L"
    yield post(Tag(301, 5, 1), 40, 1)
    yield from BOTH
    yield post(Tag(-1, 5, 1), 39, 9)
    yield from BOTH
    # 9 and 10 too, in the first interval
    yield post(Given(1), 20, 1, 6475)
    yield post(Election(1, CENT), 30)
    yield from (post(Transfer(5), 30, 1), post(Test(9), 30, 1), "charge L")
    yield from (post(Tag(-300), 40, 12), *BOTH, post(Tag(-1), 39, 9), "charge L")
    yield from (post(Demand(1), 22, 1), "charge L")


def refusals_by_demand():
    """By 9 in the first interval of several; where the pool is 0, or comes to 0, nothing is refused."""
    yield from owners(("P", 0, 0), ("P", 0, 0))
    yield from (post(Given(5), 20, 4, 6470), post(Given(-5), 21, 4, 6474), post(Energy(lmp=1, iie=5_999_999), 40, 4))
    yield "charge L"
    yield from (post(Given(-6), 21, 4, 6474), *BOTH)
    yield from (post(Given(1), 20, 3, 6475), "charge R", post(Demand(1), 21, 3), "charge L")
    yield from (post(Demand(0), 20, 4), post(Demand(7), 20, 5), "charge L", post(Demand(7), 20, 4), *BOTH)
    yield from (post(Energy(lmp=1, iie=6_000_000), 39, 12), *BOTH, post(Demand(2), 20, 11), "charge L")
    yield from (post(Demand(2), 20, 12), "charge L")


def refusals_by_surcharge():
    """By 10 in the first interval of several, and there in the area that is entered first."""
    yield from ("open 4 4 1", "area 9 W", "area 8 C", "area 7 W", "area 6 W", "party 8 8", "party 6 6")
    for area in (6, 7, 8, 9):
        yield post(Election(1, 2), area)
        yield from (post(Test(9_000_000), area, quarter) for quarter in QUARTERS)
    # an area with a party, which is no matter
    yield from (post(Transfer(5_000_000), 6, interval) for interval in (1, 3, 5))
    # by rounding 0
    yield from (post(Transfer(2_999_999), area, 2) for area in (7, 8, 9))
    yield "charge L"
    yield from (post(Transfer(sent=3_000_000), 7, 6), *BOTH)
    yield from (post(Transfer(3_000_000), 8, 6), "charge L", post(Transfer(3_000_000), 9, 6), "charge L")
    yield from (post(Transfer(3_000_000), 7, 5), "charge R", post(Transfer(3_000_000), 8, 4), *BOTH)
    # 9 comes before 10 in an interval, even where the area of 10 is entered first
    yield from (post(Given(1), 8, 6, 6470), "charge L", post(Given(1), 8, 4, 6470), *BOTH)
    yield from (post(Demand(1), 8, 4), "charge L", post(Transfer(), 7, 5), *BOTH)
    yield from (post(Demand(1), 8, 6), "charge L", post(Election(0, 2), 9), "charge L", post(Election(1, 0), 7), *BOTH)
    yield from (post(Given(1), 8, 1, 6475), post(Election(1, 2), 7), *BOTH)


class Rows(NamedTuple):
    """The rows of a drawn hour: areas by their kinds, those that have a party, the C area's parties, resources by their kinds."""

    areas: dict
    peopled: set
    members: list
    resources: dict


def drawn_rows(draw, areas, parties, resources):
    """All in mixed order. A W area has a party, or seldom none."""
    area_ids, party_ids, resource_ids = (draw.sample(range(1, 3 * most), most) for most in (areas, parties, resources))
    c_area = draw.choice(area_ids)
    homes = [area for area in area_ids if area != c_area and draw.random() < 0.9]
    homes = draw.sample(homes + [c_area] * (parties - len(homes)), parties)
    members = [id for id, home in zip(party_ids, homes) if home == c_area]
    kinds = {id: draw.choice("PPSDD") for id in resource_ids}
    yield f"open {areas} {parties} {resources}"
    yield from (f"area {id} {'C' if id == c_area else 'W'}" for id in area_ids)
    yield from (f"party {id} {home}" for id, home in zip(party_ids, homes))
    for id, kind in kinds.items():
        yield f"resource {id} {draw.choice(members)} {kind} {draw.randint(0, 1)} {int(draw.random() < 0.1)}"
    return Rows({id: "C" if id == c_area else "W" for id in area_ids}, set(homes), members, kinds)


def some(draw, slots, density):
    """Some of the intervals or quarters, at least one."""
    return [slot for slot in slots if draw.random() < density] or [draw.choice(slots)]


def drawn_resource(draw, id, kind, density, most):
    """The first of a tie's tags is never curtailed."""
    for interval in some(draw, INTERVALS, density):
        yield post(drawn_energy(draw, draw.choice((50, 5_000_000)), most), id, interval)
    low, curtailed = draw.choice((0, -most)), 0
    for interval in some(draw, INTERVALS, density) if kind != "P" else ():
        yield post(Tag(draw.randint(low, most), draw.choice((0, 1, 3, 900, MOST_TELEMETRY)), curtailed), id, interval)
        curtailed = int(draw.random() < 0.3)


def drawn_area(draw, id, rows, density, most):
    """An area that has no party is opted out. The transferred energy is often near or at what failed."""
    paid = rows.areas[id] == "W"
    opted_in = int(id in rows.peopled and draw.random() < 0.8)
    nopay = [0 if paid else draw.randint(0, most // 4) for _ in range(5)]
    yield post(Election(opted_in, draw.choice((7, 1_000, 10_000_000)), draw.randint(0, most // 2), nopay[0]), id)
    failed_in = some(draw, QUARTERS, density)
    tests = {quarter: Test(draw.randint(0, most), draw.randint(0, most), nopay[quarter]) for quarter in failed_in}
    yield from (post(test, id, quarter) for quarter, test in tests.items())
    for interval in some(draw, INTERVALS, density):
        failed = max(tests.get(quarter_of(interval), Test()))
        near_it = Transfer(failed + 2 * most + draw.randint(-1, 1), most, 2 * most, most)
        yield post(draw.choice((near_it, Transfer(*(draw.randint(0, most) for _ in range(4))))), id, interval)


def drawn_parties(draw, members, density, most):
    """In each interval a party has a demand, in one each has."""
    all_in = draw.choice(INTERVALS)
    for interval in INTERVALS:
        given = sorted({draw.choice(members), *(id for id in members if interval == all_in or draw.random() < density)})
        yield from (post(Demand(draw.choice((1, 2, draw.randint(1, most)))), id, interval) for id in given)
        for id in members:
            if draw.random() < density / 4:
                yield post(Given(draw.randint(-most, most)), id, interval, draw.choice(GIVEN))


def drawn_hour(draw, areas, parties, resources, density):
    most = draw.choice((20, 5_000, 1_000_000))
    rows = yield from drawn_rows(draw, areas, parties, resources)
    for id, kind in rows.resources.items():
        yield from drawn_resource(draw, id, kind, density, most)
    for id in rows.areas:
        yield from drawn_area(draw, id, rows, density, most)
    yield from drawn_parties(draw, rows.members, density, most)
    yield from BOTH


def drawn_hours(draw):
    for _ in range(4):
        yield from drawn_hour(draw, draw.randint(2, 3), draw.randint(4, 5), draw.randint(2, 5), 0.3)


def full_hour(draw):
    yield from drawn_hour(draw, 16, 64, 128, 0.06)


def many_parties():
    """All parties are of the C area."""
    yield from ("open 1 64 0", "area 5 C", *(f"party {id} 5" for id in range(64, 0, -1)))
    yield from (post(Demand(MOST_ENERGY - 77 * id * id), id, 2) for id in range(1, 65))
    yield from (post(Given(MOST_GIVEN), id, 2, 6474) for id in range(1, 65, 9))
    yield from BOTH


def lines():
    trials = (trials_of_fields, trials_of_types, trials_of_dispatch, trials_at_the_edges, trial_refusals, trials_change_nothing)
    formulas = (charges_by_field, largest_charges, half_cents, sums, offsets, ties, corrections)
    areas = (surcharges, surcharge_by_field, largest_surcharges, surcharge_pools)
    refusals = (few_rows, refusals_by_ties, refusals_by_demand, refusals_by_surcharge)
    for group in (*trials, *formulas, *areas, *refusals, many_parties):
        yield from group()
    draw = random.Random(6470)
    for group in (drawn_trials, drawn_hours, full_hour):
        yield from group(draw)
