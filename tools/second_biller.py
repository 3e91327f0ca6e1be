#!/usr/bin/env python3
"""A second biller for PJM's administrative charges.

It is written from the tariff rules in docs/TARIFF.md and docs/MONTH-TEXT.md,
shares no code with the biller of this repository, and is there to be compared
with it. It bills one month from nothing: every balance is 0 before the bill.

    second_biller.py < text > charges     bill one month's text
    second_biller.py --months DIR         write the table of months to DIR
    second_biller.py --self-test          bill the worked month and compare

All amounts are whole cents, credits are negative, and only integers are used.
Python's // rounds toward minus infinity, which is the rounding "down" here.
"""

import sys
from dataclasses import dataclass

# ---------------------------------------------------------------- refusals

LAYOUT, RANGE, WEIGHTS, TOTAL, POOL, CONTROL = 1, 2, 3, 8, 9, 13


class Refused(Exception):
    """A refused month: the refusal's number, and the reader's line or 0."""

    def __init__(self, number, line):
        super().__init__(f"refused={number},{line}")
        self.number = number
        self.line = line


# ---------------------------------------------------------------- limits

LONGEST_TEXT = 16_384
MOST_DIGITS = 11
FIRST_MONTH, LAST_MONTH = 24_277, 35_999
WHOLE = 1_000                      # what a row of weights adds up to
COST_LIMIT = 4_000_000_000         # for the amount of a head
CONTROL_LIMIT = 24_000_000_000
MOST_USERS = 32
LAST_ACCOUNT = 999_999
FACT_LIMIT = 100_000_000
TOTAL_LIMIT = 2_000_000_000        # for all members' units of one kind
POOL_LIMIT = 4_000_000_000

SETTLEMENT_WEIGHTS = (68_000, 8_000, 4_800, 3_200, 7_896, 104, 8_000)
SETTLEMENT_WHOLE = 100_000

# The kind of units that shares component 1, 2, ... 13.
KIND_OF_COMPONENT = (1, 2, 3, 4, 5, 6, 7, 1, 2, 3, 4, 5, 6)


# ---------------------------------------------------------------- a month

@dataclass
class User:
    account: int
    transmission: int
    wheel_through: int
    generation: int
    virtual: int
    ftr: int
    obligation_bids: int
    option_bids: int
    segments: int
    obligation: int
    resource: int
    invoices: int


@dataclass
class Month:
    month: int
    rule: str
    division: list        # six weights: 9-1 to 9-4, management, settlement
    management: list      # four weights: 9-1 to 9-4
    split: list           # two splits: 9-2, 9-3
    cost: list            # six heads: division, 9-1 to 9-4, settlement
    control: int
    users: list


# ---------------------------------------------------------------- reading

class Lines:
    """Hands out the lines of a text one by one, counted from 1."""

    def __init__(self, text):
        self.rest = text
        self.number = 0

    def next(self):
        """The next line without its newline; a line without one is refused."""
        self.number += 1
        end = self.rest.find(b"\n")
        if end < 0:
            raise Refused(LAYOUT, self.number)
        line, self.rest = self.rest[:end], self.rest[end + 1:]
        return line

    def finish(self):
        """Nothing may follow; what does is the next line."""
        if self.rest:
            raise Refused(LAYOUT, self.number + 1)

    def value(self, key):
        """What stands after `key=` on the next line."""
        line = self.next()
        start = key + b"="
        if not line.startswith(start):
            raise Refused(LAYOUT, self.number)
        return line[len(start):]

    def numbers(self, key, count, signed=False):
        """The `count` numbers of the next line."""
        fields = self.value(key).split(b",")
        if len(fields) != count:
            raise Refused(LAYOUT, self.number)
        return [self.number_of(field, signed) for field in fields]

    def number_of(self, field, signed):
        """One decimal number: no leading zero, no -0, at most 11 digits."""
        negative = signed and field.startswith(b"-")
        digits = field[1:] if negative else field
        if not 1 <= len(digits) <= MOST_DIGITS:
            raise Refused(LAYOUT, self.number)
        if any(digit not in b"0123456789" for digit in digits):
            raise Refused(LAYOUT, self.number)
        if digits.startswith(b"0") and (negative or len(digits) > 1):
            raise Refused(LAYOUT, self.number)
        size = int(digits)
        return -size if negative else size

    def in_range(self, number, low, high):
        """The number just read must be from low to high."""
        if not low <= number <= high:
            raise Refused(RANGE, self.number)


def read_weights(lines, key, count):
    """A row of weights: each from 0 to 1,000, and 1,000 together."""
    weights = lines.numbers(key, count)
    for weight in weights:
        lines.in_range(weight, 0, WHOLE)
    if sum(weights) != WHOLE:
        raise Refused(WEIGHTS, lines.number)
    return weights


def read_user(lines, account_before):
    """One member's line; its account is above the account before it."""
    user = User(*lines.numbers(b"user", 12))
    lines.in_range(user.account, max(1, account_before + 1), LAST_ACCOUNT)
    for fact in (user.transmission, user.wheel_through, user.generation,
                 user.virtual, user.ftr, user.obligation_bids,
                 user.option_bids, user.segments, user.obligation,
                 user.resource, user.invoices):
        lines.in_range(fact, 0, FACT_LIMIT)
    lines.in_range(user.wheel_through, 0, user.transmission)
    return user


def read_month(text):
    """The month that a text (bytes) tells, or Refused by 1, 2 or 3."""
    if len(text) > LONGEST_TEXT:
        raise Refused(LAYOUT, 0)
    lines = Lines(text)

    [month] = lines.numbers(b"month", 1)
    lines.in_range(month, FIRST_MONTH, LAST_MONTH)

    rule = lines.value(b"rule")
    if rule not in (b"posted", b"ratio"):
        raise Refused(LAYOUT, lines.number)

    division = read_weights(lines, b"division", 6)
    management = read_weights(lines, b"management", 4)

    split = lines.numbers(b"split", 2)
    for part in split:
        lines.in_range(part, 0, WHOLE)

    cost = lines.numbers(b"cost", 6, signed=True)
    for amount in cost:
        lines.in_range(amount, -COST_LIMIT, COST_LIMIT)

    [control] = lines.numbers(b"control", 1, signed=True)
    lines.in_range(control, -CONTROL_LIMIT, CONTROL_LIMIT)

    [count] = lines.numbers(b"users", 1)
    lines.in_range(count, 1, MOST_USERS)

    users = []
    account_before = 0
    for _ in range(count):
        user = read_user(lines, account_before)
        account_before = user.account
        users.append(user)
    lines.finish()

    return Month(month, rule.decode("ascii"), division, management, split,
                 cost, control, users)


# ---------------------------------------------------------------- sums

def nearest(a, b):
    """a / b to the nearest whole number, halves up; b is above 0."""
    return (2 * a + b) // (2 * b)


def cut(amount, weights, whole):
    """Divide an amount over weights that add up to the whole.

    The parts up to and with each weight are the amount times the weights so
    far over the whole, rounded down; a part is what its weight adds to that.
    """
    parts = []
    weights_so_far = 0
    cut_so_far = 0
    for weight in weights:
        weights_so_far += weight
        cut_with_this = amount * weights_so_far // whole
        parts.append(cut_with_this - cut_so_far)
        cut_so_far = cut_with_this
    return parts


def component_costs(month):
    """The thirteen costs that the six heads come to by the month's sheet."""
    division_cost, *non_divisional, settlement_own = month.cost
    division = cut(division_cost, month.division, WHOLE)
    management = cut(division[4], month.management, WHOLE)
    service = [division[i] + management[i] + non_divisional[i]
               for i in range(4)]
    settlement = division[5] + settlement_own
    split_2, split_3 = month.split
    return ([service[0]]
            + cut(service[1], (split_2, WHOLE - split_2), WHOLE)
            + cut(service[2], (split_3, WHOLE - split_3), WHOLE)
            + [service[3]]
            + cut(settlement, SETTLEMENT_WEIGHTS, SETTLEMENT_WHOLE))


def units_of(user):
    """A member's units of kind 1, 2, ... 7."""
    return (
        user.transmission,
        user.ftr,
        user.obligation_bids + 5 * user.option_bids,
        user.transmission - user.wheel_through + user.generation
        + user.virtual,
        user.segments,
        user.obligation + user.resource,
        user.invoices,
    )


def posted_shares(pool, units):
    """By a rate in hundredths of a cent for each unit."""
    rate = nearest(100 * pool, sum(units))
    return [nearest(rate * u, 100) for u in units]


def ratio_shares(pool, units):
    """By cutting the pool over the units."""
    return cut(pool, units, sum(units))


def shares_of(rule, pool, units):
    """Each member's share of the pool; all 0 where nobody had units."""
    if sum(units) == 0:
        return [0] * len(units)
    if rule == "posted":
        return posted_shares(pool, units)
    return ratio_shares(pool, units)


# ---------------------------------------------------------------- the bill

@dataclass
class Component:
    pool: int
    total: int            # units of all members
    shares: list          # one for each member
    balance: int          # what the shares leave of the pool


def bill(month):
    """The thirteen components of a month, or Refused by 13, 8 or 9."""
    if sum(month.cost) != month.control:
        raise Refused(CONTROL, 0)

    units = [units_of(user) for user in month.users]
    units_by_kind = [list(of_kind) for of_kind in zip(*units)]
    if any(sum(of_kind) > TOTAL_LIMIT for of_kind in units_by_kind):
        raise Refused(TOTAL, 0)

    balance_before = 0
    pools = [cost + balance_before for cost in component_costs(month)]
    if any(not -POOL_LIMIT <= pool <= POOL_LIMIT for pool in pools):
        raise Refused(POOL, 0)

    components = []
    for pool, kind in zip(pools, KIND_OF_COMPONENT):
        of_kind = units_by_kind[kind - 1]
        shares = shares_of(month.rule, pool, of_kind)
        components.append(
            Component(pool, sum(of_kind), shares, pool - sum(shares)))
    return components


# ---------------------------------------------------------------- printing

def line_of(key, numbers):
    return key + "=" + ",".join(str(number) for number in numbers) + "\n"


def printed(month, components):
    """The charges as text."""
    text = line_of("month", [month.month])
    for place, one in enumerate(components, start=1):
        text += line_of("component", [place, one.pool, one.total, one.balance])
    for place, user in enumerate(month.users):
        charges = [one.shares[place] for one in components]
        text += line_of("user", [user.account, *charges, sum(charges)])
    return text


def charges_of(text):
    """From a month's text (bytes) to what must be printed (bytes)."""
    try:
        month = read_month(text)
        return printed(month, bill(month)).encode("ascii")
    except Refused as refused:
        return line_of("refused", [refused.number, refused.line]).encode("ascii")


# ---------------------------------------------------------------- self-test

WORKED_TEXT = b"""\
month=24277
rule=posted
division=336,60,250,41,243,70
management=400,100,400,100
split=600,987
cost=100000,0,0,0,0,0
control=100000
users=2
user=501,300,100,0,0,0,0,0,0,30,0,4
user=502,100,0,200,100,50,10,2,24,0,10,4
"""

WORKED_CHARGES = b"""\
month=24277
component=1,43320,400,0
component=2,5058,50,0
component=3,3372,20,0
component=4,34268,600,2
component=5,452,24,0
component=6,6530,40,-1
component=7,4760,8,0
component=8,560,400,0
component=9,336,50,0
component=10,224,20,0
component=11,552,600,0
component=12,8,24,0
component=13,560,40,0
user=501,32490,0,0,11422,0,4898,2380,420,0,0,184,0,420,52214
user=502,10830,5058,3372,22844,452,1633,2380,140,336,224,368,8,140,47785
"""


def same(got, wanted):
    if got != wanted:
        raise AssertionError(f"got {got!r}, wanted {wanted!r}")


def self_test():
    """The worked month, and worked sums for each rule of rounding."""
    same(charges_of(WORKED_TEXT), WORKED_CHARGES)
    same(sum(SETTLEMENT_WEIGHTS), SETTLEMENT_WHOLE)
    same(cut(1_000_001, (336, 60, 250, 41, 243, 70), WHOLE),
         [336_000, 60_000, 250_000, 41_000, 243_000, 70_001])
    same(cut(-1, (500, 500), WHOLE), [-1, 0])
    same(cut(100, SETTLEMENT_WEIGHTS, SETTLEMENT_WHOLE),
         [68, 8, 4, 4, 7, 1, 8])
    same(posted_shares(100, [1, 1, 1]), [33, 33, 33])
    same(ratio_shares(100, [1, 1, 1]), [33, 33, 34])
    same(ratio_shares(-100, [1, 1, 1]), [-34, -33, -33])
    same(posted_shares(1_000, [3, 0, 4]), [429, 0, 571])
    same([nearest(1, 2), nearest(-1, 2), nearest(-3, 2)], [1, 0, -1])


def main(arguments):
    if not arguments:
        sys.stdout.buffer.write(charges_of(sys.stdin.buffer.read()))
    elif arguments == ["--self-test"]:
        self_test()
        print("the worked month and sums are as they must be")
    elif len(arguments) == 2 and arguments[0] == "--months":
        import make_months
        make_months.write_months(arguments[1])
    else:
        print(__doc__, file=sys.stderr)
        return 2
    return 0


if __name__ == "__main__":
    sys.exit(main(sys.argv[1:]))
