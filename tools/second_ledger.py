#!/usr/bin/env python3
"""A second ledger for PJM's administrative charges.

It is written from the ledger's rules, shares no code with the ledger of this
repository, and is there to be compared with it. The cutting of costs and the
sharing of pools are the second biller's.

    second_ledger.py --self-test          work small runs and compare

A ledger keeps the open month's six heads, thirteen balances, and the pools of
the six latest months. The month file, which the ledger writes and does not
own, has a line (units, cents) for each of six slots, thirteen components and
the members. All amounts are whole cents, credits are negative, and only
integers are used.
"""

import sys
from dataclasses import dataclass, field

from second_biller import (COST_LIMIT, CONTROL_LIMIT, FIRST_MONTH,
                           KIND_OF_COMPONENT, LAST_MONTH, POOL_LIMIT,
                           TOTAL_LIMIT, Month, component_costs, shares_of)

# ---------------------------------------------------------------- refusals

RANGE, COUNT, MONTH, KIND, TOTAL, POOL = 2, 4, 5, 6, 8, 9
RESETTLED, LENGTH, HEAD, CONTROL, BOOKED = 10, 11, 12, 13, 14

SLOTS = 6
COMPONENTS = 13
MOST_MEMBERS = 200
RECONCILED = (8, 11)               # components that can be resettled
CENTS_LIMIT = 6_000_000_000        # for a line that is resettled
BALANCE_LIMIT = 4_000_000_000


# Layers, by their place in the list of layers.
VOUCHER, LEDGER = 3, 5
VOUCHER_REFUSALS = (RANGE, HEAD, CONTROL)


class Refused(Exception):
    """A refused call: the refusal's number, and the kind, component or 0."""

    def __init__(self, number, place=0):
        super().__init__(f"refused={number},{place}")
        self.number = number
        self.layer = VOUCHER if number in VOUCHER_REFUSALS else LEDGER
        self.place = place


def check(holds, number, place=0):
    if not holds:
        raise Refused(number, place)


# ---------------------------------------------------------------- orders

@dataclass
class Book:
    """The units of a month: a row of seven kinds for each member."""
    month: int
    rows: list

    def of_kind(self, kind):
        return [row[kind - 1] for row in self.rows]


@dataclass
class Costs:
    """An order to book six amounts that make up a control total."""
    control: int
    amounts: list


@dataclass
class Bill:
    """An order to bill the open month."""
    book: Book


@dataclass
class Resettle:
    """An order to resettle one component of the book's month."""
    component: int
    book: Book


# ---------------------------------------------------------------- the ledger

@dataclass
class Charge:
    pool: int
    units: int
    balance: int


@dataclass
class Ledger:
    rule: str                      # posted or ratio
    division: list
    management: list
    split: list
    members: int
    first: int
    file: list                     # of [units, cents]
    month: int = 0                 # the open one
    waiting: list = field(default_factory=lambda: [0] * 6)
    balances: list = field(default_factory=lambda: [0] * COMPONENTS)
    pools: dict = field(default_factory=dict)     # of the months on file

    def __post_init__(self):
        check(1 <= self.members <= MOST_MEMBERS, COUNT)
        check(FIRST_MONTH <= self.first <= LAST_MONTH, MONTH)
        self.month = self.first

    def row(self, month, component):
        """The places in the file of a month's component."""
        start = (month % SLOTS * COMPONENTS + component - 1) * self.members
        return range(start, start + self.members)

    def check_file_and_count(self, book):
        check(len(self.file) == SLOTS * COMPONENTS * self.members, LENGTH)
        check(len(book.rows) == self.members, COUNT)

    def book(self, costs):
        """Books costs on the open month's heads."""
        check(abs(costs.control) <= CONTROL_LIMIT, RANGE)
        check(all(abs(a) <= COST_LIMIT for a in costs.amounts), HEAD)
        check(sum(costs.amounts) == costs.control, CONTROL)
        heads = [w + a for w, a in zip(self.waiting, costs.amounts)]
        check(all(abs(head) <= COST_LIMIT for head in heads), BOOKED)
        self.waiting = heads

    def costs(self):
        """What the waiting heads come to by the sheet."""
        return component_costs(
            Month(self.month, self.rule, self.division, self.management,
                  self.split, self.waiting, sum(self.waiting), []))

    def bill(self, book):
        """Bills the open month: thirteen charges and thirteen rows of shares."""
        self.check_file_and_count(book)
        check(book.month == self.month, MONTH)
        for kind in range(1, 8):
            check(sum(book.of_kind(kind)) <= TOTAL_LIMIT, TOTAL, kind)
        pools = [c + b for c, b in zip(self.costs(), self.balances)]
        for component, pool in enumerate(pools, start=1):
            check(abs(pool) <= POOL_LIMIT, POOL, component)

        charges, rows = [], []
        for component, pool in enumerate(pools, start=1):
            units = book.of_kind(KIND_OF_COMPONENT[component - 1])
            shares = shares_of(self.rule, pool, units)
            self.write(book.month, component, units, shares)
            charges.append(Charge(pool, sum(units), pool - sum(shares)))
            rows.append(shares)
        self.balances = [charge.balance for charge in charges]
        self.pools[self.month] = pools
        self.pools.pop(self.month - SLOTS, None)
        self.waiting = [0] * 6
        self.month += 1
        return charges, rows

    def resettle(self, component, book):
        """Shares a month's pool of a component again: the differences."""
        check(component in RECONCILED, KIND)
        self.check_file_and_count(book)
        check(book.month in self.pools, MONTH)
        kind = KIND_OF_COMPONENT[component - 1]
        units = book.of_kind(kind)
        check(sum(units) <= TOTAL_LIMIT, TOTAL, kind)
        billed = [self.file[i][1] for i in self.row(book.month, component)]
        check(all(abs(cents) <= CENTS_LIMIT for cents in billed),
              RESETTLED, component)
        pool = self.pools[book.month][component - 1]
        shares = shares_of(self.rule, pool, units)
        differences = [new - old for new, old in zip(shares, billed)]
        balance = self.balances[component - 1] - sum(differences)
        check(abs(balance) <= BALANCE_LIMIT, RESETTLED, component)
        self.write(book.month, component, units, shares)
        self.balances[component - 1] = balance
        return differences

    def write(self, month, component, units, shares):
        """Puts units and cents of a component on file."""
        for place, u, share in zip(self.row(month, component), units, shares):
            self.file[place] = [u, share]


# ---------------------------------------------------------------- outcomes

@dataclass
class Outcome:
    """How an order ended: refusal 0 is none; cells are the statement's."""
    refusal: int
    layer: int
    place: int
    charges: list
    cells: list


def carry_out(ledger, order):
    """Carries out an order; its statement has thirteen cells a member."""
    cells = [0] * (COMPONENTS * ledger.members)
    charges = [Charge(0, 0, 0)] * COMPONENTS
    try:
        if isinstance(order, Costs):
            ledger.book(order)
        elif isinstance(order, Bill):
            charges, rows = ledger.bill(order.book)
            cells = [share for row in rows for share in row]
        else:
            written = ledger.resettle(order.component, order.book)
            cells[:len(written)] = written
        return Outcome(0, 0, 0, charges, cells)
    except Refused as refused:
        return Outcome(refused.number, refused.layer, refused.place, charges,
                       cells)


# ---------------------------------------------------------------- self-test

def same(got, wanted):
    if got != wanted:
        raise AssertionError(f"got {got!r}, wanted {wanted!r}")


def small_ledger():
    """Two members by ratio; all division cost is settlement cost."""
    return Ledger("ratio", [0, 0, 0, 0, 0, 1000], [250] * 4, [500] * 2,
                  2, 24_277, [[7, 7] for _ in range(156)])


def self_test():
    """A month billed, carried, resettled twice, and refused calls."""
    ledger = small_ledger()
    book = Book(24_277, [[0, 1, 1, 3, 1, 1, 1], [0, 1, 1, 1, 1, 1, 3]])
    same(carry_out(ledger, Costs(100_000, [100_000, 0, 0, 0, 0, 0])).refusal, 0)
    same(carry_out(ledger, Costs(99_999, [100_000, 0, 0, 0, 0, 0])).refusal,
         CONTROL)
    billed = carry_out(ledger, Bill(book))
    # Settlement 100,000: 68 % is component 7; nobody has units of kind 1.
    same(billed.cells[12:26],
         [17_000, 51_000, 0, 0, 2_400, 2_400, 1_600, 1_600, 5_922, 1_974,
          52, 52, 4_000, 4_000])
    same(ledger.balances, [0] * 7 + [8_000] + [0] * 5)
    same(ledger.file[(24_277 % 6 * 13 + 10) * 2:][:2], [[3, 5_922], [1, 1_974]])
    # Its own pool of 8,000 is shared again, and the carried balance goes.
    units = [[1, 0, 0, 1, 0, 0, 0], [3, 0, 0, 0, 0, 0, 0]]
    again = carry_out(ledger, Resettle(8, Book(24_277, units)))
    same(again.cells[:3], [2_000, 6_000, 0])
    same(ledger.balances[7], 0)
    again = carry_out(ledger, Resettle(11, Book(24_277, units)))
    same(again.cells[:3], [1_974, -1_974, 0])
    same(carry_out(ledger, Resettle(7, Book(24_277, units))).refusal, KIND)
    same(carry_out(ledger, Resettle(8, Book(24_278, units))).refusal, MONTH)
    same(carry_out(ledger, Bill(Book(24_277, units))).refusal, MONTH)
    same(carry_out(ledger, Bill(Book(24_278, units[:1]))).refusal, COUNT)


def main(arguments):
    if arguments == ["--self-test"]:
        self_test()
        print("the worked runs are as they must be")
        return 0
    print(__doc__, file=sys.stderr)
    return 2


if __name__ == "__main__":
    sys.exit(main(sys.argv[1:]))
