#!/usr/bin/env python3
"""A second reader and keeper of journals.

It computes what the program `journal` must print for a journal, from the rules
in docs/JOURNAL.md. It shares no code with that program; the cutting, the
sharing and the reading of one month's text are those of second_biller.py.

    second_journal.py < journal > printed     run one journal
    second_journal.py --example > journal     write the stored example
    second_journal.py --self-test             run worked journals and compare

All amounts are whole cents, and only integers are used.
"""

import re
import sys
from dataclasses import dataclass

from second_biller import (
    COST_LIMIT, KIND_OF_COMPONENT, LAYOUT, POOL_LIMIT, RANGE, TOTAL_LIMIT,
    WORKED_CHARGES, WORKED_TEXT, Component, Month, Refused, component_costs,
    line_of, printed, read_month, same, shares_of, units_of)

MONTH, KIND, TOTAL, POOL, RESETTLED, CONTROL, BOOKED = 5, 6, 8, 9, 10, 13, 14

SLOTS = 6                       # months that stay on file
RECONCILED = (8, 11)            # components that are shared again
LINE_LIMIT = 6_000_000_000      # for the cents of a line on file


# ---------------------------------------------------------------- reading

@dataclass
class Entry:
    component: int | None       # None for a bill
    month: Month


def lines_of(text):
    """The lines with their newlines; an empty text is one empty line."""
    return re.findall(rb"[^\n]*\n|[^\n]+", text) or [b""]


def entry_starts(lines):
    """The places of the lines that begin an entry; the first one must."""
    return [place for place, line in enumerate(lines)
            if place == 0 or line.startswith((b"bill", b"resettle="))]


def read_entry_line(line, number):
    """The component of the entry's line with that number, None for a bill."""
    if line == b"bill\n":
        return None
    told = re.fullmatch(rb"resettle=(0|[1-9][0-9]{0,2})\n", line)
    if told is None or number == 1:
        raise Refused(LAYOUT, number)
    return int(told[1])


def read_journal(text):
    """The entries of a journal, or Refused with a line of the journal."""
    lines = lines_of(text)
    starts = entry_starts(lines)
    entries = []
    for start, end in zip(starts, starts[1:] + [len(lines)]):
        number = start + 1
        component = read_entry_line(lines[start], number)
        try:
            month = read_month(b"".join(lines[number:end]))
        except Refused as refused:
            raise Refused(refused.number, number + refused.line)
        entries.append(Entry(component, month))
        if terms(month) != terms(entries[0].month):
            raise Refused(RANGE, number)
    return entries


def terms(month):
    """What the ledger is opened with, and no later month may change."""
    accounts = [user.account for user in month.users]
    return month.rule, month.division, month.management, month.split, accounts


# ---------------------------------------------------------------- the ledger

def kinds_of(month):
    """The members' units, one list for each of the seven kinds."""
    return [list(of_kind) for of_kind in zip(*map(units_of, month.users))]


class Ledger:
    """Heads, balances, and all months billed so far, by their number.

    Months stay here for ever; only the six latest may be resettled.
    """

    def __init__(self, first):
        self.rule = first.rule
        self.first = first.month
        self.month = first.month
        self.waiting = [0] * 6
        self.balances = [0] * 13
        self.pools = {}             # (month, component) to its pool
        self.billed = {}            # (month, component) to cents of members

    def book(self, month):
        """Puts a month's costs on the heads: Refused by 13, then 14."""
        if sum(month.cost) != month.control:
            raise Refused(CONTROL, 0)
        waiting = [a + b for a, b in zip(self.waiting, month.cost)]
        if any(abs(amount) > COST_LIMIT for amount in waiting):
            raise Refused(BOOKED, 0)
        self.waiting = waiting

    def bill(self, month):
        """The components of the open month: Refused by 5, 8, 9."""
        if month.month != self.month:
            raise Refused(MONTH, 0)
        kinds = kinds_of(month)
        if any(sum(of_kind) > TOTAL_LIMIT for of_kind in kinds):
            raise Refused(TOTAL, 0)
        costs = component_costs(Month(
            month.month, month.rule, month.division, month.management,
            month.split, self.waiting, sum(self.waiting), month.users))
        pools = [cost + kept for cost, kept in zip(costs, self.balances)]
        if any(abs(pool) > POOL_LIMIT for pool in pools):
            raise Refused(POOL, 0)
        components = []
        for pool, kind in zip(pools, KIND_OF_COMPONENT):
            units = kinds[kind - 1]
            shares = shares_of(self.rule, pool, units)
            components.append(
                Component(pool, sum(units), shares, pool - sum(shares)))
        for place, one in enumerate(components, start=1):
            self.pools[self.month, place] = one.pool
            self.billed[self.month, place] = one.shares
        self.balances = [one.balance for one in components]
        self.waiting = [0] * 6
        self.month += 1
        return components

    def resettle(self, component, month):
        """The members' differences: Refused by 6, 5, 8, 10."""
        if component not in RECONCILED:
            raise Refused(KIND, 0)
        oldest = max(self.first, self.month - SLOTS)
        if not oldest <= month.month < self.month:
            raise Refused(MONTH, 0)
        units = kinds_of(month)[KIND_OF_COMPONENT[component - 1] - 1]
        if sum(units) > TOTAL_LIMIT:
            raise Refused(TOTAL, 0)
        place = month.month, component
        before = self.billed[place]
        if any(abs(cents) > LINE_LIMIT for cents in before):
            raise Refused(RESETTLED, 0)
        shares = shares_of(self.rule, self.pools[place], units)
        differences = [new - old for new, old in zip(shares, before)]
        balance = self.balances[component - 1] - sum(differences)
        if abs(balance) > POOL_LIMIT:
            raise Refused(RESETTLED, 0)
        self.billed[place] = shares
        self.balances[component - 1] = balance
        return differences


# ---------------------------------------------------------------- printing

class Answer:
    """The printed text, and the sums that its last lines tell."""

    def __init__(self, ledger):
        self.ledger = ledger
        self.text = ""
        self.booked = 0
        self.billed = 0

    def order(self, work, *arguments):
        """Carries out one order; a refused one prints its line."""
        try:
            return work(*arguments)
        except Refused as refused:
            self.text += line_of("refused", [refused.number, 0])
            return None

    def booking(self, month):
        self.ledger.book(month)
        self.booked += sum(month.cost)

    def billing(self, month):
        components = self.ledger.bill(month)
        self.billed += sum(sum(one.shares) for one in components)
        self.text += printed(month, components)

    def resettling(self, component, month):
        differences = self.ledger.resettle(component, month)
        self.billed += sum(differences)
        self.text += line_of("resettled", [month.month, component])
        for user, cents in zip(month.users, differences):
            self.text += line_of("difference", [user.account, cents])

    def entry(self, entry):
        if entry.component is None:
            self.order(self.booking, entry.month)
            self.order(self.billing, entry.month)
        else:
            self.order(self.resettling, entry.component, entry.month)

    def end(self):
        balances = sum(self.ledger.balances)
        waiting = sum(self.ledger.waiting)
        agree = self.booked == self.billed + balances + waiting
        self.text += line_of("booked", [self.booked])
        self.text += line_of("billed", [self.billed])
        self.text += line_of("balances", [balances])
        self.text += line_of("waiting", [waiting])
        self.text += line_of("agree", ["yes" if agree else "no"])


def answer_of(text):
    """From a journal (bytes) to what must be printed (bytes)."""
    try:
        entries = read_journal(text)
    except Refused as refused:
        return line_of("refused", [refused.number, refused.line]).encode("ascii")
    answer = Answer(Ledger(entries[0].month))
    for entry in entries:
        answer.entry(entry)
    answer.end()
    return answer.text.encode("ascii")


# ---------------------------------------------------------------- the example

HEADING = """\
rule=posted
division=336,60,250,41,243,70
management=400,100,400,100
split=600,987
"""


def month_text(month, cost, users, control=None):
    """A month's text on the worked month's terms."""
    text = line_of("month", [month]) + HEADING
    text += line_of("cost", cost)
    text += line_of("control", [sum(cost) if control is None else control])
    text += line_of("users", [len(users)])
    for account, *facts in users:
        text += line_of("user", [account, *facts])
    return text


def user_rows(place):
    """Two members' facts in the month that comes at a place, from 0 on."""
    one = (501, 300 + 17 * place, 100, 3 * place, 0, 5 * (place % 3), 0, 0,
           place % 2, 30 + place, 0, 4)
    two = (502, 100 + 11 * place, 7 * place, 200, 100 + place, 50, 10, 2, 24,
           0, 10 + 2 * place, 4 + place % 4)
    return one, two


def measured(rows, transmission):
    """The same facts with other meters read for transmission."""
    return [(row[0], read, *row[2:]) for row, read in zip(rows, transmission)]


def month_cost(place):
    """Costs that are large, odd, and in some months a credit."""
    return (100_000 + 7_919 * place, -1_313 * (place % 4), 500 * place,
            77 * place, 11 * (place % 5), 1_003 * place)


def example():
    """Nine months with resettlements between them."""
    first = 24_277

    def bill(place):
        if place == 0:
            return "bill\n" + WORKED_TEXT.decode("ascii")
        return "bill\n" + month_text(
            first + place, month_cost(place), user_rows(place))

    def resettle(component, place, transmission):
        return f"resettle={component}\n" + month_text(
            first + place, (0,) * 6, measured(user_rows(place), transmission))

    return "".join([
        bill(0),
        resettle(8, 0, (300, 260)),
        resettle(8, 0, (300, 260)),         # the same again: no difference
        bill(1),
        bill(2),
        resettle(11, 2, (340, 150)),        # the newest month
        resettle(8, 0, (310, 90)),          # an old month, once more
        bill(3),
        bill(4),
        resettle(9, 4, (400, 150)),         # not reconciled
        bill(5),
        resettle(11, 0, (330, 100)),        # the oldest month on file
        bill(6),
        resettle(8, 0, (300, 100)),         # no longer on file
        resettle(8, 1, (317, 120)),         # now the oldest one
        bill(7),
        "bill\n" + month_text(first + 8, month_cost(8), user_rows(8),
                              control=1),   # booking refused, billed all the same
        bill(9),
        resettle(8, 9, (450, 200)),         # the newest month
        resettle(11, 9, (450, 200)),
        resettle(8, 9, (460, 190)),         # read once more
        bill(9),                            # billed already: its costs wait
    ])


# ---------------------------------------------------------------- self-test

def self_test():
    """The worked month, its resettlement, and refused journals."""
    worked = b"bill\n" + WORKED_TEXT
    shared_again = WORKED_TEXT.replace(b"user=502,100,0,", b"user=502,260,0,")
    same(answer_of(worked), WORKED_CHARGES
         + b"booked=100000\nbilled=99999\nbalances=1\nwaiting=0\nagree=yes\n")
    same(answer_of(worked + b"resettle=8\n" + shared_again), WORKED_CHARGES
         + b"resettled=24277,8\ndifference=501,-120\ndifference=502,120\n"
         + b"booked=100000\nbilled=99999\nbalances=1\nwaiting=0\nagree=yes\n")
    same(answer_of(b""), b"refused=1,1\n")
    same(answer_of(b"bill"), b"refused=1,1\n")
    same(answer_of(WORKED_TEXT), b"refused=1,1\n")
    same(answer_of(b"resettle=8\n" + WORKED_TEXT), b"refused=1,1\n")
    same(answer_of(worked + b"resettle=08\n" + WORKED_TEXT), b"refused=1,12\n")
    same(answer_of(worked + b"resettle=8\n" + WORKED_TEXT[:-1]),
         b"refused=1,22\n")
    same(answer_of(worked + b"bill\nmonth=1\n"), b"refused=2,13\n")
    same(answer_of(worked + b"bill\n" + b"x" * 16_385), b"refused=1,12\n")
    same(answer_of(worked + b"bill\n"
                   + WORKED_TEXT.replace(b"posted", b"ratio")), b"refused=2,12\n")
    same(answer_of(worked + b"bill\n"
                   + WORKED_TEXT.replace(b"user=502", b"user=503")),
         b"refused=2,12\n")


def main(arguments):
    if not arguments:
        sys.stdout.buffer.write(answer_of(sys.stdin.buffer.read()))
    elif arguments == ["--example"]:
        sys.stdout.write(example())
    elif arguments == ["--self-test"]:
        self_test()
        print("the worked journals are as they must be")
    else:
        print(__doc__, file=sys.stderr)
        return 2
    return 0


if __name__ == "__main__":
    sys.exit(main(sys.argv[1:]))
