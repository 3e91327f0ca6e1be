#!/usr/bin/env python3
"""The table of runs: lists of orders to a ledger, with what each comes to.

    make_runs.py DIR

writes DIR/NN.txt (a run), DIR/NN.out (what must be found after every order)
and DIR/INDEX.md (what each run shows), numbered from 01, in the place of those
that an earlier run left there. What is drawn comes from a fixed seed, so the
same table comes out every time.

NN.txt has decimal numbers: rule (0 posted, 1 ratio), members, first month,
twelve weights (division, management, splits), the count of the file's lines
and their units and cents, the count of orders, and the orders: 0 with control
total and six amounts; 1 with month, count of members and seven units a member;
2 with component, month, count of members and seven units a member.

NN.out has, for the first 0, 1, 2, ... orders of the run on a new ledger: where
there is a last order how it ended (0 booked, 1 billed, 2 resettled, 3 refused),
its refusal, layer and place (0 where accepted), the pool, units and balance of
thirteen components (0 where it did not bill), and the thirteen cells a member
of its statement; then always the thirteen balances, the six waiting heads, the
open month, and units and cents of the file's lines.

The second ledger computes them. The writing stops where cents are lost, or
where the runs together lack a refusal that an order can give.
"""

import copy
import sys
from pathlib import Path

from second_ledger import Bill, Book, Costs, Ledger, Resettle, carry_out

LIMIT = 4_000_000_000              # of a head, a pool, a balance
MOST_UNITS = 2_000_000_000
FIRST_MONTH, LAST_MONTH = 24_277, 35_999
REFUSALS = {2, 4, 5, 6, 8, 9, 10, 11, 12, 13, 14}

PJM_SHEET = ([336, 60, 250, 41, 243, 70], [400, 100, 400, 100], [600, 987])
SETTLEMENT_SHEET = ([0, 0, 0, 0, 0, 1000], [250] * 4, [500, 500])
SPLIT_SHEET = ([100, 200, 300, 150, 249, 1], [0, 999, 1, 0], [0, 1000])


class Draw:
    """Numbers that look arbitrary and are the same every time."""

    def __init__(self, seed):
        self.state = seed

    def below(self, end):
        self.state = (self.state * 6364136223846793005 + 1442695040888963407) \
            % 2**64
        return (self.state >> 33) % end

    def within(self, low, high):
        return low + self.below(high - low + 1)

    def pick(self, items):
        return items[self.below(len(items))]


# ---------------------------------------------------------------- a run

class Run:
    """A ledger with its orders, each carried out as soon as it is given."""

    def __init__(self, shows, rule="posted", members=2, first=FIRST_MONTH,
                 sheet=PJM_SHEET, file=None):
        division, management, split = sheet
        if file is None:
            file = [[0, 0] for _ in range(78 * members)]
        self.shows = shows
        self.start = copy.deepcopy(file)
        self.ledger = Ledger(rule, division, management, split, members, first,
                             file)
        self.orders = []
        self.outcomes = []
        self.steps = [self.found()]
        self.booked = self.billed = 0

    def give(self, order, refusal=None):
        """Carries out an order; it must end by this refusal, if one is told."""
        check_book(order)
        outcome = carry_out(self.ledger, order)
        if refusal is not None and outcome.refusal != refusal:
            raise SystemExit(f"{self.shows}: order {len(self.orders) + 1}: "
                             f"{outcome.refusal} and not {refusal}")
        self.orders.append(order)
        self.outcomes.append(outcome)
        told = [ending(order, outcome), outcome.refusal, outcome.layer,
                outcome.place]
        for charge in outcome.charges:
            told += [charge.pool, charge.units, charge.balance]
        self.steps.append([told, outcome.cells] + self.found())
        self.check_cents(order, outcome)
        return outcome

    def check_cents(self, order, outcome):
        """All that was booked is billed, carried or waiting."""
        if isinstance(order, Costs) and not outcome.refusal:
            self.booked += order.control
        self.billed += sum(outcome.cells)
        held = sum(self.ledger.balances) + sum(self.ledger.waiting)
        if self.booked != self.billed + held:
            raise SystemExit(f"{self.shows}: cents are lost")

    def found(self):
        ledger = self.ledger
        return [list(ledger.balances), list(ledger.waiting), [ledger.month],
                [number for line in ledger.file for number in line]]

    # -- orders in short

    def book(self, *amounts, control=None, refusal=0):
        if control is None:
            control = sum(amounts)
        self.give(Costs(control, list(amounts)), refusal)

    def bill(self, rows, month=None, refusal=0):
        if month is None:
            month = self.ledger.month
        return self.give(Bill(Book(month, rows)), refusal)

    def resettle(self, component, back, rows, refusal=0):
        """Resettles the month that lies so many months back."""
        month = self.ledger.month - back
        return self.give(Resettle(component, Book(month, rows)), refusal)

    # -- texts

    def text(self):
        ledger = self.ledger
        lines = [[0 if ledger.rule == "posted" else 1, ledger.members,
                  ledger.first], ledger.division, ledger.management,
                 ledger.split, [len(self.start)],
                 [number for line in self.start for number in line],
                 [len(self.orders)]]
        return printed(lines + [numbers_of(order) for order in self.orders])

    def found_text(self):
        return "".join(printed(step) for step in self.steps)


def ending(order, outcome):
    """How an order ended, as it is stored."""
    if outcome.refusal:
        return 3
    return (Costs, Bill, Resettle).index(type(order))


def numbers_of(order):
    """An order as it is stored."""
    if isinstance(order, Costs):
        return [0, order.control, *order.amounts]
    book = order.book
    units = [u for row in book.rows for u in row]
    if isinstance(order, Bill):
        return [1, book.month, len(book.rows), *units]
    return [2, order.component, book.month, len(book.rows), *units]


def printed(lines):
    return "".join(" ".join(map(str, line)) + "\n" for line in lines if line)


def check_book(order):
    """A table book can be made of the units, so that the ledger is asked."""
    if not isinstance(order, Costs):
        book = order.book
        assert FIRST_MONTH <= book.month <= LAST_MONTH
        assert 1 <= len(book.rows) <= 200
        assert all(0 <= u <= MOST_UNITS for row in book.rows for u in row)


def same_units(members, units):
    return [[units] * 7 for _ in range(members)]


# ---------------------------------------------------------------- drawn runs

def drawn_rows(draw, members, most):
    """Units of every kind; some members, and some kinds, have none."""
    without = [draw.below(6) == 0 for _ in range(7)]
    rows = []
    for _ in range(members):
        idle = draw.below(5) == 0
        rows.append([0 if idle or none or draw.below(6) == 0
                     else draw.within(1, most) for none in without])
    return rows


def drawn_amounts(draw, most):
    """Six heads; a third are 0, some are credits."""
    return [draw.pick([0, 1, 1, -1, 1, 0]) * draw.within(0, most)
            for _ in range(6)]


def drawn_file(draw, lines):
    """A file that holds what nobody billed, with numbers at their edges."""
    file = [[draw.below(100), draw.within(-99, 99)] for _ in range(lines)]
    file[0] = [2**32 - 1, 2**63 - 1]
    file[lines // 2] = [0, -2**63]
    file[lines - 1] = [2**32 - 1, 6_000_000_001]
    return file


def drawn_month(run, draw, most_cents, most_units):
    """One to three bookings, then the bill."""
    for _ in range(draw.within(1, 3)):
        run.book(*drawn_amounts(draw, most_cents), refusal=None)
    if draw.below(4) == 0:
        rows = drawn_rows(draw, run.ledger.members, most_units)
        other = max(FIRST_MONTH, run.ledger.month + draw.pick([-1, 1]))
        if other != run.ledger.month:
            run.bill(rows, month=other, refusal=5)
    run.bill(drawn_rows(draw, run.ledger.members, most_units))


def drawn_resettlement(run, draw, most_units):
    """A resettlement of a month that is mostly on file."""
    back = draw.pick([1, 2, 3, 4, 5, 6, 6, 7, 0])
    month = run.ledger.month - back
    if FIRST_MONTH <= month <= LAST_MONTH:
        rows = drawn_rows(draw, run.ledger.members, most_units)
        component = draw.pick([8, 11])
        run.give(Resettle(component, Book(month, rows)))


def repeated_resettlements(run, draw, most_units):
    """Months in no order, and one month and component again and again."""
    for component, back in ((8, 3), (8, 3), (11, 3), (8, 6), (8, 1), (11, 6),
                            (8, 3), (11, 1), (11, 3)):
        rows = drawn_rows(draw, run.ledger.members, most_units)
        run.resettle(component, back, rows)


def drawn_run(shows, seed, months, most_cents=3_000_000, most_units=5_000,
              repeated_after=(9,), **terms):
    draw = Draw(seed)
    members = terms.get("members", 2)
    run = Run(shows, file=drawn_file(draw, 78 * members), **terms)
    for month in range(1, months + 1):
        drawn_month(run, draw, most_cents, most_units)
        if month in repeated_after:
            repeated_resettlements(run, draw, most_units)
        elif month > 1:
            drawn_resettlement(run, draw, most_units)
    return run


# ---------------------------------------------------------------- set runs

def refused_run(rule):
    """Every refusal between accepted orders, each at its edge."""
    first = 29_999
    run = Run(f"refusals between accepted orders, {rule}", rule=rule,
              first=first)
    ones = same_units(2, 1)
    units = [[300, 0, 0, 200, 0, 30, 4], [100, 50, 20, 400, 24, 10, 4]]
    run.bill(ones, month=first + 1, refusal=5)
    run.resettle(8, 0, ones, refusal=5)
    run.book(LIMIT, LIMIT, LIMIT, LIMIT, LIMIT, LIMIT, control=6 * LIMIT + 1,
             refusal=2)
    run.book(0, 0, 0, 0, 0, 0, control=-6 * LIMIT - 1, refusal=2)
    run.book(0, LIMIT + 1, 0, 0, 0, 0, refusal=12)
    run.book(0, 0, 0, 0, 0, -LIMIT - 1, refusal=12)
    run.book(2**63 - 1, -2**63, 0, 0, 0, 0, control=0, refusal=12)
    run.book(60_000, 0, 0, 0, 0, 0, control=60_001, refusal=13)
    run.book(60_000, 0, 0, 0, 0, -5)
    run.book(40_000, 0, 0, 0, 0, 5)
    run.book(LIMIT, 0, 0, 0, 0, 0, refusal=14)
    run.book(LIMIT - 100_000, 0, 0, 0, 0, -LIMIT)
    run.book(1, 0, 0, 0, 0, 0, refusal=14)
    run.book(0, 0, 0, 0, 0, -1, refusal=14)
    run.book(100_000 - LIMIT, 0, 0, 0, 0, LIMIT)
    run.bill(units[:1], refusal=4)
    run.bill(units + ones, refusal=4)
    run.bill(units[:1], month=first + 3, refusal=4)
    run.bill([[0, 0, MOST_UNITS, 0, 0, 0, 0], [0, 0, 1, 0, 0, 0, MOST_UNITS]],
             refusal=8)
    run.bill([[MOST_UNITS] * 7, [1] * 7], refusal=8)
    run.bill([[0, 0, 0, 0, 0, 0, MOST_UNITS], [0, 0, 0, 0, 0, 0, 1]], refusal=8)
    run.bill(units)
    run.bill(units, month=first, refusal=5)
    for component in (0, 1, 7, 9, 10, 12, 13, 14, 4_000_000_000):
        run.resettle(component, 1, units, refusal=6)
    run.resettle(8, 1, ones[:1], refusal=4)
    run.resettle(8, 0, units, refusal=5)
    run.resettle(11, -1, units, refusal=5)
    over_one = [[MOST_UNITS, 0, 0, 7, 0, 0, 0], [1, 0, 0, 9, 0, 0, 0]]
    over_four = [[7, 0, 0, 1, 0, 0, 0], [9, 0, 0, MOST_UNITS, 0, 0, 0]]
    run.resettle(8, 1, over_one, refusal=8)
    run.resettle(11, 1, over_one)
    run.resettle(11, 1, over_four, refusal=8)
    run.resettle(8, 1, over_four)
    most = [[MOST_UNITS, 0, 0, 1, 0, 0, 0], [0, 0, 0, MOST_UNITS - 1, 0, 0, 0]]
    run.resettle(8, 1, most)
    run.resettle(11, 1, most)
    run.book(LIMIT, LIMIT, LIMIT, LIMIT, LIMIT, LIMIT)
    run.bill(units, refusal=9)
    run.bill([[0] * 7, [0] * 7], refusal=9)
    run.book(-LIMIT, -LIMIT, -LIMIT, -LIMIT, -LIMIT, -LIMIT)
    run.book(0, 0, 0, -LIMIT, 0, 0)
    run.bill([[MOST_UNITS] * 7, [0] * 7])
    run.book(0, 0, 0, 0, 10 - LIMIT, 0)
    run.bill(ones)
    run.resettle(8, 3, ones)
    run.resettle(8, 4, ones, refusal=5)
    return run


def pool_edge_run(rule):
    """Pools at both limits, reached by balances, and one cent beyond."""
    run = Run(f"pools at both limits and one cent beyond, {rule}", rule=rule,
              sheet=([1000, 0, 0, 0, 0, 0], [250] * 4, [500, 500]))
    idle, busy = same_units(2, 0), [[1] * 7, [2] * 7]
    run.book(LIMIT, 0, 0, 0, 0, 0)
    run.bill(idle)
    run.book(1, 0, 0, 0, 0, 0)
    run.bill(busy, refusal=9)
    run.book(0, -1, 0, 0, 0, 0)
    run.bill(idle)
    run.bill(busy)
    run.book(-LIMIT, 0, 0, 0, LIMIT, 0)
    run.bill(idle)
    run.book(-1, 0, 0, 0, 1, 0)
    run.bill(idle, refusal=9)
    run.book(1, 0, 0, 0, 0, 0)
    run.bill(busy, refusal=9)
    run.book(0, 0, 0, 0, -1, 0)
    run.bill(busy)
    return run


def balance_edge_run(rule, sign):
    """Component 8 carried to the limit, then too much of it resettled."""
    kind = "charges" if sign > 0 else "credits"
    run = Run(f"{kind} carried to the limit over months without units of kind "
              f"1, and resettled to the other limit and beyond, {rule}",
              rule=rule, sheet=SETTLEMENT_SHEET)
    without = [[0, 1, 1, 1, 1, 1, 1], [0, 2, 2, 2, 2, 2, 2]]
    busy = [[3, 0, 0, 0, 0, 0, 0], [1, 0, 0, 0, 0, 0, 0]]
    for _ in range(10):
        run.book(LIMIT * sign, 0, 0, 0, 0, LIMIT * sign // 4)
        run.bill(without)
    for _ in range(5):
        run.bill(without)
    if run.ledger.balances[7] != LIMIT * sign:
        raise SystemExit("component 8 is not carried to the limit")
    # Two months of it leave the other limit; a third is far beyond.
    for back, refusal in ((1, 0), (2, 0), (3, 10)):
        run.resettle(8, back, busy, refusal)
    for back in (1, 2):
        run.resettle(8, back, same_units(2, 0))
    # A balance of one cent less: two such months are one cent beyond.
    run.book(0, 0, 0, 0, 0, -12 * sign)
    run.bill(without)
    for back, refusal in ((2, 0), (3, 10), (1, 0)):
        run.resettle(8, back, busy, refusal)
    for back in (1, 2):
        run.resettle(8, back, same_units(2, 0))
    # At the limit, what changes nothing in all is accepted.
    for back, refusal in ((1, 0), (5, 0), (3, 10)):
        run.resettle(8, back, busy, refusal)
    run.resettle(8, 5, same_units(2, 7))
    run.resettle(11, 1, [[0, 0, 0, 5, 0, 0, 0], [0, 0, 0, 0, 0, 0, 0]])
    # What is carried is billed; then the bill itself is resettled away.
    run.book(100 * sign, 0, 0, 0, 0, 0)
    run.bill(busy)
    run.resettle(8, 1, same_units(2, 0))
    run.resettle(8, 4, busy, refusal=10)
    return run


def carried_run():
    """Nobody has units for months; what is carried is billed at once."""
    run = Run("pools carried over months in which nobody has units, then "
              "billed at once and resettled", members=3, sheet=SPLIT_SHEET)
    idle = same_units(3, 0)
    for month in range(8):
        run.book(1_234_567 + month, -7, 100, 0, -90_001, 333_333)
        run.bill(idle)
    for back in (6, 1, 4):
        run.resettle(8, back, [[5] * 7, [0] * 7, [2] * 7])
        run.resettle(11, back, [[0] * 7, [0] * 7, [1] * 7])
    run.bill([[1] * 7, [1] * 7, [1] * 7])
    run.resettle(8, 1, idle)
    run.resettle(8, 1, [[0] * 7, [9] * 7, [0] * 7])
    run.resettle(8, 2, [[5] * 7, [0] * 7, [2] * 7])
    run.resettle(8, 7, [[5] * 7, [0] * 7, [2] * 7], refusal=5)
    return run


def length_run(lines, shows):
    """A file of the wrong length: only bookings are accepted."""
    file = [[n, -n] for n in range(lines)]
    run = Run(f"a file of {shows}", rule="ratio", file=file)
    ones = same_units(2, 1)
    run.book(5, 4, 3, 2, 1, 0)
    run.bill(ones, refusal=11)
    run.bill(ones[:1], month=FIRST_MONTH + 9, refusal=11)
    run.resettle(8, 0, ones, refusal=11)
    run.resettle(11, 0, ones[:1], refusal=11)
    run.resettle(9, 0, ones, refusal=6)
    run.book(1, 0, 0, 0, 0, 0, control=2, refusal=13)
    run.book(-1, -1, -1, -1, -1, -1)
    return run


def last_months_run():
    """Up to the last month of all; then nothing can be billed."""
    run = Run("the last months up to 35999, after which none can be billed",
              rule="ratio", members=1, first=LAST_MONTH - 7)
    draw = Draw(35_999)
    for _ in range(8):
        run.book(*drawn_amounts(draw, 1_000_000))
        run.bill([[draw.within(0, 3) for _ in range(7)]])
    ones = same_units(1, 1)
    run.bill(ones, month=LAST_MONTH, refusal=5)
    run.book(7, 0, 0, 0, 0, 0)
    run.bill(ones, month=FIRST_MONTH, refusal=5)
    run.resettle(8, 1, ones)
    run.resettle(11, 6, ones)
    run.resettle(8, 7, ones, refusal=5)
    run.resettle(11, 8, ones, refusal=5)
    return run


def many_members_run():
    """A bill and a resettlement for many members."""
    draw = Draw(40)
    run = Run("forty members with unequal units, large pools", members=40)
    run.book(3_999_999_999, -1_000_000_007, 1_000_000_007, 5, 77, 12_345_678)
    run.bill(drawn_rows(draw, 40, 49_999_999))
    run.resettle(11, 1, drawn_rows(draw, 40, 49_999_999))
    run.resettle(8, 1, drawn_rows(draw, 40, 49_999_999))
    return run


def runs():
    return [
        drawn_run("sixteen months of three members, posted; months in no "
                  "order resettled, and one month again and again", 1, 16,
                  members=3, repeated_after=(7, 13)),
        drawn_run("fifteen months of three members, ratio; the same", 2, 15,
                  members=3, rule="ratio", first=24_280,
                  repeated_after=(9, 15)),
        drawn_run("heads and units near their limits, posted", 3, 9, members=2,
                  most_cents=1_500_000_000, most_units=1_000_000_000,
                  first=30_001),
        drawn_run("pools of a few cents with very many units, ratio", 4, 9,
                  members=2, rule="ratio", most_cents=40,
                  most_units=1_000_000_000, sheet=SPLIT_SHEET),
        refused_run("posted"),
        refused_run("ratio"),
        pool_edge_run("posted"),
        pool_edge_run("ratio"),
        balance_edge_run("posted", 1),
        balance_edge_run("ratio", -1),
        carried_run(),
        length_run(155, "one line too few"),
        length_run(157, "one line too many"),
        length_run(0, "no line"),
        last_months_run(),
        many_members_run(),
    ]


# ---------------------------------------------------------------- writing

def index_of(table):
    text = """# The table of runs

`NN.txt` is a run, `NN.out` what must be found after each of its orders.
`tools/make_runs.py` writes all files of this directory and says how they are
laid out; do not edit them by hand.

| No. | Orders | Refused | What it shows |
|---|---|---|---|
"""
    for number, run in enumerate(table, start=1):
        refused = sum(outcome.refusal != 0 for outcome in run.outcomes)
        text += (f"| {number:02} | {len(run.orders)} | {refused} | "
                 f"{run.shows} |\n")
    return text


def write_runs(directory):
    directory = Path(directory)
    table = runs()
    given = {outcome.refusal for run in table for outcome in run.outcomes}
    if given != REFUSALS | {0}:
        raise SystemExit(f"refusals given: {sorted(given)}")
    directory.mkdir(parents=True, exist_ok=True)
    for old in (*directory.glob("*.txt"), *directory.glob("*.out")):
        old.unlink()
    for number, run in enumerate(table, start=1):
        (directory / f"{number:02}.txt").write_text(run.text())
        (directory / f"{number:02}.out").write_text(run.found_text())
    (directory / "INDEX.md").write_text(index_of(table))


if __name__ == "__main__":
    if len(sys.argv) != 2:
        sys.exit(__doc__)
    write_runs(sys.argv[1])
