#!/usr/bin/env python3
"""The table of months: texts at the edges of the rules, with their charges.

    make_months.py DIR

writes DIR/NNN.txt (a month's text), DIR/NNN.out (what a biller must print for
it) and DIR/INDEX.md (what each month shows), numbered from 001, in the place
of those that an earlier run left there. Nothing is drawn at random: the same
table comes out every time.

The second biller computes the charges. Beside most billed months stand lines
that were worked out by hand, and beside each refused month its refusal. The
writing stops at a month whose charges lack one of these lines, whose refusal
is another, or whose shares do not make up the pools.
"""

import sys
from pathlib import Path

import second_biller
from second_biller import WORKED_TEXT, charges_of

# ---------------------------------------------------------------- texts

FACTS = ("transmission", "wheel_through", "generation", "virtual", "ftr",
         "obligation_bids", "option_bids", "segments", "obligation",
         "resource", "invoices")
LARGEST = 100_000_000
POOL = 4_000_000_000


def member(account, **facts):
    """A `user` line; facts that are not named are 0."""
    assert set(facts) <= set(FACTS), facts
    numbers = [account] + [facts.get(name, 0) for name in FACTS]
    return "user=" + ",".join(map(str, numbers))


def same_units(account, units):
    """A member with the same number of units of every kind."""
    return member(account, transmission=units, ftr=units,
                  obligation_bids=units, segments=units, obligation=units,
                  invoices=units)


WORKED_MEMBERS = (
    member(501, transmission=300, wheel_through=100, obligation=30, invoices=4),
    member(502, transmission=100, generation=200, virtual=100, ftr=50,
           obligation_bids=10, option_bids=2, segments=24, resource=10,
           invoices=4),
)


def text(members=WORKED_MEMBERS, month=24277, rule="posted",
         division=(336, 60, 250, 41, 243, 70),
         management=(400, 100, 400, 100), split=(600, 987),
         cost=(100_000, 0, 0, 0, 0, 0), control=None):
    """A month's text; the control total is the right one unless it is given."""
    def row(key, numbers):
        return key + "=" + ",".join(map(str, numbers))

    lines = [
        row("month", [month]),
        "rule=" + rule,
        row("division", division),
        row("management", management),
        row("split", split),
        row("cost", cost),
        row("control", [sum(cost) if control is None else control]),
        row("users", [len(members)]),
        *members,
    ]
    return "".join(line + "\n" for line in lines).encode("ascii")


def worked(*changes):
    """The worked month's text with some lines replaced: (number, line)..."""
    lines = WORKED_TEXT.split(b"\n")
    for number, line in changes:
        lines[number - 1] = line
    return b"\n".join(lines)


def uneven(count):
    """Members that differ in every fact."""
    members = []
    for i in range(1, count + 1):
        facts = {name: i * (7 * j + 3) * 37 % 997 * (j + 1)
                 for j, name in enumerate(FACTS)}
        facts["wheel_through"] = facts["transmission"] // 3
        members.append(member(100 + 31 * i, **facts))
    return members


# ---------------------------------------------------------------- the table

MONTHS = []


def valid(shows, month_text, *lines_by_hand):
    """A month that is billed; the lines were worked out by hand."""
    charges = charges_of(month_text)
    assert charges.startswith(b"month="), (shows, charges)
    for line in lines_by_hand:
        assert line.encode("ascii") + b"\n" in charges, (shows, line, charges)
    check_sums(shows, month_text)
    MONTHS.append((shows, month_text, charges))


def refused(number, line, shows, month_text):
    """A month that is refused by this number at this line."""
    charges = charges_of(month_text)
    assert charges == b"refused=%d,%d\n" % (number, line), (shows, charges)
    MONTHS.append((f"refused={number},{line}: {shows}", month_text, charges))


def check_sums(shows, month_text):
    """What holds of every bill: nothing is lost, every share is near."""
    month = second_biller.read_month(month_text)
    components = second_biller.bill(month)
    step = {"posted": 1, "ratio": 0}[month.rule]
    assert sum(one.pool for one in components) == sum(month.cost), shows
    kinds = list(zip(*map(second_biller.units_of, month.users)))
    for one, kind in zip(components, second_biller.KIND_OF_COMPONENT):
        units = kinds[kind - 1]
        assert one.pool == sum(one.shares) + one.balance, shows
        assert one.total == sum(units), shows
        if one.total == 0:
            assert one.balance == one.pool, shows
            continue
        if month.rule == "ratio":
            assert one.balance == 0, shows
        for share, u in zip(one.shares, units):
            gap = abs(one.total * share - one.pool * u)
            assert 200 * gap <= one.total * (step * u + 200), shows
            assert u > 0 or share == 0, shows


def the_billed_months():
    # The worked month.
    valid("the worked month of docs/MONTH-TEXT.md, posted rates",
          WORKED_TEXT, *second_biller.WORKED_CHARGES.decode().splitlines())
    assert text() == WORKED_TEXT
    valid("the worked month by ratio",
          text(rule="ratio"),
          "component=4,34268,600,0", "component=6,6530,40,0",
          "user=501,32490,0,0,11422,0,4897,2380,420,0,0,184,0,420,52213",
          "user=502,10830,5058,3372,22846,452,1633,2380,140,336,224,368,8,140,"
          "47787")

    # Counts, months, accounts.
    valid("one member, account 1, every fact 1, first month 24277, posted",
          text([member(1, **dict.fromkeys(FACTS, 1))]),
          "month=24277", "component=3,3372,6,0", "component=4,34268,2,0",
          "component=6,6530,2,0",
          "user=1,43320,5058,3372,34268,452,6530,4760,560,336,224,552,8,560,"
          "100000")
    valid("one member, account 999999, last month 35999, ratio",
          text([member(999999, **dict.fromkeys(FACTS, 1))], month=35999,
               rule="ratio"),
          "month=35999",
          "user=999999,43320,5058,3372,34268,452,6530,4760,560,336,224,552,8,"
          "560,100000")
    valid("accounts 1, 2, 999998 and 999999",
          text([same_units(a, 1) for a in (1, 2, 999998, 999999)],
               month=35999),
          "component=1,43320,4,0",
          "user=1,10830,1265,843,8567,113,1633,1190,140,84,56,138,2,140,25001")
    valid("32 members with the same units, posted",
          text([same_units(10 * i, 5) for i in range(1, 33)]),
          "component=1,43320,160,-8")
    valid("32 members with unequal units, posted, all heads",
          text(uneven(32), month=24300,
               cost=(87_654_321, 1_234_567, 234_567, 3_456_789, 45_678,
                     567_890)))
    valid("32 members with unequal units, ratio, all heads",
          text(uneven(32), month=24300, rule="ratio",
               cost=(87_654_321, 1_234_567, 234_567, 3_456_789, 45_678,
                     567_890)))

    # Heads, one by one and together; credits.
    valid("non-divisional cost of 9-2 and 9-3 alone",
          text(cost=(0, 0, 77_777, 77_777, 0, 0)),
          "component=1,0,400,0", "component=2,46666,50,0",
          "component=3,31111,20,0", "component=4,76765,600,1",
          "component=5,1012,24,0", "component=6,0,40,0")
    valid("division cost as a credit, posted, control with a sign",
          text(cost=(-100_000, 0, 0, 0, 0, 0)),
          "component=1,-43320,400,0", "component=4,-34269,600,-3",
          "component=5,-451,24,0")
    valid("all six heads as uneven credits, ratio",
          text(rule="ratio", month=30000,
               cost=(-100_003, -20_001, -30_007, -40_009, -5_011, -6_013)))
    valid("charges and credits that add up to control 0, posted",
          text(cost=(60_000, -10_000, -20_000, -30_000, -5_000, 5_000)),
          "component=1,15992,400,0")
    valid("every cost 0",
          text(cost=(0, 0, 0, 0, 0, 0)),
          "component=1,0,400,0", "component=13,0,40,0",
          "user=501,0,0,0,0,0,0,0,0,0,0,0,0,0,0")

    # Kinds without units.
    valid("nobody has any units: every pool stays as balance",
          text([member(7), member(8)]),
          "component=1,43320,0,43320", "component=7,4760,0,4760",
          "component=13,560,0,560", "user=7,0,0,0,0,0,0,0,0,0,0,0,0,0,0")
    valid("nobody has any units and the costs are credits, ratio",
          text([member(7)], rule="ratio", cost=(-1, 0, 0, 0, 0, -100)),
          "component=1,-1,0,-1", "component=7,-68,0,-68",
          "component=9,-5,0,-5", "component=10,-3,0,-3",
          "component=12,0,0,0")
    valid("only invoices: component 7 is shared, twelve pools stay",
          text([member(3, invoices=1), member(4), member(5, invoices=2)],
               rule="ratio"),
          "component=7,4760,3,0", "component=8,560,0,560",
          "user=3,0,0,0,0,0,0,1586,0,0,0,0,0,0,1586",
          "user=5,0,0,0,0,0,0,3174,0,0,0,0,0,0,3174")
    valid("only option bid hours: each counts five, once",
          text([member(3, option_bids=1), member(4, obligation_bids=5)]),
          "component=3,3372,10,0", "component=10,224,10,0",
          "user=3,0,0,1686,0,0,0,0,0,0,112,0,0,0,1798",
          "user=4,0,0,1686,0,0,0,0,0,0,112,0,0,0,1798")
    valid("all transmission is wheel-through: kind 4 is empty, kind 1 is not",
          text([member(3, transmission=40, wheel_through=40),
                member(4, transmission=60, wheel_through=60)]),
          "component=1,43320,100,0", "component=4,34268,0,34268",
          "component=11,552,0,552",
          "user=3,17328,0,0,0,0,0,0,224,0,0,0,0,0,17552")
    valid("wheel-through equal to transmission beside generation and virtual",
          text([member(3, transmission=40, wheel_through=40, generation=7,
                       virtual=3),
                member(4, transmission=60, wheel_through=59)], rule="ratio"),
          "component=4,34268,11,0",
          "user=3,17328,0,0,31152,0,0,0,224,0,0,501,0,0,49205")
    valid("members without units before, between and after others, ratio",
          text([member(1), same_units(2, 3), member(3), same_units(4, 4),
                member(5)], rule="ratio", cost=(0, 1_000, 0, 0, 1_000, 0)),
          "user=1,0,0,0,0,0,0,0,0,0,0,0,0,0,0",
          "user=2,428,0,0,0,0,428,0,0,0,0,0,0,0,856",
          "user=4,572,0,0,0,0,572,0,0,0,0,0,0,0,1144",
          "user=5,0,0,0,0,0,0,0,0,0,0,0,0,0,0")

    # Weights and splits at their ends.
    alone = dict(management=(250, 250, 250, 250), split=(500, 500),
                 cost=(1_001, 0, 0, 0, 0, 0))
    valid("all division weight on 9-1",
          text(division=(1000, 0, 0, 0, 0, 0), **alone),
          "component=1,1001,400,1", "component=2,0,50,0")
    valid("all division weight on 9-2, splits 0 and 1000",
          text(division=(0, 1000, 0, 0, 0, 0), management=(0, 0, 0, 1000),
               split=(0, 1000), cost=(1_001, 0, 0, 0, 0, 0)),
          "component=2,0,50,0", "component=3,1001,20,0")
    valid("all division weight on 9-3, splits 1000 and 0",
          text(division=(0, 0, 1000, 0, 0, 0), management=(0, 0, 1000, 0),
               split=(1000, 0), cost=(1_001, 0, 50, 0, 0, 0)),
          "component=2,50,50,0", "component=3,0,20,0", "component=4,0,600,0",
          "component=5,1001,24,0")
    valid("all division weight on 9-4, credit, ratio",
          text(division=(0, 0, 0, 1000, 0, 0), rule="ratio",
               management=(250, 250, 250, 250), split=(500, 500),
               cost=(-1_001, 0, 0, 0, 0, 0)),
          "component=6,-1001,40,0",
          "user=501,0,0,0,0,0,-751,0,0,0,0,0,0,0,-751",
          "user=502,0,0,0,0,0,-250,0,0,0,0,0,0,0,-250")
    valid("all division weight on management and all of that on 9-1",
          text(division=(0, 0, 0, 0, 1000, 0), management=(1000, 0, 0, 0),
               cost=(1_001, 0, 0, 0, 0, 0)),
          "component=1,1001,400,1", "component=6,0,40,0")
    valid("all division weight on settlement",
          text(division=(0, 0, 0, 0, 0, 1000), **alone),
          "component=7,680,8,0", "component=8,80,400,0",
          "component=9,48,50,0", "component=10,32,20,0",
          "component=11,79,600,1", "component=12,1,24,0",
          "component=13,81,40,0")
    valid("the least weights (1) and splits 1 and 999",
          text(division=(1, 1, 1, 1, 1, 995), management=(1, 1, 1, 997),
               split=(1, 999), cost=(999_999, 0, 0, 0, 0, 0)),
          "component=1,1000,400,0", "component=2,1,50,0",
          "component=3,1000,20,0", "component=4,999,600,-3",
          "component=5,2,24,0", "component=6,1997,40,0")

    # Small sums and rounding.
    valid("division cost 1,000,001: the last weight takes the odd cent",
          text(cost=(1_000_001, 0, 0, 0, 0, 0)),
          "component=1,433200,400,0", "component=6,65300,40,0")
    valid("settlement cost 100: 68, 8, 4, 4, 7, 1, 8",
          text(cost=(0, 0, 0, 0, 0, 100), rule="ratio"),
          "component=7,68,8,0", "component=8,8,400,0", "component=9,4,50,0",
          "component=10,4,20,0", "component=11,7,600,0",
          "component=12,1,24,0", "component=13,8,40,0")
    three = [member(1, transmission=1, obligation=3),
             member(2, transmission=1),
             member(3, transmission=1, resource=4)]
    valid("posted 100 over 1, 1, 1 and 1,000 over 3, 0, 4",
          text(three, cost=(0, 100, 0, 0, 1_000, 0)),
          "component=1,100,3,1", "component=6,1000,7,0",
          "user=1,33,0,0,0,0,429,0,0,0,0,0,0,0,462",
          "user=2,33,0,0,0,0,0,0,0,0,0,0,0,0,33",
          "user=3,33,0,0,0,0,571,0,0,0,0,0,0,0,604")
    valid("ratio 100 and -100 over 1, 1, 1",
          text([same_units(i, 1) for i in (1, 2, 3)], rule="ratio",
               cost=(0, 100, 0, 0, -100, 0)),
          "user=1,33,0,0,0,0,-34,0,0,0,0,0,0,0,-1",
          "user=2,33,0,0,0,0,-33,0,0,0,0,0,0,0,0",
          "user=3,34,0,0,0,0,-33,0,0,0,0,0,0,0,1")
    many = [same_units(i, 1) for i in range(1, 33)]
    valid("pools of 1 over 32 members, posted: every share is 0",
          text(many, cost=(1, 1, 1, 1, 1, 0)),
          "component=1,1,32,1", "component=2,0,32,0", "component=3,1,32,1",
          "component=4,0,32,0", "component=5,1,32,1", "component=6,1,32,1",
          "component=7,0,32,0", "component=13,1,32,1",
          "user=32,0,0,0,0,0,0,0,0,0,0,0,0,0,0")
    valid("pools of -1 over 32 members, posted: every share is 0",
          text(many, cost=(-1, 0, -1, -1, -1, -1)),
          "component=1,-1,32,-1", "component=2,-1,32,-1",
          "component=3,0,32,0", "component=4,-1,32,-1", "component=5,0,32,0",
          "component=6,-1,32,-1", "component=7,-1,32,-1",
          "component=13,0,32,0", "user=1,0,0,0,0,0,0,0,0,0,0,0,0,0,0")
    valid("pools of 1 and -1 over 32 members, ratio: the last pays, the first"
          " is credited",
          text(many, rule="ratio", cost=(0, 1, -1, 1, -1, 1)),
          "user=1,0,-1,0,0,0,-1,0,0,0,0,0,0,0,-2",
          "user=2,0,0,0,0,0,0,0,0,0,0,0,0,0,0",
          "user=32,1,0,0,0,1,0,0,0,0,0,0,0,1,3")
    valid("halves of a cent go up, for charges and for credits",
          text([same_units(1, 1), same_units(2, 1)],
               cost=(0, 1, 0, 0, -1, 0)),
          "component=1,1,2,-1", "component=6,-1,2,-1",
          "user=1,1,0,0,0,0,0,0,0,0,0,0,0,0,1")

    # The largest facts, totals and pools.
    valid("one member with every fact 100,000,000",
          text([member(1, **dict.fromkeys(FACTS, LARGEST))],
               cost=(POOL, 0, 0, 0, 0, 0)),
          "component=1,1732800000,100000000,-200000",
          "component=3,134880000,600000000,2880000",
          "component=4,1370745600,200000000,745600")
    valid("one member with kind 4 at its largest, 300,000,000, credits, ratio",
          text([member(1, transmission=LARGEST, generation=LARGEST,
                       virtual=LARGEST)], rule="ratio",
               cost=(-POOL, 0, 0, 0, 0, 0)),
          "component=4,-1370745600,300000000,0",
          "component=6,-261200000,0,-261200000")
    full = [same_units(i, 62_500_000) for i in range(1, 33)]
    valid("every kind 2,000,000,000, pool 1 at 4,000,000,000, posted",
          text(full, cost=(100_000, POOL - 43_320, 0, 0, 0, 0)),
          "component=1,4000000000,2000000000,0",
          "component=4,34268,2000000000,34268")
    valid("every kind 2,000,000,000, pool 1 at -4,000,000,000, ratio",
          text(full, rule="ratio",
               cost=(-100_000, -(POOL - 43_320), 0, 0, 0, 0)),
          "component=1,-4000000000,2000000000,0")
    energy = dict(transmission=LARGEST, generation=LARGEST, virtual=LARGEST)
    bids = dict(obligation_bids=LARGEST, option_bids=LARGEST)
    valid("kinds 3 and 4 at 2,000,000,000 through seven members, ratio",
          text([member(1, **energy, **bids), member(2, **energy, **bids),
                member(3, **energy, **bids),
                member(4, **energy, option_bids=40_000_000),
                member(5, **energy), member(6, **energy),
                member(7, generation=LARGEST, virtual=LARGEST)],
               rule="ratio", cost=(0, 0, POOL, POOL, 0, 0)),
          "component=1,0,600000000,0",
          "component=3,1600000000,2000000000,0",
          "component=4,3948000000,2000000000,0",
          "user=4,0,0,160000000,592200000,0,0,0,0,0,0,0,0,0,752200000",
          "user=7,0,0,0,394800000,0,0,0,0,0,0,0,0,0,394800000")
    valid("all six heads 4,000,000,000, control 24,000,000,000, posted",
          text([member(1, **dict.fromkeys(FACTS, LARGEST)),
                member(2, transmission=1, invoices=3)],
               division=(0, 1000, 0, 0, 0, 0),
               management=(250, 250, 250, 250), split=(500, 500),
               cost=(POOL,) * 6),
          "component=2,4000000000,100000000,0",
          "component=3,4000000000,600000000,-2000000",
          "component=6,4000000000,200000000,0")
    valid("all six heads -4,000,000,000, control -24,000,000,000, ratio",
          text(uneven(5), rule="ratio", division=(0, 1000, 0, 0, 0, 0),
               management=(250, 250, 250, 250), split=(500, 500),
               cost=(-POOL,) * 6))
    halved = dict(division=(100, 100, 100, 100, 100, 500))
    valid("settlement cost 5,882,352,942: pool 7 is 4,000,000,000",
          text([same_units(1, 1)], cost=(POOL, 0, 0, 0, 0, 3_882_352_942),
               **halved),
          "component=7,4000000000,1,0")
    valid("settlement cost -5,882,352,941: pool 7 is -4,000,000,000",
          text([same_units(1, 3), same_units(2, 4)],
               cost=(-POOL, 0, 0, 0, 0, -3_882_352_941), **halved),
          "component=7,-4000000000,7,0")
    half = [same_units(i, LARGEST) for i in range(1, 21)]
    valid("posted rate of half a hundredth: 10,000,000 over 2,000,000,000 is"
          " rate 1, 9,999,999 is rate 0",
          text(half, cost=(0, 10_000_000, 0, 0, 9_999_999, 0)),
          "component=1,10000000,2000000000,-10000000",
          "component=6,9999999,2000000000,9999999",
          "user=20,1000000,0,0,0,0,0,0,0,0,0,0,0,0,1000000")
    valid("the same for credits: -10,000,000 is rate 0, -10,000,001 is rate -1",
          text(half, cost=(0, -10_000_000, 0, 0, -10_000_001, 0)),
          "component=1,-10000000,2000000000,-10000000",
          "component=6,-10000001,2000000000,9999999",
          "user=20,0,0,0,0,0,-1000000,0,0,0,0,0,0,0,-1000000")


def the_refused_months():
    # Length, and lines that are missing or surplus.
    padding = b"0" * (16_385 - len(WORKED_TEXT))
    refused(1, 0, "16,385 bytes, the worked month and zeros behind it",
            WORKED_TEXT + padding)
    refused(1, 11, "16,384 bytes: short enough, and read until the zeros",
            WORKED_TEXT + padding[1:])
    refused(1, 1, "an empty text", b"")
    refused(1, 3, "management before division",
            worked((3, b"management=400,100,400,100"),
                   (4, b"division=336,60,250,41,243,70")))
    refused(1, 10, "the second of two user lines missing",
            b"".join(WORKED_TEXT.splitlines(keepends=True)[:9]))
    refused(1, 10, "the last newline missing", WORKED_TEXT[:-1])
    refused(1, 11, "one byte after the last newline", WORKED_TEXT + b"0")
    refused(1, 11, "an empty line after the last", WORKED_TEXT + b"\n")
    refused(1, 11, "a third user line, though users says 2",
            WORKED_TEXT + member(503).encode("ascii") + b"\n")

    # Layout, line by line.
    refused(1, 1, "key in capitals", worked((1, b"MONTH=24277")))
    refused(1, 1, "carriage returns before the newlines",
            WORKED_TEXT.replace(b"\n", b"\r\n"))
    refused(1, 1, "twelve digits", worked((1, b"month=100000024277")))
    refused(1, 2, "a rule that is neither", worked((2, b"rule=flat")))
    refused(1, 3, "a blank after a comma, though a weight is 1,001 too",
            worked((3, b"division=1001, 60,250,41,243,70")))
    refused(1, 4, "leading zero: weight 007",
            worked((4, b"management=493,100,400,007")))
    refused(1, 5, "minus before a split", worked((5, b"split=600,-1")))
    refused(1, 6, "-0 as a cost", worked((6, b"cost=100000,-0,0,0,0,0")))
    refused(1, 6, "an empty number", worked((6, b"cost=100000,0,,0,0,0")))
    refused(1, 6, "a minus without digits",
            worked((6, b"cost=100000,0,0,0,0,-")))
    refused(1, 7, "control 00", worked((7, b"control=00")))
    refused(1, 8, "a plus sign", worked((8, b"users=+2")))
    refused(1, 9, "minus before a fact",
            worked((9, b"user=501,300,100,-5,0,0,0,0,0,30,0,4")))
    refused(1, 9, "eleven numbers, though the account is 0 too",
            worked((9, b"user=0,300,100,0,0,0,0,0,0,30,0")))
    refused(1, 10, "thirteen numbers",
            worked((10, b"user=502,100,0,200,100,50,10,2,24,0,10,4,0")))

    # Ranges, line by line.
    refused(2, 1, "month 24276", worked((1, b"month=24276")))
    refused(2, 1, "month 36000", worked((1, b"month=36000")))
    refused(2, 3, "division weight 1,001, before the sum is looked at",
            worked((3, b"division=1001,60,250,41,243,70")))
    refused(2, 4, "management weight 1,001",
            worked((4, b"management=400,100,400,1001")))
    refused(2, 5, "split 1,001, though line 6 is off the layout",
            worked((5, b"split=600,1001"), (6, b"cost=1")))
    refused(2, 6, "cost 4,000,000,001",
            worked((6, b"cost=100000,0,0,0,0,4000000001")))
    refused(2, 6, "cost -4,000,000,001",
            worked((6, b"cost=-4000000001,0,0,0,0,0")))
    refused(2, 7, "control 24,000,000,001",
            worked((7, b"control=24000000001")))
    refused(2, 8, "no users", worked((8, b"users=0")))
    refused(2, 8, "33 users",
            text([same_units(i, 1) for i in range(1, 34)]))
    refused(2, 9, "account 0",
            worked((9, b"user=0,300,100,0,0,0,0,0,0,30,0,4")))
    refused(2, 10, "account 1,000,000",
            worked((10, b"user=1000000,100,0,200,100,50,10,2,24,0,10,4")))
    refused(2, 10, "the same account twice",
            worked((10, b"user=501,100,0,200,100,50,10,2,24,0,10,4")))
    refused(2, 40, "the last of 32 accounts is below the one before",
            text([same_units(100 + i, 1) for i in range(31)]
                 + [same_units(129, 1)]))
    refused(2, 9, "wheel-through one above transmission",
            worked((9, b"user=501,300,301,0,0,0,0,0,0,30,0,4")))
    refused(2, 10, "invoices 100,000,001",
            worked((10, b"user=502,100,0,200,100,50,10,2,24,0,10,100000001")))

    # Weights.
    refused(3, 3, "division weights 999, though line 4 is off the layout",
            worked((3, b"division=335,60,250,41,243,70"),
                   (4, b"management=400")))
    refused(3, 3, "division weights 1,001, though line 4 has a weight of"
            " 1,001",
            worked((3, b"division=337,60,250,41,243,70"),
                   (4, b"management=400,100,400,1001")))
    refused(3, 4, "management weights 999",
            worked((4, b"management=399,100,400,100")))

    # Control total, totals of a kind, pools.
    refused(13, 0, "control total above the costs by 1",
            worked((7, b"control=100001")))
    over = [member(i, transmission=LARGEST) for i in range(1, 21)]
    over.append(member(21, transmission=1))
    too_dear = (100_000, POOL - 43_319, 0, 0, 0, 0)
    refused(13, 0, "control total below by 1, a kind's total too large and a"
            " pool out of range as well",
            text(over, cost=too_dear, control=sum(too_dear) - 1))
    refused(8, 0, "kinds 1 and 4 at 2,000,000,001", text(over))
    refused(8, 0, "kind 3 at 2,000,000,001 through option bid hours",
            text([member(1, option_bids=LARGEST, obligation_bids=1)]
                 + [member(i, option_bids=LARGEST) for i in (2, 3, 4)]))
    refused(8, 0, "kind 7 at 2,000,000,001, a pool out of range as well",
            text([member(i, invoices=LARGEST) for i in range(1, 21)]
                 + [member(21, invoices=1)], cost=too_dear))
    refused(9, 0, "pool 1 at 4,000,000,001: head 2, division part, management"
            " part",
            text(cost=too_dear))
    refused(9, 0, "pool 1 at -4,000,000,001",
            text(rule="ratio",
                 cost=tuple(-amount for amount in too_dear)))
    refused(9, 0, "pool 1 at 4,000,000,001 where nobody has units",
            text([member(7)], cost=too_dear))
    refused(9, 0, "settlement cost 5,882,352,943: pool 7 is 4,000,000,001",
            text([same_units(1, 1)], division=(100, 100, 100, 100, 100, 500),
                 cost=(POOL, 0, 0, 0, 0, 3_882_352_943)))
    refused(9, 0, "settlement cost -5,882,352,942: pool 7 is -4,000,000,001",
            text([same_units(1, 1)], division=(100, 100, 100, 100, 100, 500),
                 cost=(-POOL, 0, 0, 0, 0, -3_882_352_942)))


def refused_once(number, line, shows, month_text):
    """The same, unless the text stands in the table already."""
    if all(month_text != other for _, other, _ in MONTHS):
        refused(number, line, shows, month_text)


def the_damaged_lines():
    """The same damages on each of the ten lines of the worked month."""
    lines = WORKED_TEXT.splitlines()
    last = len(lines)
    for n, line in enumerate(lines, 1):
        key, values = line.split(b"=")
        first, _, rest = values.partition(b",")
        rest = b"," + rest if rest else b""

        def damaged(shows, by):
            refused_once(1, n, f"line {n}: {shows}", worked((n, by)))

        damaged("a longer key", b"x" + line)
        damaged("a blank before the equals sign", key + b" =" + values)
        damaged("a blank at the end", line + b" ")
        damaged("a carriage return at the end", line + b"\r")
        damaged("one value more", line + b",0")
        damaged("no value", key + b"=")
        without = b"".join(other + b"\n" for other in lines[:n - 1] + lines[n:])
        refused_once(1, last if n == last - 1 else n, f"line {n}: left out",
                     without)
        if n < last - 1:
            swapped = worked((n, lines[n]), (n + 1, line))
            refused_once(1, n, f"line {n}: after the next line", swapped)
        if n == 2:
            continue
        damaged("twelve digits", key + b"=100000000000" + rest)
        damaged("a leading zero", key + b"=0" + first + rest)
        damaged("zero as 00", key + b"=00" + rest)
        damaged("zero as -0", key + b"=-0" + rest)
        if n not in (6, 7):
            damaged("a minus", key + b"=-" + first + rest)
    refused(2, last, "the two user lines in falling order",
            worked((last - 1, lines[-1]), (last, lines[-2])))


# ---------------------------------------------------------------- writing

def has_an_end(month_text):
    """Whether a weight is 0, or a split is 0 or 1,000."""
    month = second_biller.read_month(month_text)
    return (0 in month.division or 0 in month.management
            or 0 in month.split or 1_000 in month.split)


def index():
    """What each month shows, for people."""
    names = [f"{n:03}" for n in range(1, len(MONTHS) + 1)]
    billed = [charges.startswith(b"month=") for _, _, charges in MONTHS]
    ends = [name for name, is_billed, (_, month_text, _)
            in zip(names, billed, MONTHS)
            if is_billed and has_an_end(month_text)]
    lines = [
        "# The table of months",
        "",
        "`NNN.txt` is a month's text and `NNN.out` what a biller must print"
        " for it,",
        "byte for byte. `tools/make_months.py` writes all files of this"
        " directory; do not",
        f"edit them by hand. {sum(billed)} months are billed,"
        f" {len(billed) - sum(billed)} are refused.",
        "",
        "| No. | What it shows |",
        "|---|---|",
        *(f"| {name} | {shows} |" for name, (shows, _, _)
          in zip(names, MONTHS)),
        "",
        "Billed with a weight of 0, or a split of 0 or 1,000: "
        + ", ".join(ends) + ".",
    ]
    return "".join(line + "\n" for line in lines)


def write_months(directory):
    second_biller.self_test()
    MONTHS.clear()
    the_billed_months()
    the_refused_months()
    the_damaged_lines()
    texts = [month_text for _, month_text, _ in MONTHS]
    assert len(set(texts)) == len(texts), "a month stands twice in the table"
    place = Path(directory)
    place.mkdir(parents=True, exist_ok=True)
    for suffix in ("txt", "out"):
        for old in place.glob(f"[0-9][0-9][0-9].{suffix}"):
            old.unlink()
    for number, (_, month_text, charges) in enumerate(MONTHS, start=1):
        (place / f"{number:03}.txt").write_bytes(month_text)
        (place / f"{number:03}.out").write_bytes(charges)
    (place / "INDEX.md").write_text(index(), encoding="ascii", newline="\n")


if __name__ == "__main__":
    if len(sys.argv) != 2:
        sys.exit(__doc__)
    write_months(sys.argv[1])
