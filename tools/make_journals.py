#!/usr/bin/env python3
"""The table of journals: runs of one ledger at the edges of the rules.

    make_journals.py DIR

writes DIR/NNN.txt (a journal), DIR/NNN.out (what must be printed for it) and
DIR/INDEX.md (what each journal shows), numbered from 001, in the place of
those that an earlier run left there. Nothing is drawn at random: the same
table comes out every time.

The second keeper of journals computes what is printed. Beside each journal
stand lines that must be in it, worked out by hand. The writing stops at a
journal that lacks one of these lines, or whose sums do not agree.
"""

import sys
from pathlib import Path

import second_journal
from make_months import member, same_units, text
from second_biller import WORKED_TEXT
from second_journal import answer_of, example

JOURNALS = []       # what it shows, the journal, what is printed

FIRST, LAST = 24_277, 35_999
LARGEST_COST = 4_000_000_000
NOTHING = (0,) * 6
WORKED = b"bill\n" + WORKED_TEXT


def add(shows, journal, *wanted):
    """One journal of the table, and lines that its answer must have."""
    answer = answer_of(journal)
    lines = answer.decode("ascii").split("\n")
    for line in wanted:
        assert line in lines, (shows, line, answer)
    assert "agree=yes" in lines or lines == [wanted[0], ""], (shows, answer)
    JOURNALS.append((shows, journal, answer))


def bill(**month):
    return b"bill\n" + text(**month)


def resettle(component, **month):
    return b"resettle=%d\n" % component + text(**{"cost": NOTHING, **month})


# ---------------------------------------------------------------- not read

def the_entry_lines():
    """Journals whose entry lines are wrong or missing."""
    add("an empty journal", b"", "refused=1,1")
    add("a month without an entry line", WORKED_TEXT, "refused=1,1")
    add("a first line `bill` without its newline", b"bill", "refused=1,1")
    add("an entry without a month", b"bill\n", "refused=1,2")
    add("a resettlement as the first entry", b"resettle=8\n" + WORKED_TEXT,
        "refused=1,1")
    add("a wrong first line before a wrong month", b"resettle=8\nmonth=1\n",
        "refused=1,1")
    for line, shows in (
            (b"resettle=08", "a component with a leading zero"),
            (b"resettle=1000", "a component of four digits"),
            (b"resettle=", "no component"),
            (b"resettle=-8", "a component with a sign"),
            (b"resettle=8 ", "a blank behind the component"),
            (b"resettle", "a resettlement without `=`"),
            (b"bills", "a longer word than `bill`"),
            (b"Bill", "a large letter"),
            (b"bill\r", "a carriage return"),
            (b"", "a blank line between entries")):
        add(shows, WORKED + line + b"\n" + WORKED_TEXT, "refused=1,12")
    add("an entry line at the end without its newline", WORKED + b"bill",
        "refused=1,12")


def the_months():
    """Journals with a month that its reader refuses."""
    add("a first month out of range", b"bill\nmonth=1\n", "refused=2,2")
    add("a second month out of range", WORKED + b"bill\nmonth=1\n",
        "refused=2,13")
    add("weights of a resettled month that do not add up", WORKED + b"resettle=8\n"
        + text(management=(400, 100, 400, 99)), "refused=3,16")
    add("a last line without its newline", WORKED + b"bill\n"
        + WORKED_TEXT[:-1], "refused=1,22")
    add("a month that ends where the next entry begins", WORKED
        + b"bill\nmonth=24278\nrule=posted\n" + WORKED, "refused=1,15")
    add("a member too many for its count", WORKED + b"bill\n"
        + WORKED_TEXT + b"user=503,0,0,0,0,0,0,0,0,0,0,0\n", "refused=1,23")
    add("a second month's text of 16,385 bytes", WORKED + b"bill\n"
        + b"x" * 16_384 + b"\n", "refused=1,12")
    add("a second month's text of 16,384 bytes", WORKED + b"bill\n"
        + b"x" * 16_383 + b"\n", "refused=1,13")


def the_terms():
    """Journals with an entry that has other terms than the first."""
    one, two = member(501), member(502)
    for shows, month in (
            ("another rule", dict(rule="ratio")),
            ("another division", dict(division=(337, 59, 250, 41, 243, 70))),
            ("another management", dict(management=(399, 101, 400, 100))),
            ("another first split", dict(split=(601, 987))),
            ("another second split", dict(split=(600, 986))),
            ("another account", dict(members=(one, member(503)))),
            ("a member more", dict(members=(one, two, member(503)))),
            ("a member fewer", dict(members=(one,)))):
        add(shows + " in a second bill", WORKED + bill(month=24278, **month),
            "refused=2,12")
    add("another rule in a resettlement", WORKED + resettle(8, rule="ratio"),
        "refused=2,12")
    add("a differing entry before one that is not read", WORKED
        + bill(rule="ratio") + b"bill\n", "refused=2,12")


# ---------------------------------------------------------------- run

def the_resettlements():
    """Resettlements, accepted and refused."""
    more = WORKED_TEXT.replace(b"user=502,100,0,", b"user=502,260,0,")
    worked_again = b"resettle=8\n" + more
    add("the worked month alone, posted", WORKED,
        "booked=100000", "billed=99999", "balances=1", "waiting=0")
    add("the worked month alone, ratio", bill(rule="ratio"),
        "booked=100000", "billed=100000", "balances=0", "waiting=0")
    add("the worked month resettled, and the same again", WORKED
        + worked_again + worked_again, "difference=501,-120",
        "difference=502,120", "difference=501,0", "difference=502,0")
    add("components that are not reconciled", WORKED + b"".join(
        resettle(component) for component in (0, 1, 7, 9, 10, 12, 13, 14, 999)),
        "refused=6,0")
    add("a resettlement of the open month, and of one before the first",
        bill(month=24_280) + resettle(8, month=24_281)
        + resettle(11, month=24_279) + resettle(11, month=24_280),
        "refused=5,0", "resettled=24280,11")
    # 8 % of 100,000 is 8,000: nobody had units, so all stays in the balance,
    # until the meters are read.
    idle, busy = (member(7), member(8)), (member(7), member(8, transmission=3))
    cost = (0, 0, 0, 0, 0, 100_000)
    add("units that were none when the month was billed",
        bill(members=idle, cost=cost) + resettle(8, members=busy),
        "component=8,8000,0,8000", "difference=7,0", "difference=8,8000",
        "balances=92000")
    add("units that are none when the month is resettled",
        bill(members=busy, cost=cost) + resettle(8, members=idle),
        "component=8,8000,3,0", "difference=8,-8000", "balances=92104")


def the_refused_orders():
    """Orders that the ledger refuses; the others go on."""
    add("a control total that is missed; the month is billed without it",
        bill(control=1) + bill(month=24_278), "refused=13,0", "booked=100000")
    add("a bill for a month that is not open; its costs wait",
        WORKED + WORKED, "refused=5,0", "booked=200000", "waiting=100000")
    full = (0, LARGEST_COST, 0, 0, 0, 0)
    add("heads that are full, then one cent more",
        bill(cost=full, month=24_277) + bill(cost=full, month=24_277)
        + bill(cost=(0, 1, 0, 0, 0, 0), month=24_277), "refused=5,0",
        "refused=14,0", f"booked={2 * LARGEST_COST}", f"waiting={LARGEST_COST}")
    most = tuple(same_units(n + 1, 100_000_000) for n in range(20))
    above = most[:-1] + (member(20, transmission=100_000_000, generation=1,
                                ftr=100_000_000),)
    add("total units of 2,000,000,000, and one more", bill(members=most)
        + bill(members=above, month=24_278)
        + resettle(8, members=above) + resettle(11, members=above),
        "refused=8,0", "component=4,34268,2000000000,34268",
        "resettled=24277,8")
    both = (LARGEST_COST, LARGEST_COST, 0, 0, 0, 0)
    add("a pool above the limit: booked, not billed", bill(cost=both),
        "refused=9,0", f"waiting={2 * LARGEST_COST}", "billed=0")
    add("the last month, and once more", bill(month=LAST) + bill(month=LAST),
        "month=35999", "refused=5,0", "waiting=100000")


def settled(place, transmission):
    """A month in which all division cost is settlement's."""
    return dict(month=FIRST + place, division=(0, 0, 0, 0, 0, 1_000),
                members=(member(1, transmission=transmission, generation=1,
                                ftr=1, obligation_bids=1, segments=1,
                                obligation=1, invoices=1),))


def the_balance_limit():
    """Component 8 gathers 8 % of 5,800,000,000 in each of eight months.

    It is billed in the eighth, 3,712,000,000 in all; 288,000,000 more is the
    limit, and that is 8 % of 3,600,000,000.
    """
    gathered = b"".join(
        bill(cost=(LARGEST_COST, 0, 0, 0, 0, 1_800_000_000),
             **settled(place, place // 7)) for place in range(8))
    both = resettle(8, **settled(7, 0)) + resettle(8, **settled(8, 0))
    add("a balance at the limit by a resettlement", gathered
        + bill(cost=(3_600_000_000, 0, 0, 0, 0, 0), **settled(8, 1)) + both,
        "difference=1,-3712000000", "component=8,288000000,1,0",
        "difference=1,-288000000", "balances=4000000000")
    add("a balance above the limit by a resettlement", gathered
        + bill(cost=(3_600_000_013, 0, 0, 0, 0, 0), **settled(8, 1)) + both,
        "difference=1,-3712000000", "component=8,288000001,1,0",
        "refused=10,0", "balances=3712000000")


def the_long_runs():
    """Runs that use the six months on file again and again."""
    add("the stored example", example().encode("ascii"), "agree=yes")
    for rule in ("posted", "ratio"):
        journal = b""
        for place in range(20):
            journal += bill(rule=rule, month=FIRST + place,
                            members=crowd(place, 32), cost=uneven(place))
            for back in (0, 5, 6):
                journal += resettle(8 + 3 * (place % 2), rule=rule,
                                    month=max(FIRST, FIRST + place - back),
                                    members=crowd(place + back + 1, 32))
        add(f"twenty months of 32 members, resettled when new, after five months"
            f" and after six, {rule}", journal, "refused=5,0")
    credits = b"".join(
        bill(month=FIRST + place, cost=tuple(-c for c in uneven(place)),
             members=crowd(place, 5))
        + resettle(11, month=FIRST + place, members=crowd(place + 1, 5))
        for place in range(8))
    add("eight months of credits", credits, "agree=yes")


def crowd(place, count):
    """Members whose units differ from month to month."""
    return tuple(member(
        10 * n + 1, transmission=(37 * n * (place + 3)) % 1_009,
        generation=(11 * n + place) % 83, virtual=(7 * place + n) % 19,
        ftr=n * place % 23, obligation_bids=(n + place) % 3,
        option_bids=place % 2, segments=n % 5, obligation=13 * n,
        resource=(place * n) % 7, invoices=1 + n % 4) for n in range(count))


def uneven(place):
    """Costs in every head, none of them round."""
    return (1_234_567 + 7_919 * place, 3_331 * (place % 5), -1_009 * (place % 3),
            45_677 + place, 999 * (place % 4), 20_011 + 3 * place)


# ---------------------------------------------------------------- writing

def index():
    lines = [
        "# The table of journals",
        "",
        "`NNN.txt` is a journal and `NNN.out` what must be printed for it, byte for",
        "byte. `tools/make_journals.py` writes all files of this directory; do not",
        "edit them by hand.",
        "",
        "| No. | What it shows |",
        "|---|---|",
        *(f"| {number:03} | {shows} |"
          for number, (shows, _, _) in enumerate(JOURNALS, start=1)),
    ]
    return "".join(line + "\n" for line in lines)


def write_journals(directory):
    second_journal.self_test()
    for part in (the_entry_lines, the_months, the_terms, the_resettlements,
                 the_refused_orders, the_balance_limit, the_long_runs):
        part()
    texts = [journal for _, journal, _ in JOURNALS]
    assert len(set(texts)) == len(texts), "a journal stands twice in the table"
    place = Path(directory)
    place.mkdir(parents=True, exist_ok=True)
    for suffix in ("txt", "out"):
        for old in place.glob(f"[0-9][0-9][0-9].{suffix}"):
            old.unlink()
    for number, (_, journal, answer) in enumerate(JOURNALS, start=1):
        (place / f"{number:03}.txt").write_bytes(journal)
        (place / f"{number:03}.out").write_bytes(answer)
    (place / "INDEX.md").write_text(index(), encoding="ascii", newline="\n")


if __name__ == "__main__":
    if len(sys.argv) != 2:
        sys.exit(__doc__)
    write_journals(sys.argv[1])
