#!/usr/bin/env python3
"""How long the proved programs take, beside the same programs in plain checked Rust.

    measure_speed.py [--rounds N] [--built FOLDER]

proves and builds the programs `speed_cases` and `bill`, builds their twins (`tools/speed/`) with rustc at
its level 3 with tests for overflow, and prints a table of both: for each task the time of one turn, and
its instructions. Where a twin comes to another sum or prints another text, the script ends there
with status 1. With --built, the programs `speed_cases` and `bill` of that folder are measured, and only
the twins are built.

A turn's instructions are those of a run with more turns less those of a run with fewer, divided by
the turns between, so that what a program does once drops out; they come from
`valgrind --tool=callgrind`. Its time is taken in the same way from the processor time of the runs, the
least of N rounds over all tasks (20 where none is given). The program `bill` is measured whole, from its
start to its end, and its time is the clock's.
"""

import argparse
import os
import re
import subprocess
import sys
import tempfile
import time
from dataclasses import dataclass
from pathlib import Path

ROOT = Path(__file__).resolve().parent.parent
CRATES = ROOT / "crates"
PEERS = ROOT / "target" / "speed"
PROGRAMS = ("speed_cases", "bill")

# The task, its members, the turns of a run that is timed, and what a turn does.
TASKS = (
    ("bill_posted", 50, 8_000, "bill by posted rates"),
    ("bill_posted", 100, 4_000, "bill by posted rates"),
    ("bill_posted", 200, 2_000, "bill by posted rates"),
    ("bill_ratio", 200, 800, "bill by ratio"),
    ("resettle_8_posted", 200, 20_000, "resettlement of 8 by posted rates"),
    ("resettle_8_ratio", 200, 8_000, "resettlement of 8 by ratio"),
    ("resettle_11_posted", 200, 20_000, "resettlement of 11 by posted rates"),
    ("resettle_11_ratio", 200, 8_000, "resettlement of 11 by ratio"),
    ("read", 32, 8_000, "reading a month's text"),
    ("ferc", 200, 40_000, "FERC year of one month"),
)
FEW, MORE = 2, 22
# A run of the whole program `bill` is short, so each round has many.
WHOLE_RUNS = 20

RUST = ["rustc", "--edition", "2024", "-C", "opt-level=3", "-C", "overflow-checks=on",
        "-C", "debug-assertions=off", "-C", "codegen-units=1"]


@dataclass
class Case:
    """One row of the table: two programs, and the arguments of a long run and of a short one."""
    name: str
    members: int
    pair: tuple
    text: Path
    turns: int
    long: list
    short: list

    @property
    def is_whole(self):
        return not self.short


def task_case(pair, task, members, turns, name):
    long, short = ([task, str(members), str(count)] for count in (turns, 1))
    return Case(name, members, pair, CRATES / "speed_cases" / "stdin", turns - 1, long, short)


def whole_case(pair):
    return Case("the program `bill`, whole", 2, pair, CRATES / "bill" / "stdin", 1, [], [])


def build_ours():
    """Proves and builds both programs; `rt run` leaves them in the crates' folders `out`."""
    for name in PROGRAMS:
        crate = CRATES / name
        words = crate / "args"
        given = ["--", *words.read_text().split()] if words.exists() else []
        with open(crate / "stdin") as text:
            done = subprocess.run(["rt", "run", *given], cwd=crate, stdin=text,
                                  capture_output=True, text=True)
        if done.returncode or done.stdout != (crate / "stdout").read_text():
            sys.exit(f"{name} is not proved, or prints another text:\n{done.stderr}")
    return {name: CRATES / name / "out" / name for name in PROGRAMS}


def build_peers():
    PEERS.mkdir(parents=True, exist_ok=True)
    for name in PROGRAMS:
        source = ROOT / "tools" / "speed" / f"{name}.rs"
        subprocess.run([*RUST, "-o", PEERS / name, source], check=True)
    return {name: PEERS / name for name in PROGRAMS}


def printed(program, words, text):
    with open(text) as given:
        return subprocess.run([program, *words], stdin=given, check=True,
                              capture_output=True, text=True).stdout


def check_twin(case):
    """Stops where the two programs print different sums or texts."""
    for words in [case.long] if case.is_whole else [case.short, case.long]:
        ours, peer = (printed(program, words, case.text) for program in case.pair)
        if ours != peer or not ours:
            sys.exit(f"{case.name}: ours prints {ours!r}, and its twin {peer!r}")


def instructions(program, words, text):
    """The instructions of a whole run."""
    with open(text) as given, tempfile.NamedTemporaryFile() as counts:
        done = subprocess.run(["valgrind", "--tool=callgrind",
                               f"--callgrind-out-file={counts.name}", program, *words],
                              stdin=given, check=True, capture_output=True, text=True)
    return int(re.search(r"Collected : (\d+)", done.stderr).group(1))


def counted(case, program):
    """The instructions of a turn, or of the whole program."""
    if case.is_whole:
        return instructions(program, case.long, case.text)
    few, more = (instructions(program, [*case.long[:2], str(count)], case.text)
                 for count in (FEW, MORE))
    return (more - few) / (MORE - FEW)


def seconds(program, words, text, by_clock):
    """The processor time of a whole run, or the clock's."""
    null = os.open(os.devnull, os.O_WRONLY)
    given = os.open(text, os.O_RDONLY)
    ends = [(os.POSIX_SPAWN_DUP2, given, 0), (os.POSIX_SPAWN_DUP2, null, 1)]
    began = time.perf_counter()
    child = os.posix_spawn(program, [str(program), *words], os.environ, file_actions=ends)
    _, status, used = os.wait4(child, 0)
    ended = time.perf_counter()
    os.close(null)
    os.close(given)
    if status:
        sys.exit(f"{program} {' '.join(words)} ends with status {status}")
    return ended - began if by_clock else used.ru_utime + used.ru_stime


def least_times(cases, rounds):
    """The microseconds of a turn, by case and program: long run less short run, each the least of all
    rounds. A round goes over all cases, so that a time in which the machine is slow meets each alike."""
    best = {}
    for _ in range(rounds):
        for row, case in enumerate(cases):
            for _ in range(WHOLE_RUNS if case.is_whole else 1):
                for side, program in enumerate(case.pair):
                    for words in [case.long] if case.is_whole else [case.long, case.short]:
                        key = (row, side, tuple(words))
                        taken = seconds(program, words, case.text, case.is_whole)
                        best[key] = min(best.get(key, taken), taken)

    def turn(row, side, case):
        once = 0 if case.is_whole else best[row, side, tuple(case.short)]
        return (best[row, side, tuple(case.long)] - once) / case.turns * 1e6

    return [[turn(row, side, case) for side in (0, 1)] for row, case in enumerate(cases)]


def first_line(*words):
    return subprocess.run(words, check=True, capture_output=True, text=True).stdout.splitlines()[0]


def main():
    parser = argparse.ArgumentParser(description=__doc__.splitlines()[0])
    parser.add_argument("--rounds", type=int, default=20)
    parser.add_argument("--built", type=Path)
    given = parser.parse_args()
    peers = build_peers()
    built = given.built and {name: given.built.resolve() / name for name in PROGRAMS}
    ours = built or build_ours()
    pair = (ours["speed_cases"], peers["speed_cases"])
    cases = [task_case(pair, *task) for task in TASKS]
    cases.append(whole_case((ours["bill"], peers["bill"])))
    for case in cases:
        check_twin(case)
    times = least_times(cases, given.rounds)
    print(f"{first_line('rt', 'version')}; {first_line('rustc', '--version')}; "
          f"{first_line('valgrind', '--version')}; {time.strftime('%Y-%m-%d')}\n")
    print("| Task | Members | µs | of Rust | ratio | instructions | of Rust | ratio |")
    print("|---|---|---|---|---|---|---|---|")
    for case, (a, b) in zip(cases, times):
        c, d = (counted(case, program) for program in case.pair)
        print(f"| {case.name} | {case.members} | {a:,.2f} | {b:,.2f} | {a / b:.2f} "
              f"| {c:,.0f} | {d:,.0f} | {c / d:.2f} |", flush=True)


if __name__ == "__main__":
    main()
