"""Compares the proved program with the reader on random scripts."""

import argparse
import shlex
import subprocess
import sys
import tempfile
from collections import Counter
from io import BytesIO
from itertools import zip_longest
from pathlib import Path

import model
from generate import generate, script_bytes
from model import Mode
from reader import Bench

ROOT = Path(__file__).resolve().parent.parent
MODES = "Closed Opened Wiped Run Zeroed Written Tail RunH ZeroedH WrittenH".split()

# Starting the program is slow, so scripts are long and runs few.
LINES_PER_SCRIPT = 50_000

# What a step can answer in a mode that admits it, beside 0, 1 and 2.
OWN_REFUSALS = {
    "append": (4, 5, 8),
    "begin": (4, 6, 7, 8),
    "write": (11,),
    "head": (10,),
    "tail": (9, 10, 15),
    "read": (10, 15),
}

# 16 is missing: a slot listed twice has one start, and extents that join have
# rising ones, so 13 is always given first.
OTHER_CALLS = {"create": (0, 1), "open": (0, 1, 12, 13, 14), "counts": (0, 1, 2)}


def possible_numbers(name, mode):
    if name in OTHER_CALLS:
        return OTHER_CALLS[name]
    if mode in model.TABLE[name]:
        return (0, 1, 2, *OWN_REFUSALS.get(name, ()))
    return (1, 2, 3)


def possible_triples():
    for name in model.CALLS:
        for mode in Mode:
            for number in possible_numbers(name, mode):
                yield name, number, mode
                if name != "create":
                    yield f"cut {name}", number, mode


class Tally:
    """Counts of what the scripts met."""

    def __init__(self):
        self.scripts = 0
        self.lines = 0
        self.commands = Counter()
        self.triples = Counter()

    def note(self, line, answer, mode):
        """Counts a line that agreed, with the mode before it."""
        self.lines += 1
        name, *words = answer.decode().split()
        self.commands[name] += 1
        if name == "cut":
            call = "cut " + line.decode().split(" ")[2]
            self.triples[call, int(words[0]), mode] += 1
        elif name in model.CALLS:
            self.triples[name, int(words[0]), mode] += 1

    def report(self):
        print(f"{self.lines} lines of {self.scripts} scripts agreed")
        commands = sorted(self.commands.items())
        print("commands:", ", ".join(f"{name} {count}" for name, count in commands))
        self.report_numbers()
        missing = [triple for triple in possible_triples() if triple not in self.triples]
        print(f"{len(self.triples)} triples of call, number and mode before it were met")
        print("possible but not met:", ", ".join(map(triple_text, missing)) or "none")
        self.report_triples()

    def report_numbers(self):
        totals = Counter()
        for (_, number, _), count in self.triples.items():
            totals[number] += count
        met = ", ".join(f"{number} ({totals[number]})" for number in sorted(totals))
        unmet = [str(number) for number in range(17) if number not in totals]
        print(f"numbers met: {met}; not met: {', '.join(unmet) or 'none'}")

    def report_triples(self):
        print(f"{'call':<15} {'no':>2}", *(f"{mode:>8}" for mode in MODES))
        for name, number in sorted({(name, number) for name, number, _ in self.triples}):
            cells = (self.triples[name, number, mode] or "." for mode in Mode)
            print(f"{name:<15} {number:>2}", *(f"{cell:>8}" for cell in cells))


def triple_text(triple):
    name, number, mode = triple
    return f"({name}, {number}, {MODES[mode]})"


def run_program(command, script):
    """The program's output lines, each with its newline."""
    ended = subprocess.run(command, input=script, stdout=subprocess.PIPE, cwd=ROOT)
    if ended.returncode != 0:
        print(f"the program ended with {ended.returncode}")
    return BytesIO(ended.stdout).readlines(), ended.returncode == 0


def report_difference(number, line, ours, theirs, script):
    with tempfile.NamedTemporaryFile(prefix="compare-", suffix=".script", delete=False) as file:
        file.write(script)
    print(f"difference at line {number} of {file.name}")
    print(f"command: {shown(line)}")
    print(f"reader:  {shown(ours)}")
    print(f"program: {shown(theirs)}")


def shown(line):
    return "(nothing)" if line is None else ascii(line.decode("latin-1"))[1:-1]


def compare_script(command, seed, count, tally):
    """Runs both sides on one script; whether they agree on every line."""
    lines = generate(seed, count)
    script = script_bytes(seed, lines)
    answers, ended_well = run_program(command, script)
    bench = Bench()
    for number, (line, theirs) in enumerate(zip_longest(lines, answers), 1):
        mode = bench.state.mode
        ours = None if line is None else bench.answer(line).encode() + b"\n"
        if ours != theirs:
            report_difference(number, line, ours, theirs, script)
            return False
        tally.note(line, ours, mode)
    tally.scripts += 1
    return ended_well


def script_sizes(lines):
    while lines > 0:
        yield min(lines, LINES_PER_SCRIPT)
        lines -= LINES_PER_SCRIPT


def parse_arguments():
    parser = argparse.ArgumentParser(description=__doc__)
    parser.add_argument("--lines", type=int, default=100_000, help="how many lines in all")
    parser.add_argument("--seed", type=int, default=1, help="the first script's seed")
    parser.add_argument("--program", default="./run logrun", help="run from the repository's root")
    return parser.parse_args()


def main():
    arguments = parse_arguments()
    command = shlex.split(arguments.program)
    tally = Tally()
    agreed = all(
        compare_script(command, seed, size, tally)
        for seed, size in enumerate(script_sizes(arguments.lines), arguments.seed)
    )
    if not agreed:
        print(f"{tally.lines} lines agreed before it")
        return 1
    tally.report()
    return 0


if __name__ == "__main__":
    sys.exit(main())
