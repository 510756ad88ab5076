#!/usr/bin/env python3
"""Plays random scenarios on the simulator, checks the laws, and counts what occurred.

run_random.py SEED COUNT [--formats] [--detail] [--hub COMMAND]

With --hub each scenario is also given to that command on standard input, and its output is compared
line by line, the order of tags aside. Ends with status 1 if a law broke or an output differed.
"""

import argparse
import shlex
import subprocess
import sys
from collections import Counter

from random_scenarios import scenarios
from simulator.console import Console
from simulator.laws import LawBroken

ANSWERS = [
    "running",
    "waiting",
    "done",
    "committing",
    "early",
    "full",
    "stopped",
    "rolled back",
    "retried",
]
# Fault 2 is met outside a block only, and RETRY faults only after an early commit.
FAULTS = [f"faulted {number} mark 1" for number in (1, 2, 3, 4, 5)] + [
    f"faulted {number} mark 2" for number in (1, 3, 4, 5, 6)
]
REFUSALS = [f"refused {number}" for number in range(1, 19)]
MORE = ["refused 11 while a core has the token"]


def without_tag_order(line):
    """The line with the addresses of `tags` sorted."""
    command, arrow, answer = line.partition(" -> ")
    if not arrow or not command.startswith("tags ") or ":" not in answer:
        return line
    count, _, addresses = answer.partition(":")
    return f"{command} -> {count}: {sorted(map(int, addresses.split()))}"


def first_difference(ours, theirs):
    for number in range(max(len(ours), len(theirs))):
        mine = ours[number] if number < len(ours) else "(no line)"
        other = theirs[number] if number < len(theirs) else "(no line)"
        if without_tag_order(mine) != without_tag_order(other):
            return f"line {number + 1}: simulator {mine!r}, hub {other!r}"
    return None


def main():
    parser = argparse.ArgumentParser(description="Plays random scenarios and checks the laws.")
    parser.add_argument("seed", type=int, metavar="SEED")
    parser.add_argument("count", type=int, metavar="COUNT")
    parser.add_argument("--formats", action="store_true", help="only what needs no engine")
    parser.add_argument("--detail", action="store_true", help="count steps by state and instruction")
    parser.add_argument("--hub", metavar="COMMAND", help="compare with this command's output")
    options = parser.parse_args()

    seen, moves = Counter(), Counter()
    broken = differing = lines = checks = 0
    for number, text in enumerate(scenarios(options.seed, options.count, options.formats)):
        data = text.encode()
        console = Console(check_laws=True)
        output = []
        try:
            for line in console.play(data):
                output.append(line)
        except LawBroken as law:
            broken += 1
            last = output[-1] if output else "the start"
            print(f"scenario {number}: law broken after {last!r}: {law}")
            continue
        lines += len(output)
        checks += console.checks
        seen += console.seen
        moves += console.moves
        if options.hub:
            done = subprocess.run(
                shlex.split(options.hub), input=data, stdout=subprocess.PIPE, check=False
            )
            theirs = done.stdout.decode("utf-8", "replace").splitlines()
            difference = first_difference(output, theirs)
            if difference is not None:
                differing += 1
                print(f"scenario {number} differs, {difference}")

    print(f"seed {options.seed}: {options.count} scenarios, {lines} lines of output")
    print(f"laws checked at {checks} moments, broken in {broken} scenarios")
    if options.hub:
        print(f"outputs that differ: {differing}")
    if options.formats:
        wanted = REFUSALS[:5] + REFUSALS[17:]
    else:
        wanted = ANSWERS + FAULTS + REFUSALS + MORE
    for name in wanted + sorted(set(seen) - set(wanted)):
        print(f"{seen[name]:9}  {name}")
    missing = [name for name in wanted if seen[name] == 0]
    print("never occurred: " + (", ".join(missing) or "nothing"))
    if options.detail:
        for (state, instruction, answer), times in sorted(moves.items()):
            print(f"{times:9}  {state} {instruction}: {answer}")
    return 1 if broken or differing else 0


if __name__ == "__main__":
    sys.exit(main())
