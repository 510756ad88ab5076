#!/usr/bin/env python3
"""Plays every scenario of tools/scenarios and compares the output with what was worked out by hand.

check_scenarios.py [--hub COMMAND]

Without --hub the simulator plays them, with the laws checked. With --hub the command is run with
the scenario on its standard input.
"""

import argparse
import difflib
import itertools
import pathlib
import shlex
import subprocess
import sys

from simulator.console import Console
from simulator.laws import LawBroken

SCENARIOS = pathlib.Path(__file__).parent / "scenarios"


def from_files():
    """Each scenario's name, text and worked output."""
    for scenario in sorted(SCENARIOS.glob("*.txt")):
        expected = scenario.with_suffix(".expected").read_text().splitlines()
        yield scenario.name, scenario.read_bytes(), expected


def limits():
    """A scenario at the limits; its lines are too long to stand in a file."""
    played = [
        ("program" + " 0" * 512, "accepted 512"),
        ("program" + " 0" * 513, "refused 1 at 0"),
        ("memory bytes " + "00000000" * 4095 + "0000002A", "words 4096"),
        ("make 32" + " 511" * 8, "cores 8"),
        ("step 7", "done"),
        ("step 8", "refused 10"),
        ("hold", "held"),
        ("read 4095", "word 42"),
        ("read 4096", "refused 14"),
        ("give back", "given back"),
        ("make 32" + " 0" * 9, "refused 6 cores 0"),
        ("make 33 0", "refused 7 cores 0"),
        ("make 32 512", "refused 9 cores 0"),
        ("memory words" + " 0" * 4096 + " 42", "words 4097"),
        ("make 32 0", "refused 8 cores 0"),
        ("hold", "held"),
        ("read 4096", "word 42"),
        ("read 4097", "refused 14"),
        ("give back", "given back"),
        ("memory bytes " + "00000000" * 65535 + "0000002A" + "000000", "words 65536"),
        ("make 32 0", "refused 8 cores 0"),
        ("hold", "held"),
        ("read 65535", "word 42"),
        ("read 65536", "refused 14"),
        ("make 32 0", "cores 1"),
        ("memory words" + " 7" * 65537, "words 65536"),
        ("make 32 0", "refused 8 cores 0"),
        ("hold", "held"),
        ("read 65535", "word 7"),
        ("read 65536", "refused 14"),
        ("turn", "refused 10"),
        ("give back", "given back"),
    ]
    text = "".join(f"{command}\n" for command, _ in played)
    yield "limits", text.encode(), [f"{command} -> {answer}" for command, answer in played]


def by_simulator(data):
    try:
        return list(Console(check_laws=True).play(data))
    except LawBroken as law:
        return [f"law broken: {law}"]


def by_command(command, data):
    done = subprocess.run(shlex.split(command), input=data, stdout=subprocess.PIPE, check=False)
    return done.stdout.decode("utf-8", "replace").splitlines()


def main():
    parser = argparse.ArgumentParser(description="Compares scenarios with their worked output.")
    parser.add_argument("--hub", metavar="COMMAND", help="play by this command")
    options = parser.parse_args()
    passed = failed = 0
    for name, data, expected in itertools.chain(from_files(), limits()):
        found = by_command(options.hub, data) if options.hub else by_simulator(data)
        if found == expected:
            passed += 1
            continue
        failed += 1
        print(f"{name} differs:")
        for line in difflib.unified_diff(expected, found, "worked", "played", lineterm="", n=1):
            print("  " + line[:200])
    print(f"{passed} passed, {failed} failed")
    return 1 if failed else 0


if __name__ == "__main__":
    sys.exit(main())
