#!/usr/bin/env python3
"""Plays console scenarios on the simulator: simulate.py [--check-laws] [FILE...]

Without files it plays standard input. With --check-laws every run is checked against the serial,
roll-back and held-read laws, and against "a refused call changes nothing", as it goes on; a
broken law ends the run with status 2.
"""

import argparse
import sys

from simulator.console import Console
from simulator.laws import LawBroken


def sources(files):
    if not files:
        yield sys.stdin.buffer.read()
    for name in files:
        try:
            with open(name, "rb") as file:
                yield file.read()
        except OSError as error:
            print(f"{name}: {error.strerror}", file=sys.stderr)


def main():
    parser = argparse.ArgumentParser(description="Plays console scenarios on the simulator.")
    parser.add_argument("--check-laws", action="store_true", help="check the laws while playing")
    parser.add_argument("files", nargs="*", metavar="FILE")
    options = parser.parse_args()
    checks = 0
    for data in sources(options.files):
        console = Console(options.check_laws)
        try:
            for line in console.play(data):
                print(line)
        except LawBroken as law:
            sys.stdout.flush()
            print(f"law broken: {law}", file=sys.stderr)
            return 2
        checks += console.checks
    if options.check_laws:
        print(f"laws held at {checks} moments", file=sys.stderr)
    return 0


if __name__ == "__main__":
    sys.exit(main())
