#!/usr/bin/env python3
"""Prints what each command of some sessions may cost at most, its bill, by the model of the rules in `model/`.

    scripts/bills.py FILE

FILE has a line for each session and for each of its commands, and perhaps comments, which begin with `#`:

    session GRID LIMIT        the rows of the grid joined by /
    COMMAND [xN]              a line of a script, and how often it is done: its bill is that of the last time

Behind two blanks a command may have its answer, as it is printed: `ok` or the rule that refuses it, its bill, and what
the session keeps after it. The status is 1 where such an answer is another one.
"""
import argparse
import os
import re
import sys

sys.path.insert(0, os.path.dirname(os.path.dirname(os.path.realpath(__file__))))
sys.dont_write_bytecode = True      # the checkout stays as it is

from model.bills import BilledSession
from model.grids import GridRefused, read_grid
from model.script import ScriptRefused, read_script
from model.session import Refused


def fails(text):
    sys.exit(f"bills.py: {text}")


def opened(line):
    _, grid, limit = line.split(" ")
    return BilledSession(read_grid(grid.replace("/", "\n").encode()), 1, int(limit))


def answer_of(session, asked):
    """Does a command as often as it is asked for. The answer to the last time."""
    line, times = re.fullmatch(r"(.*?)(?: x(\d+))?", asked).groups()
    command = read_script(line.encode())[1][0].command
    for _ in range(int(times or 1) - 1):
        session.obey(command)
    bill = session.bill(command)
    answer, _ = session.obey(command)
    return (f"{answer.rule if isinstance(answer, Refused) else 'ok'}  bill {bill}  moments {session.moments}  "
            f"tail {len(session.tail)}  first {session.first}  spacing {session.spacing}  peak {session.peak}")


def main():
    parser = argparse.ArgumentParser(description=__doc__, formatter_class=argparse.RawDescriptionHelpFormatter)
    parser.add_argument("file")
    session, wrong = None, 0
    try:
        with open(parser.parse_args().file, encoding="ascii") as file:
            lines = file.read().splitlines()
    except (OSError, ValueError) as error:
        fails(error)
    for number, line in enumerate(lines, 1):
        asked, _, wanted = line.partition("  ")
        try:
            if line.startswith("session "):
                session = opened(line)
                print(line)
            elif line and not line.startswith("#"):
                answer = answer_of(session, asked)
                print(f"{asked}  {answer}" + (f"  not {wanted}" if wanted not in ("", answer) else ""))
                wrong += wanted not in ("", answer)
        except (ValueError, AttributeError, IndexError, GridRefused, ScriptRefused):
            fails(f"line {number} of {len(lines)} is no session and no command: {line}")
    sys.exit(1 if wrong else 0)


if __name__ == "__main__":
    main()
