"""Runs cases: 'python3 -m second CASEFILE' (or - for standard input) prints a result line for each case.

The format of cases and results is told in cases.py.
"""

import os
import sys

sys.path.insert(0, os.path.dirname(os.path.dirname(os.path.abspath(__file__))))

from second.cases import result  # noqa: E402


def main(arguments):
    """Reads the case file and prints the results."""
    if len(arguments) != 1:
        sys.stderr.write("usage: python3 -m second CASEFILE\n")
        return 2
    source = sys.stdin if arguments[0] == "-" else open(arguments[0], encoding="ascii")
    with source:
        for case in source:
            answer = result(case.rstrip("\n"))
            if answer is not None:
                print(answer)
    return 0


if __name__ == "__main__":
    sys.exit(main(sys.argv[1:]))
