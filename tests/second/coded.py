"""Cases of lent tables as bytes, for the program table_cases, and the results that it should print.

python3 -m second.coded CASEFILE STDIN STDOUT writes the cases of CASEFILE that can be coded to STDIN and this
program's results to STDOUT. A case is sixteen bytes (op, n, V, cells, second n, V, cells, query, work, and
seven of 0), then a byte for each cell, for each cell of the second table, and the bytes of the query. A number
is itself up to 252, and 253, 254, 255 stand for 258, 1048578, 4294967297; a cell is itself up to 253, and
254, 255 stand for 4294967294 and the absent mark.
"""

import sys

from .cases import bytes_of, cells_of, result
from .folding import ABSENT

NUMBERS = {258: 253, 1048578: 254, 4294967297: 255}
CELLS = {4294967294: 254, ABSENT: 255}


def code(value, codes, last):
    """The byte that stands for a number or a cell, or None."""
    return codes.get(value, value if value <= last else None)


def table_codes(items):
    """The codes of n, V and the cells of a table, or None."""
    head = [code(int(items[0]), NUMBERS, 252), code(int(items[1]), NUMBERS, 252)]
    cells = [code(x, CELLS, 253) for x in cells_of(items[2:])]
    return None if None in head + cells or len(cells) > 64 else (head, cells)


def coded(line):
    """A case as bytes, or None where it can not be coded."""
    op, *items = line.split(" ")
    query, work, second = b"", 0, ([0, 0], [])
    if op == "member":
        query, work = bytes_of(items[3]), int(items[2])
        items = items[:2] + items[4:]
    if op == "equal":
        at = items.index("/")
        items, second = items[:at], table_codes(items[at + 1:])
    first = table_codes(items)
    if first is None or second is None or len(query) > 64 or work > 64:
        return None
    kind = {"check": 1, "member": 2, "equal": 3}[op]
    head = [kind, *first[0], len(first[1]), *second[0], len(second[1]), len(query), work]
    return bytes(head + [0] * 7 + first[1] + second[1]) + query


def main(cases, stdin, stdout):
    """Codes a file of cases and writes its results."""
    with open(cases) as lines, open(stdin, "wb") as coding, open(stdout, "w") as results:
        for line in lines:
            line = line.rstrip("\n")
            if line and not line.startswith("#"):
                data = coded(line)
                if data is not None:
                    coding.write(data)
                    results.write(result(line).replace(" -", " %d" % ABSENT) + "\n")


if __name__ == "__main__":
    main(*sys.argv[1:])
