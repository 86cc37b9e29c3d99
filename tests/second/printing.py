"""The printing program: bytes in, bytes out."""

import sys

from .basis import basis, express, normal
from .calls import fold
from .tables import counts
from .words import Refused

INPUT_BYTES = 65536
BASIS_BYTES = 65536
CELLS = 16384


def lines_of(data):
    """Byte 10 ends a line and does not start another; each line comes with its end if it has one."""
    lines, start = [], 0
    for offset, byte in enumerate(data):
        if byte == 10:
            lines.append(data[start:offset + 1])
            start = offset + 1
    if start < len(data):
        lines.append(data[start:])
    return lines


def without_end(line):
    """A line without its end."""
    return line[:-1] if line.endswith(b"\n") else line


def is_bad_input(data, later):
    """Input over the buffer, a later line with neither mark, or a '+' after a '?'."""
    marks = [line[:1] for line in later]
    if len(data) > INPUT_BYTES or any(mark not in (b"+", b"?") for mark in marks):
        return True
    return b"?" in marks and b"+" in marks[marks.index(b"?"):]


def item_line(*items):
    """In every line single spaces part the items, and byte 10 ends it."""
    return b" ".join(item if isinstance(item, bytes) else str(item).encode() for item in items) + b"\n"


def refused_line(refusal):
    """A refusal prints 'refused', number, place."""
    return item_line(b"refused", refusal.number, refusal.place)


def yes_or_no(answer):
    """An answer as it is printed."""
    return b"yes" if answer else b"no"


def basis_lines(n, V, table):
    """A line for each basis word, or the refusal in place of the lines."""
    length, out, _ = basis(n, V, table, [0] * CELLS, bytes(BASIS_BYTES))
    if isinstance(length, Refused):
        return refused_line(length)
    return b"".join(item_line(b"basis", word) for word in out[:length].split(b"\n")[:-1])


def query_line(n, V, table, query):
    """The word as written, yes or no, and the expression, or the refusal in place of the line."""
    count, out, _ = express(n, V, table, query, [0] * CELLS, [0] * CELLS)
    if isinstance(count, Refused):
        return refused_line(count)
    if count is None:
        return item_line(query, b"no")
    return item_line(query, b"yes", *out[:count])


def printed(data):
    """All that the printing program prints for an input."""
    lines = lines_of(data)
    first, later = (lines[0], lines[1:]) if lines else (b"", [])
    if is_bad_input(data, later):
        return b"bad input\n"
    if without_end(first) not in [str(n).encode() for n in range(1, 27)]:
        return refused_line(Refused(1, 0))
    n = int(without_end(first))
    text = b"".join(line[1:] for line in later if line[:1] == b"+")
    answer, table, _ = fold(n, text, [0] * CELLS, [0] * CELLS)
    if isinstance(answer, Refused):
        return refused_line(answer)
    V = answer.points
    numbers = counts(n, V, table)
    is_normal, _ = normal(n, V, table, [0] * CELLS)
    return (item_line(b"points", V) + item_line(b"edges", numbers.edges)
            + item_line(b"rank", numbers.rank) + item_line(b"index", numbers.index)
            + item_line(b"normal", yes_or_no(is_normal))
            + item_line(b"start", answer.start_points, answer.start_edges)
            + item_line(b"folds", answer.merging, answer.closing)
            + basis_lines(n, V, table)
            + b"".join(query_line(n, V, table, without_end(line[1:]))
                       for line in later if line[:1] == b"?"))


if __name__ == "__main__":
    sys.stdout.buffer.write(printed(sys.stdin.buffer.read()))
