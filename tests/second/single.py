"""Single calls as the driver reads them (see tests/driver/main.rs), with this program's lines.

A call is its name, its bytes, its line as items, and how many lent items the line shows.
"""

import struct
from collections import namedtuple

from .basis import basis, express, normal
from .calls import shorter
from .files import LoadedTable, load, save_list, save_table
from .folding import ABSENT, breadth_table, fold_words_quickly
from .stored import CELL_BEFORE
from .tables import check, counts, equal, member
from .words import Refused, letter_count, refusal_of_list, words_of

BYTE_BEFORE = 77

Table = namedtuple("Table", "n points cells")
Call = namedtuple("Call", "name data items shown")


def number(x, width):
    """A number as the driver reads it."""
    return x.to_bytes(width, "little")


def table_bytes(table):
    """A table as the driver reads it."""
    return (number(table.n, 8) + number(table.points, 8) + number(len(table.cells), 4)
            + struct.pack("<%dI" % len(table.cells), *table.cells))


def answered(answer, *items):
    """A refusal, or the items."""
    return ["refused", *answer] if isinstance(answer, Refused) else [*items]


def yes_or_no(answer):
    """A refusal, yes or no."""
    return answered(answer, "yes" if answer is True else "no")


def shown_bytes(data):
    """Lent bytes as they stand in a line."""
    return "x" + data.hex()


def call_check(table):
    """The counts of a table."""
    answer = check(*table)
    return Call("check", b"c" + table_bytes(table), answered(answer, *answer), 0)


def call_member(table, query, work):
    """A query on a table."""
    answer, after = member(*table, query, [CELL_BEFORE] * work)
    data = b"m" + table_bytes(table) + number(len(query), 4) + number(work, 4) + query
    return Call("member", data, yes_or_no(answer) + after, work)


def call_equal(first, second):
    """Two tables compared."""
    answer = equal(*first, *second)
    return Call("equal", b"e" + table_bytes(first) + table_bytes(second), yes_or_no(answer), 0)


def call_basis(table, work, out):
    """The basis of a table, written."""
    answer, text, after = basis(*table, [CELL_BEFORE] * work, bytes([BYTE_BEFORE]) * out)
    items = answered(answer) or [text[:answer].count(b"\n"), answer]
    data = b"b" + table_bytes(table) + number(work, 4) + number(out, 4)
    return Call("basis", data, items + after + [shown_bytes(text)], work + out)


def call_save(table, out):
    """A table saved."""
    answer, file = save_table(*table, bytes([BYTE_BEFORE]) * out)
    data = b"s" + table_bytes(table) + number(out, 4)
    return Call("save_table", data, answered(answer, 0, answer) + [shown_bytes(file)], out)


def call_folded(table, text):
    """The basis that is written, folded by the library: the same table, by merging folds alone."""
    n, points, cells = table.n, table.points, table.cells[:table.points * 2 * table.n]
    words, letters = text.count(b"\n"), letter_count(text)
    start = letters - words + 1
    items = [words, len(text), points, *counts(n, points, cells), start, letters, start - points, 0]
    after = cells + [ABSENT] * ((letters + 1) * 2 * n - len(cells))
    data = b"f" + table_bytes(table) + number(len(text), 4)
    return Call("basis folded", data, items + after, len(after))


def call_shorter(n, first, second):
    """The shorter of two lists."""
    part = shorter(n, first, second)
    which = 0 if part.length == 0 and not is_handed(n, first, second) else 1 + (part.which == "second")
    data = b"l" + number(n, 8) + number(len(first), 4) + number(len(second), 4) + first + second
    return Call("shorter", data, [which, part.length], 0)


def is_handed(n, first, second):
    """One of the lists is not refused."""
    return not (refusal_of_list(n, first) and refusal_of_list(n, second))


def call_normal(table, work):
    """Whether a table's subgroup is normal."""
    answer, after = normal(*table, [CELL_BEFORE] * work)
    return Call("normal", b"n" + table_bytes(table) + number(work, 4), yes_or_no(answer) + after, work)


def call_express(table, query, work, out):
    """A query expressed in the basis of a table."""
    answer, numbers, after = express(*table, query, [CELL_BEFORE] * work, [CELL_BEFORE] * out)
    said = answered(answer) or (["no"] if answer is None else ["yes", answer])
    data = b"x" + table_bytes(table) + number(len(query), 4) + number(work, 4) + number(out, 4) + query
    return Call("express", data, said + after + numbers, work + out)


def call_save_list(n, text, out):
    """A list saved."""
    answer, file = save_list(n, text, bytes([BYTE_BEFORE]) * out)
    data = b"w" + number(n, 8) + number(len(text), 4) + number(out, 4) + text
    return Call("save_list", data, answered(answer, 0, answer) + [shown_bytes(file)], out)


def loaded_items(answer):
    """What loading answers: a refusal, a table or a list."""
    return answered(answer) or ["table" if isinstance(answer, LoadedTable) else "list", *answer]


def call_told(file, text, items, written):
    """A file loaded without a table, when the answer and the bytes written are known."""
    data = b"r" + number(len(file), 4) + number(0, 4) + number(text, 4) + file
    after = written + bytes([BYTE_BEFORE]) * (text - len(written))
    return Call("load", data, items + [shown_bytes(after)], text)


def call_load(file, table, text):
    """A file loaded."""
    answer, cells, after = load(file, [CELL_BEFORE] * table, bytes([BYTE_BEFORE]) * text)
    data = b"r" + number(len(file), 4) + number(table, 4) + number(text, 4) + file
    return Call("load", data, loaded_items(answer) + cells + [shown_bytes(after)], table + text)


def call_back(file, table, text):
    """A good file loaded and saved again: the same bytes."""
    answer, *_ = load(file, [CELL_BEFORE] * table, bytes([BYTE_BEFORE]) * text)
    data = b"g" + number(len(file), 4) + number(table, 4) + number(text, 4) + file
    return Call("load and save", data, loaded_items(answer) + [0, len(file), shown_bytes(file)], len(file))


def table_of(n, text):
    """The table of a list."""
    cells = breadth_table(n, fold_words_quickly(words_of(text)).edges)
    return Table(n, len(cells) // (2 * n), cells)
