"""Cases as text lines, and their results a line each.

A case is one line; its items are parted by single spaces. Blank lines and lines
that begin with # are passed over and have no result. Items are:

  N, V       numbers in decimal, of any size
  CELL       a table cell in decimal, or - for the absent mark 4294967295
  QUERY, LIST, FILE, INPUT   bytes: '=' and then each byte as itself from '!' to '~',
             but '%' and every other byte as % and two hexadecimal digits (byte 10: %0A)
  TABLE, WORK, OUT, TEXT     lengths of lent buffers; before the call each cell of such a
             buffer holds 777, each byte of it 35

Cases:                                            Results, if not refused:

  check N V CELL..                                counts EDGES RANK INDEX
  member N V WORK QUERY CELL..                    inside | outside, work CELL..
  equal N V CELL.. / N V CELL..                   equal | different
  express N V WORK OUT QUERY CELL..               inside COUNT | outside, out NUMBER.. work CELL..
  basis N V WORK OUT CELL..                       written LENGTH, out BYTES work CELL..
  normal N V WORK CELL..                          yes | no, work CELL..
  savetable N V OUT CELL..                        written LENGTH, out BYTES
  savelist N OUT LIST                             written LENGTH, out BYTES
  load TABLE TEXT FILE                            table N V | list N WORDS LENGTH, table CELL.. text BYTES
  fold N TABLE WORK LIST                          folded V STARTPOINTS STARTEDGES MERGING CLOSING, table CELL.. work CELL..
  ask N TABLE WORK LIST QUERY                     inside | outside, table CELL.. work CELL..
  shorter N LIST LIST                             first LENGTH | second LENGTH
  print INPUT                                     printed BYTES

(The comma is not written: what follows it is joined by one space.) A refused case begins
'refused NUMBER PLACE' in place of what stands before the comma; the buffers follow in the
same way. INDEX is a number or 'infinite'. BYTES are written as in a case.
"""

from .basis import basis, express, normal
from .calls import ask, fold, shorter
from .files import LoadedTable, load, save_list, save_table
from .folding import ABSENT
from .printing import printed
from .tables import check, equal, member
from .words import Refused

CELL_BEFORE = 777
BYTE_BEFORE = 35


def cell_item(x):
    """A cell as an item."""
    return "-" if x == ABSENT else str(x)


def cell_of(item):
    """An item as a cell."""
    return ABSENT if item == "-" else int(item)


def bytes_item(data):
    """Bytes as an item."""
    return "=" + "".join(chr(byte) if 33 <= byte <= 126 and byte != 37 else "%%%02X" % byte
                         for byte in data)


def bytes_of(item):
    """An item as bytes."""
    assert item[0] == "=", item
    parts = item[1:].split("%")
    return parts[0].encode() + b"".join(bytes([int(part[:2], 16)]) + part[2:].encode()
                                        for part in parts[1:])


def cells_of(items):
    """Items as cells."""
    return [cell_of(item) for item in items]


def lent_cells(item):
    """A lent buffer of cells before the call."""
    return [CELL_BEFORE] * int(item)


def lent_bytes(item):
    """A lent buffer of bytes before the call."""
    return bytes([BYTE_BEFORE]) * int(item)


def line(*items):
    """The items of a result, with buffers of cells and bytes spread out."""
    spread = []
    for item in items:
        if isinstance(item, Refused):
            spread += ["refused", str(item.number), str(item.place)]
        elif isinstance(item, (bytes, bytearray)):
            spread.append(bytes_item(item))
        elif isinstance(item, (list, tuple)):
            spread += [cell_item(x) for x in item]
        else:
            spread.append(str(item))
    return " ".join(spread)


def answer_items(answer, *otherwise):
    """A refusal, or the items of an answer that is not refused."""
    return [answer] if isinstance(answer, Refused) else list(otherwise)


def run_check(items):
    """check N V CELL.."""
    answer = check(int(items[0]), int(items[1]), cells_of(items[2:]))
    return line(*answer_items(answer, "counts", answer))


def run_member(items):
    """member N V WORK QUERY CELL.."""
    n, V, work, query, *cells = items
    answer, after = member(int(n), int(V), cells_of(cells), bytes_of(query), lent_cells(work))
    return line(*answer_items(answer, "inside" if answer else "outside"), "work", after)


def run_equal(items):
    """equal N V CELL.. / N V CELL.."""
    part = items.index("/")
    first, second = items[:part], items[part + 1:]
    answer = equal(int(first[0]), int(first[1]), cells_of(first[2:]),
                   int(second[0]), int(second[1]), cells_of(second[2:]))
    return line(*answer_items(answer, "equal" if answer else "different"))


def run_express(items):
    """express N V WORK OUT QUERY CELL.."""
    n, V, work, out, query, *cells = items
    answer, written, after = express(int(n), int(V), cells_of(cells), bytes_of(query),
                                     lent_cells(work), lent_cells(out))
    said = ["outside"] if answer is None else ["inside", answer]
    return line(*answer_items(answer, *said), "out", written, "work", after)


def run_basis(items):
    """basis N V WORK OUT CELL.."""
    n, V, work, out, *cells = items
    answer, written, after = basis(int(n), int(V), cells_of(cells), lent_cells(work),
                                   lent_bytes(out))
    return line(*answer_items(answer, "written", answer), "out", written, "work", after)


def run_normal(items):
    """normal N V WORK CELL.."""
    n, V, work, *cells = items
    answer, after = normal(int(n), int(V), cells_of(cells), lent_cells(work))
    return line(*answer_items(answer, "yes" if answer else "no"), "work", after)


def run_savetable(items):
    """savetable N V OUT CELL.."""
    n, V, out, *cells = items
    answer, written = save_table(int(n), int(V), cells_of(cells), lent_bytes(out))
    return line(*answer_items(answer, "written", answer), "out", written)


def run_savelist(items):
    """savelist N OUT LIST"""
    n, out, text = items
    answer, written = save_list(int(n), bytes_of(text), lent_bytes(out))
    return line(*answer_items(answer, "written", answer), "out", written)


def run_load(items):
    """load TABLE TEXT FILE"""
    table, text, file = items
    answer, cells, read_back = load(bytes_of(file), lent_cells(table), lent_bytes(text))
    kind = "table" if isinstance(answer, LoadedTable) else "list"
    return line(*answer_items(answer, kind, answer), "table", cells, "text", read_back)


def run_fold(items):
    """fold N TABLE WORK LIST"""
    n, table, work, text = items
    answer, cells, after = fold(int(n), bytes_of(text), lent_cells(table), lent_cells(work))
    return line(*answer_items(answer, "folded", answer), "table", cells, "work", after)


def run_ask(items):
    """ask N TABLE WORK LIST QUERY"""
    n, table, work, text, query = items
    answer, cells, after = ask(int(n), bytes_of(text), bytes_of(query), lent_cells(table),
                               lent_cells(work))
    return line(*answer_items(answer, "inside" if answer else "outside"),
                "table", cells, "work", after)


def run_shorter(items):
    """shorter N LIST LIST"""
    n, first, second = items
    return line(*shorter(int(n), bytes_of(first), bytes_of(second)))


def run_print(items):
    """print INPUT"""
    return line("printed", printed(bytes_of(items[0])))


RUN = {
    "check": run_check, "member": run_member, "equal": run_equal, "express": run_express,
    "basis": run_basis, "normal": run_normal, "savetable": run_savetable,
    "savelist": run_savelist, "load": run_load, "fold": run_fold, "ask": run_ask,
    "shorter": run_shorter, "print": run_print,
}


def result(case):
    """The result line of a case line, or None for a blank line or a comment."""
    if case == "" or case.startswith("#"):
        return None
    name, *items = case.split(" ")
    return RUN[name](items)
