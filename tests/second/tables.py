"""Canonical tables: the test of every rule at every cell, counts, membership, equality.

A lent table comes as n, V and the list of its cells; cells after V x 2n are ignored.
"""

from collections import namedtuple

from .folding import ABSENT
from .words import (Refused, cause_1, cause_2, cause_3_or_4_of_query, inverse_letter, is_lower,
                    reduce, word)

MOST_POINTS = 1048577

Counts = namedtuple("Counts", "edges rank index")
INFINITE = "infinite"


def cell(n, cells, v, y):
    """The cell of letter y in row v."""
    return cells[v * 2 * n + y]


def breaks_bound(n, V, cells, c):
    """Broken: each cell is absent or below V."""
    return cells[c] != ABSENT and cells[c] >= V


def breaks_inverse(n, V, cells, c):
    """Broken: if y leads from v to w, the inverse of y leads from w to v."""
    v, y = divmod(c, 2 * n)
    w = cells[c]
    if w == ABSENT or w >= V:
        return False
    return cell(n, cells, w, inverse_letter(y)) != v


def breaks_next(n, V, cells, c, greatest_met):
    """Broken: a cell not absent is at most one more than the greatest point met in earlier cells."""
    return cells[c] != ABSENT and cells[c] > greatest_met + 1


def breaks_met(n, V, cells, c, met):
    """Broken: each point v >= 1 is met in a cell before row v (placed at the row's first cell)."""
    v, y = divmod(c, 2 * n)
    return y == 0 and v >= 1 and v not in met


def breaks_two(n, V, cells, c):
    """Broken: each point v >= 1 has at least two cells that are not absent (at the row's first cell)."""
    v, y = divmod(c, 2 * n)
    row = cells[v * 2 * n:(v + 1) * 2 * n]
    return y == 0 and v >= 1 and sum(1 for x in row if x != ABSENT) < 2


def faulty_cell(n, V, cells):
    """The lowest cell of any broken rule, or None for a canonical table."""
    met = {0}
    greatest_met = 0
    for c in range(V * 2 * n):
        if (breaks_bound(n, V, cells, c) or breaks_inverse(n, V, cells, c)
                or breaks_next(n, V, cells, c, greatest_met)
                or breaks_met(n, V, cells, c, met) or breaks_two(n, V, cells, c)):
            return c
        if cells[c] != ABSENT:
            met.add(cells[c])
            greatest_met = max(greatest_met, cells[c])
    return None


def cause_6(n, V, length):
    """6: V = 0, V over 1,048,577, or table under V x 2n cells; place 0."""
    if V == 0 or V > MOST_POINTS or length < V * 2 * n:
        return Refused(6, 0)
    return None


def cause_7(length, needed):
    """7: work buffer too short; cells needed."""
    return Refused(7, needed) if length < needed else None


def cause_8(n, V, cells):
    """8: table not canonical; lowest cell."""
    c = faulty_cell(n, V, cells)
    return None if c is None else Refused(8, c)


def counts(n, V, cells):
    """Rank = edges - V + 1; index = V if no cell is absent, else infinite."""
    rows = cells[:V * 2 * n]
    edges = sum(1 for c, x in enumerate(rows) if is_lower(c % (2 * n)) and x != ABSENT)
    return Counts(edges, edges - V + 1, INFINITE if ABSENT in rows else V)


def read(n, cells, letters, start):
    """The point that the letters lead to from the start, or None where a letter is absent."""
    at = start
    for y in letters:
        at = cell(n, cells, at, y)
        if at == ABSENT:
            return None
    return at


def is_member(n, cells, letters):
    """A query is reduced before it is read; a member leads from the base back to it."""
    return read(n, cells, reduce(letters), 0) == 0


def cleared(buffer, needed):
    """The needed cells are 0 and later ones untouched."""
    return [0] * needed + list(buffer[needed:])


def check(n, V, cells):
    """Refusals 1, 6, 8 of a lent table, or its edges, rank and index."""
    return (cause_1(n) or cause_6(n, V, len(cells)) or cause_8(n, V, cells)
            or counts(n, V, cells))


def refusal_of_member(n, V, cells, query, work):
    """Refusals 1, 2, 3/4, 6, 7, 8 of a query on a lent table."""
    return (cause_1(n) or cause_2(query) or cause_3_or_4_of_query(n, query)
            or cause_6(n, V, len(cells)) or cause_7(len(work), len(query))
            or cause_8(n, V, cells))


def member(n, V, cells, query, work):
    """Answers membership of a query; gives the answer and the work cells afterwards."""
    refusal = refusal_of_member(n, V, cells, query, work)
    if refusal:
        return refusal, list(work)
    return is_member(n, cells, word(query)), cleared(work, len(query))


def cause_1_of_two(n, other_n):
    """1: n not 1 to 26, or of two tables the second's n is not the first's."""
    return cause_1(n) or (Refused(1, 0) if other_n != n else None)


def equal(n, V, cells, other_n, other_V, other_cells):
    """Equality of two canonical tables of one alphabet: same V, same cells."""
    refusal = (cause_1_of_two(n, other_n)
               or cause_6(n, V, len(cells)) or cause_6(n, other_V, len(other_cells))
               or cause_8(n, V, cells) or cause_8(n, other_V, other_cells))
    if refusal:
        return refusal
    return V == other_V and cells[:V * 2 * n] == other_cells[:V * 2 * n]
