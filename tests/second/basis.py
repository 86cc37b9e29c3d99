"""Paths, basis words, expressions and the rule of normal subgroups."""

from .folding import ABSENT
from .tables import (cause_6, cause_7, cause_8, cell, cleared, read, refusal_of_member)
from .words import (Refused, cause_1, inverse, inverse_letter, is_lower, list_text, reduce, word)


def first_met(n, V, cells):
    """For each point but the base, the row from which it was first met, and that letter."""
    met = {}
    for v in range(V):
        for y in range(2 * n):
            w = cell(n, cells, v, y)
            if w != ABSENT and w != 0 and w not in met:
                met[w] = (v, y)
    return met


def path(met, v):
    """A point's path is the path of the point from whose row it was first met, then that letter."""
    backwards = []
    while v != 0:
        v, y = met[v]
        backwards.append(y)
    return backwards[::-1]


def edge_of(n, cells, v, y):
    """The edge that letter y passes at v: its source and its lower-case letter."""
    return (v, y) if is_lower(y) else (cell(n, cells, v, y), inverse_letter(y))


def edges_left(n, V, cells):
    """The edges no path uses, by source point and then by letter."""
    used = {edge_of(n, cells, v, y) for v, y in first_met(n, V, cells).values()}
    return [(v, y) for v in range(V) for y in range(2 * n)
            if is_lower(y) and cell(n, cells, v, y) != ABSENT and (v, y) not in used]


def basis_words(n, V, cells):
    """Each edge left gives path of source, letter, inverse of path of target, reduced."""
    met = first_met(n, V, cells)
    return [reduce(path(met, v) + [y] + inverse(path(met, cell(n, cells, v, y))))
            for v, y in edges_left(n, V, cells)]


def expression(n, V, cells, letters):
    """A member by signed numbers: k for basis word k, -k for its inverse, in reading order; else None."""
    number = {edge: k for k, edge in enumerate(edges_left(n, V, cells), 1)}
    at, signed = 0, []
    for y in reduce(letters):
        to = cell(n, cells, at, y)
        if to == ABSENT:
            return None
        k = number.get(edge_of(n, cells, at, y))
        if k is not None:
            signed.append(k if is_lower(y) else -k)
        at = to
    return signed if at == 0 else None


def is_normal(n, V, cells):
    """Every basis word, read from each point one letter away from the base, leads back to that point."""
    neighbours = [w for w in cells[:2 * n] if w != ABSENT]
    return all(read(n, cells, letters, p) == p
               for letters in basis_words(n, V, cells) for p in neighbours)


def cause_9(length, needed):
    """9: output too short; length needed."""
    return Refused(9, needed) if length < needed else None


def refusal_of_basis(n, V, cells, work):
    """Refusals 1, 6, 7, 8 of basis and normal, which need 4 x V cells of work."""
    return (cause_1(n) or cause_6(n, V, len(cells)) or cause_7(len(work), 4 * V)
            or cause_8(n, V, cells))


def basis(n, V, cells, work, out):
    """Writes the basis words as a list; gives the length written, the output and the work afterwards."""
    refusal = refusal_of_basis(n, V, cells, work)
    if refusal:
        return refusal, bytes(out), list(work)
    text = list_text(basis_words(n, V, cells))
    work = cleared(work, 4 * V)
    refusal = cause_9(len(out), len(text))
    if refusal:
        return refusal, bytes(out), work
    return len(text), text + bytes(out[len(text):]), work


def normal(n, V, cells, work):
    """Answers whether the subgroup is called normal; gives the answer and the work afterwards."""
    refusal = refusal_of_basis(n, V, cells, work)
    if refusal:
        return refusal, list(work)
    return is_normal(n, V, cells), cleared(work, 4 * V)


def express(n, V, cells, query, work, out):
    """Expresses a member; gives the count of numbers or None, the output and the work afterwards."""
    refusal = refusal_of_member(n, V, cells, query, work)
    if refusal:
        return refusal, list(out), list(work)
    signed = expression(n, V, cells, word(query))
    work = cleared(work, len(query))
    if signed is None:
        return None, list(out), work
    refusal = cause_9(len(out), len(signed))
    if refusal:
        return refusal, list(out), work
    return len(signed), signed + list(out[len(signed):]), work
