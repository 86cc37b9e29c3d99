"""Folding a list, asking one query of a list, and the shorter of two lists, on lent buffers."""

from collections import namedtuple

from .folding import ABSENT, breadth_table, fold_words
from .tables import cause_7, cleared, is_member
from .words import (Refused, cause_1, cause_2, cause_3_or_4_of_list, cause_3_or_4_of_query,
                    cause_5, letter_count, refusal_of_list, word, words_of)

Fold = namedtuple("Fold", "points start_points start_edges merging closing")
Part = namedtuple("Part", "which length")


def cause_6_of_folding(n, text, length):
    """6: folding: table under (L + 1) x 2n cells; place 0."""
    return Refused(6, 0) if length < (letter_count(text) + 1) * 2 * n else None


def work_of_folding(text):
    """Work needed: folding 8 x (L + 1) cells."""
    return 8 * (letter_count(text) + 1)


def filled(n, text, table, folding):
    """Folding fills V rows, puts the absent mark up to (L + 1) x 2n cells, and touches nothing after."""
    folded = folding(words_of(text))
    rows = breadth_table(n, folded.edges)
    needed = (letter_count(text) + 1) * 2 * n
    after = rows + [ABSENT] * (needed - len(rows)) + list(table[needed:])
    answer = Fold(len(rows) // (2 * n), folded.start_points, folded.start_edges,
                  folded.merging, folded.closing)
    return answer, after


def fold(n, text, table, work, folding=fold_words):
    """Folds a list of words into a table; gives the answer, the table and the work afterwards."""
    refusal = (refusal_of_list(n, text) or cause_6_of_folding(n, text, len(table))
               or cause_7(len(work), work_of_folding(text)))
    if refusal:
        return refusal, list(table), list(work)
    answer, after = filled(n, text, table, folding)
    return answer, after, cleared(work, work_of_folding(text))


def refusal_of_ask(n, text, query, table, work):
    """Of a list and a query that meet the same place in the order, the list's is given."""
    return (cause_1(n)
            or cause_2(text) or cause_2(query)
            or cause_3_or_4_of_list(n, text) or cause_3_or_4_of_query(n, query)
            or cause_5(text)
            or cause_6_of_folding(n, text, len(table))
            or cause_7(len(work), max(work_of_folding(text), len(query))))


def ask(n, text, query, table, work, folding=fold_words):
    """Folds a list and answers one query; gives the answer, the table and the work afterwards."""
    refusal = refusal_of_ask(n, text, query, table, work)
    if refusal:
        return refusal, list(table), list(work)
    _, after = filled(n, text, table, folding)
    needed = max(work_of_folding(text), len(query))
    return is_member(n, after, word(query)), after, cleared(work, needed)


def is_bad_list(n, text):
    """A list that refusals 2 to 5 would meet."""
    return bool(cause_2(text) or cause_3_or_4_of_list(n, text) or cause_5(text))


def shorter(n, first, second):
    """The list with fewer letters, the first on a tie; a bad list never beats one that is not."""
    if cause_1(n):
        return Part("first", 0)
    first_bad, second_bad = is_bad_list(n, first), is_bad_list(n, second)
    if first_bad and second_bad:
        return Part("first", 0)
    if second_bad:
        return Part("first", len(first))
    if first_bad:
        return Part("second", len(second))
    if letter_count(second) < letter_count(first):
        return Part("second", len(second))
    return Part("first", len(first))
