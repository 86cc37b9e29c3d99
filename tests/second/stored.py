"""Stored lists and their results: 'python3 -m second.stored' writes both files, always the same.

A case is a head of little-endian numbers, n (8 bytes) and the lengths of list, table and work (4 each), then the
list. The lent cells hold 777 before the call. Its line is 'refused NUMBER PLACE', or points, edges, rank, index
or infinite, start points, start edges, merging and closing folds; then the cells of a lent table of at most 64;
then the check numbers of all cells of table and work.
"""

import os
import random
import sys

TESTS = os.path.dirname(os.path.dirname(os.path.abspath(__file__)))
sys.path.insert(0, TESTS)

from second.calls import fold, work_of_folding  # noqa: E402
from second.corpus import random_words, spoilt  # noqa: E402
from second.folding import fold_words, fold_words_quickly  # noqa: E402
from second.lists import KINDS, long_list  # noqa: E402
from second.tables import counts  # noqa: E402
from second.words import Refused, letter_count, list_text  # noqa: E402

CRATE = os.path.join(os.path.dirname(TESTS), "crates", "fold_cases")
INPUT = os.path.join(CRATE, "stdin")
OUTPUT = os.path.join(CRATE, "stdout")

SEED = 20240917
CELL_BEFORE = 777
MOST_SHOWN = 64
CHECK_PRIME = 4294967291
MOST_TABLE = 262144
MOST_WORK = 530000

SMALL = [
    (2, b""), (2, b"aA\n"), (2, b"bb\nbbb\n"), (2, b"ab\nab\n"), (2, b"ab\n"), (2, b"abA\n"), (1, b"aaa\n"),
    (2, b"aaB\nbAba\nabA\naaaaaa\n"), (1, b"b\n"), (1, b"a"), (1, b"b"),
    (1, b""), (26, b""), (1, b"\n"), (2, b"\n\n\n"), (2, b"aA\n\nabBA\nBbaA\n"), (1, b"a\n"), (1, b"A\n"),
    (2, b"a\naa\n"), (1, b"a\naa\n"), (2, b"a\nb\n"), (26, b"z\n"), (26, b"aZ\n"), (1, b"aaaaaa\naaaa\n"),
    (3, b"aacb\nbaac\ncba\n"), (2, b"abba\nbbb\nAb\naaaa\n"), (2, b"aaB\nbAba\naBa\n"), (2, b"abb\nBA\n"),
    (2, b"ABAAAAAAAAAA\nBaa\naaa\n"), (2, b"ab\nBA\n"), (2, b"aB\naB\nAb\n"), (2, b"abAB\n"), (2, b"aab\nb\n"),
]

LONG = [(kind, n, most) for n, most in ((2, 240), (3, 500)) for kind in KINDS]
LONG += [(KINDS[0], 1, 400), (KINDS[0], 26, 400), (KINDS[0], 2, 60), (KINDS[3], 26, 60)]


def needed(n, text):
    """The cells of table and work that folding needs."""
    return (letter_count(text) + 1) * 2 * n, work_of_folding(text)


def head(n, text, table, work):
    """The head of a case."""
    return n.to_bytes(8, "little") + b"".join(x.to_bytes(4, "little") for x in (len(text), table, work))


def check(cells):
    """A number that changes with any one cell."""
    h = 0
    for x in cells:
        h = (h * 31 + x) % CHECK_PRIME
    return h


def reply_items(n, answer, cells):
    """A refusal, or the figures of a folded table."""
    if isinstance(answer, Refused):
        return ["refused", answer.number, answer.place]
    return [answer.points, *counts(n, answer.points, cells), *answer[1:]]


def lent(table, work):
    """Buffers before the call."""
    return [CELL_BEFORE] * table, [CELL_BEFORE] * work


def stored_line(n, text, table, work, folding=fold_words_quickly):
    """The line of a case."""
    answer, cells, after = fold(n, text, *lent(table, work), folding)
    shown = cells if table <= MOST_SHOWN else []
    return " ".join(map(str, reply_items(n, answer, cells) + shown + [check(cells), check(after)]))


def case_bytes(n, text, table, work):
    """A case as stored."""
    return head(n, text, table, work) + text


def roomy(chance, n, text):
    """The case with buffers that suffice, exactly or with a few cells after."""
    table, work = needed(n, text)
    return n, text, table + chance.choice([0, 0, 1, 5]), work + chance.choice([0, 0, 1, 5])


def refused_cases(chance):
    """Each refusal for itself, and several at once."""
    text = b"abAb\nba\n"
    table, work = needed(2, text)
    for n in (0, 27, 258, 4294967297, 4294967298, 2 ** 40, 2 ** 64 - 1):
        yield n, text, table, work
    yield 2, text, table - 1, work
    yield 2, text, table, work - 1
    yield 2, text, table - 1, work - 1
    yield 2, text, 0, 0
    yield 2, text, table, 0
    yield 0, text[:-1], 0, 0
    yield 2, text[:-1], 0, 0
    yield 2, text[:-1], table, work
    yield 1, text[:-1], 0, 0
    yield 2, b"", 3, 8
    yield 2, b"", 4, 7
    for _ in range(20):
        n = chance.randint(1, 26)
        bad = spoilt(chance, n, list_text(random_words(chance, n, 4, 6)))
        yield roomy(chance, n, bad)


def cases():
    """All stored cases: n, list, and the lengths of table and work."""
    chance = random.Random(SEED)
    for n, text in SMALL:
        yield n, text, *needed(n, text)
        yield roomy(chance, n, text)
    yield from refused_cases(chance)
    for n in range(1, 27):
        for _ in range(2):
            yield roomy(chance, n, list_text(random_words(chance, n, 40, 60)))
        for kind in KINDS:
            yield roomy(chance, n, list_text(kind(chance, n, 12, 24)))
    for kind, n, most in LONG:
        yield roomy(chance, n, long_list(chance, kind, n, most, 2000, 5000))
    power = b"a" * 65537 + b"\n"
    yield 1, power, 131076, 8 * 65538
    yield 1, power, 131075, 8 * 65538


def main():
    """Writes the cases and their lines; both ways of folding must agree, pair by pair on all but the longest."""
    with open(INPUT, "wb") as inputs, open(OUTPUT, "w") as outputs:
        for case in cases():
            n, text, table, work = case
            assert table <= MOST_TABLE and work <= MOST_WORK
            line = stored_line(*case)
            assert len(text) > 6000 or line == stored_line(*case, fold_words), text
            inputs.write(case_bytes(*case))
            outputs.write(line + "\n")


if __name__ == "__main__":
    main()
