"""Writes cases with a fixed seed: 'python3 -m second.corpus PART', where PART is
tables (check, member, equal), bases (express, basis, normal), lists (fold, ask, shorter),
files (savetable, savelist, load) or prints (print).

The format of cases is told in cases.py.
"""

import itertools
import os
import random
import sys

sys.path.insert(0, os.path.dirname(os.path.dirname(os.path.abspath(__file__))))

from second.basis import basis_words, expression  # noqa: E402
from second.cases import bytes_item, cell_item  # noqa: E402
from second.files import list_file, number_bytes, table_file  # noqa: E402
from second.folding import ABSENT, breadth_table, fold_words  # noqa: E402
from second.tables import faulty_cell  # noqa: E402
from second.words import LETTERS, inverse, letter_count, list_text, spell  # noqa: E402

SEED = 20240901


def random_word(chance, n, most):
    """A word of at most so many letters, not reduced."""
    return [chance.randrange(2 * n) for _ in range(chance.randint(0, most))]


def random_words(chance, n, most_words, most):
    """A list of words."""
    return [random_word(chance, n, most) for _ in range(chance.randint(0, most_words))]


def random_table(chance, n, most_words=4, most=6):
    """A canonical table from a random fold: V and its cells."""
    edges = fold_words(random_words(chance, n, most_words, most)).edges
    cells = breadth_table(n, edges)
    return len(cells) // (2 * n), cells


def random_product(chance, n, V, cells):
    """A word of the subgroup: basis words and their inverses one after another, not reduced."""
    words = basis_words(n, V, cells)
    product = []
    for _ in range(chance.randint(0, 4) if words else 0):
        letters = chance.choice(words)
        product += letters if chance.random() < 0.5 else inverse(letters)
    return product


def random_query(chance, n, V, cells):
    """A query: a word of the subgroup, a random word, or one with a byte or letter that is refused."""
    kind = chance.randrange(10)
    if kind < 4:
        return spell(random_product(chance, n, V, cells))
    query = spell(random_word(chance, n, 7))
    if kind < 8:
        return query
    return spoilt(chance, n, query)


def spoilt(chance, n, text):
    """A text with one byte put in that may be no letter, or a letter beyond n."""
    put = chance.choice([b"\n", b" ", b"@", b"[", b"`", b"{", b"0", b"\x00", b"\x80", b"\xff",
                         b"z", b"Z", LETTERS[2 * n:2 * n + 1], LETTERS[2 * n - 1:2 * n]])
    place = chance.randint(0, len(text))
    return text[:place] + put + text[place:]


def with_cell(cells, c, x):
    """The cells with one of them changed."""
    return cells[:c] + [x] + cells[c + 1:]


def cell_damages(chance, n, V, cells):
    """Tables of the same V with damaged cells."""
    width = 2 * n
    c = chance.randrange(V * width)
    v, y = divmod(c, width)
    yield with_cell(cells, c, chance.randrange(V))
    yield with_cell(cells, c, ABSENT)
    yield with_cell(cells, c, V)
    yield with_cell(cells, c, 4294967294)
    yield with_cell(cells, V * width - 1, chance.choice([V, 0, V - 1, ABSENT, 4294967294]))
    w = cells[c]
    if w != ABSENT:  # an edge taken away at both its ends
        yield with_cell(with_cell(cells, c, ABSENT), w * width + (y ^ 1), ABSENT)
    else:  # an edge put in at both its ends, perhaps over another
        w = chance.randrange(V)
        yield with_cell(with_cell(cells, c, w), w * width + (y ^ 1), v)
    p, q = chance.randrange(V), chance.randrange(V)
    rows = [cells[i * width:(i + 1) * width] for i in range(V)]
    rows[p], rows[q] = rows[q], rows[p]
    swapped = [x for row in rows for x in row]
    yield swapped
    yield [q if x == p else p if x == q else x for x in swapped]  # two points change numbers
    yield [ABSENT if i // width == p else x for i, x in enumerate(cells[:V * width])]
    two = list(cells)
    for _ in range(2):
        two[chance.randrange(V * width)] = chance.choice([0, V - 1, V, ABSENT, chance.randrange(V)])
    yield two


def shape_damages(chance, n, V, cells):
    """The same cells under another n, V or length; some of these are still accepted."""
    yield n, V, cells + [chance.choice([0, V, ABSENT, 777])] * chance.randint(1, 3)
    yield n, V, cells[:-1]
    yield n, V + 1, cells
    yield n, V + 1, cells + [ABSENT] * (2 * n)
    yield n, V + 1, cells + [0] * (2 * n)
    yield n, V - 1, cells
    for other in (0, 27, 258, n + 256, 4294967296 + n, n + 1):
        yield other, V, cells
    for other in (0, 1048577, 1048578, 4294967297, 4294967296 + V, 65536 + V):
        yield n, other, cells


def cells_text(cells):
    """Cells as items, each after a space."""
    return "".join(" " + cell_item(x) for x in cells)


def check_case(n, V, cells):
    """check N V CELL.."""
    return "check %d %d%s" % (n, V, cells_text(cells))


def member_case(n, V, work, query, cells):
    """member N V WORK QUERY CELL.."""
    return "member %d %d %d %s%s" % (n, V, work, bytes_item(query), cells_text(cells))


def equal_case(first, second):
    """equal N V CELL.. / N V CELL.."""
    return "equal %d %d%s / %d %d%s" % (first[0], first[1], cells_text(first[2]),
                                        second[0], second[1], cells_text(second[2]))


def all_small_tables():
    """All tables with n = 1 and V to 3, every cell absent or 0 to V."""
    for V in (1, 2, 3):
        for cells in itertools.product([ABSENT] + list(range(V + 1)), repeat=2 * V):
            yield V, list(cells)


def small_table_cases(chance):
    """check of all small tables; member and equal of the canonical ones and of some others."""
    canonical = []
    for V, cells in all_small_tables():
        yield check_case(1, V, cells)
        if faulty_cell(1, V, cells) is None:
            canonical.append((1, V, cells))
            for letters in itertools.chain.from_iterable(
                    itertools.product([0, 1], repeat=k) for k in range(5)):
                yield member_case(1, V, len(letters) + 1, spell(letters), cells)
        elif chance.random() < 0.02:
            yield member_case(1, V, 3, spell(random_word(chance, 1, 3)), cells)
            yield equal_case((1, V, cells), chance.choice(canonical))
            yield equal_case(chance.choice(canonical), (1, V, cells))
    for first in canonical:
        for second in canonical:
            yield equal_case(first, second)


def damaged(chance, n, V, cells):
    """All damages of one table."""
    for other in cell_damages(chance, n, V, cells):
        yield n, V, other
    yield from shape_damages(chance, n, V, cells)


def work_length(chance, query):
    """A work length that suffices, exactly or with cells after, or is one cell short."""
    return max(0, len(query) + chance.choice([0, 0, 2, -1]))


def table_cases(chance):
    """check, member and equal."""
    yield from small_table_cases(chance)
    earlier = {2: [], 3: []}
    for _ in range(150):
        for n in (2, 3):
            V, cells = random_table(chance, n)
            table = (n, V, cells)
            yield check_case(*table)
            yield equal_case(table, table)
            yield equal_case(table, (n, V, cells + [chance.randrange(9)]))
            for _ in range(6):
                query = random_query(chance, n, V, cells)
                yield member_case(n, V, work_length(chance, query), query, cells)
            for other in damaged(chance, *table):
                yield check_case(*other)
                query = random_query(chance, n, V, cells)
                if chance.random() < 0.4:
                    yield member_case(other[0], other[1], work_length(chance, query), query,
                                      other[2])
                if chance.random() < 0.4:
                    yield equal_case(table, other)
                if chance.random() < 0.4:
                    yield equal_case(other, table)
                if chance.random() < 0.2 and earlier[n]:
                    yield equal_case(chance.choice(earlier[n]), other)
                earlier[n] = earlier[n][-40:] + [other]


def basis_cases(chance):
    """express, basis and normal."""
    for _ in range(400):
        n = chance.choice([1, 2, 2, 3])
        V, cells = random_table(chance, n)
        tables = [(n, V, cells)] + chance.sample(list(damaged(chance, n, V, cells)), 3)
        needed_text = len(list_text(basis_words(n, V, cells)))
        for m, W, others in tables:
            some = cells_text(others)
            work = 4 * V + chance.choice([0, 0, 3, -1])
            out = max(0, needed_text + chance.choice([0, 2, -1]))
            if work < 600:
                yield "basis %d %d %d %d%s" % (m, W, work, out, some)
                yield "normal %d %d %d%s" % (m, W, work, some)
            query = random_query(chance, n, V, cells)
            numbers = None
            if all(byte in LETTERS[:2 * n] for byte in query):
                numbers = expression(n, V, cells, [LETTERS.index(byte) for byte in query])
            out = max(0, len(numbers or [1]) + chance.choice([0, 2, -1]))
            yield "express %d %d %d %d %s%s" % (m, W, work_length(chance, query), out,
                                                bytes_item(query), some)


def random_list_text(chance, n):
    """A list text, now and then unended or with a byte that may be refused."""
    text = list_text(random_words(chance, n, 4, 6))
    kind = chance.randrange(8)
    if kind == 0:
        return text[:-1]
    if kind == 1:
        return spoilt(chance, n, text)
    return text


def list_cases(chance):
    """fold, ask and shorter."""
    for _ in range(1500):
        n = chance.choice([1, 2, 2, 2, 3, 26])
        text, other = random_list_text(chance, n), random_list_text(chance, n)
        query = spell(random_word(chance, n, 6))
        if chance.random() < 0.2:
            query = spoilt(chance, n, query)
        if chance.random() < 0.05:
            query = spell([chance.randrange(2 * n) for _ in range(250)])
        table = (letter_count(text) + 1) * 2 * n + chance.choice([0, 0, 0, 3, -1])
        work = 8 * (letter_count(text) + 1) + chance.choice([0, 0, 0, 3, -1])
        said = n if chance.random() < 0.9 else chance.choice([0, 27, 258, 256 + n, n + 1])
        yield "fold %d %d %d %s" % (said, table, work, bytes_item(text))
        work = chance.choice([work, max(work, len(query))])
        yield "ask %d %d %d %s %s" % (said, table, work, bytes_item(text), bytes_item(query))
        yield "shorter %d %s %s" % (said, bytes_item(text), bytes_item(other))


def damaged_files(chance, file):
    """A file cut, with bytes after its end, or with one byte or number changed."""
    place = chance.randrange(len(file))
    yield file[:place]
    yield file + bytes([chance.randrange(256)])
    yield file[:place] + bytes([chance.choice([0, 1, 2, 3, 27, 52, 127, 128, 255])]) + file[place + 1:]
    yield file[:place] + bytes([file[place] | 128, 0]) + file[place + 1:]
    yield file[:place] + number_bytes(chance.choice([128, 258, 4294967295, 4294967296, 2 ** 35])) \
        + file[place + 1:]
    yield file[:place] + b"\xff\xff\xff\xff\x0f" + file[place + 1:]


def file_cases(chance):
    """savetable, savelist and load."""
    yield "load 4 4 ="
    for _ in range(500):
        n = chance.choice([1, 2, 2, 3, 26])
        V, cells = random_table(chance, n, 3, 4)
        file = table_file(n, V, cells)
        for m, W, others in [(n, V, cells)] + chance.sample(list(damaged(chance, n, V, cells)), 2):
            out = max(0, len(file) + chance.choice([0, 0, 2, -1]))
            yield "savetable %d %d %d%s" % (m, W, out, cells_text(others))
            if m == n and W == V:
                table = V * 2 * n + chance.choice([0, 0, 2, -1])
                yield "load %d %d %s" % (table, chance.randrange(3),
                                         bytes_item(table_file(n, V, others + [ABSENT])))
        for other in damaged_files(chance, file):
            yield "load %d 1 %s" % (V * 2 * n + 1, bytes_item(other))
        text = random_list_text(chance, n)
        yield "savelist %d %d %s" % (n, 2 * len(text) + chance.choice([3, 4]), bytes_item(text))
        words = random_words(chance, n, 4, 5)
        text, file = list_text(words), list_file(n, words)
        for short in (0, 1):
            yield "savelist %d %d %s" % (n, len(file) - short, bytes_item(text))
            yield "load 2 %d %s" % (max(0, len(text) - short), bytes_item(file))
        for other in damaged_files(chance, file):
            yield "load 2 %d %s" % (len(text) + 3, bytes_item(other))


def print_cases(chance):
    """print."""
    fixed = [b"", b"\n", b"2", b"2\n", b"02\n", b"27\n+a\n", b"0\n", b"+\n+a\n", b"2\r\n", b" 2\n",
             b"2\n\n", b"2\nx\n", b"x\nx\n", b"x\n+a\n", b"2\n?a\n+a\n", b"2\n++a\n", b"2\n+", b"2\n+a",
             b"1\n+b", b"2\n?", b"2\n?\n", b"2\n+a\n?c\n?a\n", b"2\n+\n+\n?b\n?aA",
             b"2\n+aaB\n+bAba\n+abA\n+aaaaaa\n?aba\n?a\n?aA\n"]
    for data in fixed:
        yield "print " + bytes_item(data)
    for _ in range(800):
        n = chance.choice([1, 2, 2, 2, 3, 26])
        V, cells = random_table(chance, n, 3, 4)
        lines = [str(n).encode()]
        parts = random_list_text(chance, n).split(b"\n")
        lines += [b"+" + part for part in (parts[:-1] if parts[-1] == b"" else parts)]
        lines += [b"?" + random_query(chance, n, V, cells).replace(b"\n", b"")
                  for _ in range(chance.randint(0, 4))]
        if chance.random() < 0.1:
            chance.shuffle(lines)
        data = b"\n".join(lines) + chance.choice([b"", b"\n", b"\n"])
        yield "print " + bytes_item(data)


PARTS = {"tables": table_cases, "bases": basis_cases, "lists": list_cases, "files": file_cases,
         "prints": print_cases}


def cases(part):
    """The cases of one part, always the same ones."""
    return PARTS[part](random.Random(SEED))


def main(arguments):
    """Prints the cases of the part asked for."""
    part = arguments[0] if arguments else "tables"
    if len(arguments) > 1 or part not in PARTS:
        sys.stderr.write("usage: python3 -m second.corpus [%s]\n" % "|".join(PARTS))
        return 2
    print("# %s, seed %d" % (part, SEED))
    for case in cases(part):
        print(case)
    return 0


if __name__ == "__main__":
    sys.exit(main(sys.argv[1:]))
