"""Calls on lent tables and on two lists: of fresh lists, of the stored ones, of the small graphs."""

from .basis import basis_words
from .corpus import cell_damages, random_word, shape_damages, spoilt
from .expressed import call_tidy, damaged_expressions, expression_calls, long_expression
from .filed import list_calls, load_calls
from .files import number_bytes, table_file
from .folding import ABSENT
from .lists import product, some_list
from .single import (BYTE_BEFORE, Call, Table, call_basis, call_check, call_equal, call_express, call_folded,
                     call_member, call_normal, call_save, call_shorter, number, shown_bytes, table_of)
from .stored import cases as stored_cases
from .tables import check
from .words import MOST_BYTES, inverse, list_text, refusal_of_list, spell, words_of

MANY_CELLS = 500
MANY_POINTS = 2000
SMALL_GRAPHS = [
    (2, b"", [b"", b"a"]), (2, b"aA\n", [b"", b"a"]), (2, b"bb\nbbb\n", [b"b"]), (2, b"ab\nab\n", [b"ab"]),
    (2, b"ab\n", [b"aBbb"]), (2, b"abA\n", [b"b"]), (1, b"aaa\n", [b"AAA", b"aa"]),
    (2, b"aaB\nbAba\nabA\naaaaaa\n", [b"aba", b"a", b"aA", b"bAba"]), (1, b"a" * 65537 + b"\n", [b"a"]),
]
BAD_POINTS = [0, 1048578, 2 ** 32, 2 ** 32 + 1, 2 ** 63, 2 ** 64 - 1]


# Tables and queries.


def call_inside(chance, table, words):
    """A member by construction: this program must find it inside."""
    query = product(chance, table.n, words)
    call = call_member(table, query, len(query) + chance.choice([0, 0, 3]))
    assert call.items[0] == "yes", (table, query)
    return call._replace(name="member by construction")


def member_calls(chance, table, words):
    """Members by construction, random words, and queries that are refused."""
    n = table.n
    yield call_inside(chance, table, words)
    yield call_inside(chance, table, words)
    for query in (spell(random_word(chance, n, 8)), spell(random_word(chance, n, 30)), b""):
        yield call_member(table, query, len(query) + chance.choice([0, 0, 3]))
    query = spell(random_word(chance, n, 8))
    yield call_member(table, spoilt(chance, n, query), 40)
    yield call_member(table, query + b"a", len(query))


def writing_calls(chance, table):
    """Basis and file with room, exact room, and one item too few."""
    n, points = table.n, table.points
    text = list_text(basis_words(*table))
    for work, out in ((0, 0), (chance.choice([1, 9]), chance.choice([1, 9])), (0, -1), (-1, 0), (-1, -1)):
        yield call_basis(table, 4 * points + work, max(0, len(text) + out))
    size = len(table_file(*table))
    for out in (0, chance.choice([1, 9]), -1, -size):
        yield call_save(table, size + out)
    if len(text) <= MOST_BYTES and n <= 26:
        yield call_folded(table, text)


def damaged_tables(chance, table):
    """Tables with a cell or more changed, or under another n, V or length; some are still accepted."""
    n, points, cells = table
    changed = [Table(n, points, other) for other in cell_damages(chance, n, points, cells)]
    shaped = [Table(*other) for other in shape_damages(chance, n, points, cells)]
    shaped += [Table(n, other, cells) for other in BAD_POINTS]
    return chance.sample(changed, 6) + chance.sample(shaped, 5)


def damaged_calls(chance, table, words):
    """Every call on damaged tables."""
    for other in damaged_tables(chance, table):
        room = 4 * table.points + 8
        yield call_check(other)
        query = product(chance, table.n, words)
        yield call_member(other, query, len(query) + chance.choice([0, 0, -1]) * bool(query))
        yield call_basis(other, room - chance.choice([0, 0, 0, 9]), chance.choice([0, 1000]))
        yield call_save(other, chance.choice([0, 1000]))
        yield call_equal(*chance.choice([(table, other), (other, table), (other, other)]))
        yield from damaged_expressions(chance, table, words, other)


def table_calls(chance, table, words):
    """Every call on one table of a list of words."""
    behind = table._replace(cells=table.cells + chance.choices([0, 777, ABSENT], k=3))
    yield call_check(table)
    yield call_check(behind)
    yield call_equal(table, behind)
    yield from member_calls(chance, chance.choice([table, behind]), words)
    yield from expression_calls(chance, chance.choice([table, behind]), words)
    yield from writing_calls(chance, table)
    yield call_save(behind, 2000)


def random_list(chance):
    """n and a list."""
    n = chance.choice([1, 2, 2, 2, 3, 3, chance.randint(1, 26)])
    return n, some_list(chance, n, *chance.choice([(4, 6), (4, 6), (4, 12), (8, 12), (16, 24), (6, 40)]))


def fresh_calls(chance, lists):
    """Calls on the tables of fresh lists, and on pairs of them."""
    last = {}
    for _ in range(lists):
        n, text = random_list(chance)
        table, words = table_of(n, text), words_of(text)
        yield from table_calls(chance, table, words)
        yield from list_calls(chance, n, text)
        yield from load_calls(chance, table, text)
        if chance.random() < 0.1:
            yield long_expression(chance, table)
        if table.points * n <= 600:
            yield from damaged_calls(chance, table, words)
        other = last.get(n, table)
        yield call_equal(table, other)
        yield call_equal(other, table)
        mixed = words + words[:1] + [inverse(letters) for letters in words[:1]]
        chance.shuffle(mixed)
        yield call_equal(table, table_of(n, list_text(mixed)))
        yield call_equal(table, table._replace(n=n % 26 + 1))
        last[n] = table


def small_graph_calls(chance):
    """The small graphs of document 01 with their queries."""
    for n, text, queries in SMALL_GRAPHS:
        table = table_of(n, text)
        yield from table_calls(chance, table, words_of(text)) if len(table.cells) <= MANY_CELLS else ()
        yield from list_calls(chance, n, text)
        yield from load_calls(chance, table, text)
        for query in queries:
            yield call_member(table, query, len(query))
            yield call_express(table, query, len(query), len(query))
        if table.points > 1:
            yield long_expression(chance, table) if len(table.cells) <= MANY_CELLS else call_tidy(chance, table, 3, 0)


def long_calls(chance, table, words):
    """Each call once, on a table of many cells."""
    text = list_text(basis_words(*table))
    yield call_check(table)
    yield call_inside(chance, table, words)
    yield call_basis(table, 4 * table.points, len(text))
    yield call_save(table, len(table_file(*table)))
    yield call_folded(table, text)
    yield call_normal(table, 4 * table.points)
    yield long_expression(chance, table) if table.points <= MANY_POINTS else call_tidy(chance, table, 3, 0)


def stored_calls(chance):
    """Calls on the tables of the stored lists that are not refused."""
    for n, text in sorted({(n, text) for n, text, *_ in stored_cases() if not refusal_of_list(n, text)}):
        table = table_of(n, text)
        some = table_calls if len(table.cells) <= MANY_CELLS else long_calls
        yield from some(chance, table, words_of(text)[:20])
        yield from list_calls(chance, n, text)
        yield from load_calls(chance, table, text)


def shorter_calls(chance, pairs):
    """Pairs of lists: any, with as many letters, refused ones, and a bad n."""
    for _ in range(pairs):
        n, first = random_list(chance)
        second = some_list(chance, n, 4, 6)
        kind = chance.randrange(6)
        if kind == 0:
            second = list_text(chance.sample(words_of(first), len(words_of(first)))) + b"\n" * chance.randint(0, 3)
        elif kind == 1:
            second = spoilt(chance, n, second)
        elif kind == 2:
            first = spoilt(chance, n, first)
        elif kind == 3:
            first, second = spoilt(chance, n, first), second[:-1]
        elif kind == 4 and chance.random() < 0.5:
            n = chance.choice([0, 27, 2 ** 32 + n])
        yield call_shorter(n, first, second)
    long = b"\n" * MOST_BYTES
    yield call_shorter(2, long, b"a\n")
    yield call_shorter(2, long + b"\n", b"a\n")
    yield call_shorter(2, b"a\n", long + b"\n")


def refused_calls():
    """A query over the bytes, before and behind other causes."""
    table = table_of(2, b"ab\n")
    long = b"a" * (MOST_BYTES + 1)
    yield call_member(table, long, 0)
    yield call_member(table._replace(n=27), long, 0)
    yield call_member(table._replace(points=0), long, 0)
    yield call_member(table, long[1:], MOST_BYTES - 1)
    yield call_member(table, long[1:], MOST_BYTES)
    for n in (0, 27, 2 ** 32 + 2, 2 ** 64 - 1):
        bad = table._replace(n=n)
        yield from (call_check(bad), call_member(bad, b" ", 0), call_equal(bad, bad), call_equal(table, bad),
                    call_basis(bad, 0, 0), call_save(bad, 0))


# A chain of points by the first letter, with a loop of every other letter at each.


def sizes_to(k):
    """The bytes that the numbers 1 to k take in a file, all together."""
    size = k
    for bits in (7, 14, 21, 28):
        size += max(0, k - 2 ** bits + 1)
    return size


def chain_items(n, points):
    """The line of a chain: its counts, and the lengths that its file and its basis need."""
    loops = n - 1
    # Cells: two for each loop; the first letter names points 1 .. V - 1, its inverse 0 .. V - 2; two are absent.
    cells = 2 * loops * sizes_to(points) + sizes_to(points) - 1 + sizes_to(points - 1) + 2
    file = 2 + len(number_bytes(points)) + cells
    # Basis words: path of v, a loop's letter, and back: 2v + 1 letters and a line end.
    text = loops * points * (points + 1)
    return [n * points - 1, loops * points, "infinite", "refused", 9, file, "refused", 9, text]


def chain_of(n, points):
    """The table of a chain."""
    row = [[v + 1 if v + 1 < points else ABSENT, v - 1 if v else ABSENT] + [v] * (2 * n - 2) for v in range(points)]
    return Table(n, points, [x for cells in row for x in cells])


def chain_call(n, points, out):
    """A chain; the output is too short for its file and its basis."""
    data = number(n, 8) + number(points, 8) + number(out, 4)
    return Call("chain", data, chain_items(n, points) + [1, shown_bytes(bytes([BYTE_BEFORE]) * out)], out)


def same_chain(n, points):
    """The lengths of a short chain, as the second program itself finds them."""
    table = chain_of(n, points)
    return chain_items(n, points) == [*check(*table), "refused", 9, len(table_file(*table)),
                                      "refused", 9, len(list_text(basis_words(*table)))]
