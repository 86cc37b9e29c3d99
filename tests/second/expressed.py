"""Calls of normal and express: on any table, on tables of finite index, and on damaged ones."""

from .basis import basis_words
from .corpus import cell_damages, random_word, spoilt
from .groups import kernel, some_action, stabiliser
from .lists import padded, product
from .single import Table, call_express, call_normal, table_of
from .words import MOST_BYTES, inverse, spell

LONG = 200


def tidy_numbers(chance, rank, count):
    """Signed numbers of basis words, none of them beside its own inverse."""
    numbers = []
    while rank and len(numbers) < count:
        k = chance.randint(1, rank) * chance.choice([1, -1])
        if numbers[-1:] != [-k]:
            numbers.append(k)
    return numbers


def written_out(words, numbers):
    """The product that the numbers stand for, not reduced."""
    return [y for k in numbers for y in (words[k - 1] if k > 0 else inverse(words[-k - 1]))]


def call_tidy(chance, table, count, out):
    """A member by construction with its one expression, which this program must find too."""
    words = basis_words(*table)
    numbers = tidy_numbers(chance, len(words), count)
    letters = written_out(words, numbers)
    query = spell(padded(chance, table.n, letters, len(letters) + 6))
    work = len(query) + chance.choice([0, 0, 3])
    call = call_express(table, query, work, max(0, len(numbers) + out))
    found = call.items[2 + work:][:len(numbers)]
    assert numbers and out < 0 or call.items[:2] + found == ["yes", len(numbers)] + numbers, (table, query)
    return call._replace(name="express by construction")


def long_expression(chance, table):
    """An expression of 200 numbers or more; none for rank 0."""
    return call_tidy(chance, table, chance.randint(LONG, LONG + 20), 0)


def normal_calls(chance, table):
    """Normal with the needed work, with more, and with too little."""
    for work in (0, chance.choice([1, 9]), -1):
        yield call_normal(table, 4 * table.points + work)


def expression_calls(chance, table, words):
    """Normal; members by construction with enough numbers of output or one too few; other words; refused queries."""
    n = table.n
    yield from normal_calls(chance, table)
    for out in (0, chance.choice([1, 4]), -1, -1):
        yield call_tidy(chance, table, chance.randint(0, 8), out)
    query = product(chance, n, words)
    yield call_express(table, query, len(query), len(query))
    for most in (8, 30):
        query = spell(random_word(chance, n, most))
        yield call_express(table, query, len(query) + chance.choice([0, 0, 3]), chance.choice([0, 0, 5]))
    yield call_express(table, b"", chance.choice([0, 2]), chance.choice([0, 2]))
    nothing = spell(padded(chance, n, [], 12))
    yield call_express(table, nothing, len(nothing), chance.choice([0, 2]))
    yield call_express(table, spoilt(chance, n, query), 40, 40)
    yield call_express(table, query + b"a", len(query), 40)


def damaged_expressions(chance, table, words, other):
    """Normal and express on a table that was damaged."""
    yield call_normal(other, 4 * table.points + chance.choice([8, 8, 8, -1]))
    query = product(chance, table.n, words)
    work = len(query) + chance.choice([0, 0, -1]) * bool(query)
    yield call_express(other, query, work, chance.choice([0, 40]))


def finite_calls(chance, tables):
    """Normal subgroups by construction, others of finite index, and both of them damaged."""
    for _ in range(tables):
        n = chance.choice([1, 2, 2, 3, 3, chance.randint(1, 26)])
        action = some_action(chance, n)
        table = Table(*kernel(n, action))
        for call in normal_calls(chance, table):
            assert call.items[0] in ("yes", "refused"), table
            yield call._replace(name="normal by construction")
        for some in (table, Table(*stabiliser(n, action))):
            words = basis_words(*some)
            yield from expression_calls(chance, some, words[:20])
            for cells in chance.sample([*cell_damages(chance, *some)], 4):
                yield from damaged_expressions(chance, some, words[:20], some._replace(cells=cells))


def refused_expressions():
    """Each refusal behind and before the others, and a query over the bytes."""
    table = table_of(2, b"ab\nbb\n")
    long = b"a" * (MOST_BYTES + 1)
    yield call_express(table, long, 0, 0)
    yield call_express(table._replace(n=27), long, 0, 0)
    yield call_express(table._replace(points=0), long, 0, 0)
    yield call_express(table, long[1:], MOST_BYTES - 1, 0)
    yield call_express(table, long[1:], MOST_BYTES, 0)
    yield call_express(table, b"bb" * (MOST_BYTES // 2), MOST_BYTES, MOST_BYTES // 2 - 1)
    for n in (0, 27, 2 ** 32 + 2, 2 ** 64 - 1):
        bad = table._replace(n=n)
        yield call_normal(bad, 0)
        yield call_express(bad, b" ", 0, 0)
    short = table._replace(cells=table.cells[:-1])
    faulty = table._replace(cells=[table.points] + table.cells[1:])
    for some, query, work, out in ((table, b"a b", 3, 9), (table, b"abc", 3, 9), (table, b"b\n", 2, 9), (short, b"c", 0, 0),
                                   (short, b"bb", 0, 0), (faulty, b"bb", 1, 0), (faulty, b"bb", 2, 0), (table, b"bb", 2, 0),
                                   (table, b"bbab", 4, 1), (table, b"ba", 2, 0)):
        yield call_express(some, query, work, out)
    for some, work in ((short, 0), (faulty, 4 * table.points - 1), (faulty, 4 * table.points)):
        yield call_normal(some, work)
