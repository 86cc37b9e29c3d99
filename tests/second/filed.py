"""Calls of save_list and load: lists saved or refused; files loaded, saved again, damaged in every byte, or huge."""

from .corpus import cell_damages, damaged_files, spoilt
from .files import list_file, number_bytes, table_file
from .single import call_back, call_load, call_save_list, call_told, table_of
from .words import MOST_BYTES, list_text, words_of

BAD_N = [0, 27, 258, 2 ** 32 + 2, 2 ** 64 - 1]
MOST_POINTS = 1048577
MANY_BYTES = 80
MANY_CELLS = 500
DAMAGED = [(2, b"abA\n"), (1, b"a" * 130 + b"\n"), (2, b"aaB\nbAba\nabA\naaaaaa\n"), (3, b"cab\nbb\nC\n"), (26, b"zZ\n")]


def list_calls(chance, n, text):
    """A list saved with room, exact room, and too little; then damaged."""
    size = len(list_file(n, words_of(text)))
    for out in (0, chance.choice([1, 9]), -1, -size):
        yield call_save_list(n, text, size + out)
    yield call_save_list(n, spoilt(chance, n, text), size + 9)
    yield call_save_list(n, text[:-1], chance.choice([0, size]))
    yield call_save_list(chance.choice(BAD_N + [max(1, n - 1)]), text, chance.choice([0, size]))


def refused_lists():
    """Each refusal behind and before the others; the longest lists, and one byte more."""
    for n, text, out in ((27, b"\n" * (MOST_BYTES + 1), 0), (2, b" " * (MOST_BYTES + 1), 0), (2, b"ab\na b", 0),
                         (2, b"ab\nac", 0), (1, b"c d", 0), (2, b"ab\nab", 0), (2, b"ab\nab\n", 0), (2, b"ab\nab\n", 8),
                         (2, b"ab\nab\n", 9), (2, b"", 2), (2, b"", 3), (26, b"zZ\n", 6)):
        yield call_save_list(n, text, out)
    blank, one = b"\n" * MOST_BYTES, b"B" * (MOST_BYTES - 1) + b"\n"
    yield call_save_list(2, blank, MOST_BYTES + 5)
    yield call_save_list(2, blank, MOST_BYTES + 4)
    yield call_save_list(2, one, MOST_BYTES + 5)
    yield call_save_list(2, one, MOST_BYTES + 4)
    many = list_text([[i % 4] * (i % 300) for i in range(1200)])
    yield call_save_list(2, many, len(many) + 1000)


def load_calls(chance, table, text):
    """The files of a table and of its list: loaded with room, exact room and too little, saved again, damaged."""
    yield call_back(table_file(*table), len(table.cells), 0)
    yield call_back(list_file(table.n, words_of(text)), 0, len(text))
    if len(table.cells) <= MANY_CELLS:
        yield from table_loads(chance, table)
        yield from list_loads(chance, table.n, text)


def table_loads(chance, table):
    """The file of a table."""
    n, points, cells = table
    file = table_file(*table)
    for more in (0, chance.choice([1, 9]), -1):
        yield call_load(file, len(cells) + more, chance.choice([0, 3]))
    for other in chance.sample([*cell_damages(chance, *table)], 3):
        yield call_load(table_file(n, points, other), len(cells) + chance.choice([0, 5]), chance.choice([0, 3]))
    for other in damaged_files(chance, file):
        yield call_load(other, len(cells) + chance.choice([0, 5]), 5)


def list_loads(chance, n, text):
    """The file of a list."""
    file = list_file(n, words_of(text))
    for more in (0, chance.choice([1, 9]), -1):
        yield call_load(file, chance.choice([0, 3]), max(0, len(text) + more))
    for other in damaged_files(chance, file):
        yield call_load(other, 5, len(text) + chance.choice([0, 5]))


def all_damages(file):
    """A file cut anywhere, without each of its bytes, and with each byte replaced by every other: of a long file the
    first bytes and the last."""
    for place, byte in enumerate(file):
        if len(file) > MANY_BYTES and 8 <= place < len(file) - 2:
            continue
        yield file[:place]
        yield file[:place] + file[place + 1:]
        for other in range(256):
            if other != byte:
                yield file[:place] + bytes([other]) + file[place + 1:]


def damaged_calls_of_files():
    """Every damage of a few files of both kinds."""
    for n, text in DAMAGED:
        table = table_of(n, text)
        for file in (table_file(*table), list_file(n, words_of(text))):
            for other in all_damages(file):
                yield call_load(other, len(table.cells) + 2, len(text) + 2)


def random_file(chance):
    """Bytes: any, small ones, or the start of a file and small ones."""
    length = chance.randint(0, 30)
    if chance.random() < 0.2:
        return chance.randbytes(length)
    start = chance.choice([b"", b"\x01\x01", b"\x01\x02", b"\x02\x01", b"\x02\x02", b"\x02\x1a"])
    return start + bytes(chance.choice([0, 1, 1, 2, 2, 3, 4, 128, 255]) for _ in range(length))


def random_file_calls(chance, files):
    """Random files; most are refused."""
    for _ in range(files):
        yield call_load(random_file(chance), chance.choice([0, 4, 12]), chance.choice([0, 4, 40]))


def huge_calls():
    """Files that speak of far more than they hold: each ends at once."""
    for huge in (2 ** 32 - 1, 2 ** 32 - 2, 4 * 10 ** 9, MOST_BYTES + 1):
        some = number_bytes(huge)
        for kind, rest in ((2, b""), (2, b"\x00"), (2, b"\x01\x00\x80"), (2, b"\x00\x02\x01\x04"), (1, b""), (1, b"\x00")):
            yield call_load(bytes([kind, 2]) + some + rest, 8, 8)
        yield call_load(b"\x02\x02\x01" + some, 8, 8)
        yield call_load(b"\x02\x02\x02\x01\x03" + some + b"\x00\x01\x02\x03", 8, 8)
        yield call_load(b"\x02\x02\x02" + some + b"\x00\x01\x04\x03", 8, 8)
    for points in (MOST_POINTS, MOST_POINTS + 1):
        for rest in (b"", b"\x00\x00", b"\x80"):
            yield call_load(b"\x01\x01" + number_bytes(points) + rest, 8, 0)
            yield call_load(b"\x01\x1a" + number_bytes(points) + rest, 8, 0)
    yield call_load(b"\x01\x01" + number_bytes(MOST_POINTS) + b"\x02\x02", 2 * MOST_POINTS - 1, 0)
    yield call_load(b"\x01\x01" + number_bytes(MOST_POINTS) + b"\x02\x02", 2 * MOST_POINTS, 0)


def long_text_calls():
    """Lists whose text is as long as may be, and a byte longer; what the long lines say is told by their making."""
    one, blank = list_file(2, [[3] * (MOST_BYTES - 1)]), list_file(2, [[]] * MOST_BYTES)
    yield call_load(one, 0, MOST_BYTES)
    yield call_told(one, MOST_BYTES - 1, ["refused", 9, MOST_BYTES], b"")
    yield call_told(list_file(2, [[3] * MOST_BYTES]), MOST_BYTES + 1, ["refused", 2, 0], b"")
    yield call_told(blank, MOST_BYTES + 1, ["list", 2, MOST_BYTES, MOST_BYTES], b"\n" * MOST_BYTES)
    yield call_told(list_file(2, [[]] * (MOST_BYTES + 1)), 0, ["refused", 2, 0], b"")
