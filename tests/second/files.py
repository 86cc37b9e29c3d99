"""The saved file: its numbers, writing both kinds, and reading with the files' own order of refusals."""

from collections import namedtuple

from .basis import cause_9
from .folding import ABSENT
from .tables import cause_6, cause_8
from .words import Refused, cause_1, cause_2, list_text, refusal_of_list, words_of

MOST_NUMBER = 4294967295

LoadedTable = namedtuple("LoadedTable", "n points")
LoadedList = namedtuple("LoadedList", "n words length")


class Stop(Exception):
    """Reading a file ends with a refusal."""

    def __init__(self, number, place):
        """The refusal's number and place."""
        super().__init__(number, place)
        self.refusal = Refused(number, place)


def number_bytes(number):
    """Groups of seven bits, lowest first, top bit set on all but the last byte."""
    groups = [number % 128]
    while number >= 128:
        number //= 128
        groups.append(number % 128)
    return bytes([group + 128 for group in groups[:-1]] + [groups[-1]])


def read_number(file, place):
    """A number and the place after it; 10 if it is cut, too long or too big, or if no byte is left."""
    end = place
    while end < len(file) and file[end] >= 128:
        end += 1
    if end >= len(file):
        raise Stop(10, place)  # cut at its first byte, which is the file's length if none is left
    end += 1
    number = sum((byte % 128) * 128 ** i for i, byte in enumerate(file[place:end]))
    if number > MOST_NUMBER or number_bytes(number) != file[place:end]:
        raise Stop(10, place)
    return number, end


def table_file(n, V, cells):
    """Kind 1: the number 1, n, V, then V x 2n cells, 0 for absent, otherwise point + 1."""
    numbers = [1, n, V] + [0 if x == ABSENT else x + 1 for x in cells[:V * 2 * n]]
    return b"".join(number_bytes(number) for number in numbers)


def list_file(n, words):
    """Kind 2: the number 2, n, number of words, then each as its length and letter numbers."""
    numbers = [2, n, len(words)]
    for letters in words:
        numbers += [len(letters)] + letters
    return b"".join(number_bytes(number) for number in numbers)


def put(file, out):
    """Outputs change only in the part written; gives the length written or 9, and the output."""
    refusal = cause_9(len(out), len(file))
    if refusal:
        return refusal, bytes(out)
    return len(file), file + bytes(out[len(file):])


def save_table(n, V, cells, out):
    """Writes a lent table as kind 1; refusals 1, 6, 8, 9."""
    refusal = cause_1(n) or cause_6(n, V, len(cells)) or cause_8(n, V, cells)
    if refusal:
        return refusal, bytes(out)
    return put(table_file(n, V, cells), out)


def save_list(n, text, out):
    """Writes a list as kind 2; refusals 1, 2, 3/4, 5, 9."""
    refusal = refusal_of_list(n, text)
    if refusal:
        return refusal, bytes(out)
    return put(list_file(n, words_of(text)), out)


def read_table(file, n, place, table_length):
    """V (10, 6), then the cells (10), then 12; gives V and the cells."""
    V, place = read_number(file, place)
    if cause_6(n, V, table_length):
        raise Stop(6, 0)
    cells = []
    for _ in range(V * 2 * n):
        number, place = read_number(file, place)
        cells.append(ABSENT if number == 0 else number - 1)
    if place < len(file):
        raise Stop(12, place)
    return V, cells


def read_words(file, n, place):
    """The word count (10), the remaining numbers (10 or 4, whichever comes first), then 12."""
    count, place = read_number(file, place)
    words = []
    for _ in range(count):
        length, place = read_number(file, place)
        letters = []
        for _ in range(length):
            y, after = read_number(file, place)
            if y >= 2 * n:
                raise Stop(4, place)
            letters.append(y)
            place = after
        words.append(letters)
    if place < len(file):
        raise Stop(12, place)
    return words


def load_reading(file, table, text):
    """Kind (10, 11), n (10, 1), the rest of the kind, then 8, or 2 and 9."""
    kind, place = read_number(file, 0)
    if kind not in (1, 2):
        raise Stop(11, 0)
    n, place = read_number(file, place)
    if cause_1(n):
        raise Stop(1, 0)
    if kind == 1:
        V, cells = read_table(file, n, place, len(table))
        refusal = cause_8(n, V, cells)
        if refusal:
            return refusal, [ABSENT] * (V * 2 * n) + table[V * 2 * n:], text
        return LoadedTable(n, V), cells + table[V * 2 * n:], text
    words = read_words(file, n, place)
    read_back = list_text(words)
    refusal = cause_2(read_back) or cause_9(len(text), len(read_back))
    if refusal:
        return refusal, table, text
    return LoadedList(n, len(words), len(read_back)), table, read_back + text[len(read_back):]


def load(file, table, text):
    """Reads a file of either kind; gives the answer, the table and the text afterwards."""
    file, table, text = bytes(file), list(table), bytes(text)
    try:
        return load_reading(file, table, text)
    except Stop as stop:
        return stop.refusal, table, text
