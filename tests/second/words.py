"""Letters, words and lists, and the refusals 1 to 5 of a list and of a query.

A word is handled as a list of letter numbers; a list and a query come as bytes.
A refusal test gives a Refused or None, so tests are joined by 'or' in their order.
"""

from collections import namedtuple

LETTERS = b"aAbBcCdDeEfFgGhHiIjJkKlLmMnNoOpPqQrRsStTuUvVwWxXyYzZ"
LINE_END = 10
MOST_BYTES = 1048576

Refused = namedtuple("Refused", "number place")


def letter_number(byte):
    """A letter's number is its place in the letter order, from 0."""
    return LETTERS.index(byte)


def inverse_letter(y):
    """The capital is the inverse of the lower-case letter, and the other way."""
    return y + 1 if y % 2 == 0 else y - 1


def is_lower(y):
    """Lower-case letters have the even numbers of the letter order."""
    return y % 2 == 0


def generator(y):
    """Generator number i is the i-th lower-case letter; the capital is its inverse."""
    return y // 2 + 1


def word(letter_bytes):
    """A word is a run of letters."""
    return [letter_number(byte) for byte in letter_bytes]


def spell(letters):
    """The run of letter bytes of a word."""
    return bytes(LETTERS[y] for y in letters)


def reduce(letters):
    """To reduce is to remove neighbouring inverse letters until none is left."""
    left = list(letters)
    i = 0
    while i + 1 < len(left):
        if left[i + 1] == inverse_letter(left[i]):
            del left[i:i + 2]
            # No pair lies before i - 1: those neighbours were seen and have not changed.
            i = max(i - 1, 0)
        else:
            i += 1
    return left


def inverse(letters):
    """The inverse of a word: the inverse letters in reverse order."""
    return [inverse_letter(y) for y in reversed(letters)]


def words_of(text):
    """A list is words, each ended by byte 10; a blank line is the empty word."""
    parts = text.split(b"\n")
    assert parts[-1] == b"", "each word of a list is ended by byte 10"
    return [word(part) for part in parts[:-1]]


def list_text(words):
    """Words written as a list: each ended by byte 10."""
    return b"".join(spell(letters) + b"\n" for letters in words)


def letter_count(text):
    """L is the number of letters in a list as written, before reduction."""
    return sum(1 for byte in text if byte != LINE_END)


def cause_1(n):
    """1: n not 1 to 26; place 0."""
    return None if 1 <= n <= 26 else Refused(1, 0)


def cause_2(text):
    """2: list, query or list text over 1,048,576 bytes; place 0."""
    return Refused(2, 0) if len(text) > MOST_BYTES else None


def cause_3_of_list(text):
    """3: byte not a letter, nor byte 10; its offset."""
    for offset, byte in enumerate(text):
        if byte not in LETTERS and byte != LINE_END:
            return Refused(3, offset)
    return None


def cause_3_of_query(text):
    """3: byte not a letter; its offset."""
    for offset, byte in enumerate(text):
        if byte not in LETTERS:
            return Refused(3, offset)
    return None


def cause_4(n, text):
    """4: letter beyond n; its offset."""
    for offset, byte in enumerate(text):
        if byte in LETTERS and generator(letter_number(byte)) > n:
            return Refused(4, offset)
    return None


def cause_5(text):
    """5: non-empty list not ended by byte 10; length."""
    if len(text) > 0 and text[-1] != LINE_END:
        return Refused(5, len(text))
    return None


def first_offending(third, fourth):
    """3 and 4 share a place in the order and the first offending byte decides."""
    met = [refusal for refusal in (third, fourth) if refusal is not None]
    return min(met, key=lambda refusal: refusal.place) if met else None


def cause_3_or_4_of_list(n, text):
    """The first offending byte of a list."""
    return first_offending(cause_3_of_list(text), cause_4(n, text))


def cause_3_or_4_of_query(n, text):
    """The first offending byte of a query."""
    return first_offending(cause_3_of_query(text), cause_4(n, text))


def refusal_of_list(n, text):
    """Refusals 1 to 5 of a list, by number."""
    return cause_1(n) or cause_2(text) or cause_3_or_4_of_list(n, text) or cause_5(text)


def refusal_of_query(n, text):
    """Refusals 1 to 4 of a query, by number."""
    return cause_1(n) or cause_2(text) or cause_3_or_4_of_query(n, text)
