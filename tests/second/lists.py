"""Lists of words of many kinds: each kind takes a chance, n, and the most words and letters of a word.

The most letters count as written, and the words need not be reduced.
"""

from .corpus import random_word, random_words
from .words import MOST_BYTES, inverse, inverse_letter, letter_count, list_text, spell


def padded(chance, n, letters, most):
    """The word with neighbouring inverse letters put in, as long as it stays within the most letters."""
    letters = list(letters)
    while len(letters) + 2 <= most and chance.random() < 0.8:
        place, y = chance.randint(0, len(letters)), chance.randrange(2 * n)
        letters[place:place] = [y, inverse_letter(y)]
    return letters


def unreduced(chance, n, most_words, most):
    """Words with much to reduce, some of them to nothing."""
    return [padded(chance, n, random_word(chance, n, most // 4), most)
            for _ in range(chance.randint(0, most_words))]


def repeated(chance, n, most_words, most):
    """A few words and their inverses, again and again."""
    few = [random_word(chance, n, most) for _ in range(3)]
    few += [inverse(letters) for letters in few]
    return [chance.choice(few) for _ in range(chance.randint(0, most_words))]


def conjugates(chance, n, most_words, most):
    """Words u v U with few u."""
    few = [random_word(chance, n, most // 3) for _ in range(2)]
    words = []
    for _ in range(chance.randint(0, most_words)):
        u = chance.choice(few)
        words.append(u + random_word(chance, n, most // 3) + inverse(u))
    return words


def powers(chance, n, most_words, most):
    """Powers of one short word, of either sign, and now and then of another."""
    roots = [[chance.randrange(2 * n) for _ in range(chance.randint(1, 3))] for _ in range(2)]
    words = []
    for _ in range(chance.randint(0, most_words)):
        root = roots[chance.random() < 0.1]
        power = root * chance.randint(1, most // len(root))
        words.append(power if chance.random() < 0.5 else inverse(power))
    return words


def prefixed(chance, n, most_words, most):
    """Words that begin alike."""
    start = [chance.randrange(2 * n) for _ in range(most // 2)]
    return [start[:chance.randint(0, len(start))] + random_word(chance, n, most // 2)
            for _ in range(chance.randint(0, most_words))]


def collapsing(chance, n, most_words, most):
    """Words of few letters, with some of these letters or their squares as words."""
    few = [chance.randrange(2 * n) for _ in range(3)]
    words = [[chance.choice(few) for _ in range(chance.randint(0, most))]
             for _ in range(chance.randint(0, most_words - 3))]
    words += [[y] * chance.randint(1, 2) for y in few]
    chance.shuffle(words)
    return words


def whole_rows(chance, n, most_words, most):
    """Words that generate a subgroup of finite index: the loops of a random action on points."""
    points = max(1, min(most_words // n, most // 2))
    moves = []
    for _ in range(n):
        move = list(range(points))
        chance.shuffle(move)
        moves += [move, sorted(range(points), key=move.__getitem__)]
    paths, order = {0: []}, [0]
    for p in order:  # grows while it is walked
        for y in range(2 * n):
            if moves[y][p] not in paths:
                paths[moves[y][p]] = paths[p] + [y]
                order.append(moves[y][p])
    words = [paths[p] + [y] + inverse(paths[moves[y][p]]) for p in order for y in range(0, 2 * n, 2)]
    chance.shuffle(words)
    return words[:most_words]


KINDS = [random_words, unreduced, repeated, conjugates, powers, prefixed, collapsing, whole_rows]


def some_list(chance, n, most_words, most):
    """A list text of any kind."""
    return list_text(chance.choice(KINDS)(chance, n, most_words, most))


def long_list(chance, kind, n, most, least, most_letters):
    """A list text of one kind and of so many letters."""
    most_words = 20
    while True:
        text = list_text(kind(chance, n, most_words, most))
        letters = letter_count(text)
        if least <= letters <= most_letters:
            return text
        most_words += (most_words // 8 + 1) * (1 if letters < least else -1)


def product(chance, n, words):
    """A member by construction: words and their inverses one after another, not reduced."""
    letters = []
    for _ in range(chance.randint(1, 5) if words else 0):
        factor = chance.choice(words)
        letters += factor if chance.random() < 0.5 else inverse(factor)
    return spell(padded(chance, n, letters, len(letters) + 6))


def longest_list(chance, kinds, n):
    """A list text of nearly as many bytes as a list may have, of all these kinds."""
    parts, size = [], 0
    while True:
        part = list_text(chance.choice(kinds)(chance, n, 200, 200))
        if size + len(part) > MOST_BYTES:
            return b"".join(parts)
        parts.append(part)
        size += len(part)
