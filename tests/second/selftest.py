"""The second program's own tests: 'python3 selftest.py' from any directory.

The last line is 'N passed, M failed'; the status is 0 if nothing failed, else 1.
"""

import itertools
import os
import random
import sys
import traceback

sys.path.insert(0, os.path.dirname(os.path.dirname(os.path.abspath(__file__))))

from second import corpus, stored  # noqa: E402
from second.basis import basis, basis_words, express, expression, is_normal, normal  # noqa: E402
from second.calls import Fold, Part, ask, fold, shorter  # noqa: E402
from second.cases import bytes_item, bytes_of, result  # noqa: E402
from second.files import (LoadedList, LoadedTable, load, number_bytes, save_list,  # noqa: E402
                          save_table, table_file)
from second.folding import (ABSENT, breadth_table, first_pair, fold_words,  # noqa: E402
                            fold_words_quickly, last_pair, pairs, random_pair)
from second.printing import printed  # noqa: E402
from second.tables import (Counts, check, counts, equal, faulty_cell, is_member, member,  # noqa: E402
                           read)
from second.words import (LETTERS, MOST_BYTES, Refused, inverse, inverse_letter, letter_count,  # noqa: E402
                          list_text, reduce, spell, word, words_of)

SEED = 4004
passed = failed = 0

RUN = b"2\n+aaB\n+bAba\n+abA\n+aaaaaa\n?aba\n?a\n?aA\n"
RUN_PRINTED = b"""points 2
edges 4
rank 3
index 2
normal yes
start 13 16
folds 11 1
basis b
basis aa
basis abA
aba yes 3 2
a no
aA yes
"""


def same(what, got, want):
    """Counts one comparison and tells it if it fails."""
    global passed, failed
    if got == want:
        passed += 1
    else:
        failed += 1
        print("failed: %s: got %.300r, want %.300r" % (what, got, want))


def folded(n, *words):
    """The words folded with buffers of exactly the needed lengths: the answer and the V rows."""
    text = b"".join(letters + b"\n" for letters in words)
    L = letter_count(text)
    answer, table, work = fold(n, text, [7] * ((L + 1) * 2 * n), [7] * (8 * (L + 1)))
    cells = table[:answer.points * 2 * n]
    same("cells after the rows of %r" % text, set(table[len(cells):]) <= {ABSENT}, True)
    same("work after %r" % text, work, [0] * (8 * (L + 1)))
    same("canonical %r" % text, faulty_cell(n, answer.points, cells), None)
    return answer, cells


def graph(what, n, words, points, edges, rank, index, start, folds, basis_list):
    """One list held against all its numbers and its basis."""
    answer, cells = folded(n, *words)
    V = answer.points
    same(what + " points", V, points)
    same(what + " counts", check(n, V, cells), Counts(edges, rank, index))
    same(what + " start", (answer.start_points, answer.start_edges), start)
    same(what + " folds", (answer.merging, answer.closing), folds)
    same(what + " basis", [spell(letters) for letters in basis_words(n, V, cells)], basis_list)
    return V, cells


def said(n, V, cells, query):
    """The expression of a query, or None."""
    count, out, _ = express(n, V, cells, query, [0] * len(query), [0] * len(query))
    inside, _ = member(n, V, cells, query, [0] * len(query))
    same("member agrees with express on %r" % query, inside, count is not None)
    return None if count is None else out[:count]


def test_letters():
    """The letter order, inverse letters, reduction, words of a list."""
    same("letters", len(LETTERS), 52)
    for i in range(26):
        same("letter", LETTERS[2 * i:2 * i + 2], bytes([97 + i, 65 + i]))
    for y in range(52):
        same("neighbours are inverse", LETTERS[inverse_letter(y)], LETTERS[y] ^ 32)
    same("reduce", spell(reduce(word(b"aBbb"))), b"ab")
    same("reduce to nothing", reduce(word(b"abBA")), [])
    same("reduce aAa", spell(reduce(word(b"aAa"))), b"a")
    same("inverse", spell(inverse(word(b"abC"))), b"cBA")
    same("words", words_of(b"\nab\n\n"), [[], [0, 2], []])
    same("no words", words_of(b""), [])
    same("L", letter_count(b"\nab\n\nA\n"), 3)
    product = inverse(word(b"abA")) + word(b"aaB") + word(b"bAba")
    same("inverse of 3, then 1, then 2", spell(reduce(product)), b"aa")


def test_run():
    """The printed run, whole."""
    same("printed run", printed(RUN), RUN_PRINTED)


def test_small_graphs():
    """The small graphs to hold against it."""
    V, cells = graph("empty", 2, [], 1, 0, 0, "infinite", (1, 0), (0, 0), [])
    same("empty: empty word", said(2, V, cells, b""), [])
    same("empty: a", said(2, V, cells, b"a"), None)
    graph("aA", 2, [b"aA"], 1, 0, 0, "infinite", (1, 0), (0, 0), [])
    graph("bb bbb", 2, [b"bb", b"bbb"], 1, 1, 1, "infinite", (4, 5), (3, 1), [b"b"])
    graph("ab ab", 2, [b"ab", b"ab"], 2, 2, 1, "infinite", (3, 4), (1, 1), [b"ab"])
    V, cells = graph("ab", 2, [b"ab"], 2, 2, 1, "infinite", (2, 2), (0, 0), [b"ab"])
    same("ab: aBbb", said(2, V, cells, b"aBbb"), [1])
    V, cells = graph("abA", 2, [b"abA"], 2, 2, 1, "infinite", (3, 3), (1, 0), [b"abA"])
    same("abA: b", said(2, V, cells, b"b"), None)
    same("abA: file", save_table(2, V, cells, bytes(11)),
         (11, bytes.fromhex("0102020200000000010202")))
    V, cells = graph("aaa", 1, [b"aaa"], 3, 3, 1, 3, (3, 3), (0, 0), [b"aaa"])
    same("aaa: AAA", said(1, V, cells, b"AAA"), [-1])
    same("aaa: aa", said(1, V, cells, b"aa"), None)
    V, cells = graph("first list", 2, [b"aaB", b"bAba", b"abA", b"aaaaaa"], 2, 4, 3, 2,
                     (13, 16), (11, 1), [b"b", b"aa", b"abA"])
    same("first list: bAba", said(2, V, cells, b"bAba"), [1, -2, 3, 2])
    same("first list: normal", is_normal(2, V, cells), True)
    same("list b", fold(1, b"b\n", [7] * 9, [7] * 99), (Refused(4, 0), [7] * 9, [7] * 99))
    same("a unended", fold(1, b"a", [7] * 9, [7] * 99), (Refused(5, 1), [7] * 9, [7] * 99))
    same("b unended", fold(1, b"b", [], [])[0], Refused(4, 0))


def test_long_graph():
    """One word of 65,537 letters a."""
    text = b"a" * 65537 + b"\n"
    table, work = [7] * 131077, [7] * (8 * 65538)
    answer, after, work_after = fold(1, text, table[:131076], work)
    same("long answer", answer, Fold(65537, 65537, 65537, 0, 0))
    same("long table", (len(after), after[131074:]), (131076, [ABSENT] * 2))
    same("long work", work_after, [0] * (8 * 65538))
    same("long counts", check(1, 65537, after), Counts(65537, 1, 65537))
    same("long: a", member(1, 65537, after, b"a", [7, 7]), (False, [0, 7]))
    same("long: itself", member(1, 65537, after, text[:-1], [7] * 65537), (True, [0] * 65537))
    same("long: one cell short", fold(1, text, table[:131075], work)[0], Refused(6, 0))
    same("long: both short", fold(1, text, table[:131075], [])[0], Refused(6, 0))
    same("long: work short", fold(1, text, table[:131076], work[1:])[0], Refused(7, 8 * 65538))


def test_degenerate_lists():
    """Lists that are empty, that reduce to nothing, that repeat, or that fold far or not at all."""
    graph("only nothing", 2, [b"aA", b"", b"abBA", b"BbaA"], 1, 0, 0, "infinite", (1, 0), (0, 0), [])
    graph("blank line", 1, [b""], 1, 0, 0, "infinite", (1, 0), (0, 0), [])
    graph("a aa", 2, [b"a", b"aa"], 1, 1, 1, "infinite", (2, 3), (1, 1), [b"a"])
    graph("a aa, n = 1", 1, [b"a", b"aa"], 1, 1, 1, 1, (2, 3), (1, 1), [b"a"])
    V, cells = graph("n = 26, z", 26, [b"z"], 1, 1, 1, "infinite", (1, 1), (0, 0), [b"z"])
    same("n = 26, z cells", cells, [ABSENT] * 50 + [0, 0])
    graph("aacb baac cba", 3, [b"aacb", b"baac", b"cba"], 9, 11, 3, "infinite", (9, 11), (0, 0),
          [b"cba", b"aacb", b"baac"])
    graph("abba bbb Ab aaaa", 2, [b"abba", b"bbb", b"Ab", b"aaaa"], 1, 2, 2, 1, (10, 13), (9, 2),
          [b"a", b"b"])
    graph("aaB bAba aBa", 2, [b"aaB", b"bAba", b"aBa"], 4, 6, 3, "infinite", (8, 10), (4, 0),
          [b"aaB", b"aba", b"AbA"])
    answer, table, work = fold(2, b"", [7] * 6, [7] * 9)
    same("L = 0", (answer, table, work), (Fold(1, 1, 0, 0, 0), [ABSENT] * 4 + [7] * 2, [0] * 8 + [7]))


def table_of(n, *words):
    """V and the cells of the folded words."""
    cells = breadth_table(n, fold_words([word(letters) for letters in words]).edges)
    return len(cells) // (2 * n), cells


def random_lists(count, n_choice=(1, 2, 2, 3), most_words=5, most=7):
    """Lists of random words with their n, always the same ones."""
    chance = random.Random(SEED)
    for _ in range(count):
        n = chance.choice(n_choice)
        yield chance, n, corpus.random_words(chance, n, most_words, most)


def test_orders():
    """Every order of folds ends in the same graph, after the same numbers of each kind."""
    for number, (_, n, words) in enumerate(random_lists(400)):
        one = fold_words(words, first_pair)
        cells = breadth_table(n, one.edges)
        V = len(cells) // (2 * n)
        rank = counts(n, V, cells).rank
        reduced = [letters for letters in map(reduce, words) if letters]
        m, S, L = len(reduced), sum(map(len, reduced)), sum(map(len, words))
        same("start of %r" % words, (one.start_points, one.start_edges), (S - m + 1, S))
        same("merging of %r" % words, one.merging, S - m + 1 - V)
        same("closing of %r" % words, one.closing, m - rank)
        same("never exceed L", one.merging + one.closing <= S <= L, True)
        same("no pair left", pairs(one.edges), [])
        same("canonical %r" % words, faulty_cell(n, V, cells), None)
        others = [fold_words(words, choose)
                  for choose in (last_pair, random_pair(number), random_pair(number + 100000))]
        for other in others + [fold_words_quickly(words)]:
            same("folds of %r" % words, (other.merging, other.closing), (one.merging, one.closing))
            same("table of %r" % words, breadth_table(n, other.edges), cells)


def test_quick_folding():
    """Folding by placing edges ends as folding pair by pair does, on longer lists."""
    for _, n, words in random_lists(150, n_choice=(1, 2, 3, 26), most_words=9, most=24):
        one, other = fold_words(words), fold_words_quickly(words)
        same("quick counts of %r" % words, other[:4], one[:4])
        same("quick edges left of %r" % words, pairs(other.edges), [])
        same("quick table of %r" % words, breadth_table(n, other.edges), breadth_table(n, one.edges))


def test_stored():
    """The stored lists and results are those that this program makes."""
    made = list(stored.cases())
    with open(stored.INPUT, "rb") as data:
        same("stored cases", data.read() == b"".join(stored.case_bytes(*case) for case in made), True)
    with open(stored.OUTPUT) as lines:
        for number, (line, case) in enumerate(zip(lines.read().splitlines(), made), 1):
            same("stored line %d" % number, line, stored.stored_line(*case))
            if len(case[1]) < 250:
                same("stored line %d, pair by pair" % number, line, stored.stored_line(*case, fold_words))
    same("stored lines", number, len(made))


def test_members():
    """Products of the given words are members; prefixes end together exactly as the rule says."""
    for chance, n, words in random_lists(200):
        V, cells = table_of(n, *[spell(letters) for letters in words])
        for _ in range(5):
            product = []
            for _ in range(chance.randint(0, 6) if words else 0):
                letters = chance.choice(words)
                product += letters if chance.random() < 0.5 else inverse(letters)
            same("product %r of %r" % (product, words), is_member(n, cells, product), True)
        prefixes = [letters[:k] for letters in map(reduce, words) for k in range(len(letters) + 1)]
        for _ in range(10 if prefixes else 0):
            p, q = chance.choice(prefixes), chance.choice(prefixes)
            same("prefixes %r %r of %r" % (p, q, words),
                 read(n, cells, p, 0) == read(n, cells, q, 0), is_member(n, cells, p + inverse(q)))


def products_within(words, bound):
    """All reduced products of the words and their inverses met without passing the bound of letters."""
    steps = [reduce(letters) for letters in words] + [inverse(reduce(letters)) for letters in words]
    met, todo = {()}, [()]
    while todo:
        at = todo.pop()
        for letters in steps:
            to = tuple(reduce(list(at) + letters))
            if len(to) <= bound and to not in met:
                met.add(to)
                todo.append(to)
    return met


def test_members_by_products():
    """Of all short words exactly those are members that are met as products."""
    for _, n, words in random_lists(40, n_choice=(2,), most_words=3, most=3):
        _, cells = table_of(n, *[spell(letters) for letters in words])
        met = products_within(words, 9)
        for length in range(5):
            for letters in itertools.product(range(2 * n), repeat=length):
                same("%r in %r" % (letters, words), is_member(n, cells, letters),
                     tuple(reduce(letters)) in met)


def test_bases():
    """A basis has rank words, folds back to the same table without closing, and expresses members."""
    for chance, n, words in random_lists(300):
        V, cells = table_of(n, *[spell(letters) for letters in words])
        free = basis_words(n, V, cells)
        same("rank of %r" % words, len(free), counts(n, V, cells).rank)
        same("letters of %r" % words, all(len(letters) <= 2 * V - 1 for letters in free), True)
        same("the basis of %r is no longer than the words" % words,
             sum(map(len, free)) <= sum(len(reduce(letters)) for letters in words), True)
        same("reduced basis of %r" % words, [reduce(letters) for letters in free], free)
        back = fold_words(free)
        same("basis of %r folded back" % words, breadth_table(n, back.edges), cells)
        same("basis of %r folds no edge away" % words, back.closing, 0)
        for k, letters in enumerate(free, 1):
            same("basis word %d of %r" % (k, words), expression(n, V, cells, letters), [k])
            same("inverse of basis word %d" % k, expression(n, V, cells, inverse(letters)), [-k])
        queries = words + [corpus.random_product(chance, n, V, cells) for _ in range(4)]
        for query in queries:
            signed = expression(n, V, cells, query)
            same("signed %r" % query, signed is None, False)
            product = []
            for k in signed:
                product += free[k - 1] if k > 0 else inverse(free[-k - 1])
            same("expression of %r" % query, reduce(product), reduce(query))
            same("no number next to its negative", all(j != -k for j, k in zip(signed, signed[1:])),
                 True)
        for _ in range(4):
            query = corpus.random_word(chance, n, 6)
            same("express exactly members", expression(n, V, cells, query) is not None,
                 is_member(n, cells, query))


def broken_cells(n, V, cells):
    """The cells of all broken rules, each rule tested for itself."""
    width, rows = 2 * n, cells[:V * 2 * n]
    broken = set()
    for c, x in enumerate(rows):
        if x == ABSENT:
            continue
        if x >= V:
            broken.add(c)
        elif rows[x * width + inverse_letter(c % width)] != c // width:
            broken.add(c)
        if x > 1 + max([0] + [other for other in rows[:c] if other != ABSENT]):
            broken.add(c)
    for v in range(1, V):
        if v not in rows[:v * width]:
            broken.add(v * width)
        if width - rows[v * width:(v + 1) * width].count(ABSENT) < 2:
            broken.add(v * width)
    return broken


def test_damaged_tables():
    """The faulty cell is the lowest broken one; hand-made tables and all damages of random ones."""
    o = ABSENT
    hand = [
        ((1, 1, [o, o]), None), ((1, 1, [0, 0]), None),
        ((1, 1, [0, o]), 0), ((1, 1, [o, 0]), 1), ((1, 1, [1, 1]), 0), ((1, 1, [o, 1]), 1),
        ((1, 2, [1, 1, 0, 0]), None), ((1, 2, [1, o, o, 0]), 2), ((1, 2, [0, 0, o, o]), 2),
        ((1, 2, [0, 0, 1, 1]), 2), ((1, 2, [1, 1, 0, o]), 0), ((1, 2, [1, 1, o, 0]), 1), ((1, 2, [1, 1, 0, 1]), 0),
        ((1, 3, [1, 2, 2, 0, 0, 1]), None), ((1, 3, [2, 1, 0, 2, 1, 0]), 0),
        ((1, 3, [1, 2, 2, 0, 0, 4294967294]), 2), ((1, 3, [1, 2, 2, 0, 4294967294, 1]), 1),
        ((2, 2, [1, o, o, o, o, 0, 1, 1]), None), ((2, 2, [1, o, o, o, o, 0, 1, 2]), 6),
        ((2, 2, [1, o, o, o, o, 0, 2, 1]), 6), ((2, 2, [1, o, o, o, o, 0, o, o]), 4),
        ((2, 2, [1, 1, o, o, 0, 0, o, 1]), 7), ((2, 1, [o, o, 0, 0, 5, 5, 5, 5]), None),
        ((2, 3, [0, 0, 1, 1, 2, 2, 0, 0, 1, 1, o, o]), None),
        ((2, 3, [0, 0, 1, 1, o, o, 0, 0, 2, 2, o, o]), 8),
    ]
    for (n, V, cells), place in hand:
        same("lowest of %r" % (cells,), faulty_cell(n, V, cells), place)
        same("set of %r" % (cells,), min(broken_cells(n, V, cells), default=None), place)
    for V, cells in corpus.all_small_tables():
        same("small %r" % cells, faulty_cell(1, V, cells),
             min(broken_cells(1, V, cells), default=None))
    for chance, n, words in random_lists(200, n_choice=(1, 2, 3, 4)):
        V, cells = table_of(n, *[spell(letters) for letters in words])
        for other in corpus.cell_damages(chance, n, V, cells):
            broken = broken_cells(n, V, other)
            same("damaged %r" % other, faulty_cell(n, V, other), min(broken, default=None))
            if not broken:
                free = basis_words(n, V, other)
                same("still canonical %r" % other, breadth_table(n, fold_words(free).edges), other)


def partial_injections(V):
    """All partial one-to-one maps of V points, an absent mark where there is no value."""
    return [values for values in itertools.product([ABSENT] + list(range(V)), repeat=V)
            if len({x for x in values if x != ABSENT}) == sum(x != ABSENT for x in values)]


def test_all_canonical_tables():
    """Every canonical table of two letters to 3 points folds back; those of finite index are 1, 3, 13, 71."""
    found = [cells for V, cells in corpus.all_small_tables() if faulty_cell(1, V, cells) is None]
    same("canonical, n = 1", found,
         [[ABSENT, ABSENT], [0, 0], [1, 1, 0, 0], [1, 2, 2, 0, 0, 1]])
    for V, finite in ((1, 1), (2, 3), (3, 13), (4, 71)):
        maps = [values for values in partial_injections(V) if V < 4 or ABSENT not in values]
        whole = 0
        for a in maps:
            for b in maps:
                cells = []
                for v in range(V):
                    cells += [a[v], a.index(v) if v in a else ABSENT,
                              b[v], b.index(v) if v in b else ABSENT]
                if faulty_cell(2, V, cells) is None:
                    whole += counts(2, V, cells).index == V
                    folded_back = fold_words(basis_words(2, V, cells))
                    same("folds back %r" % cells, breadth_table(2, folded_back.edges), cells)
        same("tables of index %d" % V, whole, finite)


def test_normal():
    """Normal by the rule of basis words read from the neighbours of the base."""
    for words, answer in [([], True), ([b"a"], True), ([b"aa"], True), ([b"a", b"b"], True),
                          ([b"aa", b"b"], False), ([b"aa", b"b", b"abA"], True),
                          ([b"aaa", b"b"], False), ([b"abAB"], False)]:
        V, cells = table_of(2, *words)
        same("normal %r" % words, is_normal(2, V, cells), answer)
        same("normal call %r" % words, normal(2, V, cells, [7] * (4 * V + 1)),
             (answer, [0] * (4 * V) + [7]))
    V, cells = table_of(1, b"aaa")
    same("normal aaa", is_normal(1, V, cells), True)


def test_refusals_of_lists():
    """Refusals 1 to 7 of fold and ask in their order; a refusal changes no buffer."""
    big = b"a" * (MOST_BYTES + 1)
    for n in (0, 27, 258, 4294967297):
        same("n = %d" % n, fold(n, b"!", [7], [7]), (Refused(1, 0), [7], [7]))
        same("ask n = %d" % n, ask(n, big, b"!", [7], [7]), (Refused(1, 0), [7], [7]))
    same("2 before 3", fold(1, b"!" + big, [], [])[0], Refused(2, 0))
    same("2 of a list of exactly the most", fold(1, b"\n" * MOST_BYTES, [7] * 2, [7] * 8)[0],
         Fold(1, 1, 0, 0, 0))
    same("3 then 4", fold(1, b"a!b", [], [])[0], Refused(3, 1))
    same("4 then 3", fold(1, b"ab!", [], [])[0], Refused(4, 1))
    same("B beyond 1", fold(1, b"aB\n", [], [])[0], Refused(4, 1))
    for byte in b"\x00\t\r @[`{\x7f\x80\xff":
        same("byte %d" % byte, fold(26, b"a\n" + bytes([byte]), [], [])[0], Refused(3, 2))
        same("query byte %d" % byte, ask(26, b"", b"a" + bytes([byte]), [], [])[0], Refused(3, 1))
    same("5 before 6", fold(1, b"a\na", [], [])[0], Refused(5, 3))
    same("6 before 7", fold(1, b"a\n", [7] * 3, [])[0], Refused(6, 0))
    same("7", fold(1, b"a\n", [7] * 4, [7] * 15), (Refused(7, 16), [7] * 4, [7] * 15))
    same("2 of list", ask(1, big, big, [], [])[0], Refused(2, 0))
    same("2 of query before 3 of list", ask(1, b"!", big, [], [])[0], Refused(2, 0))
    same("3/4 of list first", ask(1, b"aab", b"!", [], [])[0], Refused(4, 2))
    same("3/4 of query before 5", ask(1, b"a", b"aa\n", [], [])[0], Refused(3, 2))
    same("5 of list", ask(1, b"a", b"a", [], [])[0], Refused(5, 1))
    same("6 of ask", ask(1, b"a\n", b"a", [7] * 3, [])[0], Refused(6, 0))
    same("7 of ask, list", ask(1, b"a\n", b"a", [7] * 4, [7] * 15)[0], Refused(7, 16))
    same("7 of ask, query", ask(1, b"aa\n", b"a" * 30, [7] * 6, [7] * 29)[0], Refused(7, 30))
    same("ask, query longer", ask(1, b"aa\n", b"a" * 31, [7] * 7, [7] * 32),
         (False, [1, 1, 0, 0, ABSENT, ABSENT, 7], [0] * 31 + [7]))
    same("ask", ask(1, b"aa\n", b"aaAaA", [7] * 7, [7] * 25),
         (False, [1, 1, 0, 0, ABSENT, ABSENT, 7], [0] * 24 + [7]))
    same("ask inside", ask(1, b"aa\n", b"aaAa", [7] * 7, [7] * 25)[0], True)


def test_refusals_of_tables():
    """Refusals of check, member, equal, basis, normal and express, and what each leaves."""
    good, bad = [1, 1, 0, 0], [1, 1, 0, 1]
    big = b"a" * (MOST_BYTES + 1)
    same("1 before 6", check(0, 0, []), Refused(1, 0))
    for V in (0, 3, 1048578, 4294967297, 4294967298):
        same("V = %d" % V, check(1, V, good), Refused(6, 0))
    most = [ABSENT] * (2 * 1048578)
    same("the most points", check(1, 1048577, most[:-2]), Refused(8, 2))
    same("one cell under the most points", check(1, 1048577, most[:-3]), Refused(6, 0))
    same("one point more", check(1, 1048578, most), Refused(6, 0))
    same("6 before 8", check(1, 2, bad[:3]), Refused(6, 0))
    same("8", check(1, 2, bad), Refused(8, 0))
    same("cells after", check(1, 2, good + [9]), Counts(2, 1, 2))
    same("member 1", member(27, 0, [], big, [7]), (Refused(1, 0), [7]))
    same("member 2", member(1, 0, [], big, [7]), (Refused(2, 0), [7]))
    same("member 3", member(1, 0, [], b"a\n", [7]), (Refused(3, 1), [7]))
    same("member 4", member(1, 0, [], b"ab\n", [7]), (Refused(4, 1), [7]))
    same("member 6", member(1, 0, [], b"ab"[:1], []), (Refused(6, 0), []))
    same("member 7", member(1, 2, bad, b"aA", [7]), (Refused(7, 2), [7]))
    same("member 8", member(1, 2, bad, b"aA", [7] * 2), (Refused(8, 0), [7] * 2))
    same("member no work", member(1, 2, good, b"", []), (True, []))
    same("member inside", member(1, 2, good, b"aA", [7] * 3), (True, [0, 0, 7]))
    same("member outside", member(1, 2, good, b"aAa", [7] * 4), (False, [0, 0, 0, 7]))
    same("equal", equal(1, 2, good, 1, 2, good + [5]), True)
    same("different", equal(1, 2, good, 1, 1, [0, 0]), False)
    same("equal 1", equal(0, 2, good, 0, 2, good), Refused(1, 0))
    same("equal other n", equal(1, 0, [], 2, 0, []), Refused(1, 0))
    same("equal 6 second before 8 first", equal(1, 2, bad, 1, 0, []), Refused(6, 0))
    same("equal 8 first", equal(1, 2, [1, 1, ABSENT, 0], 1, 2, bad), Refused(8, 1))
    same("equal 8 second", equal(1, 2, good, 1, 2, bad), Refused(8, 0))
    same("basis 7 before 8", basis(1, 2, bad, [7] * 7, b"#"), (Refused(7, 8), b"#", [7] * 7))
    same("basis 8", basis(1, 2, bad, [7] * 8, b"#"), (Refused(8, 0), b"#", [7] * 8))
    same("basis 9", basis(1, 2, good, [7] * 9, b"##"), (Refused(9, 3), b"##", [0] * 8 + [7]))
    same("basis", basis(1, 2, good, [7] * 9, b"####"), (3, b"aa\n#", [0] * 8 + [7]))
    same("basis of rank 0", basis(1, 1, [ABSENT] * 2, [7] * 4, b""), (0, b"", [0] * 4))
    same("normal 7", normal(1, 2, bad, [7] * 7), (Refused(7, 8), [7] * 7))
    same("normal 8", normal(1, 2, bad, [7] * 8), (Refused(8, 0), [7] * 8))
    same("express 9", express(1, 2, good, b"aaaa", [7] * 5, [9]),
         (Refused(9, 2), [9], [0] * 4 + [7]))
    same("express outside", express(1, 2, good, b"aaa", [7] * 5, []), (None, [], [0] * 3 + [7] * 2))
    same("express", express(1, 2, good, b"AAAA", [7] * 5, [9] * 3), (2, [-1, -1, 9], [0] * 4 + [7]))
    same("express 8", express(1, 2, bad, b"a", [7], [9]), (Refused(8, 0), [9], [7]))


def test_shorter():
    """The list with fewer letters as written; a bad list never beats one that is not."""
    same("fewer", shorter(2, b"ab\n", b"\n\n\n\n"), Part("second", 4))
    same("tie", shorter(2, b"ab\n", b"a\nb\n"), Part("first", 3))
    same("as written", shorter(2, b"ab\n", b"aAbBa\n"), Part("first", 3))
    same("second bad", shorter(2, b"ab\n", b"c"), Part("first", 3))
    same("first bad", shorter(2, b"a", b"ab\n"), Part("second", 3))
    same("both bad", shorter(2, b"a", b"c\n"), Part("first", 0))
    same("n bad", shorter(0, b"a\n", b"\n"), Part("first", 0))
    same("empty lists", shorter(2, b"", b""), Part("first", 0))
    same("over the most", shorter(1, b"\n" * (MOST_BYTES + 1), b"a\n"), Part("second", 2))


def test_files():
    """Numbers, both kinds written and read, and the files' own order of refusals."""
    for number, text in [(0, "00"), (127, "7f"), (128, "8001"), (300, "ac02"), (65536, "808004"),
                         (4294967295, "ffffffff0f")]:
        same("number %d" % number, number_bytes(number), bytes.fromhex(text))
    table = bytes.fromhex("0102020200000000010202")
    cells = [1, ABSENT, ABSENT, ABSENT, ABSENT, 0, 1, 1]
    same("load table", load(table, [7] * 9, b"#"), (LoadedTable(2, 2), cells + [7], b"#"))
    text = bytes.fromhex("0202020300020100")
    same("save list", save_list(2, b"abA\n\n", bytes(8)), (8, text))
    same("load list", load(text, [7], b"######"), (LoadedList(2, 2, 5), [7], b"abA\n\n#"))
    same("save list 9", save_list(2, b"abA\n\n", b"#" * 7), (Refused(9, 8), b"#" * 7))
    same("save table 9", save_table(2, 2, cells, b"#" * 10), (Refused(9, 11), b"#" * 10))
    same("save table 8", save_table(2, 2, cells[:7] + [0], b"#"), (Refused(8, 6), b"#"))
    same("save table 6", save_table(2, 2, cells[:7], b"#"), (Refused(6, 0), b"#"))
    same("save list 5", save_list(2, b"abA", b"#"), (Refused(5, 3), b"#"))
    for file, refusal in [
            ("", (10, 0)), ("80", (10, 0)), ("8000", (10, 0)), ("8100", (10, 0)), ("ffffffff10", (10, 0)),
            ("808080808001", (10, 0)), ("ffffffffff", (10, 0)), ("00", (11, 0)), ("03", (11, 0)),
            ("8102", (11, 0)), ("01", (10, 1)), ("0180", (10, 1)), ("0100", (1, 0)), ("011b", (1, 0)),
            ("018202", (1, 0)), ("0102", (10, 2)), ("010280", (10, 2)), ("010200", (6, 0)),
            ("0102818040", (6, 0)), ("0102828040", (6, 0)), ("010203", (6, 0)), ("010201", (10, 3)),
            ("01020100000080", (10, 6)), ("0102010000000000", (12, 7)), ("01020100", (10, 4)),
            ("0102018000", (10, 3)), ("02", (10, 1)), ("0200", (1, 0)), ("0202", (10, 2)),
            ("0202ffffffff0f", (10, 7)), ("020200", None), ("02020000", (12, 3)), ("020201", (10, 3)),
            ("02020102", (10, 4)), ("0202010204", (4, 4)), ("020201020004", (4, 5)),
            ("02020102008400", (10, 5)), ("0202010200ac02", (4, 5)), ("020201020080", (10, 5)),
            ("020201ffffffff0f00", (10, 9)), ("0202010100ff", (12, 5)), ("0202050000000000", (9, 5))]:
        got = load(bytes.fromhex(file), [7] * 8, b"####")
        if refusal is None:
            same("file %s" % file, got, (LoadedList(2, 0, 0), [7] * 8, b"####"))
        else:
            same("file %s" % file, got, (Refused(*refusal), [7] * 8, b"####"))
    same("12 before 8", load(bytes.fromhex("0101020202010102"), [7] * 5, b""),
         (Refused(12, 7), [7] * 5, b""))
    same("8 leaves absent", load(bytes.fromhex("01010202020001"), [7] * 5, b""),
         (Refused(8, 1), [ABSENT] * 4 + [7], b""))
    same("8 of the greatest number", load(bytes.fromhex("010101ffffffff0f00"), [7] * 2, b"")[0],
         Refused(8, 0))
    blank = bytes([2, 1]) + number_bytes(MOST_BYTES + 1) + bytes(MOST_BYTES + 1)
    same("2 before 9", load(blank, [], b"")[0], Refused(2, 0))
    blank = bytes([2, 1]) + number_bytes(MOST_BYTES) + bytes(MOST_BYTES)
    same("9 at the most", load(blank, [], b"")[0], Refused(9, MOST_BYTES))
    for _, n, words in random_lists(200, n_choice=(1, 2, 3, 26)):
        V, cells = table_of(n, *[spell(letters) for letters in words])
        file = table_file(n, V, cells)
        same("saved table %r" % cells, save_table(n, V, cells + [7], bytes(len(file))),
             (len(file), file))
        same("table read back %r" % cells, load(file, [7] * len(cells), b""),
             (LoadedTable(n, V), cells, b""))
        text = list_text(words)
        length, file = save_list(n, text, bytes(3 + 2 * len(text)))
        same("list read back %r" % text, load(file[:length], [], bytes(len(text))),
             (LoadedList(n, len(words), len(text)), [], text))


def test_printing():
    """The printing program's refusals, bad inputs and line ends."""
    empty = b"points 1\nedges 0\nrank 0\nindex infinite\nnormal yes\nstart 1 0\nfolds 0 0\n"
    one = b"points 1\nedges 1\nrank 1\nindex 1\nnormal yes\nstart 1 1\nfolds 0 0\nbasis a\n"
    for data, out in [
            (b"", b"refused 1 0\n"), (b"\n", b"refused 1 0\n"), (b"0\n", b"refused 1 0\n"),
            (b"27\n+!\n", b"refused 1 0\n"), (b"02\n", b"refused 1 0\n"), (b"+2\n", b"refused 1 0\n"),
            (b"2 \n", b"refused 1 0\n"), (b"2\r\n", b"refused 1 0\n"), (b"+a\n+a\n", b"refused 1 0\n"),
            (b"\n\n", b"bad input\n"), (b"2\n\n", b"bad input\n"), (b"2\na\n", b"bad input\n"),
            (b"x\na", b"bad input\n"), (b"2\n+!\n?\n+a\n", b"bad input\n"), (b"2\n+a\n\n", b"bad input\n"),
            (b"2", empty), (b"2\n", empty), (b"2\n+", empty), (b"2\n+\n", empty), (b"2\n+\n+", empty),
            (b"2\n?", empty + b" yes\n"), (b"2\n?\n", empty + b" yes\n"),
            (b"2\n?a", empty + b"a no\n"), (b"1\n+a\n", one), (b"1\n+a", b"refused 5 1\n"),
            (b"1\n+b", b"refused 4 0\n"), (b"2\n++a\n", b"refused 3 0\n"), (b"2\n+a\n+ab+\n", b"refused 3 4\n"),
            (b"1\n+a\n?b\n?aA\n?A\n?a?\n", one + b"refused 4 0\naA yes\nA yes -1\nrefused 3 1\n")]:
        same("printed %r" % data, printed(data), out)
    for n in range(1, 27):
        same("n = %d" % n, printed(b"%d\n" % n), empty)
    most = b"1\n" + b"?" + b"a" * 65533
    same("whole buffer", printed(most), empty + b"refused 7 65533\n")
    same("over the buffer", printed(most + b"a"), b"bad input\n")
    same("query of all work", printed(b"1\n+a\n?" + b"a" * 16384),
         one + b"a" * 16384 + b" yes" + b" 1" * 16384 + b"\n")
    same("query over the work", printed(b"1\n+a\n?" + b"a" * 16385), one + b"refused 7 16385\n")
    same("work of folding", printed(b"1\n+" + b"a" * 2048 + b"\n"), b"refused 7 16392\n")
    same("table of folding", printed(b"5\n+" + b"a" * 2000 + b"\n"), b"refused 6 0\n")


def test_cases():
    """The case lines and their results."""
    for data in (b"", b"aB", bytes(range(256))):
        same("bytes item", bytes_of(bytes_item(data)), data)
        same("one item", " " in bytes_item(data), False)
    for case, answer in [
            ("check 2 2 1 - - - - 0 1 1", "counts 2 1 infinite"), ("check 1 1 0 4294967295", "refused 8 0"),
            ("member 2 2 4 =abA 1 - - - - 0 1 1", "inside work 0 0 0 777"),
            ("member 2 2 2 =abA 1 - - - - 0 1 1", "refused 7 3 work 777 777"),
            ("member 1 1 0 = - -", "inside work"), ("equal 1 1 0 0 / 1 1 - -", "different"),
            ("equal 1 1 0 0 / 2 1 - -", "refused 1 0"), ("# check", None), ("", None)]:
        same(case, result(case), answer)
    for part in corpus.PARTS:
        number = 0
        for case in corpus.cases(part):
            number += 1
            if number <= 300:
                same("a result for " + case[:60], bool(result(case)), True)


def main():
    """Runs all tests in the order written."""
    global failed
    print("seed %d" % SEED)
    for name, test in list(globals().items()):
        if name.startswith("test_"):
            try:
                test()
            except Exception:  # a test that breaks is a failure, and the others still run
                failed += 1
                print("failed: %s broke" % name)
                traceback.print_exc(file=sys.stdout)
    print("%d passed, %d failed" % (passed, failed))
    return 1 if failed else 0


if __name__ == "__main__":
    sys.exit(main())
