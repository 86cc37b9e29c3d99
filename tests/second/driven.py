"""Fresh random lists through a driver and through this program, and the stored ones: 'python3 driven.py DRIVER'.

DRIVER folds lists, answers queries and makes every call on their tables (see tests/driver/main.rs).
Every lent cell and byte is compared, and the driver watches guards around them. The seed is random
and printed; the environment variable SEED sets it. The last line is 'N passed, M failed'.
"""

import os
import random
import subprocess
import sys

sys.path.insert(0, os.path.dirname(os.path.dirname(os.path.abspath(__file__))))

from second.called import (chain_call, fresh_calls, refused_calls, same_chain, shorter_calls,  # noqa: E402
                           small_graph_calls, stored_calls)
from second.calls import ask, fold  # noqa: E402
from second.corpus import random_word, spoilt  # noqa: E402
from second.expressed import finite_calls, refused_expressions  # noqa: E402
from second.filed import (damaged_calls_of_files, huge_calls, long_text_calls, random_file_calls,  # noqa: E402
                          refused_lists)
from second.folding import fold_words, fold_words_quickly  # noqa: E402
from second.lists import KINDS, long_list, longest_list, padded, some_list  # noqa: E402
from second.stored import INPUT, OUTPUT, head, lent, needed, reply_items  # noqa: E402
from second.words import (MOST_BYTES, Refused, inverse, letter_count, spell,  # noqa: E402
                          words_of)

LISTS = 400
MEMBERS = 100
ASKS = 200
BAD_N = [0, 27, 28, 256, 258, 65536, 2 ** 32, 2 ** 32 + 1, 2 ** 40, 2 ** 63, 2 ** 64 - 1]
PAIRWISE_LETTERS = 300
TABLES = 500
PAIRS = 400
ACTIONS = 150
FILES = 4000
AT_ONCE = 30
MOST_POINTS = 1048577


def folding_of(text):
    """Pair by pair for short lists, quickly for the others."""
    return fold_words if letter_count(text) <= PAIRWISE_LETTERS else fold_words_quickly


def random_text(chance, n):
    """A list, most often short."""
    most_words, most = chance.choice([(4, 6), (4, 6), (8, 12), (8, 12), (16, 24), (40, 60)])
    return some_list(chance, n, most_words, most)


def random_n(chance):
    """Small alphabets often, all of them now and then."""
    return chance.choice([1, 2, 2, 2, 3, 3, chance.randint(1, 26)])


def more(chance):
    """Cells lent beyond the needed ones."""
    return chance.choice([0, 0, 0, 1, 7, 100])


def good_folds(chance):
    """Lists that are folded."""
    for _ in range(LISTS):
        n = random_n(chance)
        text = random_text(chance, n)
        table, work = needed(n, text)
        yield n, text, table + more(chance), work + more(chance)
    for n in (2, 3, chance.randint(4, 26)):
        text = long_list(chance, chance.choice(KINDS[:-1]), n, 200, 2000, 5000)
        yield n, text, *needed(n, text)
    for n, kinds in ((2, KINDS[:1]), (3, KINDS[:-1])):
        text = longest_list(chance, kinds, n)
        yield n, text, *needed(n, text)
    yield 2, b"\n" * MOST_BYTES, 4, 8


def damaged_case(chance, n, text):
    """A case that may meet any of the refusals 1, 3, 4, 5, 6, 7, or several."""
    table, work = needed(n, text)
    said = n
    for _ in range(chance.randint(1, 3)):
        kind = chance.randrange(6)
        if kind == 0:
            said = chance.choice(BAD_N)
        elif kind == 1:
            text = spoilt(chance, n, text)
        elif kind == 2:
            text = text[:-1]
        elif kind == 3:
            table = max(0, table - chance.choice([1, 1, table]))
        elif kind == 4:
            work = max(0, work - chance.choice([1, 1, work]))
        else:
            said = max(1, n - 1)
    return said, text, table, work


def bad_folds(chance):
    """Each refusal for itself, then damaged cases; a few of these are folded after all."""
    text = b"abAb\nba\n"
    table, work = needed(2, text)
    for n in BAD_N:
        yield n, text, table, work
    yield 2, b"a" * MOST_BYTES + b"\n", 9, 9
    yield 2, b"ab\na b\n", table, work
    yield 2, b"ab\nac\n", table, work
    yield 2, b"ab\nab", table, work
    yield 2, text, table - 1, work
    yield 2, text, table, work - 1
    for _ in range(200):
        n = random_n(chance)
        yield damaged_case(chance, n, some_list(chance, n, 6, 8))


def product(chance, n, text):
    """A member by construction: given words and their inverses one after another, not reduced."""
    words = words_of(text)
    letters = []
    for _ in range(chance.randint(0, 5) if words else 0):
        factor = chance.choice(words)
        letters += factor if chance.random() < 0.5 else inverse(factor)
    return spell(padded(chance, n, letters, len(letters) + 6))


def members(chance):
    """Lists with a member by construction."""
    for _ in range(MEMBERS):
        n = random_n(chance)
        text = some_list(chance, n, 6, 10)
        query = product(chance, n, text)
        table, work = needed(n, text)
        yield n, text, table + more(chance), max(work, len(query)) + more(chance), query


def random_query(chance, n, text):
    """A random word, one that needs more work than folding, or one with a byte put in."""
    kind = chance.randrange(4)
    if kind == 0:
        return spell(chance.choices(range(2 * n), k=8 * letter_count(text) + chance.randint(1, 40)))
    query = spell(random_word(chance, n, 8))
    return spoilt(chance, n, query) if kind == 1 else query


def asks(chance):
    """Lists with any query, some of them damaged."""
    text = b"ab\n"
    yield 2, text, *needed(2, text), b"a" * (MOST_BYTES + 1)
    yield 2, text, *needed(2, text), b"ab\n"
    yield 2, b"a" * MOST_BYTES + b"\n", 9, 9, b" "
    for _ in range(ASKS):
        n = random_n(chance)
        text = some_list(chance, n, 6, 10)
        query = random_query(chance, n, text)
        table, work = needed(n, text)
        work = max(work, len(query)) + chance.choice([0, 0, 7, -1])
        case = n, text, table + more(chance), work
        if chance.random() < 0.3:
            case = damaged_case(chance, n, text)
        yield *case, query


def fold_line(case):
    """The line of a list."""
    n, text, table, work = case
    answer, cells, after = fold(n, text, *lent(table, work), folding_of(text))
    return reply_items(n, answer, cells) + cells + after


def ask_line(case):
    """The line of a list with a query."""
    n, text, table, work, query = case
    answer, cells, after = ask(n, text, query, *lent(table, work), folding_of(text))
    said = reply_items(n, answer, cells) if isinstance(answer, Refused) else ["yes" if answer else "no"]
    return said + cells + after


def case_bytes(case):
    """A case as the driver reads it."""
    n, text, table, work, *query = case
    return (head(n, text, table, work) + b"".join(len(part).to_bytes(4, "little") for part in query)
            + text + b"".join(query))


def driven(driver, mode, data, seconds=None):
    """The lines that the driver prints; none if it takes more seconds."""
    try:
        done = subprocess.run([driver, mode], input=data, stdout=subprocess.PIPE, check=False, timeout=seconds)
    except subprocess.TimeoutExpired:
        print("failed: the driver has not ended in %d seconds" % seconds)
        return []
    if done.returncode != 0:
        print("failed: the driver ended with status %d" % done.returncode)
    return done.stdout.decode().splitlines()


def compare(what, names, got, want):
    """Compares line by line; gives how many agree and how many do not."""
    good = sum(1 for one, other in zip(got, want) if one == other)
    bad = max(len(got), len(want)) - good
    shown = 0
    for name, one, other in zip(names, got, want):
        if one != other and shown < 5:
            print("failed: %s %.200r: got %.200s, want %.200s" % (what, name, one, other))
            shown += 1
    if len(got) != len(want):
        print("failed: %s: got %d lines, want %d" % (what, len(got), len(want)))
    return good, bad


def run(driver, mode, cases, line):
    """Runs cases both ways, tells what was met, and gives the tally."""
    got = driven(driver, mode, b"".join(map(case_bytes, cases)))
    items = [line(case) for case in cases]
    tally = compare(mode, cases, got, [" ".join(map(str, one)) for one in items])
    tell(mode, items, sum(case[2] + case[3] for case in cases), "cells")
    return tally


def tell(what, items, shown, unit):
    """Tells how many cases were compared, with how many lent items, and what was met."""
    refused = [one[1] for one in items if one[0] == "refused"]
    met = ["%d by %d" % (refused.count(k), k) for k in sorted(set(refused))]
    met += ["%d %s" % (count, side) for side in ("yes", "no")
            for count in [sum(1 for one in items if one[0] == side)] if count]
    print("%s: %d cases, %d %s compared; %d refused%s" % (
        what, len(items), shown, unit, len(refused), "".join(", " + one for one in met)))


def run_calls(driver, mode, calls, seconds=None):
    """Runs calls both ways, tells what each met, and gives the tally."""
    got = driven(driver, mode, b"".join(call.data for call in calls), seconds)
    for name in sorted({call.name for call in calls}):
        mine = [call for call in calls if call.name == name]
        tell(name, [call.items for call in mine], sum(call.shown for call in mine), "lent items")
    return compare(mode, [(call.name, call.data) for call in calls], got,
                   [" ".join(map(str, call.items)) for call in calls])


def run_chains(driver):
    """A basis longer than 32 bits can tell; its length in closed form, which short chains hold to the words."""
    wrong = [(n, points) for n in (1, 2, 3, 26) for points in (1, 2, 3, 40, 130) if n > 1 or points == 1
             if not same_chain(n, points)]
    for case in wrong:
        print("failed: the closed form of a chain: %r" % (case,))
    good, bad = run_calls(driver, "chain", [chain_call(3, 40, 5), chain_call(26, MOST_POINTS, 100)])
    return good, bad + len(wrong)


def all_inside(cases):
    """This program must find every member by construction inside."""
    outside = [case for case in cases if ask_line(case)[0] != "yes"]
    for case in outside[:5]:
        print("failed: not inside by this program: %.200r" % (case,))
    return len(cases) - len(outside), len(outside)


def run_stored(driver):
    """The stored lists."""
    with open(INPUT, "rb") as data:
        got = driven(driver, "stored", data.read())
    with open(OUTPUT) as lines:
        want = lines.read().splitlines()
    print("stored: %d lists" % len(want))
    return compare("stored", range(1, len(want) + 1), got, want)


def main(driver):
    """Runs folds, single queries, the stored lists, and every call on tables."""
    seed = int(os.environ.get("SEED") or random.SystemRandom().randrange(2 ** 32))
    print("seed %d" % seed)
    chance = random.Random(seed)
    inside = [*members(chance)]
    tallies = [run(driver, "folds", [*good_folds(chance), *bad_folds(chance)], fold_line), all_inside(inside),
               run(driver, "asks", inside + [*asks(chance)], ask_line), run_stored(driver),
               run_calls(driver, "calls", [*small_graph_calls(chance), *fresh_calls(chance, TABLES),
                                           *stored_calls(chance), *finite_calls(chance, ACTIONS),
                                           *shorter_calls(chance, PAIRS), *refused_calls(),
                                           *refused_expressions(), *refused_lists()]),
               run_calls(driver, "calls", [*damaged_calls_of_files(), *random_file_calls(chance, FILES),
                                           *long_text_calls()]),
               run_calls(driver, "calls", [*huge_calls()], AT_ONCE),
               run_chains(driver)]
    passed, failed = (sum(part) for part in zip(*tallies))
    print("%d passed, %d failed" % (passed, failed))
    return 1 if failed else 0


if __name__ == "__main__":
    sys.exit(main(*sys.argv[1:]))
