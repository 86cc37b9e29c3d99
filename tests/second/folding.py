"""The start graph, folding by the definition in any order, and numbering by breadth.

An edge is (source, generator number from 1, target); a graph is the list of its
edges, so that equal triples at two places of the list are two different edges.
The base is point 0.
"""

import random
from collections import namedtuple

from .words import generator, is_lower, reduce

ABSENT = 4294967295
BASE = 0

Folded = namedtuple("Folded", "start_points start_edges merging closing edges")


def start_graph(words):
    """One base point and, for each word not empty after reduction, one circle at the base reading it."""
    points, edges = 1, []
    for letters in words:
        letters = reduce(letters)
        at = BASE
        for place, y in enumerate(letters):
            if place == len(letters) - 1:
                to = BASE
            else:
                to = points
                points += 1
            edges.append((at, generator(y), to) if is_lower(y) else (to, generator(y), at))
            at = to
    return points, edges


def foldable(e, f):
    """Two edges with the same letter that leave one point, or that enter one point."""
    return e[1] == f[1] and (e[0] == f[0] or e[2] == f[2])


def pairs(edges):
    """All pairs of different edges that a fold can take, by testing each pair."""
    return [(i, j) for i in range(len(edges)) for j in range(i + 1, len(edges))
            if foldable(edges[i], edges[j])]


def pair_along(edges, places):
    """The first edge along the given places that folds with one before it, or None."""
    leaving, entering = {}, {}
    for place in places:
        source, letter, target = edges[place]
        for seen, key in ((leaving, (source, letter)), (entering, (letter, target))):
            if key in seen:
                return seen[key], place
            seen[key] = place
    return None


def first_pair(edges):
    """The first pair found from the start of the edge list."""
    return pair_along(edges, range(len(edges)))


def last_pair(edges):
    """The first pair found from the end of the edge list."""
    return pair_along(edges, range(len(edges) - 1, -1, -1))


def random_pair(seed):
    """A choice of any pair at random, fixed by the seed."""
    chance = random.Random(seed)

    def choose(edges):
        """One of all pairs."""
        met = pairs(edges)
        return chance.choice(met) if met else None
    return choose


def merge(edges, p, q):
    """The points p and q become one, which keeps the lower number."""
    keep, gone = min(p, q), max(p, q)
    return [(keep if s == gone else s, letter, keep if t == gone else t)
            for s, letter, t in edges]


def fold_pair(edges, i, j):
    """A fold makes two edges one; if their other ends differ the points merge. Says if it merged."""
    e, f = edges[i], edges[j]
    assert i != j and foldable(e, f)
    left = edges[:j] + edges[j + 1:]
    if e[0] == f[0] and e[2] == f[2]:
        return left, False
    if e[0] == f[0]:
        return merge(left, e[2], f[2]), True
    return merge(left, e[0], f[0]), True


def fold_words(words, choose=first_pair):
    """Folding ends when no fold is possible; merging and closing folds are counted."""
    start_points, edges = start_graph(words)
    start_edges = len(edges)
    merging = closing = 0
    while True:
        pair = choose(edges)
        if pair is None:
            return Folded(start_points, start_edges, merging, closing, edges)
        edges, merged = fold_pair(edges, *pair)
        if merged:
            merging += 1
        else:
            closing += 1


def current(names, p):
    """The name that a point has now: merged points are followed to the one they became."""
    while names[p] != p:
        names[p] = names[names[p]]
        p = names[p]
    return p


def loosened(ends, p):
    """Takes away the placed edges at a point, at both their ends."""
    edges = []
    while ends[p]:
        (letter, leaves), q = ends[p].popitem()
        del ends[q][letter, not leaves]
        edges.append((p, letter, q) if leaves else (q, letter, p))
    return edges


def fold_words_quickly(words):
    """The same folding for long lists: edges are placed one by one, and fold with one placed before.

    ends[p] tells of the placed edges at p: letter and whether it leaves p give the other end. All edges at a
    merged point are placed anew. Every fold made here is one by the definition, in some order.
    """
    start_points, edges = start_graph(words)
    names = list(range(start_points))
    ends = [{} for _ in range(start_points)]
    loose = edges[::-1]
    merging = closing = 0
    while loose:
        source, letter, target = loose.pop()
        s, t = current(names, source), current(names, target)
        if (letter, True) in ends[s]:
            p, q = t, ends[s][letter, True]
        elif (letter, False) in ends[t]:
            p, q = s, ends[t][letter, False]
        else:
            ends[s][letter, True] = t
            ends[t][letter, False] = s
            continue
        if p == q:
            closing += 1
            continue
        merging += 1
        keep, gone = (p, q) if p == BASE or q != BASE and len(ends[p]) > len(ends[q]) else (q, p)
        names[gone] = keep
        loose += loosened(ends, gone)
    left = [(p, letter, q) for p in range(start_points)
            for (letter, leaves), q in ends[p].items() if leaves]
    return Folded(start_points, len(edges), merging, closing, left)


def breadth_table(n, edges):
    """Number by breadth: rows in order, letters in letter order, each point numbered when first met."""
    leads = {}
    for source, letter, target in edges:
        leads[source, 2 * (letter - 1)] = target
        leads[target, 2 * (letter - 1) + 1] = source
    number, order = {BASE: 0}, [BASE]
    for point in order:  # grows while it is walked
        for y in range(2 * n):
            to = leads.get((point, y))
            if to is not None and to not in number:
                number[to] = len(order)
                order.append(to)
    return [number[leads[point, y]] if (point, y) in leads else ABSENT
            for point in order for y in range(2 * n)]
