"""Tables of finite index by construction, from permutations: the generators act on k places.

The words that move no place are a normal subgroup; its points are the permutations that words give.
The words that keep one place are a subgroup; its points are the places that this one is moved to.
"""

from .basis import is_normal
from .folding import breadth_table


def shift(k, by):
    """The places of a circle turned."""
    return tuple((i + by) % k for i in range(k))


def mirrored(k, by):
    """The places of a circle turned and mirrored."""
    return tuple((by - i) % k for i in range(k))


def cyclic(chance, n):
    """Turns of one circle: a cyclic group."""
    k = chance.randint(1, 40)
    return [shift(k, chance.randrange(k)) for _ in range(n)]


def dihedral(chance, n):
    """Turns and mirrorings of one circle: a dihedral group, if there is a mirroring."""
    k = chance.randint(1, 16)
    return [chance.choice([shift, mirrored])(k, chance.randrange(k)) for _ in range(n)]


def two_circles(chance, n):
    """Turns of two circles: a group of two commuting parts."""
    j, k = chance.randint(1, 6), chance.randint(1, 6)
    return [shift(j, chance.randrange(j)) + tuple(j + i for i in shift(k, chance.randrange(k))) for _ in range(n)]


def shuffles(chance, n):
    """Any permutations of a few places."""
    k = chance.randint(1, 4)
    return [tuple(chance.sample(range(k), k)) for _ in range(n)]


ACTIONS = [cyclic, dihedral, two_circles, shuffles]


def table_of_moves(n, start, moved):
    """n, V and cells of the table of a base and a way to move points by generators."""
    names, order, edges = {start: 0}, [start], []
    for point in order:  # grows while it is walked
        for i in range(n):
            to = moved(point, i)
            if to not in names:
                names[to] = len(order)
                order.append(to)
            edges.append((names[point], i + 1, names[to]))
    cells = breadth_table(n, edges)
    return n, len(cells) // (2 * n), cells


def kernel(n, action):
    """The table of the words that move no place: a normal subgroup."""
    start = tuple(range(len(action[0])))
    table = table_of_moves(n, start, lambda places, i: tuple(action[i][p] for p in places))
    assert is_normal(*table), action
    return table


def stabiliser(n, action):
    """The table of the words that keep the first place."""
    return table_of_moves(n, 0, lambda place, i: action[i][place])


def some_action(chance, n):
    """An action of any kind."""
    return chance.choice(ACTIONS)(chance, n)
