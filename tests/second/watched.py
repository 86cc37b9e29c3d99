"""Part of the fresh random corpus through a driver whose memory is watched: 'python3 watched.py DRIVER'.

It compares as driven.py does, on fewer and smaller cases. The environment variable SEED sets the seed. The last line
is 'N passed, M failed'.
"""

import os
import random
import sys

sys.path.insert(0, os.path.dirname(os.path.dirname(os.path.abspath(__file__))))

from second.called import (chain_call, fresh_calls, refused_calls, shorter_calls,  # noqa: E402
                           small_graph_calls)
from second.driven import (ask_line, asks, bad_folds, fold_line, good_folds, members, run,  # noqa: E402
                           run_calls)

FOLDS = 150
ASKS = 100
TABLES = 12
PAIRS = 60
CALLS = 1500
MOST_BYTES = 20000


def some(chance, cases, count):
    """Some of the cases."""
    cases = [*cases]
    return chance.sample(cases, min(count, len(cases)))


def main(driver):
    """Runs folds, single queries, and every call on tables."""
    seed = int(os.environ.get("SEED") or random.SystemRandom().randrange(2 ** 32))
    print("seed %d" % seed)
    chance = random.Random(seed)
    folds = some(chance, good_folds(chance), FOLDS) + some(chance, bad_folds(chance), FOLDS)
    queries = some(chance, members(chance), ASKS) + some(chance, asks(chance), ASKS)
    calls = [*small_graph_calls(chance), *fresh_calls(chance, TABLES), *shorter_calls(chance, PAIRS), *refused_calls()]
    calls = some(chance, (call for call in calls if len(call.data) <= MOST_BYTES), CALLS)
    tallies = [run(driver, "folds", folds, fold_line), run(driver, "asks", queries, ask_line),
               run_calls(driver, "calls", calls), run_calls(driver, "chain", [chain_call(3, 40, 5)])]
    passed, failed = (sum(part) for part in zip(*tallies))
    print("%d passed, %d failed" % (passed, failed))
    return 1 if failed else 0


if __name__ == "__main__":
    sys.exit(main(*sys.argv[1:]))
