"""`reconcile` and `answer` beside sites that lie: changes of what an honest one says, and lies on purpose."""
from hostile import lying_sites as hostile

SEED = 42


def lying_sites(program, results):
    hostile.lying_sites(program, results, SEED)
