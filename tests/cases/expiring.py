"""`expire`: old records of stores are removed, while calls fail, the disk is full, the process is killed or the power is cut."""
from hostile.expiries import expiries

SEED = 42


def expiring(program, results):
    expiries(program, results, SEED)
