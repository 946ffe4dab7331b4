"""`add`: archives are put into stores, while calls fail, the disk is full, the process is killed or the power is cut."""
from hostile.additions import additions

SEED = 41


def adding(program, results):
    additions(program, results, SEED)
