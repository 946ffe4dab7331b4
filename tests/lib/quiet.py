"""Bounds on time: those that are promised, and wider ones for a machine that other work has too."""
import os


def bound(quiet, busy):
    """What a figure may be: the first on a machine that has no other work, where QUIET says so; else the second."""
    return quiet if os.environ.get("QUIET") else busy
