"""Hostile input, by seed, beside the second reader."""
