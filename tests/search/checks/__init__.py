"""Checks of the model: the same definitions a second time, by a machine that runs, and files drawn at random."""
