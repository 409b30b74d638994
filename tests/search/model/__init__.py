"""A model of a search through all schedules of automata. It is slow, and isn't proved."""
