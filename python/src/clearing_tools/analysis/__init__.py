"""Asks the program many times what would break a network, and what would save it."""
