"""Whose turn it is, who has something new, and who comes and goes."""
