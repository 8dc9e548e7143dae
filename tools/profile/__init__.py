"""Turns preprocessed C into the profile of C that msc takes: one module for each step, and `turn` for all of them."""
