"""Growths of memory that scripts/growths refuses to lives and joins."""
