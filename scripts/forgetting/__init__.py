"""What scripts/forgets is made of."""
