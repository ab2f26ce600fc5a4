"""What the gate is made of: the parts of a run, and wrong bodies that are tried together."""
