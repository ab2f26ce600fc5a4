"""A full window, as trials write it by hand."""
from lib.formats import entry_bytes

# The position of the base that windows are tried at, and what follows it in a superblock.
BASE = 10


def entry(seqno, *keys):
    return entry_bytes(seqno, keys)


FULL = (entry(7, (0, 1)), entry(8, (0, 2)), entry(9, *((0, row) for row in range(16))), entry(10, (0, 0), (0, 125)))
