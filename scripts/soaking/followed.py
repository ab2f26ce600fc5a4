"""A million items that `replicad follow` takes, by lives of which a thousand are killed: the longer one of a trial of scripts/follows."""
import os
import random

from lib.followed import Order, format_disk, killed_lives

# Orders one after another, and the lines behind which a life is killed at the latest: a thousand lives in all, and some more.
ORDERS, ITEMS, MOST = 10, 100_000, 1_600
WINDOW, ROWS, CELLS = 6, (64, 3, 66), (4, 8, 16, 64, 256)


def follows(seed, programs, folder, counts):
    """Follows the orders, and compares each line."""
    for number in range(ORDERS):
        program, draw, disk = programs[number % len(programs)], random.Random(seed + number), os.path.join(folder, "disk")
        order = Order(WINDOW, ROWS).draw(draw, ITEMS, 300).judge(program)
        format_disk(program, disk, order, draw.choice(CELLS))
        lives, again = killed_lives(program, disk, order, draw, MOST)
        for name, count in (("items that were followed", ITEMS), ("lives that followed", lives), ("items answered again", again)):
            counts[name] += count
