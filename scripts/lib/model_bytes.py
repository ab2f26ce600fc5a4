"""The bytes of what a model has (node_model.py): the model knows none, and formats.py knows no model."""
import hashlib

from lib.formats import (
    PAGE_ROWS, TWO, VERDICTS, change_bytes, entry_bytes, header_bytes, item_bytes, page_bytes, pages_of, record_bytes, snapshot_pieces,
    sum_bytes, superblock_bytes, window_bytes, write_bytes,
)
from lib.node_model import CLUSTER, UNDEFINED, SizeChange, refused

UUID = bytes.fromhex(CLUSTER.replace("-", ""))


def record_of(order, seqno):
    """The record of this item."""
    item, (kind, *conflict) = order.items[seqno - 1], order.verdicts[seqno - 1].split()
    if isinstance(item, SizeChange):
        return change_bytes(seqno, (item.source, item.trx), item.window)
    writes = [write_bytes(key, value) for key, value in item.writes]
    return record_bytes(seqno, item.last_seen, (item.source, item.trx), VERDICTS.index(kind), item.reads, writes, int(*conflict or (0,)))


def entries_of(order, position):
    """The entries of the window at the position."""
    return [entry_bytes(seqno, order.items[seqno - 1].keys()) for seqno in order.window_at(position)]


def reach_of(order, position, of_format):
    """What this format says of the window's reach at the position."""
    return order.reach_at(position) if of_format == TWO else None


def window_of(order, number, position, of_format=TWO):
    """The window at the position, beside the superblock of this number."""
    return window_bytes(number, position, entries_of(order, position), reach_of(order, position, of_format))


def values_of(order, page, position):
    """The values of the page's rows at the position."""
    table, first = pages_of(order.rows)[page]
    return [order.row((table, row), position) for row in range(first, first + PAGE_ROWS)]


def page_of(order, page, position):
    """The page as it is written for the position."""
    table, first = pages_of(order.rows)[page]
    return page_bytes(page, table, first, position, values_of(order, page, position))


def superblock_of(node, number, slots):
    """The superblock of this number for the node's next base, whose pages are in these slots."""
    params = (node.order.window, len(node.log.open), node.order.rows)
    return superblock_bytes(number, UUID, params, node.checkpoint.position, node.checkpoint.start, slots)


def header_of(order, of_format=TWO):
    """The header of a transfer of this cluster, with the shape of the order's nodes."""
    return header_bytes(UUID, order.window, order.rows, of_format)


def snapshot_of(order, position, pages, of_format=TWO):
    """The pieces of a snapshot at the position, with these pages."""
    values = [(page, values_of(order, page, position)) for page in pages]
    return snapshot_pieces(position, entries_of(order, position), values, reach_of(order, position, of_format))


def item_of(order, seqno):
    """The part of a transfer that is this item."""
    return item_bytes(record_of(order, seqno))


def rows_of(order, position):
    """The rows that are there after the first so many items."""
    rows = {}
    for m in order.committed(1, position):
        rows.update(order.items[m - 1].writes if not isinstance(order.items[m - 1], SizeChange) else ())
    return {key: value for key, value in rows.items() if value is not None}


def sum_of(node, position):
    """What the node answers where it is asked for its sum at the position."""
    if node.gtid() == UNDEFINED:
        return refused("11 undefined")
    if position < node.base():
        return refused("8 too-old %d" % node.base())
    if position > node.durable:
        return refused("9 not-yet %d" % node.durable)
    rows = rows_of(node.order, position)
    return ["sum %s:%d rows %d sha256 %s" % (CLUSTER, position, len(rows), hashlib.sha256(sum_bytes(UUID, position, rows)).hexdigest())]
