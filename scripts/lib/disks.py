"""Disks whose bytes trials write by hand, at their offsets (docs/formats.md), and what opens of them."""
from lib.formats import (
    A, ONE, OPEN_GATE, PAGE_ROWS, TWO, Page, Row, Superblock, Window, digit, fixed_reach, page_at, page_bytes, side_of, superblock_bytes,
    window_bytes,
)
from lib.model_bytes import UUID, window_of
from lib.node_model import CLUSTER
from lib.trial import SMALL, SMALL_SIZE, Trial, answers, one_item

# The pages of the small parameters' disk begin with the first slot of the first one.
PAGES = page_at(SMALL[1], 0)
# The byte by which a gate is open.
OPEN = OPEN_GATE[:1].hex()
# Up to where a superblock of at most four pages has other bytes than zeros.
SUPERBLOCK_HEAD = Superblock.state_at(0) + 1
# The last seqno, 2^60.
LAST = 1 << 60


def superblock(q, position, first_page=0, of_format=TWO):
    """The bytes of a superblock of the small parameters, up to its page states: zeros follow. The first page is in no slot (0) or in
    one (1, 2)."""
    return superblock_bytes(q, UUID, SMALL, position, 0, [first_page, 0], of_format)[:SUPERBLOCK_HEAD].hex()


def empty_window(q, position, of_format=TWO):
    """An empty window of the small parameters whose size never changed."""
    return window_bytes(q, position, [], fixed_reach(SMALL[0], position) if of_format == TWO else None)


def window_head(q, position, of_format=TWO):
    """Its bytes, up to the zeros behind what format 2 says."""
    return empty_window(q, position, of_format)[: Window.ZEROS.at].hex()


def fingerprint_of(data):
    """The line that shows these bytes of a disk: how many, and their fingerprint (FNV-1a, 64 bits)."""
    total = 0xCBF29CE484222325
    for byte in data:
        total = (total ^ byte) * 0x100000001B3 % 2**64
    return "fingerprint %d %d" % (len(data), total)


def new_bytes(of_format=TWO):
    """The bytes of a new disk."""
    data = bytearray(SMALL_SIZE)
    for at, text in ((A.body, superblock(0, 0, of_format=of_format)), (A.gate, OPEN), (A.window, window_head(0, 0, of_format))):
        data[at : at + len(text) // 2] = bytes.fromhex(text)
    return data


def with_base(trial, at, q, position, first_page=0, of_format=TWO):
    """Writes a superblock at these places, with an open gate, and an empty window of its position."""
    body, window = superblock(q, position, first_page, of_format), window_head(q, position, of_format)
    for place, text in ((at.body, body), (at.gate, OPEN), (at.window, window)):
        trial.say("put %d %s" % (place, text), "put")
    return trial


def with_page(trial, place, page, position, row=None):
    """Writes a page at this place, whose row 1 has this byte."""
    value = bytes.fromhex(row) if row else b""
    data = page_bytes(page, 0, PAGE_ROWS * page, position, [None] + [value] * bool(row))
    trial.say("put %d %s" % (place, data[: Page.row_at(1) + (Row.VALUE + len(value)) * bool(row)].hex()), "put")
    return trial


def new(title, *puts):
    """A new disk with these bytes at these places."""
    trial = Trial(title)
    trial.new_disk()
    return with_puts(trial, puts)


def with_puts(trial, puts):
    for at, text in puts:
        # A line of the program has at most 4,096 bytes.
        for place in range(0, len(text), 2_000):
            trial.say("put %d %s" % (at + place // 2, text[place : place + 2_000]), "put")
    return trial


def with_item(title, *puts):
    """A disk with one durable item, and these bytes at these places. Its disk had bytes that look like open gates before."""
    trial = Trial(title)
    trial.say("disk %d 165" % (SMALL_SIZE + 7), "blank")
    trial.say("params 4 4 126", "formatted %s:0" % CLUSTER)
    trial.say("open", "open %s:0" % CLUSTER)
    script = one_item()
    for event, wanted in zip(script.events, script.answers):
        trial.say(event if isinstance(event, str) else event[1].delivery(event[0]), *wanted)
    return with_puts(trial, puts)


def last_line(program, text):
    return answers(program, text)[0][-1]


def comes_back(program, trial, refusal):
    """The opening is refused, once and again, and the disk's bytes are as they were."""
    before = last_line(program, trial.text() + "fingerprint\n")
    for _ in range(2):
        trial.say("open", "refused " + refusal)
        trial.say("fingerprint", before)
    return trial


def opens(trial, position, base=0, quiet="quiet"):
    trial.say("open", "open %s:%d" % (CLUSTER, position))
    trial.say("node", "node %d %d %d %s running" % (position, position, base, quiet))
    return trial


def shows_base(life, of_format=TWO):
    """The base is of this format: its superblock says so, and its window, up to the first entry, has what the format says of its reach."""
    trial, node = life.trial, life.node
    side = side_of(node.checkpoint.risen)
    trial.say("bytes %d 1" % (side.body + Superblock.FORMAT.at), digit(of_format).hex())
    window = window_of(node.order, node.checkpoint.risen, node.base(), of_format)
    trial.say("bytes %d %d" % (side.window, Window.ENTRIES), window[: Window.ENTRIES].hex())
    trial.say("open", "open " + node.gtid())


def shows_its_format(life):
    """A base that has not risen since the disk was made is of format 1, and each further one of format 2."""
    shows_base(life, TWO if life.node.checkpoint.risen else ONE)
