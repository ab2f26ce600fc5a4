"""Orders that others write to, and programs that follow them: `replicad follow`.

An order has a text at each seqno. Some are items as they are written, others are none, and so are the item that has no effect (docs/formats.md). What each
is judged as is asked of `replicad judge`, never of the program that follows.
"""
import os
import re
import subprocess
import threading

from lib.node_model import CLUSTER, Item, SizeChange, key_text
from lib.proved import Wrong, is_silent

# The item that a text is which is none.
NOTHING = Item(0, [((255, 0), None)], source=0, trx=0)
# The greatest length of a text that is an item, in bytes.
LONGEST = 4_096
LIMIT = 60

AT = re.compile(r"at %s:(\d+) base (\d+)" % CLUSTER)
NUMBERED = re.compile(r"(?:old )?(\d+)(?: .*)?")


def filled(text, size):
    """The text with spaces behind it, so that it has so many bytes."""
    return text.ljust(size)


def foreign():
    """A text of each kind that is no item, within the limits of a line and beyond them."""
    keys = lambda count: " ".join("0/%d" % row for row in range(count)).encode()
    writes = lambda count: " ".join("0/%d-" % row for row in range(count)).encode()
    return [
        b"", b" ", b"7", b"state", b"limits", b"counters", b"sum", b"read 0/1", b"donate have out", b"order %s:0" % CLUSTER.encode(), b"deliver 1 0 w 0/1=61",
        b"item", b"item 0", b"item 0 w", b"item 0 0/1=61", b"item x w 0/1=61", b"item -1 w 0/1=61", b"ITEM 0 w 0/1=61", b"1 item 0 w 0/1=61",
        b"item 0 w 0/1=6", b"item 0 w 0/1=6g", b"item 0 w 0/1", b"item 0 w 1=61", b"item 0 w 256/0-", b"item 0 w 0/4294967296-",
        b"item 18446744073709551616 w 0/1=61", b"item 0 id 1 w 0/1=61", b"item 0 id 1:18446744073709551616 w 0/1-", b"item 0 r w 0/1-",
        b"item 0 w 0/2=61 0/1=62", b"item 0 w 0/1=61 0/1=62", b"item 0 r 0/2 0/1 w 0/1-", b"item 0 r %s w 0/1-" % keys(17), b"item 0 w %s" % writes(17),
        b"item 0 w 0/1=%s" % (b"61" * 63), b"window", b"window 0", b"window 257", b"window 5 5", b"window 18446744073709551616",
        b"item 0 w 0/1=61\r", b"item\t0 w 0/1=61", b"item 0 w 0/1=61\0", b"\xff\xfe\0", bytes(range(11, 256)),
        filled(b"item 0 w 0/1=61", LONGEST + 1), b"x" * 10_000, filled(b"item 0 w 0/1=61", 70_000),
    ]


def drawn_item(draw, seqno, rows):
    """An item of one of three sources, whose label `trx` is its seqno."""
    labels = {"source": draw.randint(1, 3), "trx": seqno}
    if draw.random() < 0.03:
        return SizeChange(draw.randint(2, 9), **labels)
    key = lambda: (table := draw.randrange(len(rows)), draw.randrange(rows[table]))
    writes = [(at, None if draw.random() < 0.2 else draw.randbytes(draw.randint(0, 6))) for at in sorted({key() for _ in range(draw.randint(1, 3))})]
    reads = sorted({key() for _ in range(draw.randint(0, 2))})
    if draw.random() < 0.02:
        writes.append(((len(rows), 0), b"outside"))
    seen = max(0, seqno - 1 - draw.choice((0, 0, 0, 1, 2, 5, 12)) + 9 * (draw.random() < 0.02))
    return Item(seen, writes, reads, **labels)


class Order:
    """An order for a first window and tables: the text at each seqno, what it is, and its receipt."""

    def __init__(self, window, rows):
        self.window, self.rows, self.texts, self.items, self.receipts = window, rows, [], [], []

    def add(self, text, item):
        self.texts.append(text)
        self.items.append(item)

    def draw(self, draw, count, longest):
        """Puts so many items behind the others: one of twelve is of a text that is none, of at most so many bytes."""
        none = [text for text in foreign() if len(text) <= longest]
        for seqno in range(len(self.texts) + 1, len(self.texts) + count + 1):
            if draw.random() < 1 / 12:
                self.add(draw.choice(none), NOTHING)
            else:
                item = drawn_item(draw, seqno, self.rows)
                self.add(item.line().encode(), item)
        return self

    def judge(self, program):
        """Has `replicad judge` say the verdicts."""
        lines = ["params %d 4 %s" % (self.window, " ".join(map(str, self.rows)))] + [item.line() for item in self.items]
        done = subprocess.run([program, "judge"], input="\n".join(lines) + "\n", capture_output=True, text=True, check=True)
        verdicts = done.stdout.splitlines()
        self.receipts = ["%s %d:%d" % (verdict, item.source, item.trx) for verdict, item in zip(verdicts, self.items, strict=True)]
        return self

    def last(self):
        return len(self.texts)

    def lines(self, first, last):
        """The lines of these seqnos, as they are handed to a program."""
        return b"".join(b"%d %s\n" % (seqno, self.texts[seqno - 1]) for seqno in range(first, last + 1))

    def text(self, position, last=None):
        """The order from behind this position on, with its first line."""
        return order_line(position) + self.lines(position + 1, self.last() if last is None else last)

    def answers(self, first, last, base=0):
        """The lines of these seqnos at a node that opened with this base."""
        return ["old %d" % seqno if seqno <= base else self.receipts[seqno - 1] for seqno in range(first, last + 1)]


def order_line(position):
    return b"order %s:%d\n" % (CLUSTER.encode(), position)


def said_at(line):
    """The position and the base that the line `at` says."""
    found = AT.fullmatch(line)
    if not found:
        raise Wrong("it begins with %r" % line)
    return int(found[1]), int(found[2])


def told_of(order, lines, position):
    """Compares the lines of a life that was fed the order from behind this position on. Gives what was durable as it opened, its base then, the
    seqno of its last receipt (the position where there is none), and the lines that are none of items."""
    durable, base = said_at(lines[0])
    told = [line for line in lines[1:] if NUMBERED.fullmatch(line)]
    wanted = order.answers(position + 1, position + len(told), base)
    for found, right in zip(told, wanted, strict=True):
        if found != right:
            raise Wrong("it opened at %d with base %d, was fed from %d on: wanted %r, found %r" % (durable, base, position, right, found))
    return durable, base, position + len(told), [line for line in lines[1:] if not NUMBERED.fullmatch(line)]


def format_disk(program, path, order, cells):
    words = ["--window", str(order.window), "--cells", str(cells), "--rows", ",".join(map(str, order.rows)), "--uuid", CLUSTER]
    if os.path.exists(path):
        os.remove(path)
    subprocess.run([program, "format", path, *words], capture_output=True, check=True)


def run(words, given=b"", status=0, **more):
    """The lines that the program writes, which ends with this status."""
    done = subprocess.run(words, input=given, capture_output=True, timeout=LIMIT, **more)
    if done.returncode != status or not is_silent(done.stderr, status):
        raise Wrong("%s ends with status %d, %r, %r" % (words[1:], done.returncode, done.stdout[-200:], done.stderr[-200:]))
    return done.stdout.decode().splitlines()


class Following:
    """A program that follows an order, or runs what these words say of a disk, fed while it runs."""

    def __init__(self, program, disk, environment=None, words=("follow",)):
        pipes = {"stdin": subprocess.PIPE, "stdout": subprocess.PIPE, "stderr": subprocess.PIPE}
        self.process = subprocess.Popen([program, *words, disk], env={**os.environ, **(environment or {})}, **pipes)
        self.writer, self.lines = None, []

    def feed(self, data):
        """Hands it these bytes, and waits until it took them."""
        try:
            self.process.stdin.write(data)
            self.process.stdin.flush()
        except BrokenPipeError:
            pass

    def feed_beside(self, pieces):
        """Hands it these pieces while its answers are read. Its input ends behind them."""
        def write():
            for piece in pieces:
                self.feed(piece)
            self.close()
        self.writer = threading.Thread(target=write)
        self.writer.start()

    def close(self):
        try:
            self.process.stdin.close()
        except BrokenPipeError:
            pass

    def line(self):
        """Its next line."""
        line = self.process.stdout.readline().decode()
        if not line.endswith("\n"):
            raise Wrong("it ends, and its last line is %r, behind %r" % (line, self.lines[-3:]))
        self.lines.append(line[:-1])
        return self.lines[-1]

    def answered(self, data):
        """Its next line, once it was handed these bytes."""
        self.feed(data)
        return self.line()

    def memory(self):
        """The most memory that it has had, in bytes."""
        with open("/proc/%d/status" % self.process.pid, encoding="ascii") as file:
            return 1024 * int(re.search(r"VmHWM:\s+(\d+) kB", file.read())[1])

    def kill(self):
        """Kills it, if it has not ended. Gives all whole lines that it wrote."""
        self.process.kill()
        return self.rest(0, -9)

    def end(self, status=0):
        """Ends its input. Gives all lines that it wrote."""
        if self.writer is None:
            self.close()
        return self.rest(status)

    def rest(self, *statuses):
        whole, _, _ = self.process.stdout.read().decode().rpartition("\n")
        self.lines += whole.split("\n") if whole else []
        told, status = self.process.stderr.read(), self.process.wait(timeout=LIMIT)
        if self.writer:
            self.writer.join()
        self.process.stdout.close()
        self.process.stderr.close()
        # (one that was killed may have been about to say why it is refused)
        if status not in statuses or not is_silent(told, 1 if status < 0 else status):
            raise Wrong("it ends with status %d, %r, %r" % (status, self.lines[-2:], told[-200:]))
        return self.lines


def row_words(order_at, keys, position):
    """The line of these rows at the position, by a model of the order."""
    words = []
    for key in keys:
        value = order_at.row(key, position)
        words.append(key_text(key) + ("-" if value is None else "=" + value.hex()))
    return "rows %d %s" % (position, " ".join(words))


def pieces(text, draw, size):
    """The text, cut anywhere into pieces of about this size."""
    at = 0
    while at < len(text):
        upto = at + draw.randint(1, 2 * size)
        yield text[at:upto]
        at = upto


def killed_lives(program, disk, order, draw, most):
    """Follows the whole order by lives that are killed behind up to so many lines, each fed from a lower position. Gives how many lives there were, and how
    many items were answered again."""
    told, low, again, lives = 0, 0, 0, 0
    while told < order.last():
        position = max(0, told - draw.choice((0, 0, 1, 20, 200, 3_000)))
        life = Following(program, disk)
        text = order.text(position, min(order.last(), told + 8 * most))
        life.feed_beside(pieces(text, draw, draw.choice((40, 500, 9_000))))
        life.line()
        for _ in range(draw.randint(0, most)):
            if life.line().startswith("state "):
                break
        lines = life.rest(0, -9) if life.lines[-1].startswith("state ") else life.kill()
        durable, base, last, _ = told_of(order, lines, position)
        if durable < told or base < low:
            raise Wrong("it opens at %d with base %d, where %d was told, and a base was %d" % (durable, base, told, low))
        told, low, again, lives = max(told, last), base, again + max(0, min(last, durable) - position), lives + 1
    return lives, again
