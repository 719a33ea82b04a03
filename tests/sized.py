"""What a server may hold for a tenant by its quotas, as docs/OPERATING.md has it under "Sizing", and what
one run of a server held: its memory, and for how long a call kept the lock.
"""
import collections
import contextlib
import json
import os
import select
import threading
import time

from served import Caller, Server, line_of

# With this what is let go goes back to the system where it can.
SETTING = "GLIBC_TUNABLES", "glibc.malloc.tcache_count=0:glibc.malloc.mxfast=0"
MIB = 1 << 20
# Milliseconds that a call may keep the lock, of an interval in which lists were asked for, and of others.
LOCK_OF_LISTS, LOCK = 2.0, 1.0
# By when memory is back behind the last drop, and what may be left.
BACK, LEFT = 5.0, 16 * MIB
# So many inputs and blocks has a text at most.
INPUTS, BLOCKS = 6, 2

# ---- The formula, in bytes. Each coefficient is what was measured, and some more.

# What a row weighs beside the bytes of its texts: by itself, for each column, and for each text.
ROW, COLUMN, TEXT = 130, 24, 64
# A stream's rows go so many at a time.
CHUNK = 128
# What a window of parts takes for each row that it keeps, beside the row.
PART = 200
# A query, each byte of its text, and each window of it.
QUERY, SAID, STUB = 2_700, 48, 1_000
# What a bench has for each row of a window, and for each that a block joins or groups; for each column that a
# comparison or an item names, and for each aggregate.
HELD, MADE, NAMED, AGGREGATE = 350, 800, 24, 250
# What is buffered of a reply's line, by a worker and for its caller.
BUFFERED = 2 << 16
# What the C library and a worker keep.
ALWAYS = 4 * MIB

# What quotas allow: streams that queries read, rows of each window, rows of a block, and the bytes of a row.
Quotas = collections.namedtuple("Quotas", "streams hold result weight")
# What a text has: windows, those of parts, blocks, bytes, comparisons, and how many columns and different
# aggregates it names.
Text = collections.namedtuple("Text", "windows parts blocks size comparisons named aggregates")


def row(columns, texts, size):
    """A row whose texts have so many bytes in all."""
    return ROW + COLUMN * columns + TEXT * texts + size


def of_rows(quotas, texts):
    """Rows: those that windows need, of each stream, and those that windows of parts keep, where no two
    keep the same ones."""
    parts = sum(it.parts for it in texts)
    needed = quotas.streams * (quotas.hold + CHUNK) * quotas.weight
    return needed + parts * quotas.hold * (quotas.weight + PART)


def of_text(text):
    return QUERY + SAID * text.size + STUB * text.windows


def at_rest(quotas, texts):
    """Without benches."""
    return ALWAYS + of_rows(quotas, texts) + sum(map(of_text, texts))


def of_bench(quotas, text):
    """What an answer has of rows until it is told, and a bench that goes on with it."""
    held = text.windows * quotas.hold * (quotas.weight + HELD + NAMED * text.comparisons)
    made = min(quotas.result, quotas.hold ** min(text.windows, INPUTS // BLOCKS))
    return held + text.blocks * made * (MADE + NAMED * text.named + AGGREGATE * text.aggregates)


def of_reply(text, rows):
    """What a reply of so many rows takes until it is taken."""
    return BUFFERED + rows * (MADE + NAMED * text.named)


# ---- What a run held.

# The greatest memory, that at the end of the lines, and that behind the last drop, in bytes above the
# start; the seconds until it was back, the greatest lock in milliseconds as a share of what it may be, and
# the words of the calls of that interval; how many lines were refused by their numbers, and how many rows the
# longest reply to a fetch had.
Held = collections.namedtuple("Held", "peak rest left seconds lock share calls refused rows")


class Watch:
    """Reads what a server tells with --log 1, until it is closed."""

    def __init__(self, server):
        self.source, self.told, self.open = server.child.stderr.fileno(), [], True
        self.thread = threading.Thread(target=self.read, daemon=True)
        self.thread.start()

    def read(self):
        lines = b""
        while self.open:
            if select.select([self.source], [], [], 0.1)[0]:
                some = os.read(self.source, 1 << 16)
                if not some:
                    return
                *whole, lines = (lines + some).split(b"\n")
                self.told += [it for it in map(json.loads, whole) if "lock_us" in it]

    def close(self):
        self.open = False
        self.thread.join()

    def worst(self):
        """The greatest lock in milliseconds, its share of what it may be, and the calls then."""
        found = (0.0, 0.0, "")
        for it in self.told:
            most = LOCK_OF_LISTS if "list" in it["commands"] else LOCK
            lock = it["lock_us"] / 1e3
            found = max(found, (lock / most, lock, ",".join(it["commands"])))
        share, lock, calls = found
        return lock, share, calls


class Use:
    """Sends lines to a server and keeps what is of interest of the replies."""

    TOGETHER = 200

    def __init__(self, server, seconds):
        self.server, self.seconds = server, seconds
        self.callers = {}
        self.refused, self.size, self.rows = collections.Counter(), 0, 0

    def caller(self, tenant):
        if tenant not in self.callers:
            self.callers[tenant] = Caller(self.server, tenant, seconds=self.seconds)
        return self.callers[tenant]

    def close(self):
        for it in self.callers.values():
            it.__exit__()

    def take(self, reply):
        if not reply:
            raise OSError(f"a session ends without a reply, beside {self.server.peak() / MIB:,.0f} MiB at the greatest")
        if reply.startswith(b'{"blocks"'):
            if len(reply) > self.size:
                self.size, self.rows = len(reply), reply.count(b"[")
        elif b'"refused":' in reply:
            self.refused[json.loads(reply)["refused"]] += 1

    def serve(self, steps):
        """Steps are pairs of a tenant and a line; those that follow one another of one tenant go together."""
        some, tenant, size = [], None, 0
        for it, line in steps:
            if it != tenant or len(some) >= self.TOGETHER or size > MIB:
                self.flush(tenant, some)
                some, tenant, size = [], it, 0
            some.append(line)
            size += len(line)
            if b'"do":"fetch"' in line:
                self.flush(tenant, some)
                some, size = [], 0
        self.flush(tenant, some)

    def flush(self, tenant, lines):
        if lines:
            caller = self.caller(tenant)
            caller.send(*lines)
            for _ in lines:
                self.take(caller.replies.readline())


def settled(server, use, tenant, before, most):
    """Waits until no more than so much is left, asking for lists as others would, and gives what is left and
    after how long."""
    began = time.monotonic()
    while True:
        left, passed = server.memory() - before, time.monotonic() - began
        if left <= most or passed > BACK:
            return left, passed
        use.serve([(tenant, line_of(do="list"))] * 20)
        time.sleep(0.02)


def held(program, table, tenant, steps, drops, under=(), seconds=150, apart=0.0, left=LEFT, **words):
    """What a server holds for these steps, and behind the drops, which come so many seconds `apart`; `left` is
    waited for."""
    starts = (*under, "env", "=".join(SETTING))
    with Server(program, table, starts, log=1, **{"workers": 1, **words}) as server:
        watch, use = Watch(server), Use(server, seconds)
        with contextlib.closing(watch), contextlib.closing(use):
            use.serve([(tenant, line_of(do="list"))])
            before = server.memory()
            use.serve(steps)
            rest = server.memory() - before
            time.sleep(apart)
            use.serve(drops)
            left, passed = settled(server, use, tenant, before, left)
            peak = server.peak() - before
            # the last interval's line
            time.sleep(1.1)
        lock, share, calls = watch.worst()
        return Held(peak, rest, left, passed, lock, share, calls, dict(use.refused), use.rows)
