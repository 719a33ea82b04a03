"""The lines that the checks of tests/server share, with their replies, and how a server is looked at
beside its callers.
"""
import contextlib
import os
import signal
import time

from served import (
    DONE,
    Caller,
    Ended,
    audit,
    block,
    connected,
    difference,
    line_of,
    put,
    refused,
    shown,
    tenants,
    told,
)

TENANTS = tenants("ab")
STREAM = line_of(columns=[["v", "int"]], do="stream", name="s")
QUERY = line_of(do="query", name="q", text="Select Istream(*) From s [Range 2]")
FETCH = line_of(do="fetch", name="q")
LIST = line_of(do="list")
BASE = line_of(base=0)
EMPTY = line_of(queries=[], readable=[], streams=[])

# Rows of so many bytes, of which a reply to this fetch has 20 MB.
ROWS, WIDTH = 200, 1_000
TEXTS = [f"{at:0{WIDTH}}" for at in range(ROWS)]
WIDE = tenants("ab", hold=65536, streams=64)
ALL = line_of(do="query", name="p", text="Select Rstream(*) From s")
FETCH_ALL = line_of(do="fetch", name="p")

BAD_LINE = refused(10, "BadLine")
BAD_COMMAND = refused(11, "BadCommand")
BAD_KEY = refused(12, "BadKey")
WRONG_KEY = refused(13, "WrongKey")
UNKNOWN_STREAM = refused(30, "UnknownStream")
LATE = refused(41, "Late")
UNKNOWN_QUERY = refused(57, "UnknownQuery")

# How long a caller is listened to that should be told nothing.
SILENCE = 0.3
# The part of a processor that a server may take that has nothing to do.
MOST_BUSY = 0.1
# How much more memory the server may have behind many callers than behind few.
MOST_KEPT = 512 << 10
# Of the room that threads lend, what three of them touch at their first long turns.
LENT = 3 * 192 << 10


def stream_open_at(instant):
    """What `list` tells of a stream alone."""
    return line_of(queries=[], readable=[], streams=[{"name": "s", "open": instant}])


def filled(server):
    """A query of which a fetch tells 200 blocks of one row of 1,000 bytes, and one whose blocks have up to
    200 of them; what is wrong with that."""
    make = line_of(columns=[["v", "text"]], do="stream", name="s"), QUERY, ALL
    with Caller(server, "a") as owner:
        owner.send(*make, *(put(at, text) for at, text in enumerate(TEXTS)))
        replies = [owner.replies.readline() for _ in range(ROWS + 3)]
        return difference(replies[3:], [DONE] * ROWS)


def told_of_all():
    """The reply to FETCH_ALL: up to the last row's instant each has one row more than the one before it."""
    return told(ROWS - 1, *(block(at, at, *TEXTS[: at + 1]) for at in range(ROWS - 1)))


def conversation(caller, *pairs):
    """Sends line after line, each once the reply to the one before has come; what is wrong first."""
    for number, (line, wanted) in enumerate(pairs, start=1):
        if fault := difference(caller.ask(line), wanted):
            return f"reply {number}, to {shown(line)}: {fault}"
    return None


def well(entries=None):
    """How a server ends whose sessions are over, with an audit of so many calls."""
    return Ended(0, b"", b"" if entries is None else audit(entries))


def files_of(server):
    """How many files and sockets the server has open."""
    return len(os.listdir(f"/proc/{server.child.pid}/fd"))


def growth(before, after, most=MOST_KEPT):
    return f"{after - before} bytes more" if after - before > most else None


def served_in(server, seconds, name="a", wanted=EMPTY):
    """What is wrong with a caller who comes now and is to be served in so long."""
    start = time.monotonic()
    with Caller(server, name) as caller:
        fault = difference(caller.ask(LIST), wanted)
    taken = time.monotonic() - start
    return fault or (None if taken <= seconds else f"it takes {taken:.2f} s")


def ends_in(caller, least, most):
    """What is wrong with a session that is to end by itself, in a time between these."""
    start = time.monotonic()
    with contextlib.suppress(ConnectionResetError):
        caller.replies.read()
    taken = time.monotonic() - start
    return None if least <= taken <= most else f"it takes {taken:.2f} s"


def idleness(server, seconds):
    """What is wrong with the processor time of a server that has nothing to do for so long."""
    before = server.processor_time()
    time.sleep(seconds)
    taken = server.processor_time() - before
    return None if taken <= MOST_BUSY * seconds else f"{taken:.2f} s of {seconds} s"


def sessions_of(open_ones, server, number, tenant=None):
    """So many connections, which are let go at the end."""
    return [open_ones.enter_context(caller) for caller in connected(server, number, tenant)]


@contextlib.contextmanager
def standing(server):
    """The server stands meanwhile: what is sent to it comes at once when it goes on."""
    server.child.send_signal(signal.SIGSTOP)
    os.waitpid(server.child.pid, os.WUNTRACED)
    yield
    server.child.send_signal(signal.SIGCONT)
