"""What tests/server checks of what benches keep behind answers, and of what one answer may weigh: the words
--warm-room and --room. Each check gives pairs of a name and of what is wrong, or None.
"""
import time

from caller_checks import GIVES_BACK
from served import Caller, Server, beat, difference, line_of, put, refused, tenants, went_on_and_anew

NO_MEMORY = refused(70, "NoMemory")
MANY, MOST = 20_000, 60_000
TABLE = tenants("a", hold=65536, result=65536)
STREAM = line_of(columns=[["v", "int"]], do="stream", name="s")
# A bench over the rows of such a query keeps some megabytes.
HEAVY = "Select Istream(Count(*)) From s Where v > {}"
MEBIBYTE = 1 << 20
# Of rows of so many bytes a call lets a few go. With this setting each goes back to the system at once.
LONG, LONG_ROWS = 60_000, 400
AT_ONCE = "env", "GLIBC_TUNABLES=glibc.malloc.mmap_threshold=16384"


def query(name, text):
    return line_of(do="query", name=name, text=text)


def fetch(name, **until):
    return line_of(do="fetch", name=name, **until)


def filled(rows):
    """So many rows at one instant."""
    return *(put(0, it) for it in range(rows)), beat(0)


def fetched(caller, server, at, *names):
    """How many fetches of these queries go on from what is kept, once a row has come. They are acknowledged."""
    caller.serve([put(at, at), beat(at)])
    for name in names:
        caller.ask(fetch(name))
        caller.serve([line_of(do="ack", name=name, to=at + 1)])
    return went_on_and_anew(server)[0]


def kept_within_room(program):
    """Benches keep as much as there is room for: the least recently used let go, and one that is above it
    keeps nothing."""
    names = [f"q{it}" for it in range(4)]
    for room, wanted in ((1, (0, 0)), (8, (1, 0)), (64, (1, 4))):
        with Server(program, TABLE, workers=1, log=1, warm_room=room) as server, Caller(server, "a") as caller:
            caller.serve([STREAM, *(query(it, HEAVY.format(number)) for number, it in enumerate(names))])
            caller.serve(filled(MANY))
            fetched(caller, server, 1, *names)
            alone = [fetched(caller, server, at, "q0") for at in (2, 3)][-1]
            all_of_them = [fetched(caller, server, at, *names) for at in (4, 5)][-1]
            found = alone, all_of_them
            yield f"answers that go on within {room} MiB", difference(found, wanted)


def gone_with_its_query(program):
    """What a bench keeps goes with its query, and not a minute later."""
    with Server(program, TABLE, GIVES_BACK, workers=1) as server, Caller(server, "a") as caller:
        # a window needs the rows, whichever query is dropped
        caller.serve([STREAM, query("stays", "Select Istream(*) From s"), query("q", HEAVY.format(1)), *filled(MOST)])
        before = server.memory()
        caller.ask(fetch("q"))
        kept = server.memory() - before
        caller.serve([line_of(do="drop", name="q")])
        yield "a bench that is heavy", None if kept > 2 * MEBIBYTE else f"{kept} bytes"
        yield "memory behind its drop", left_of(server, before, kept)


def left_of(server, before, kept):
    """What is wrong where much of what was kept is there yet some seconds later, though nobody calls."""
    end = time.monotonic() + 5
    while time.monotonic() < end and server.memory() > before + kept // 3:
        time.sleep(0.1)
    left = server.memory() - before
    return None if left <= kept // 3 else f"{left} of {kept} bytes are left"


def gone_with_its_grant(program):
    """What a bench keeps goes with the grant of a stream that its query reads."""
    table = tenants("ab", hold=65536, result=65536)
    with Server(program, table, GIVES_BACK, workers=1) as server, Caller(server, "a") as a, Caller(server, "b") as b:
        # a window needs the rows, whichever grant is taken back
        a.serve([STREAM, query("stays", "Select Istream(*) From s"), line_of(do="grant", stream="s", to="b")])
        b.serve([query("q", HEAVY.format(1).replace("From s", "From a.s"))])
        a.serve(filled(MOST))
        before = server.memory()
        b.ask(fetch("q"))
        kept = server.memory() - before
        a.serve([line_of(do="revoke", stream="s", to="b")])
        yield "memory behind a grant", left_of(server, before, kept)


def let_go_by_itself(program):
    """Rows that nobody needs any more are let go though nobody calls."""
    columns = line_of(columns=[["v", "text"]], do="stream", name="s")
    with Server(program, TABLE, AT_ONCE, workers=1) as server, Caller(server, "a") as caller:
        caller.serve([columns, query("q", "Select Istream(*) From s")])
        before = server.memory()
        caller.serve(put(it, f"{it:0{LONG}}") for it in range(LONG_ROWS))
        kept = server.memory() - before
        caller.serve([line_of(do="drop", name="q")])
        yield "long rows", None if kept > LONG * LONG_ROWS // 2 else f"{kept} bytes"
        yield "rows that nobody needs", left_of(server, before, kept)


# Each instant tells all rows up to it.
WHOLE = "Select Rstream(v) From s Where v >= 0"
ROWS = 2_000
PIECE = 25


def whole(start, end):
    """The reply that tells the rows up to each instant from one to before another."""
    blocks = [{"from": at, "rows": [[it] for it in range(at + 1)], "to": at} for at in range(start, end)]
    return line_of(blocks=blocks, next=end)


def heavy_answers(program):
    """An answer that weighs more than --room is given up, and may be fetched in pieces."""
    for words in ({}, {"warm": 0}, {"answer": 0}, {"join": "plain"}):
        name = f"under {words}" if words else "by default"
        with Server(program, TABLE, workers=1, room=2, **words) as server, Caller(server, "a") as caller:
            caller.serve([STREAM, query("q", WHOLE), *(put(it, it) for it in range(ROWS)), beat(ROWS - 1)])
            start = time.monotonic()
            yield f"a heavy answer {name}", difference(caller.ask(fetch("q")), NO_MEMORY)
            taken = time.monotonic() - start
            yield f"its time {name}", None if taken < 1 else f"{taken:.2f} s"
            yield f"it once more {name}", difference(caller.ask(fetch("q")), NO_MEMORY)
            for at in range(0, ROWS, ROWS // 4):
                wanted = whole(at, at + PIECE)
                caller.ask(line_of(do="ack", name="q", to=at))
                yield f"a piece from {at} {name}", difference(caller.ask(fetch("q", until=at + PIECE)), wanted)
            caller.ask(line_of(do="ack", name="q", to=ROWS - PIECE))
            yield f"the last piece {name}", difference(caller.ask(fetch("q")), whole(ROWS - PIECE, ROWS))


CHECKS = kept_within_room, gone_with_its_query, gone_with_its_grant, let_go_by_itself, heavy_answers
