"""What tests/server checks of clients/python as a module. Each check gives pairs of a name and of what is
wrong, or None.
"""
import random

from clients import (
    FETCH,
    GREATEST,
    LATE,
    LIST,
    LOG_IN,
    OWN_QUERY,
    TENANTS,
    WIDE,
    Peer,
    error_of,
    refusal_of,
    session,
)
from served import DONE, Ended, Server, audit, block, difference, line_of, put, refused, told

import romburik

OVERRUN = refused(60, "Overrun")


def session_methods(program):
    """Each command by its method, and what it gives."""
    greatest = ("\u00e9", GREATEST)
    with Server(program, TENANTS, sessions=2, workers=2, audit=True) as server:
        with session(server) as owner, session(server, "b") as reader:
            owner.stream("s", {"k": "text", "v": "int"})
            owner.grant("s", "b")
            yield "a base", difference(owner.query("q", "Select Istream(*) From s [Now]"), 0)
            reader.query("p", "Select v From a.s [Range 1]")
            owner.query("f", "Select Rstream(v + 1) From s [Now]")
            owner.put("s", 5, ["x", 1])
            owner.put("s", 7, greatest)
            owner.beat("s", 7)
            first, second = romburik.Rows(5, 5, (("x", 1),)), romburik.Rows(7, 7, (greatest,))
            wanted = romburik.Answer((first, second), 8)
            yield "an answer", difference(owner.fetch("q"), wanted)
            wanted = romburik.Answer((first,), 6)
            yield "an answer until", difference(owner.fetch("q", until=6), wanted)
            changes = (
                romburik.Changes(5, 5, plus=((1,),), minus=()),
                romburik.Changes(7, 7, plus=((GREATEST,),), minus=((1,),)),
            )
            yield "changes", difference(reader.fetch("p").blocks, changes)
            faults = romburik.Rows(5, 5, ((2,),)), romburik.Fault(7, 7, "overflow")
            yield "a fault", difference(owner.fetch("f").blocks, faults)
            wanted = [
                f'{{"from":7,"rows":[["\u00e9",{GREATEST}]],"to":7}}',
                f'{{"from":7,"minus":[[1]],"plus":[[{GREATEST}]],"to":7}}',
                '{"fault":"overflow","from":7,"to":7}',
            ]
            lines = [it.line() for it in (second, changes[1], faults[1])]
            yield "lines of blocks", difference(lines, wanted)
            owner.ack("q", 8)
            owner.drop("f")
            own = romburik.Query("q", "ISTREAM(SELECT * FROM s [NOW])", 0, 8)
            wanted = romburik.Listing((own,), (), (romburik.Stream("s", 8),))
            yield "a listing", difference(owner.list(), wanted)
            readable = reader.list().readable
            yield "what may be read", difference(readable, (romburik.Stream("a.s", 8),))
            reply = owner.call({"do": "beat", "stream": "s", "at": 9})
            yield "a command by its keys", difference(reply, {"ok": True})
        closed = error_of(owner.list)
        yield "a session that is closed", difference(type(closed), romburik.ConnectionLost)
        yield "calls by methods", difference(server.end(), Ended(0, b"", audit(17)))


def session_grants(program):
    """A grant of chosen columns, and what is left of a query once it is taken back."""
    with Server(program, TENANTS, sessions=2, workers=2, audit=True) as server:
        with session(server) as owner, session(server, "b") as reader:
            owner.stream("p", {"k": "text", "v": "int"})
            owner.grant("p", "b", ["v"])
            reader.query("q", "Select Istream(*) From a.p [Range 2]")
            owner.put("p", 1, ["x", 1])
            owner.beat("p", 1)
            wanted = (romburik.Rows(1, 1, ((1,),)),)
            yield "chosen columns", difference(reader.fetch("q").blocks, wanted)
            wanted = (romburik.Stream("a.p", 2, ("v",)),)
            yield "the columns that are read", difference(reader.list().readable, wanted)
            owner.revoke("p", "b")
            wanted = romburik.Revoked, "Revoked", 63
            yield "a revoked query", difference(refusal_of(reader.fetch, "q"), wanted)
            yield "what is left to read", difference(reader.list().readable, ())
            reader.drop("q")
        yield "grants by methods", difference(server.end(), Ended(0, b"", audit(11)))


def session_refusals(program):
    """They are exceptions with a name and a number; what can't be sent isn't."""
    with Server(program, TENANTS) as server, session(server) as it:
        it.stream("s", {"v": "int"})
        for kind, number, call, *given in (
            (romburik.StreamExists, 20, it.stream, "s", {"v": "int"}),
            (romburik.BadColumns, 22, it.stream, "t", {}),
            (romburik.UnknownStream, 30, it.put, "t", 1, [1]),
            (romburik.UnknownTenant, 31, it.grant, "s", "c"),
            (romburik.BadGrantColumns, 34, it.grant, "s", "b", ["w"]),
            (romburik.NotGranted, 35, it.revoke, "s", "b"),
            (romburik.WrongRow, 40, it.put, "s", 1, ["x"]),
            (romburik.AtTooLarge, 42, it.beat, "s", 1 << 62),
            (romburik.UnknownQuery, 57, it.ack, "q", 1),
            (romburik.BadKey, 12, it.put, "s", -1, [1]),
            (romburik.BadCommand, 11, it.call, {"do": "lists"}),
        ):
            wanted = kind, kind.__name__, number
            yield f"a refusal {number}", difference(refusal_of(call, *given), wanted)
        bad = error_of(it.query, "q", "Select * Form s")
        said = (
            "50 BadQuery: the text is no query from byte 9 on: "
            "FORM is no word of the language: was FROM meant?"
        )
        wanted = romburik.BadQuery, 9, "Select * Form s", said
        found = type(bad), bad.at, bad.text, str(bad)
        yield "a refusal with a place", difference(found, wanted)
        for call, given, said, at in (
            (it.query, ("q", "Select w From s"), "52 UnknownColumn: s has no column w, but v", 7),
            (it.query, ("q", "Select v From sz"), "30 UnknownStream: there is no stream sz", 14),
            (it.put, ("s", 1, ["x"]), "40 WrongRow: 'x' stands at v, which takes numbers", None),
            (it.put, ("sz", 1, [1]), "30 UnknownStream: there is no stream sz of", None),
        ):
            error = error_of(call, *given)
            found = str(error)[: len(said)], error.at
            yield f"a refusal with its word, {error.number}", difference(found, (said, at))
        later = romburik.Refused.of({"name": "Later", "refused": 99})
        found = type(later), later.name, later.number
        yield "a refusal of a later server", difference(found, (romburik.Refused, "Later", 99))
        it.stream("t", {"v": "text"})
        room = romburik.LONGEST_LINE - len(put(1, "", stream="t").rstrip(b"\n"))
        yield "the longest line", difference(error_of(it.put, "t", 1, ["x" * room]), None)
        for name, wanted, call, *given in (
            ("a longer line", romburik.LineTooLong, it.put, "t", 1, ["x" * (room + 1)]),
            ("a blank line", ValueError, it.ask, b" \t\r"),
            ("two lines", ValueError, it.ask, b"{}\n{}"),
            ("a number that is none", ValueError, it.put, "s", 1, [float("nan")]),
            ("a text that is none", UnicodeEncodeError, it.put, "t", 1, ["\ud800"]),
        ):
            yield name, difference(type(error_of(call, *given)), wanted)
        yield "the session behind all these", difference(len(it.list().streams), 2)


def session_logins(program):
    with Server(program, TENANTS, workers=1) as server:
        port = server.port
        for tenant, key in ("a", "kb"), ("c", "ka"), ("a", ""):

            def log_in(tenant=tenant, key=key):
                romburik.Session(port=port, tenant=tenant, key=key)

            wanted = romburik.WrongKey, "WrongKey", 13
            yield f"a login of {tenant} with {key!r}", difference(refusal_of(log_in), wanted)
        with session(server) as it:
            yield "what is shown of a session", difference("ka" in repr(it), False)
    lost = error_of(lambda: romburik.Session(port=port, tenant="a", key="ka"))
    yield "no server", difference(type(lost), romburik.ConnectionLost)


def many_lines(program):
    """Many are under way at once, each has its reply, and none is left for the next call."""
    with Server(program, WIDE) as server, session(server) as it:
        it.stream("s", {"v": "int"})
        rows = [(at // 2, [at]) for at in range(5000)]
        rows[10:10] = [(2, [1]), (5, ["x"])]
        done = it.put_many("s", iter(rows))
        found = done.accepted, [(one.index, one.at, one.row) for one in done.refused]
        yield "rows that are put", difference(found, (5000, [(10, 2, (1,)), (11, 5, ("x",))]))
        kinds = [type(one.refusal) for one in done.refused]
        yield "rows that are refused", difference(kinds, [romburik.Late, romburik.WrongRow])
        for window in 1, 7, 256:
            times = [3000 + window, 0] * 20
            beats = [{"do": "beat", "stream": "s", "at": at} for at in times]
            kinds = [isinstance(it, romburik.Refused) for it in it.call_many(beats, window)]
            yield f"{window} at once", difference(kinds, [False] + [True] * 39)
        replies = it.ask_lines([LIST.rstrip(b"\n")] * 1000)
        first = next(replies)
        yield "a call among others", difference(type(error_of(it.list)), RuntimeError)
        replies.close()
        yield "a call behind others", difference(it.ask(LIST.rstrip(b"\n")), first)

        def beats_that_break_off():
            yield {"do": "beat", "stream": "s", "at": 9000}
            raise KeyError("at")

        error = error_of(list, it.call_many(beats_that_break_off()))
        yield "commands that break off", difference(type(error), KeyError)
        yield "what came before that", difference(it.list().streams[0].open, 9001)


def long_lines(program):
    """More than any buffer holds goes both ways at once."""
    with Server(program, WIDE) as server, session(server) as it:
        it.stream("s", {"v": "text"})
        it.stream("t", {"v": "text"})
        it.query("q", "Select Rstream(*) From s [Rows 1]")
        it.put_many("s", ((at, [str(at) * 50_000]) for at in range(10)))
        long_put = {"do": "put", "stream": "t", "at": 1, "row": ["y" * 60_000]}
        outcomes = [*it.call_many([long_put, {"do": "fetch", "name": "q"}] * 30)]
        yield "long lines", difference(outcomes[::2], [{"ok": True}] * 30)
        blocks = [len(one["blocks"]) for one in outcomes[1::2]]
        yield "long replies", difference(blocks, [9] * 30)


def ack(to):
    return line_of(do="ack", name="q", to=to)


def lost_connections(_):
    """A call tells that it lost its connection, and leaves no reply for the next."""
    replies = b"", b'{"ok"', b"[]\n"
    with Peer(*([LOG_IN, (LIST, reply)] for reply in replies)) as peer:
        with session(peer, timeout=0.2) as it:
            error = error_of(it.list)
            wanted = romburik.ConnectionLost, "nothing came for 0.2 seconds", False
            yield "no reply", difference((type(error), str(error), it.is_open), wanted)
            it.connect()
            yield "half a reply", difference(type(error_of(it.list)), romburik.ConnectionLost)
            it.connect()
            found = type(error_of(it.list)), it.is_open
            yield "a reply that is none", difference(found, (romburik.BadReply, False))
        yield "the calls of these", peer.fault
    with Peer([LOG_IN, (None, None)]) as peer, session(peer) as it:
        peer.thread.join()
        found = [type(error_of(it.list)) for _ in range(2)]
        yield "a session that is ended", difference(found, [romburik.ConnectionLost] * 2)
    with Peer([LOG_IN, (put(1, 1), DONE), (put(2, 2), LATE), (put(3, 3), None)]) as peer:
        with session(peer) as it:
            lost = error_of(it.put_many, "s", [(at, [at]) for at in range(1, 9)], 2)
            found = lost.done.accepted, [one.at for one in lost.done.refused], lost.in_doubt
            yield "rows in doubt", difference(found, (1, [2], ((3, (3,)), (4, (4,)))))


def followed(blocks):
    """The first values of the blocks that are followed, and how that ends."""
    found = []
    error = error_of(lambda: found.extend(one.rows[0][0] for one in blocks))
    return found, type(error)


def lost_while_following(_):
    """A query is followed from where it was acknowledged, also on servers that are new."""
    listing = LIST, line_of(queries=[OWN_QUERY], readable=[], streams=[])
    unknown, ahead = refused(57, "UnknownQuery"), refused(61, "Ahead")
    answers = [told(at, block(at - 1, at - 1, at)) for at in range(10)]
    connections = (
        [LOG_IN, listing, (FETCH, answers[3]), (ack(3), None)],
        [
            LOG_IN,
            *[(ack(3), reply) for reply in (unknown, ahead, DONE)],
            (FETCH, answers[5]),
            (ack(5), DONE),
            (FETCH, None),
        ],
        [],
        [LOG_IN, (ack(5), DONE), (FETCH, told(5)), (FETCH, answers[6]), (ack(6), None)],
        [LOG_IN, (ack(6), DONE), (FETCH, OVERRUN)],
    )
    with Peer(*connections) as peer, session(peer) as it:
        found = followed(it.follow("q", poll=0.01))
        yield "a query that is followed", difference(found, ([3, 5, 6], romburik.Overrun))
    yield "the calls of that", peer.fault
    until = [line_of(do="fetch", name="q", until=at) for at in (9, 11)]
    pairs = (ack(7), unknown), (ack(7), DONE), (until[0], answers[9]), (ack(9), DONE)
    with Peer([LOG_IN, *pairs, (until[1], OVERRUN)]) as peer, session(peer) as it:
        found = followed(it.follow("q", since=7, span=2, poll=0.01))
        yield "one followed from an instant", difference(found, ([9], romburik.Overrun))
    yield "the calls of that one", peer.fault
    for name, reply, wanted in (
        ("a query that isn't there", unknown, romburik.UnknownQuery),
        ("a server that is silent", b"", romburik.ConnectionLost),
        ("a query that begins later", refused(62, "Behind"), romburik.Behind),
    ):
        pairs = [LOG_IN, listing, (FETCH, None)], [LOG_IN, (ack(0), reply)]
        with Peer(*pairs) as peer, session(peer, timeout=1) as it:
            found = followed(it.follow("q", poll=0.01, patience=0.005))
            yield f"{name}, followed", difference(found, ([], wanted))


def rows_block(first, last, value):
    return romburik.Rows(first, last, ((value,),))


def whole_blocks(_):
    """Blocks that are cut anyhow are joined to the same whole ones."""
    run = [rows_block(2, 4, 1), rows_block(5, 9, 2), rows_block(12, 15, 2), rows_block(17, 18, 3)]
    draw = random.Random(5)
    for _ in range(20):
        cuts = sorted({0, 19, *draw.sample(range(1, 19), draw.randrange(8))})
        found, joining = [], romburik.WholeBlocks()
        for start, end in zip(cuts, cuts[1:]):
            there = [it for it in run if it.first < end and it.last >= start]
            cut = tuple(
                rows_block(max(it.first, start), min(it.last, end - 1), it.rows[0][0])
                for it in there
            )
            found += joining.take(romburik.Answer(cut, end))
            joining = romburik.WholeBlocks(joining.held)
        yield f"blocks cut at {cuts}", difference((found, joining.held), (run[:3], run[3]))


CHECKS = (
    session_methods,
    session_grants,
    session_refusals,
    session_logins,
    many_lines,
    long_lines,
    lost_connections,
    lost_while_following,
    whole_blocks,
)
