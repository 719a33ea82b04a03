"""What tests/server checks of what `cqld --log` tells. Each check gives pairs of a name and of what is
wrong, or None.
"""
import collections
import contextlib
import json

from answer_checks import FETCH_LONG, MADE, TABLE
from served import (
    DONE,
    Caller,
    Server,
    beat,
    block,
    counts_of,
    difference,
    line_of,
    put,
    shown,
    tenants,
    told,
    went_on_and_anew,
)
from spoken import (
    BAD_COMMAND,
    BASE,
    EMPTY,
    FETCH,
    LATE,
    LIST,
    QUERY,
    STREAM,
    TENANTS,
    UNKNOWN_QUERY,
    UNKNOWN_STREAM,
    WRONG_KEY,
    conversation,
)

# A query that is answered by a bench, as the one of all rows isn't.
ASKED = line_of(do="query", name="q", text="Select Istream(*) From s [Range 2] Where v > -1")


def counts_are_told(program):
    """Each second, where that is asked for. A login and a line that is no command are no calls."""
    nothing = {"sessions": 0, "calls": 0, "fetches": 0, "fetching": 0, "warm": 0, "cold": 0}
    nothing |= {"lock_us": 0, "answer_us": 0, "commands": {}, "refused": {}}
    answer = told(1, block(0, 0, 1))
    with Server(program, TENANTS, log=1) as server:
        with Caller(server, "a") as caller:
            yield "calls that are counted", conversation(
                caller,
                (b"{}\n", BAD_COMMAND),
                (STREAM, DONE),
                (ASKED, BASE),
                (put(0, 1), DONE),
                (beat(0), DONE),
                (put(0, 1), LATE),
                (put(1, 1, stream="t"), UNKNOWN_STREAM),
            )
            yield "fetches that are counted", conversation(caller, (FETCH, answer), (FETCH, answer))
            lines = counts_of(server, 2.5)
            yield "a login", difference(lines[0], {"login": "a"})
            counts = [it for it in lines if "sessions" in it]
            yield "lines in 2.5 s", None if len(counts) in (2, 3) else f"{len(counts)}"
            summed = {key: sum(it[key] for it in counts) for key in ("calls", "fetches", "warm", "cold")}
            yield "the counts", difference(summed, {"calls": 8, "fetches": 2, "warm": 0, "cold": 2})
            yield "one session", difference({it["sessions"] for it in counts}, {1})
            yield "no fetch under way", difference({it["fetching"] for it in counts}, {0})
            for key in ("lock_us", "answer_us"):
                longest = max(it[key] for it in counts)
                yield f"the longest {key}", None if 0 < longest < 1e6 else f"{longest} us"
            kinds = collections.Counter()
            numbers = collections.Counter()
            for it in counts:
                kinds.update(it["commands"])
                numbers.update(it["refused"])
            wanted = {"stream": 1, "query": 1, "put": 3, "beat": 1, "fetch": 2}
            yield "calls by kind", difference(dict(kinds), wanted)
            yield "refusals", difference(dict(numbers), {"11": 1, "30": 1, "41": 1})
            yield "nothing else", difference([set(it) for it in counts], [set(nothing)] * len(counts))
            held = {"owner": "a", "held": {"s": 1}, "bytes": {"s": 112}}
            rest = [it for it in lines[1:] if "sessions" not in it and "tenant" not in it]
            yield "rows held", difference(rest, [held] * len(rest))
        last = [it for it in counts_of(server, 2.5) if "sessions" in it][-1]
        yield "nobody there", difference(last, nothing)
    with Server(program, TENANTS) as server, Caller(server, "a") as caller:
        yield "where it isn't asked for", difference((caller.ask(LIST), counts_of(server, 1.5)), (EMPTY, []))


def of_tenants(server, seconds):
    """What a server tells of each tenant in so long, summed up."""
    told = collections.defaultdict(collections.Counter)
    for it in counts_of(server, seconds):
        if "tenant" in it:
            told[it["tenant"]].update(it["commands"])
            told[it["tenant"]].update(it["refused"])
            told[it["tenant"]]["given up"] += it["given_up"]
    return {name: dict(+sums) for name, sums in told.items() if +sums}


def bytes_are_told(program):
    """About how many bytes the rows take that are held, and none of those that came before them."""
    stream = line_of(columns=[["v", "int"], ["t", "text"]], do="stream", name="s")
    query = line_of(do="query", name="q", text="Select v From s [Rows 130]")
    with Server(program, tenants("a", hold=400), log=1) as server, Caller(server, "a") as caller:
        caller.serve([stream, query, *(put(at, at, "x" * at) for at in range(300)), beat(299)])
        yield "all rows", difference(held_of(server), ({"s": 300}, {"s": 300 * 176 + sum(range(300))}))
        caller.serve([line_of(do="ack", name="q", to=300)])
        last = {"s": 130 * 176 + sum(range(170, 300))}
        yield "those of the window", difference(held_of(server), ({"s": 130}, last))


def held_of(server):
    """What is held of the rows of one tenant, as it was told last."""
    lines = [it for it in counts_of(server, 1.5) if "owner" in it]
    return (lines[-1]["held"], lines[-1]["bytes"]) if lines else None


def lags_of(server):
    """How far the query of each tenant is behind that is the furthest, of the last interval that was told whole."""
    intervals = [{}]
    for it in counts_of(server, 2.5):
        if "sessions" in it:
            intervals.append({})
        elif it.get("lag"):
            intervals[-1][it["tenant"]] = it["lag"]
    return intervals[-2]


def lags_are_told(program):
    """Of each tenant how far the query is behind what its streams have told that is the furthest, also of who
    calls nothing."""
    later = line_of(do="query", name="p", text="Select * From a.s [Now]")
    with Server(program, tenants("abc"), log=1) as server, contextlib.ExitStack() as open_ones:
        a, b = (open_ones.enter_context(Caller(server, name)) for name in "ab")
        a.serve([STREAM, QUERY, line_of(do="grant", stream="s", to="b"), put(0, 1), beat(8)])
        b.serve([later])
        yield "one that is behind by all", difference(lags_of(server), {"a": 9})
        yield "where nobody calls", difference(lags_of(server), {"a": 9})
        a.serve([line_of(do="ack", name="q", to=4), beat(9)])
        yield "two that are behind", difference(lags_of(server), {"a": 6, "b": 1})
        a.serve([line_of(do="revoke", stream="s", to="b"), line_of(do="ack", name="q", to=10)])
        yield "one that is revoked, and one that has it all", difference(lags_of(server), {})


def tenants_are_told(program):
    """Of each tenant what it called and was refused, and how many of its fetches were given up; nothing of who
    calls nothing."""
    with Server(program, tenants("abc", hold=3), log=1) as server, contextlib.ExitStack() as open_ones:
        a, b = (open_ones.enter_context(Caller(server, name)) for name in "ab")
        a.serve([STREAM, QUERY, line_of(do="grant", stream="s", to="b"), put(0, 1), beat(8)])
        b.serve([line_of(do="query", name="p", text="Select * From a.s [Now]")])
        yield "lines that are refused", conversation(b, (FETCH, UNKNOWN_QUERY), (b"{}\n", BAD_COMMAND))
        wanted = {
            "a": {"stream": 1, "query": 1, "grant": 1, "put": 1, "beat": 1},
            "b": {"query": 1, "fetch": 1, "57": 1, "11": 1},
        }
        yield "what is told of two tenants", difference(of_tenants(server, 1.5), wanted)
        a.serve([line_of(do="ack", name="q", to=4), *(put(20 + at, at) for at in range(5))])
        yield "what is told of one", difference(of_tenants(server, 1.5), {"a": {"ack": 1, "put": 5}})
        a.ask(FETCH)
        yield "a query that is overrun", difference(of_tenants(server, 1.5), {"a": {"fetch": 1, "60": 1}})
        yield "what is told of who calls nothing", difference(of_tenants(server, 1.5), {})
    with Server(program, TABLE, log=1, answer=1) as server, Caller(server, "a") as caller:
        caller.serve(MADE)
        of_tenants(server, 1.5)
        caller.send(FETCH_LONG)
        found = of_tenants(server, 4).get("a")
        yield "an answer that is given up", difference(found, {"fetch": 1, "70": 1, "given up": 1})


def kept_answers_are_counted(program):
    """A fetch goes on from the one before it, be that acknowledged, in part, or not at all; the first one of
    a query begins anew, and so does one that would go back by more rows than its window holds. One of no
    instant does neither. Of a query that shows a window's rows as they are none begins anew."""

    def fetched(at):
        return (put(at, at), DONE), (beat(at), DONE), (FETCH, told(at + 1, block(at, at, at)))

    def acknowledged(to):
        return line_of(do="ack", name="q", to=to), DONE

    again = fetched(1)[-1]
    nothing = FETCH, told(2)
    two = (put(2, 2), DONE), (put(3, 3), DONE), (beat(3), DONE), (FETCH, told(4, block(2, 2, 2), block(3, 3, 3)))
    second = FETCH, told(4, block(3, 3, 3))
    anew = (line_of(do="drop", name="q"), DONE), (ASKED, line_of(base=4))
    # More than its window held at 5, and more than are always taken back.
    many = FETCH, told(6, block(5, 5, *range(40)))
    rows = *((put(5, it), DONE) for it in range(40)), (beat(5), DONE), many
    steps = (
        ("a query's first fetch", (0, 1), [(STREAM, DONE), (ASKED, BASE), *fetched(0)]),
        ("one behind an ack", (1, 0), [acknowledged(1), *fetched(1)]),
        ("one that is sent again, and one of no instant", (1, 0), [again, acknowledged(2), nothing]),
        ("two, of which the first was acknowledged in part", (2, 0), [*two, acknowledged(3), second]),
        ("the first of a query of its name", (0, 1), [acknowledged(4), *anew, *fetched(4)]),
        ("one that is sent again where a start costs less", (1, 1), [acknowledged(5), *rows, many]),
    )
    with Server(program, TENANTS, log=1) as server, Caller(server, "a") as caller:
        for name, wanted, pairs in steps:
            yield f"the replies up to {name}", conversation(caller, *pairs)
            yield f"the count of {name}", difference(went_on_and_anew(server), wanted)
    with Server(program, TENANTS, log=1, warm=0) as server, Caller(server, "a") as caller:
        for _, _, pairs in steps[:2]:
            yield "the replies where nothing is kept", conversation(caller, *pairs)
        yield "the count where nothing is kept", difference(went_on_and_anew(server), (0, 2))
    all_rows = [(STREAM, DONE), (QUERY, BASE), *fetched(0)], [acknowledged(1), *fetched(1)]
    with Server(program, TENANTS, log=1, warm=0) as server, Caller(server, "a") as caller:
        for pairs in all_rows:
            yield "the replies of all rows", conversation(caller, *pairs)
        yield "the count of all rows", difference(went_on_and_anew(server), (2, 0))


def events_of(server, seconds):
    """What a server tells in so long but for its counts."""
    lines = counts_of(server, seconds)
    return [it for it in lines if not {"sessions", "held", "tenant"} & set(it)]


def logins_are_told(program):
    """Each login and each end once, by the tenants' names; of others nothing that they say."""
    with Server(program, TENANTS, log=1, login=1, idle=2) as server:
        with Caller(server, "a") as caller:
            caller.rest()
        ended = {"ended": "a", "why": "caller"}
        yield "a session", difference(events_of(server, 0.5), [{"login": "a"}, ended])
        refused_ends = {"ended": None, "why": "refused"}
        for name, line, tenant in (
            ("a wrong key", line_of(key="kx", tenant="b"), "b"),
            ("an unknown tenant", line_of(key="kb", tenant="c"), None),
            ("a key in the tenant's place", line_of(key="b", tenant="kb"), None),
            ("no login", LIST, None),
            ("no JSON", b"ka\n", None),
        ):
            with Caller(server) as caller:
                caller.send(line)
                yield f"the reply to {name}", difference(caller.replies.read(), WRONG_KEY)
            wanted = [{"refused_login": tenant}, refused_ends]
            yield name, difference(events_of(server, 0.5), wanted)
        with Caller(server, "b") as caller:
            caller.send(put(1, 1)[:-9])
            caller.reset()
        fault = {"ended": "b", "why": "fault"}
        yield "a connection that broke", difference(events_of(server, 0.5), [{"login": "b"}, fault])
        with Caller(server) as caller:
            late = {"ended": None, "why": "login"}
            yield "a login that doesn't come", difference(events_of(server, 1.8), [late])
        with Caller(server, "a") as caller:
            idle = {"ended": "a", "why": "idle"}
            yield "one who says nothing", difference(events_of(server, 3), [{"login": "a"}, idle])
    words = "Wq7keyword", "Rv8rowtext", "Tx9alias", "Un5name"
    key, row, alias, name = words
    table = line_of(tenants=[dict(json.loads(tenants("a"))["tenants"][0], key=key)])
    with Server(program, table, log=1) as server:
        with Caller(server) as caller:
            stream = line_of(columns=[["v", "text"]], do="stream", name="s")
            text = f"Select v As {alias} From s [Unbounded]"
            yield "words that aren't told", conversation(
                caller,
                (line_of(key=key, tenant="a"), DONE),
                (stream, DONE),
                (line_of(do="query", name=name, text=text), BASE),
                (put(1, row), DONE),
                (b'{"do":"' + row.encode() + b'"}\n', BAD_COMMAND),
            )
        with Caller(server) as caller:
            yield "a key as a tenant", difference(caller.ask(line_of(key=name, tenant=key)), WRONG_KEY)
        said = json.dumps(counts_of(server, 2.5))
        yield "what is told", None if '"held": {"s": 1}' in said else shown(said)
        yield "words", difference([word for word in words if word in said], [])


CHECKS = (
    counts_are_told,
    tenants_are_told,
    bytes_are_told,
    lags_are_told,
    kept_answers_are_counted,
    logins_are_told,
)
