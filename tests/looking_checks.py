"""What tests/server checks of looks at queries: by the module, at a terminal, on a page and by copies.
"""
import contextlib
import http.client
import json
import pathlib
import signal
import tempfile
import time
import urllib.parse
import urllib.request

from clients import (
    EMPTY,
    FETCH,
    GREATEST,
    LIST,
    QUERY,
    STREAM,
    TENANTS,
    WIDE,
    eager_consumer,
    ending,
    error_of,
    frame_of,
    free_port,
    lines_of,
    page,
    refusal_of,
    session,
    shown_until,
    started,
    terminal,
    wait_for,
    watching,
)
from served import (
    SECONDS,
    Caller,
    Ended,
    Server,
    Stalled,
    beat,
    block,
    difference,
    line_of,
    put,
    tenants,
    told,
)

import romburik
import romburik.columns
import romburik.drawing
import romburik.looking
import romburik.tables


# ---- Looking without taking.


def row_at(at, value):
    return romburik.Rows(at, at, ((value,),))


def seen_of(look):
    """A look's instants and blocks, and whether it begins anew."""
    return look and (look.first, look.next, look.blocks, look.is_new)


def looks_take_nothing(program):
    """Looks beside a consumer tell what it didn't acknowledge, and move nothing."""
    with Server(program, TENANTS) as server, session(server) as it, session(server) as other:
        it.stream("s", {"v": "int"})
        it.query("q", "Select Istream(*) From s [Range 2]")
        looker = romburik.Looker(it, "q")
        yield "a first look", difference(seen_of(looker.look()), (0, 0, (), True))
        yield "a look at nothing new", difference(looker.look(), None)
        it.put("s", 5, [1])
        it.beat("s", 8)
        wanted = 0, 9, (row_at(5, 1),), False
        yield "a look at a row", difference(seen_of(looker.look()), wanted)
        it.put("s", 9, [2])
        it.beat("s", 9)
        yield "a look at the next", difference(
            seen_of(looker.look()), (9, 10, (row_at(9, 2),), False)
        )
        answer = other.fetch("q")
        wanted = romburik.Answer((row_at(5, 1), row_at(9, 2)), 10)
        yield "a consumer beside looks", difference(answer, wanted)
        other.ack("q", 10)
        yield "a look behind an ack", difference(seen_of(looker.look()), (10, 10, (), False))
        it.put("s", 11, [3])
        it.beat("s", 12)
        other.ack("q", 13)
        it.put("s", 14, [4])
        it.beat("s", 14)
        wanted = 13, 15, (row_at(14, 4),), False
        yield "a look over what was acknowledged", difference(seen_of(looker.look()), wanted)
        it.drop("q")
        yield "a look at no query", difference(type(error_of(looker.look)), romburik.UnknownQuery)
        it.query("q", "Select Rstream(*) From s [Range 2]")
        yield "a look at a new query", difference(seen_of(looker.look()), (15, 15, (), True))


def look_of(text, first, end, *blocks, base=0, is_new=False):
    query = romburik.Query("q", text, base, first)
    return romburik.looking.Look(query, first, end, blocks, is_new)


def views_of_looks(_):
    """The relation at the last instant, by rows or by changes."""
    step = romburik.looking.Step
    text = "SELECT * FROM s [ROWS 1]"
    came = romburik.Changes(5, 5, plus=((1,),), minus=())
    changed = romburik.Changes(8, 8, plus=((2,),), minus=((1,),))
    fault = romburik.Fault(10, 11, "overflow")
    later = romburik.Changes(13, 13, plus=((3,), ("x",)), minus=((2,),))
    view = romburik.looking.View()
    steps = view.take(look_of(text, 0, 10, came, changed, is_new=True))
    wanted = [
        step(0, 4, ()),
        step(5, 5, ((1,),)),
        step(6, 7, ((1,),)),
        step(8, 8, ((2,),)),
        step(9, 9, ((2,),)),
    ]
    yield "steps of changes", difference(steps, wanted)
    yield "a relation by changes", difference((view.at, view.rows, view.since), (9, ((2,),), None))
    view.take(look_of(text, 10, 12, fault))
    yield "a fault at the end", difference((view.at, view.fault, view.rows), (11, fault, ()))
    view.take(look_of(text, 12, 15, later))
    found = view.fault, view.rows, view.since
    yield "changes behind a fault", difference(found, (None, ((3,), ("x",)), 12))
    view = romburik.looking.View()
    view.take(look_of(text, 6, 10, changed, is_new=True))
    yield "changes from their middle on", difference((view.rows, view.since), (((2,),), 6))
    view.take(look_of(text, 12, 14, later))
    found = view.rows, view.since
    yield "changes over what was acknowledged", difference(found, (((3,), ("x",)), 12))
    text = "RSTREAM(SELECT * FROM s [RANGE 2])"
    rows = romburik.Rows(5, 7, ((1,),))
    view = romburik.looking.View()
    steps = view.take(look_of(text, 0, 8, rows, is_new=True))
    yield "steps of rows", difference(steps, [step(0, 4, ()), step(5, 7, ((1,),))])
    view.take(look_of(text, 9, 9))
    yield "a relation that isn't told anew", difference((view.at, view.rows), (7, ((1,),)))
    steps = view.take(look_of(text, 9, 12, romburik.Fault(10, 10, "oversize")))
    wanted = [step(9, 9, ()), step(10, 10, (), "oversize"), step(11, 11, ())]
    yield "a fault that is over", difference((steps, view.fault, view.at), (wanted, None, 11))


def columns_of_texts(_):
    """What the columns of a query are called, and which of them tell its rows apart."""
    known = {"s": ("k", "v"), "a.s": ("x", "y")}
    for text, names, keys in (
        ("ISTREAM(SELECT * FROM s [RANGE 2])", ("k", "v"), set()),
        ("SELECT * FROM s [PARTITION BY v ROWS 1], a.s [NOW] AS q", ("k", "v", "x", "y"), {1}),
        ("Select * From zz", None, set()),
        (
            "SELECT x.v + -1 AS w, k, SUM(v), COUNT(*) FROM a.s AS x GROUP BY k",
            ("w", "k", "SUM(v)", "COUNT(*)"),
            {1},
        ),
        ("SELECT v AS name, MAX(k) FROM s [NOW] GROUP BY s.v", ("name", "MAX(k)"), {0}),
        (
            "Select Istream(Distinct s.k, 'a, b' , v * (2 + 1)) From s, p",
            ("s.k", "'a, b'", "v * (2 + 1)"),
            set(),
        ),
        ("RSTREAM(SELECT k FROM s GROUP BY k UNION ALL SELECT v FROM s GROUP BY v)", ("k",), {0}),
    ):
        found = romburik.columns.names_of(text, known), romburik.columns.keys_of(text, known)
        yield f"the columns of {text}", difference(found, (names, keys))
    for values, wanted in (([], ""), ([3, 3], "\u2581\u2581"), ([-1, 6, 2], "\u2581\u2588\u2584")):
        yield f"bars of {values}", difference(romburik.tables.bars(values), wanted)


def interrupted(child):
    """How a program ends that is interrupted."""
    child.send_signal(signal.SIGINT)
    written, said = child.communicate(timeout=SECONDS)
    return Ended(child.returncode, said, written)


def watch_in_lines(program):
    """Each block once, as it becomes final, over a new start of the server; no cursor moves."""
    port = free_port()
    rows = STREAM, QUERY, put(5, 1), beat(8)
    with contextlib.ExitStack() as open_ones:
        with Server(program, TENANTS, port=port) as server, Caller(server, "a") as caller:
            for line in rows:
                caller.ask(line)
            child = started(port, "watch", "q")
            open_ones.enter_context(ending(child))
            yield "a block that is watched", difference(
                lines_of(child.stdout, 1), line_of(**block(5, 5, 1))
            )
            caller.send(put(9, 2), put(10, 3), beat(10))
            wanted = line_of(**block(9, 9, 2)) + line_of(**block(10, 10, 3))
            yield "more blocks that are watched", difference(lines_of(child.stdout, 2), wanted)
            for _ in range(3):
                caller.replies.readline()
            listing = json.loads(caller.ask(LIST))["queries"]
            yield "the cursor of a watched query", difference(listing[0]["next"], 0)
            wanted = told(11, block(5, 5, 1), block(9, 9, 2), block(10, 10, 3))
            yield "the consumer of a watched query", difference(caller.ask(FETCH), wanted)
        said = lines_of(child.stderr, 1)
        yield "a watch without a server", difference(said[:18], b"romburik: waiting:")
        with Server(program, TENANTS, port=port) as server, Caller(server, "a") as caller:
            for line in (*rows[:2], put(5, 7), beat(8)):
                caller.ask(line)
            wanted = line_of(**block(5, 5, 7))
            yield "a watch of a new server", difference(lines_of(child.stdout, 1), wanted)
            ended = interrupted(child)
            yield "a watch's end", difference((ended.status, ended.written), (130, b""))


FRAME = """\
q  RSTREAM(SELECT k, SUM(v) FROM s [RANGE 9] GROUP BY k)
at 8; final below 9, acknowledged below 0
k  SUM(v)
a       3  \u2588\u2588\u2581
b       7  \u2581\u2581
nothing is acknowledged; Ctrl-C ends
"""
FAULTY = b"at 9: FAULT overflow since 9; final below 10, acknowledged below 0"


def watch_at_a_terminal(program):
    """The newest state, with lines of last values; a fault and an overrun as what they are."""
    lines = (
        line_of(columns=[["k", "text"], ["v", "int"]], do="stream", name="s"),
        line_of(do="query", name="q", text="Select Rstream(k, Sum(v)) From s [Range 9] Group By k"),
        *(put(at, *row) for at, *row in ((1, "a", 5), (3, "b", 7), (5, "a", -2))),
        beat(8),
    )
    with Server(program, tenants("a", hold=5)) as server, Caller(server, "a") as caller:
        for line in lines:
            caller.ask(line)
        yield "a frame", difference(frame_of(server.port, "q"), FRAME)
        with watching(server.port, "q") as near:
            shown_until(near, b"Ctrl-C ends")
            caller.send(put(9, "a", GREATEST), put(9, "a", GREATEST), beat(9))
            seen = shown_until(near, FAULTY)
            yield "it is drawn over the one before", difference("\x1b[6A\r\x1b[J" in seen, True)
            caller.send(put(10, "b", 1), beat(10))
            shown_until(near, b"waiting: overrun (60): ")


def asked(address, path="", method="GET", host=None):
    """A page's reply: its status, its headers and its body."""
    parts = urllib.parse.urlsplit(address)
    connection = http.client.HTTPConnection(parts.hostname, parts.port, timeout=SECONDS)
    with contextlib.closing(connection):
        headers = {} if host is None else {"Host": host}
        connection.request(method, parts.path + path, headers=headers)
        reply = connection.getresponse()
        return reply.status, dict(reply.getheaders()), reply.read()


# ---- The page.


class Events:
    """The events of a page, as they come."""

    def __init__(self, address, query):
        self.reply = urllib.request.urlopen(f"{address}events?query={query}", timeout=SECONDS)

    def __enter__(self):
        return self

    def __exit__(self, *_):
        self.reply.close()

    def next(self, kind):
        """What the next event of a kind tells."""
        name = None
        for line in self.reply:
            word, _, rest = line.decode().rstrip("\n").partition(": ")
            name = rest if word == "event" else name
            if word == "data" and name == kind:
                return json.loads(rest)
        raise Stalled(f"the page tells no {kind} any more")


SECRET = "ksecrettenant"


def page_is_guarded(program):
    """Only GET, only by its own name, only with the token, and never with the key."""
    with Server(program, tenants(["secrettenant"]), callers=1) as server:
        with page(server.port, SECRET, "secrettenant") as address:
            status, headers, _ = asked(address)
            yield "a page", difference(status, 200)
            policy = headers["Content-Security-Policy"].split("; ")
            yield "a page's policy", difference(
                policy[:2], ["default-src 'none'", "script-src 'self'"]
            )
            yield "a page listens", difference(urllib.parse.urlsplit(address).hostname, "127.0.0.1")
            bodies = [asked(address, path)[2] for path in ("", "page.js", "page.css", "about")]
            yield "a page's key", difference(SECRET.encode() in b"".join(bodies), False)
            for method in "POST", "PUT", "DELETE", "HEAD", "OPTIONS":
                found = asked(address, method=method)[0]
                yield f"a page by {method}", difference(found, 501)
            wrong = address[:-4] + ("aaa/" if address[-4:] != "aaa/" else "bbb/")
            top = address.rsplit("/", 2)[0] + "/"
            for name, given in (
                ("another token", (wrong,)),
                ("no token", (top,)),
                ("events without a token", (top, "events?query=q")),
                ("events of no panels", (address, "events?panels=[1]")),
                ("no such file", (address, "romburik.py")),
                ("a file above", (address, "../page.py")),
                ("a file above in code", (address, "%2e%2e/page.py")),
                ("another host", (address, "", "GET", "romburik.example")),
            ):
                yield f"a page by {name}", difference(asked(*given)[0], 404)
            # the page's session is the one caller only while it is open
            with Caller(server, "secrettenant") as caller:
                yield "a caller beside a page", difference(caller.ask(LIST), EMPTY)


def page_keeps_its_address(program):
    """A token that a file keeps, which is its owner's alone."""
    with Server(program, TENANTS) as server, tempfile.TemporaryDirectory() as folder:
        path = pathlib.Path(folder, "token")
        found = []
        for _ in range(2):
            with page(server.port, "ka", "a", "--token-file", str(path)) as address:
                found.append(address.rsplit("/", 2)[1])
        yield "a token that is kept", difference(found[0], found[1])
        yield "who may read it", difference(path.stat().st_mode & 0o777, 0o600)
        path.chmod(0o644)
        ended = terminal(server.port, "page", "--listen", "0", "--token-file", str(path))
        said = b"others than its owner" in ended.said
        yield "a token that others may read", difference((ended.status, said), (2, True))


def page_is_live(program):
    """A query's table and points as rows come; a fault, and an overrun; and nothing is taken."""
    columns = line_of(columns=[["k", "text"], ["v", "int"]], do="stream", name="s")
    text = "Select Rstream(k, Sum(v)) From s [Range 9] Group By k"
    markup = "<img src=x onerror=alert(1)>"
    with Server(program, tenants("a", hold=4)) as server, Caller(server, "a") as caller:
        lines = columns, line_of(do="query", name="q", text=text), put(5, markup, 7), beat(6)
        for line in lines:
            caller.ask(line)
        with page(server.port, "ka") as address, Events(address, "q") as events:
            listing = events.next("listing")
            query = {
                "name": "q",
                "text": "RSTREAM(SELECT k, SUM(v) FROM s [RANGE 9] GROUP BY k)",
                "base": "0",
                "next": "0",
                "behind": "7",
                "state": None,
            }
            stream = {"name": "s", "open": "7", "columns": None}
            wanted = {"queries": [query], "readable": [], "streams": [stream]}
            yield "a page's listing", difference(listing, wanted)
            look = events.next("look")
            found = look["at"], look["names"], look["rows"], look["numeric"]
            wanted = "6", ["k", "SUM(v)"], [[markup, "7"]], [False, True]
            yield "a page's table", difference(found, wanted)
            wanted = {"0": {"1": [["5", "6", "7"]]}}, {"0": markup}, [[1, "SUM(v)"]], True
            found = look["history"], look["lines"], look["columns"], look["isNew"]
            yield "a page's points", difference(found, wanted)
            caller.send(put(7, "x", GREATEST), put(7, "x", 1), beat(7))
            look = events.next("look")
            while look["next"] != "8":
                look = events.next("look")
            found = look["at"], look["fault"], look["rows"], look["steps"][-1]["fault"]
            yield "a page's fault", difference(found, ("7", "overflow", [], "overflow"))
            for _ in range(3):
                caller.replies.readline()
            listing = json.loads(caller.ask(LIST))["queries"]
            yield "the cursor of a query on a page", difference(listing[0]["next"], 0)
            caller.send(put(8, "y", 1), put(8, "y", 1), beat(8))
            trouble = events.next("trouble")["text"]
            yield "a page's overrun", difference(trouble[:13], "overrun (60):")


# ---- Copies of queries.


def names_of_queries(it):
    return [query.name for query in it.list().queries]


def copies_see_all(program):
    """Beside a consumer that takes all at once, `watch --own` and a page miss no instant, and their
    copies are dropped at their ends."""
    with Server(program, WIDE) as server, session(server) as it:
        it.stream("s", {"v": "int"})
        it.query("q", "Select Istream(*) From s [Range 2]")
        child = started(server.port, "watch", "q", "--own")
        other = started(server.port, "watch", "q")
        served = page(server.port, "ka")
        with ending(child), ending(other), served as address, Events(address, "q") as events:
            wait_for(lambda: len(names_of_queries(it)) == 2)
            eager_consumer(it, range(20))
            wanted = b"".join(line_of(**block(at, at, at)) for at in range(20))
            yield "a watch by a copy", difference(lines_of(child.stdout, 20), wanted)
            seen = b""
            while b'"to":19}' not in seen:
                seen += lines_of(other.stdout, 1)
            instants = [json.loads(line)["from"] for line in seen.splitlines()]
            once = instants == sorted({*instants}) and len(instants) > 5
            yield "a watch that goes over to one", None if once else f"it has seen {instants}"
            interrupted(other)
            # the page goes over to a copy as soon as somebody acknowledges
            while events.next("look")["since"] is None:
                it.beat("s", it.list().streams[0].open)
                it.ack("q", it.fetch("q").next)
            first = it.list().streams[0].open
            eager_consumer(it, range(first, first + 20))
            seen = set()
            while len(seen) < 20:
                look = events.next("look")
                told = look["history"].values() if look["isNew"] else ()
                steps = [(step["first"], step["points"]) for step in look["steps"]]
                seen |= {point[0] for line in told for points in line.values() for point in points}
                seen |= {instant for instant, points in steps if points}
                seen -= {str(at) for at in range(first)}
            wanted = {str(at) for at in range(first, first + 20)}
            yield "a page by a copy", difference(seen, wanted)
            yield "queries beside copies", difference(len(names_of_queries(it)), 3)
            child.send_signal(signal.SIGTERM)
            yield "a watch that is ended", difference(child.wait(SECONDS), 130)
        wait_for(lambda: len(names_of_queries(it)) < 3)
        left = started(server.port, "watch", "q", "--own")
        with ending(left):
            before = {*names_of_queries(it)}
            wait_for(lambda: {*names_of_queries(it)} - before)
        killed = {*names_of_queries(it)} - {"q"}
        child = started(server.port, "watch", "q", "--own")
        with ending(child):
            wait_for(lambda: len({*names_of_queries(it)} & killed) == 0)
            wait_for(lambda: len(names_of_queries(it)) == 2)
            yield "copies of a killed watch", None
            interrupted(child)
        yield "queries behind all copies", difference(names_of_queries(it), ["q"])


def copies_on_a_new_server(program):
    """A looker that has gone over to a copy sees all of a server that was started anew."""
    port = free_port()
    with contextlib.ExitStack() as open_ones:
        looker = None
        for instants in (50, 3):
            with Server(program, TENANTS, port=port) as server, session(server) as it:
                it.stream("s", {"v": "int"})
                it.query("q", "Select Istream(*) From s [Now]")
                if looker is None:
                    other = open_ones.enter_context(session(server))
                    looker = romburik.ChoosingLooker(other, "q")
                other.connect()
                looker.look()
                seen = []
                for at in range(instants):
                    it.put("s", at, [at])
                    it.beat("s", at)
                    # of the first server the looker has seen much before it goes over
                    if at >= 40 or instants < 40:
                        it.ack("q", it.fetch("q").next)
                    look = looker.look()
                    seen += [block.first for block in look.blocks] if look else []
            yield f"a copy over {instants} instants", difference(seen[-2:], [instants - 2, instants - 1])


def copies_without_one_to_spare(program):
    """Where the quota of queries is used up the query itself is looked at, unless --own asks for
    more."""
    with Server(program, tenants("a", queries=1)) as server, session(server) as it:
        it.stream("s", {"v": "int"})
        it.query("q", "Select Istream(*) From s [Range 2]")
        eager_consumer(it, range(2))
        child = started(server.port, "watch", "q")
        with ending(child):
            it.put("s", 3, [3])
            it.beat("s", 3)
            wanted = line_of(**block(3, 3, 3))
            yield "a watch with no query to spare", difference(lines_of(child.stdout, 1), wanted)
        ended = terminal(server.port, "watch", "q", "--own")
        wanted = Ended(1, b"romburik: 55 TooManyQueries: the quota of queries is used up\n", b"")
        yield "a watch of its own without one", difference(ended, wanted)


# What a look at much may take, in seconds, at its first sight by the module, at a terminal and on the page.
MOST_OF_A_LOOK = 2


def least_of(times, look):
    """The least time of so many looks."""
    found = []
    for _ in range(times):
        start = time.monotonic()
        look()
        found.append(time.monotonic() - start)
    return min(found)


def first_on_page(address):
    """Waits until the page has told the first look at a query."""
    with Events(address, "q") as events:
        events.next("look")


def looks_are_bounded(program):
    """Of 10,000 keys and 1,000 instants a look takes a few instants, and goes on at the next one;
    by a copy that is made now all that comes is seen."""
    keys, instants = 10_000, 1000
    with Server(program, tenants("a", hold=65536, result=65536)) as server, session(server) as it:
        it.stream("s", {"k": "int", "v": "int"})
        it.query("q", "Select Rstream(k, Sum(v)) From s [Partition By k Rows 1] Group By k")
        it.put_many("s", ((0, [key, 1]) for key in range(keys)))
        it.put_many("s", ((at, [at, at]) for at in range(1, instants)))
        it.beat("s", instants)
        looker = romburik.Looker(it, "q")
        look = looker.look()
        rows = sum(len(block.rows) for block in look.blocks)
        found = keys <= rows <= 40 * keys, look.next < look.final == instants + 1
        yield "a look at much", difference(found, (True, True))
        yield "a look at no more of it", difference(looker.look(), None)
        shown = romburik.drawing.Shown()
        shown.take(look)
        drawing = shown.told(romburik.drawing.Choice(), True)
        found = len(drawing["lines"]), drawing["undrawn"], len(drawing["rows"]), drawing["count"]
        yield "what is drawn of much", difference(found, (24, keys - 24, 500, keys))
        greatest = romburik.drawing.Choice("greatest", "99")
        lines = shown.told(greatest, True)["lines"].values()
        yield "what is drawn by choice", difference({"99" in line for line in lines}, {True})
        own = romburik.ChoosingLooker(it, "q")
        yield "a look beside a copy", difference(own.look().since, None)
        it.put("s", instants + 1, [1, 7])
        it.beat("s", instants + 1)
        look = own.look()
        found = look.since, look.first, look.next, [block.rows for block in look.blocks]
        wanted = instants + 1, instants + 1, instants + 2, [((1, 7),)]
        yield "a look by a copy", difference(found, wanted)
        own.close()
        yield "a copy that is closed", difference(names_of_queries(it), ["q"])
        with page(server.port, "ka") as address:
            for name, seen in (
                ("by the module", lambda: romburik.Looker(it, "q").look()),
                ("at a terminal", lambda: frame_of(server.port, "q")),
                ("on the page", lambda: first_on_page(address)),
            ):
                taken = least_of(3, seen)
                yield f"the time of a look at much {name}", None if taken <= MOST_OF_A_LOOK else f"{taken:.1f} s"


def revoked_queries_stay_so(program):
    """A look at a query whose grant was taken back is refused, also where it is granted anew."""
    with Server(program, TENANTS) as server:
        with session(server) as owner, session(server, "b") as reader:
            owner.stream("s", {"v": "int"})
            owner.grant("s", "b")
            reader.query("q", "Select Rstream(*) From a.s [Range 2]")
            lookers = romburik.Looker(reader, "q"), romburik.OwnLooker(reader, "q")
            for looker in lookers:
                looker.look()
            owner.revoke("s", "b")
            owner.grant("s", "b")
            found = [refusal_of(looker.look)[2] for looker in lookers * 2]
            yield "looks at a revoked query", difference(found, [63] * 4)
            yield "the copy of a revoked query", difference(names_of_queries(reader), ["q"])


CHECKS = (
    looks_take_nothing,
    views_of_looks,
    columns_of_texts,
    watch_in_lines,
    watch_at_a_terminal,
    page_is_guarded,
    page_keeps_its_address,
    page_is_live,
    copies_see_all,
    copies_on_a_new_server,
    copies_without_one_to_spare,
    looks_are_bounded,
    revoked_queries_stay_so,
)
