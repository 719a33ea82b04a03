"""Checks of tests/memory over the built cqld: that no want of memory is told of many rows, how many requests
for memory a row makes, how many bytes an answer has at once for each, that a login which finds none is told so,
that none is asked for behind an answer which its caller takes late, and that what an answer took is given back
to the system.
"""
import collections
import concurrent.futures
import contextlib
import os
import re
import time

from counted import beats, put
from served import DONE, Caller, Server, line_of, login, refused, tenants

COLUMNS = [["k", "int"], ["g", "int"], ["v", "int"]]
TABLE = tenants("a", queries=64, hold=65536, result=65536)
NO_MEMORY = refused(70, "NoMemory")
FETCH = line_of(do="fetch", name="q")
DROP = line_of(do="drop", name="q")
FORMS = "keyed", "plain"

# A text over streams, the rows of each, all of the first instant but where they stand `apart`, and the rows
# that are told; or None where there are too many.
Large = collections.namedtuple("Large", "name text s p told apart", defaults=(False,))
GROUPED = "Select Istream(x.k, Count(*)) From s x, p y Where x.k = y.k Group By x.k"
LARGE = (
    Large("1,500 rows of one value", GROUPED, [(7, 0, it) for it in range(1_500)], [(7, 0, 0)], [[7, 1_500]]),
    Large("1,500 equal rows", GROUPED, [(7, 0, 0)] * 1_500, [(7, 0, 0)], [[7, 1_500]]),
    Large("3,000 rows of a port", GROUPED, [(it, 0, 0) for it in range(3_000)], [(5, 0, 0)], [[5, 1]]),
    Large(
        "4,000 groups",
        "Select Istream(k, Count(*), Min(v)) From s Group By k",
        [(it, 0, 2 * it) for it in range(4_000)],
        [],
        [[it, 1, 2 * it] for it in range(4_000)],
    ),
    Large(
        "6,000 rows of a group",
        "Select Istream(g, Count(*), Sum(v), Min(v), Max(v)) From s Group By g",
        [(it, 3, it) for it in range(6_000)],
        [],
        [[3, 6_000, 17_997_000, 0, 5_999]],
    ),
    Large(
        "7,000 rows beside a fault",
        "Select Istream(x.v) From s x, p y Where x.k < y.k",
        [(it, 0, 0) for it in range(7_000)],
        [(7_000, 0, it) for it in range(10)],
        None,
    ),
    Large(
        "65,000 parts",
        "Select Istream(Count(*), Sum(v)) From s [Partition By k Rows 1]",
        [(it, 0, 1) for it in range(65_000)],
        [],
        [[65_000, 65_000]],
    ),
    Large(
        "12,000 rows of a part",
        "Select Istream(Count(*), Min(v)) From s [Partition By g Rows 12000]",
        [(0, 1, it) for it in range(12_500)],
        [],
        [[12_000, 500]],
    ),
    Large(
        "65,535 blocks",
        "Select Istream(v) From s",
        [(0, 0, it) for it in range(65_535)],
        [],
        [[it] for it in range(65_535)],
        True,
    ),
)


def made(streams):
    return (line_of(columns=COLUMNS, do="stream", name=name) for name in streams)


def query(text, name="q"):
    return line_of(do="query", name=name, text=text)


def told(large):
    """The reply to the fetch of all."""
    if large.told is None:
        return line_of(blocks=[{"fault": "oversize", "from": 0, "to": 0}], next=1)
    last = len(large.s) - 1 if large.apart else 0
    runs = [[at, [row]] for at, row in enumerate(large.told)] if large.apart else [[0, large.told]]
    return line_of(blocks=[{"from": at, "rows": rows, "to": at} for at, rows in runs], next=last + 1)


def many(program):
    """Rows, groups, parts and blocks by the thousand are answered and acknowledged, and one more row behind them."""
    for form in FORMS:
        for large in LARGE:
            last = len(large.s) - 1 if large.apart else 0
            with Server(program, TABLE, workers=1, join=form) as server, Caller(server, "a") as caller:
                caller.serve([*made("sp"), query(large.text)])
                caller.serve(put(at if large.apart else 0, "s", *row) for at, row in enumerate(large.s))
                caller.serve([*(put(0, "p", *row) for row in large.p), *beats("sp", last)])
                reply = caller.ask(FETCH)
                yield f"{large.name}, {form}", None if reply == told(large) else f"{reply[:200]!r}"
                more = [put(last + 1, "s", *large.s[0]), *beats("sp", last + 1)]
                caller.serve([line_of(do="ack", name="q", to=last + 1), *more])
                reply = caller.ask(FETCH)
                right = reply.endswith(b'"next":%d}\n' % (last + 2))
                yield f"{large.name}, {form}, and one more", None if right else f"{reply[:200]!r}"
                reply = caller.ask(line_of(do="ack", name="q", to=last + 2))
                yield f"{large.name}, {form}, and its ack", None if reply == DONE else f"{reply[:200]!r}"


# ---- Requests for memory.

FEW, MANY = 1_000, 3_000
# A put of a row and its part in the fetch make so many requests, and a tenth more are too many.
REQUESTS = (
    ("a linear query", "s", "Select Istream(*) From s [Range 100]", 6.1),
    ("a sliding group", "s", "Select Istream(g, Count(*), Sum(v)) From s [Range 100] Group By g", 10.1),
    ("a sliding join", "sp", "Select Istream(x.v, y.g) From s [Range 100] x, p [Range 100] y Where x.v = y.v", 8.3),
    ("distinct rows", "s", "Istream(Select Distinct v From s [Range 100])", 8.4),
)
MOST = 1.1
READERS = 64


def counted(program, library, lines, name="requests"):
    """What the counter tells of a server of one session: how many requests for memory it makes."""
    under = "env", f"LD_PRELOAD={library}"
    with Server(program, TABLE, under, workers=1, sessions=1) as server:
        with Caller(server, "a") as caller:
            caller.serve(lines)
            caller.rest()
        ended = server.end()
    return int(re.findall(rb"^%b (\d+)$" % name.encode(), ended.said, re.MULTILINE)[-1])


def of_rows(streams, rows, queries, fetches):
    """The lines of a session of some queries, of which the first are fetched."""
    yield from made(streams)
    for number, text in enumerate(queries):
        yield query(text, f"q{number}")
    for at in range(rows):
        for name in streams:
            yield put(at, name, at % 7, at % 5, at)
    yield from beats(streams, rows - 1)
    for number in range(fetches):
        yield line_of(do="fetch", name=f"q{number}")


def each_row(program, library, streams, queries, fetches):
    """How many requests each row more makes."""
    few, more = (
        counted(program, library, of_rows(streams, rows, queries, fetches)) for rows in (FEW, MANY)
    )
    return (more - few) / (MANY - FEW) / len(streams)


def rows_are_shared(program, library):
    """A row makes no more requests than it did, and as many behind many readers as behind one."""
    for name, streams, text, most in REQUESTS:
        found = each_row(program, library, streams, [text], 1)
        wrong = f"{found:.2f} requests a row, and not {most}"
        yield f"requests of {name}", None if found <= most * MOST else wrong
    one, all_of_them = (each_row(program, library, "s", ["Select * From s"] * it, 0) for it in (1, READERS))
    same = abs(all_of_them - one) < 0.05
    yield f"requests of a put behind {READERS} readers", None if same else f"{one:.2f} and {all_of_them:.2f}"


# Answers that tell nothing, or one row at first; those of parts leave in another order than they came. So
# many bytes a row has at once, as measured, most of them in the store, and a tenth more are too many. It is
# measured between so many rows, since a turn beside another takes some 270 KB more while it lasts.
LET_GO_ROWS = 1_000, 41_000
LET_GO = (
    (
        "a sliding join of values that come once",
        "sp",
        "Select Istream(x.v) From s [Range 100] x, p [Range 100] y Where x.v = y.v And x.k > y.k",
        170,
    ),
    (
        "items over rows that leave in another order",
        "s",
        "Istream(Select Distinct 0 * v From s [Partition By k Rows 1])",
        252,
    ),
)


def of_values(streams, rows, text):
    """The lines of a session of one query. Each value comes once, and some keys twice as often as others."""
    yield from made(streams)
    yield query(text)
    for at in range(rows):
        for name in streams:
            yield put(at, name, at * at % 7, 0, at)
    yield from beats(streams, rows - 1)
    yield FETCH


def rows_are_let_go(program, library):
    """An answer keeps nothing of a row that has left its window."""
    few_rows, many_rows = LET_GO_ROWS
    for name, streams, text, most in LET_GO:
        few, more = (
            counted(program, library, of_values(streams, rows, text), "most") for rows in LET_GO_ROWS
        )
        found = (more - few) / (many_rows - few_rows) / len(streams)
        wrong = f"{found:.0f} bytes a row at once, and not {most}"
        yield f"bytes at once of {name}", None if found <= most * MOST else wrong


# So many requests at the end of a session of a login alone are refused, one in each run; some are of that.
LAST = 100


def login_without(program, library, number):
    """What a caller is told who logs in where one request for memory is refused; nothing where the server
    doesn't begin, or lets nobody in."""
    under = "env", f"LD_PRELOAD={library}", f"REFUSED={number}"
    with contextlib.suppress(OSError):
        with Server(program, TABLE, under, workers=1, sessions=1) as server, Caller(server) as caller:
            return caller.ask(login("a"))
    return b""


def logins(program, library):
    """A login for which there is no memory is told so."""
    all_of_them = counted(program, library, [])
    numbers = range(max(1, all_of_them - LAST), all_of_them + 1)
    with concurrent.futures.ThreadPoolExecutor(os.cpu_count()) as pool:
        told_them = set(pool.map(lambda it: login_without(program, library, it), numbers))
    right = NO_MEMORY in told_them and told_them <= {DONE, NO_MEMORY, b""}
    yield "logins without one request", None if right else f"{told_them}"


# ---- Replies that are taken late.

# So many rows of a text of few or many bytes, and how often a reply has each. The longer reply has some 440 pieces
# of 64 KiB, the shorter one five: one request a piece more would be seen.
LATE_ROWS, FEW_BYTES, MANY_BYTES, LATE_TIMES, MOST_MORE = 24, 8, 1_000, 1_200, 100
# The replies to which each request is refused in turn have so many copies of each text.
FEWER_TIMES = 100
# So many queries whose texts name a column so often stand in a list of some 390 KB.
LISTED, LISTED_TIMES = 64, 2_030
# What a caller has the system hold for him, and for how long he takes nothing.
WINDOW, LATE = 4096, 0.1


def late_text(at, size):
    return f"{at:0{size}}"


def late_fetch(size, times):
    """The lines of a query that tells each row's text so often, a fetch of it, and the fetch's reply."""
    rows = [(at, late_text(at, size)) for at in range(LATE_ROWS)]
    lines = [
        line_of(columns=[["t", "text"]], do="stream", name="s"),
        query(f"Istream(Select {','.join(['t'] * times)} From s)"),
        *(line_of(at=at, do="put", row=[text], stream="s") for at, text in rows),
        line_of(at=LATE_ROWS - 1, do="beat", stream="s"),
    ]
    blocks = [{"from": at, "rows": [[text] * times], "to": at} for at, text in rows]
    return lines, FETCH, line_of(blocks=blocks, next=LATE_ROWS)


def late_list():
    """The lines of queries of long texts, a list of them, and its reply."""
    columns, names = ["a"] * LISTED_TIMES, [f"q{it}" for it in range(LISTED)]
    text = f"Istream(Select {','.join(columns)} From s)"
    lines = [line_of(columns=[["a", "int"]], do="stream", name="s"), *(query(text, name) for name in names)]
    told_text = f"ISTREAM(SELECT {', '.join(columns)} FROM s [RANGE UNBOUNDED])"
    queries = [{"base": 0, "name": name, "next": 0, "text": told_text} for name in names]
    reply = line_of(queries=queries, readable=[], streams=[{"name": "s", "open": 0}])
    return lines, line_of(do="list"), reply


def taken_late(program, library, lines, last, number=0):
    """The reply to the last line of a caller who begins late to take it, and how many requests were made in
    all, of which one may be refused. Nothing where the server doesn't begin, or the session ends before."""
    under = "env", f"LD_PRELOAD={library}", f"REFUSED={number}"
    with contextlib.suppress(OSError):
        with Server(program, TABLE, under, workers=1, sessions=1) as server:
            with Caller(server, "a", window=WINDOW) as caller:
                caller.serve(lines)
                caller.send(last)
                time.sleep(LATE)
                reply = caller.replies.readline()
                caller.rest()
            said = server.end().said
        return reply, int(re.findall(rb"^requests (\d+)$", said, re.MULTILINE)[-1])
    return b"", 0


def replies_taken_late(program, library):
    """Behind an answer that was made no memory is asked for, however long its caller lets it wait: whichever one
    request is refused, he is told the whole of it, or 70 in its place."""
    found = []
    for size in (FEW_BYTES, MANY_BYTES):
        lines, last, wanted = late_fetch(size, LATE_TIMES)
        reply, requests = taken_late(program, library, lines, last)
        yield f"a reply of {len(wanted)} bytes that is taken late", None if reply == wanted else f"{len(reply)} bytes"
        found.append(requests)
    few, many = found
    same = many - few <= MOST_MORE
    yield "requests of a short and of a long reply that are taken late", None if same else f"{few} and {many}"
    for name, (lines, last, wanted) in (
        ("a fetch", late_fetch(MANY_BYTES, FEWER_TIMES)),
        ("a list", late_list()),
    ):
        reply, requests = taken_late(program, library, lines, last)
        yield f"{name} that is taken late", None if reply == wanted else f"{reply[:200]!r}"
        numbers = range(max(1, requests - LAST), requests + 1)
        with concurrent.futures.ThreadPoolExecutor(os.cpu_count()) as pool:
            ends = pool.map(lambda it: taken_late(program, library, lines, last, it)[0], numbers)
            wrong = [it for it, reply in zip(numbers, ends) if reply not in (wanted, NO_MEMORY, b"")]
        yield f"{name} that is taken late without one request", None if not wrong else f"without request {wrong}"


# ---- What is given back.

# With this no thread keeps pieces for itself of what it lets go, and free pieces are joined at once: what is
# free at the end of an area of memory can go back to the system.
SETTING = "GLIBC_TUNABLES", "glibc.malloc.tcache_count=0:glibc.malloc.mxfast=0"
# Of each worker.
MOST_LEFT = 4 << 20
# So much has to have been taken for a check to say anything.
LEAST_TAKEN = 5 << 20
ROWS = 7_000
# By when a bench that nobody used is let go of.
SWEPT = 58
EQUAL = " And ".join(["x.k = y.k", "x.v = y.v", "x.k >= y.v", "y.k >= x.v"])
JOIN = f"Select Istream(x.v, y.g) From s x, p y Where {EQUAL}"
GROUPS = "Select Istream(k, Count(*), Sum(v), Min(v), Max(v)) From s Group By k"
SET = "Istream(Select Distinct k, v From s Union All Select v, k From p)"
OTHER = "Select Istream(v) From u"
WORKERS, SESSIONS = 16, 64


class Answered:
    """Sessions, each of which puts rows, fetches and drops its query, on a server with the setting."""

    def __init__(self, program, **words):
        self.program, self.words = program, words
        self.at = 0

    def __enter__(self):
        under = "env", "=".join(SETTING)
        self.server = Server(self.program, TABLE, under, **self.words)
        with Caller(self.server, "a") as caller:
            caller.serve([*made("spu"), query(OTHER, "other")])
        self.before = self.server.memory()
        return self

    def __exit__(self, *_):
        self.server.__exit__()

    def fetch(self, caller, name):
        reply = caller.ask(line_of(do="fetch", name=name))
        if not reply.endswith(b'"next":%d}\n' % (self.at + 1)):
            raise OSError(f"a fetch of {name} is answered {reply[:200]!r}")

    def session(self, text):
        """One that is answered; its rows are then let go."""
        with Caller(self.server, "a") as caller:
            caller.serve([query(text)])
            caller.serve(put(self.at, name, it, it % 5, it) for it in range(ROWS) for name in "sp")
            caller.serve(beats("spu", self.at))
            self.fetch(caller, "q")
            # rows that nobody needs go a few at a time, by calls
            caller.serve([DROP, *[line_of(do="list")] * 100])
        self.at += 1

    def left(self, name, most=MOST_LEFT):
        """What is wrong with what the process has more than before."""
        grown, peak = (it - self.before for it in (self.server.memory(), self.server.peak()))
        yield f"{name}: what was taken", None if peak >= LEAST_TAKEN else f"{peak:,} bytes"
        yield f"{name}: what is left", None if grown <= most else f"{grown:,} of {peak:,} bytes"


def given_back(program):
    """What an answer took is given back once its query is dropped."""
    for name, text in (("a join", JOIN), ("groups", GROUPS), ("DISTINCT and UNION", SET)):
        with Answered(program, workers=1, warm=0) as answered:
            answered.session(text)
            yield from answered.left(name)
    with Answered(program, workers=WORKERS, warm=0) as answered:
        for number in range(SESSIONS):
            answered.session((JOIN, GROUPS, SET)[number % 3])
        yield from answered.left(f"{SESSIONS} sessions on {WORKERS} workers", MOST_LEFT * WORKERS)
    with Answered(program, workers=1) as answered:
        answered.session(JOIN)
        time.sleep(SWEPT)
        yield from answered.left("a join whose bench nobody used for a minute")
