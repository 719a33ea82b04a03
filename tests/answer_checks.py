"""What tests/server checks of answers that take longer than the word --answer lets them. Each check gives
pairs of a name and of what is wrong, or None. The time limit is a second, and two seconds more are allowed.
"""
import contextlib
import statistics
import time

from failing import under_failing
from served import (
    Caller,
    Ended,
    Server,
    audit,
    beat,
    block,
    difference,
    line_of,
    put,
    refused,
    tenants,
    told,
)
from spoken import EMPTY, LIST, SILENCE, standing
from wanted import are_wanting

LIMIT, MOST = 1, 3
# So long an answer may take beside which others are looked at, in seconds, and how many such there are at once.
BESIDE, ROUNDS = 5, 6
# Short answers beside long ones that are given up, how many callers wait for these for each worker, and the seconds
# that a short one may mostly take.
SHORT_ONES, WAITING, SOON = 20, 4, 0.1
# So many seconds a long reply is sent, and so many microseconds it is looked who has sent. Of so few rows a long answer
# takes some hundredths of a second.
SENDING, LOOK, FEW = 3, 1_500, 40
# How often a short answer is asked for beside a long one, behind some of few rows; for how many seconds one is waited
# for; and the pause in which all is quiet.
TIMES, FOR_GOOD, PAUSE = 40, 5, 0.008
ROWS = 1_000
TABLE = tenants("abc", hold=ROWS)
NO_MEMORY = refused(70, "NoMemory")

# For so long a tenant's answers are computed, in seconds, so that they have taken more than they may.
SPENDING = 0.2

# A join of three inputs without equal columns grows with the cube of its rows: of a thousand it takes 20 s
# and more. Of the rows at instant 1 none meet.
LONG = "Select Istream(x.v) From s [Range 5] x, s [Range 5] y, s [Range 5] z Where x.v < 0 Or y.v < 0 Or z.v < 0"
SHORT = "Select Istream(v) From t [Now]"
FETCH_LONG = line_of(do="fetch", name="long")
FETCH_SHORT = line_of(do="fetch", name="short")
MADE = (
    line_of(columns=[["v", "int"]], do="stream", name="s"),
    line_of(columns=[["v", "int"]], do="stream", name="t"),
    line_of(do="query", name="long", text=LONG),
    line_of(do="query", name="short", text=SHORT),
    *(put(1, number) for number in range(ROWS)),
    put(3, 7, stream="t"),
    beat(20),
    beat(20, stream="t"),
)
SHORT_TOLD = told(21, block(3, 3, 7))
# The rows of instant 1 are acknowledged, and one row comes that meets itself.
MADE_FEW = (line_of(do="ack", name="long", to=10), put(21, -1), beat(30))
FEW_TOLD = told(31, block(21, 21, -1))
# The lines of a session in `given_up`, without its login.
CALLS = len(MADE) + 2 + 1 + len(MADE_FEW) + 2

FORMS = (
    ("its worker's bench", {"warm": 0}),
    ("the bench that is lent", {"warm": 1}),
    ("plain operators", {"join": "plain", "warm": 0}),
)


def gives_up(caller):
    """What is wrong with a fetch that is to be given up."""
    start = time.monotonic()
    fault = difference(caller.ask(FETCH_LONG), NO_MEMORY)
    taken = time.monotonic() - start
    return fault or (None if LIMIT <= taken <= MOST else f"it takes {taken:.2f} s")


def given_up(program):
    """An answer that takes too long is given up, again and again, and the session and its bench go on."""
    for name, words in FORMS:
        with Server(program, TABLE, workers=1, sessions=1, audit=True, answer=LIMIT, **words) as server:
            with Caller(server, "a") as caller:
                caller.serve(MADE)
                yield f"a long answer by {name}", gives_up(caller)
                yield f"it once more by {name}", gives_up(caller)
                yield f"a short answer behind it by {name}", difference(caller.ask(FETCH_SHORT), SHORT_TOLD)
                caller.serve(MADE_FEW)
                yield f"the same query of few rows by {name}", difference(caller.ask(FETCH_LONG), FEW_TOLD)
                yield f"the short answer once more by {name}", difference(caller.ask(FETCH_SHORT), SHORT_TOLD)
            yield f"the audit of {name}", difference(server.end(), Ended(0, b"", audit(CALLS)))


def others_go_on(program):
    """Beside answers that are given up other callers' answers aren't."""
    with Server(program, TABLE, workers=3, warm=2, answer=LIMIT) as server, contextlib.ExitStack() as open_ones:
        late, other = (open_ones.enter_context(Caller(server, name)) for name in "ab")
        late.serve(MADE)
        other.serve(line for line in MADE if b'"put"' not in line)
        other.serve([put(21, 7, stream="t"), beat(22, stream="t")])
        late.send(FETCH_LONG, FETCH_LONG)
        time.sleep(LIMIT / 4)
        replies, early, end = set(), 0, time.monotonic() + 2 * LIMIT
        while time.monotonic() < end:
            replies.add(other.ask(FETCH_SHORT))
            early += late.is_silent(0)
        yield "short answers beside long ones", difference(replies, {told(23, block(21, 21, 7))})
        yield "short answers before the first long one's end", None if early else "there is none"
        found = [late.replies.readline() for _ in range(2)]
        yield "long answers beside short ones", difference(found, 2 * [NO_MEMORY])


def to_its_end(program):
    """At 0 no answer is given up."""
    with Server(program, TABLE, workers=1, answer=0) as server, Caller(server, "a") as caller:
        caller.serve(MADE)
        caller.send(FETCH_LONG)
        yield "a long answer without a limit", None if caller.is_silent(MOST) else "it is told"


def lines_go_on(program):
    """Beside long answers others' lines are answered, by one worker and by many; also where all come at once, and
    where none is left that computes: the last long answer is another tenant's."""
    for workers in (1, ROUNDS):
        with Server(program, TABLE, workers=workers, answer=BESIDE) as server, contextlib.ExitStack() as open_ones:
            for tenant in "ac":
                with Caller(server, tenant) as caller:
                    caller.serve(MADE)
            others = [open_ones.enter_context(Caller(server, "b")) for _ in range(3)]
            for tenant in "a" * workers + "c":
                late = open_ones.enter_context(Caller(server, tenant))
                with standing(server):
                    late.send(FETCH_LONG)
                    for other in others:
                        other.send(LIST)
                found = [other.replies.readline() for other in others]
                name = f"beside long answers by {workers} workers"
                yield f"lists {name}", difference(found, [EMPTY] * 3)
                yield f"what comes first {name}", None if late.is_silent(0) else "the long answer"


def short_ones_go_on(program):
    """While many long answers of one tenant wait, another one's short ones have a thread, by one worker and by many."""
    for workers in (1, 4):
        with Server(program, TABLE, workers=workers, answer=LIMIT) as server, contextlib.ExitStack() as open_ones:
            with Caller(server, "a") as caller:
                caller.serve(MADE)
            other = open_ones.enter_context(Caller(server, "b"))
            other.serve(MADE)
            late = [open_ones.enter_context(Caller(server, "a")) for _ in range(WAITING * workers)]
            for caller in late:
                caller.send(*[FETCH_LONG] * SHORT_ONES)
            time.sleep(LIMIT / 4)
            replies, taken = set(), []
            for _ in range(SHORT_ONES):
                start = time.monotonic()
                replies.add(other.ask(FETCH_SHORT))
                taken.append(time.monotonic() - start)
                time.sleep(LIMIT / SHORT_ONES)
            name = f"short ones beside waiting long ones of {workers} workers"
            yield name, difference(replies, {SHORT_TOLD})
            mostly = statistics.median(taken)
            yield f"the time of {name}", None if mostly <= SOON else f"mostly {mostly:.3f} s"


def each_has_its_time(program):
    """An answer is given up by its own time, and not by that of one before it that had its bench."""
    chosen = line_of(do="query", name="chosen", text="Select Istream(v) From t [Now] Where v > 0")
    with Server(program, TABLE, workers=4, warm=1, answer=LIMIT) as server, Caller(server, "a") as caller:
        caller.serve([MADE[1], chosen, *MADE[:1], *MADE[2:]])
        for _ in range(12):
            reply = caller.ask(line_of(do="fetch", name="chosen"))
            yield "a short answer by one of four", difference(reply, SHORT_TOLD)
            # the next one is another worker's
            time.sleep(0.01)
        time.sleep(LIMIT)
        yield "a long answer by the bench of the short ones", gives_up(caller)


# The lines of MADE with few rows.
MADE_SMALL = (*MADE[:4], *(put(1, number) for number in range(FEW)), *MADE[-3:])
SMALL_TOLD = told(21)
# A bench is lent for what is computed here, and the reply is long.
TEXT = "x" * 2_000
MADE_TEXT = (
    line_of(columns=[["v", "int"], ["w", "text"]], do="stream", name="s"),
    line_of(do="query", name="text", text="Select Istream(w) From s [Now] Where v > 0"),
    put(3, 7, TEXT),
    beat(20),
)
FETCH_TEXT, TEXT_TOLD = line_of(do="fetch", name="text"), told(21, block(3, 3, TEXT))


def benches_are_lent_on(program):
    """While a reply is sent, which takes longer than an answer may, the bench that has computed it computes another
    caller's answers, and none of these is given up."""
    name = "beside a reply that takes long to send"
    if are_wanting(f"answers {name}", "gcc"):
        return
    with under_failing(LONG_SEND_LASTS=SENDING * 1_000_000) as under:
        with Server(program, TABLE, under, workers=4, warm=1, answer=LIMIT) as server:
            with Caller(server, "a") as slow, Caller(server, "b") as other:
                slow.serve(MADE_TEXT)
                other.serve(MADE_SMALL)
                start, replies = time.monotonic(), set()
                slow.send(FETCH_TEXT)
                time.sleep(SILENCE)
                while slow.is_silent(0) and time.monotonic() < start + 10 * SENDING:
                    replies.add(other.ask(FETCH_LONG))
                taken = time.monotonic() - start
                yield f"answers {name}", difference(replies, {SMALL_TOLD})
                yield "the time of such a reply", None if taken >= SENDING else f"{taken:.2f} s"
                yield "such a reply", difference(slow.replies.readline(), TEXT_TOLD)


def beside_a_long_one(server, small, short):
    """What is wrong with a short answer that is asked for right behind a long one, where some of few rows were
    computed before."""
    long = Caller(server, "a")
    time.sleep(PAUSE)
    with standing(server):
        for caller in small:
            caller.send(FETCH_LONG, LIST)
    for caller in small:
        if fault := difference(caller.replies.readline(), SMALL_TOLD):
            return fault
        caller.replies.readline()
    time.sleep(PAUSE)
    long.send(FETCH_LONG)
    short.send(FETCH_SHORT)
    if short.is_silent(FOR_GOOD):
        return f"it isn't told in {FOR_GOOD} s"
    fault = difference(short.replies.readline(), SHORT_TOLD)
    early = None if long.is_silent(0) else "the long one is told first"
    long.reset()
    return fault or early


def whoever_is_free_computes(program):
    """An answer that waits is computed as soon as somebody is free, whoever looks meanwhile who else has sent. Of many
    tenants one asks behind another, so that the answers of none take much."""
    name = "short answers right behind long ones"
    if are_wanting(name, "gcc"):
        return
    names = "bcdefghijklm", "nopqrstuvwxyz"
    with under_failing(LOOK_LASTS=LOOK) as under, contextlib.ExitStack() as open_ones:
        table = tenants("a" + "".join(names), hold=ROWS)
        server = open_ones.enter_context(Server(program, table, under, workers=1, answer=0))
        with Caller(server, "a") as caller:
            caller.serve(MADE)
        small, short = ([open_ones.enter_context(Caller(server, tenant)) for tenant in it] for it in names)
        for caller in (*small, *short):
            caller.serve(MADE_SMALL)
        for turn in range(TIMES):
            three = [small[(3 * turn + at) % len(small)] for at in range(3)]
            if fault := beside_a_long_one(server, three, short[turn % len(short)]):
                break
        yield name, fault


def what_counts_no_longer(program):
    """Once what a tenant's answers took no longer counts, its next one is begun beside a long one, though nobody
    sends anything meanwhile."""
    with Server(program, TABLE, workers=1, answer=0) as server:
        with Caller(server, "a") as long, Caller(server, "b") as other:
            long.serve(MADE)
            other.serve(MADE_SMALL)
            end = time.monotonic() + SPENDING
            while time.monotonic() < end:
                other.ask(FETCH_LONG)
            long.send(FETCH_LONG)
            time.sleep(SILENCE)
            other.send(FETCH_SHORT)
            name = "a short answer whose tenant's answers took some time"
            yield name, None if not other.is_silent(FOR_GOOD) else f"it isn't told in {FOR_GOOD} s"
            yield "the long one beside it", None if long.is_silent(0) else "it is told first"


CHECKS = (
    given_up,
    others_go_on,
    to_its_end,
    lines_go_on,
    short_ones_go_on,
    each_has_its_time,
    benches_are_lent_on,
    whoever_is_free_computes,
    what_counts_no_longer,
)
