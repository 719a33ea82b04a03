"""What tests/server checks of places, of callers who have gone and of the log: that no tenant's callers, no
stranger, nobody who has gone and nobody who doesn't read the log keeps others out. Each check gives pairs of a
name and of what is wrong, or None.
"""
import collections
import contextlib
import json
import select
import socket
import time

from answer_checks import FETCH_LONG, MADE, NO_MEMORY, TABLE
from caller_checks import calms_down
from served import DONE, Caller, Server, difference, line_of, login, put, unstamped
from spoken import (
    EMPTY,
    FETCH_ALL,
    LIST,
    STREAM,
    TENANTS,
    WIDE,
    WRONG_KEY,
    conversation,
    filled,
    files_of,
    served_in,
    sessions_of,
    stream_open_at,
    told_of_all,
)

TICK = 1
# Callers of one tenant, and the places that there are; of two tenants each has a quarter of its own.
MANY, PLACES = 300, 300
# Places of two tenants, of which each has a quarter of its own, beside as many strangers.
BESIDE = 40
# Connections of strangers, and the places that there are.
STRANGERS, FEW_PLACES = 3_000, 200
# Callers who ask for a long answer and go at once, and in how many seconds nothing is left of them.
GOERS, FREED = 98, 0.2
# Callers who leave more than is held for a tenant's, and how many take their replies late beside them.
HELD_BY, LATE_ONES = 4, 3
# Sessions that tell the log more than waits for who reads it.
TOLD = 3_200
# Logins that are refused with so many bytes behind them.
REFUSED, BEHIND = 200, (0, 1, 9_000, 200_000)


# ---- Places.


def within(seconds, condition):
    """Whether a condition comes to hold in so long."""
    end = time.monotonic() + seconds
    while not (holds := condition()) and time.monotonic() < end:
        time.sleep(0.01)
    return holds


def a_tenant_of_many_callers(program):
    """One tenant's callers take all places but those of others."""
    with Server(program, TENANTS, callers=PLACES, log=1) as server, contextlib.ExitStack() as open_ones:
        many = [open_ones.enter_context(Caller(server)) for _ in range(PLACES // 2)]
        told = collections.Counter(caller.ask(login("a")) for caller in many)
        yield "logins of one tenant", difference(told, {DONE: PLACES // 2})
        many += [open_ones.enter_context(Caller(server)) for _ in range(MANY - len(many))]
        later = collections.Counter(logged_in(caller) for caller in many[PLACES // 2 :])
        yield "its later logins", difference(later, {DONE + EMPTY: PLACES // 4, NO_MEMORY: PLACES // 4})
        time.sleep(0.2)
        stay = sum(caller.is_silent(0) for caller in many)
        yield "who stays of them", difference(stay, PLACES - PLACES // 4)
        for _ in range(3):
            yield "another tenant beside them", served_in(server, TICK, "b")
        with contextlib.ExitStack() as others:
            own = sessions_of(others, server, PLACES // 4, "b")
            found = [caller.ask(LIST) for caller in own]
            yield "as many as are another tenant's own", difference(found, [EMPTY] * len(own))
        stays = [caller for caller in many if caller.is_silent(0)]
        found = collections.Counter(caller.ask(LIST) for caller in stays)
        yield "those who stay", difference(found, {EMPTY: len(stays)})
        stays[0].rest()
        yield "a caller of theirs behind one who left", None if within(TICK, lambda: comes_in(server)) else "none"
        lines = [unstamped(line) for line in told_so_far(server)]
        places = sum(it == {"ended": "a", "why": "places"} for it in lines)
        yield "what is told of who is above", difference(places, PLACES // 4)


def comes_in(server):
    """Whether one more caller of the tenant has a place."""
    with Caller(server) as caller:
        return caller.ask(login("a")) == DONE


def logged_in(caller):
    """What a caller is told who logs in with a line behind that, and who makes a stream where he has no place."""
    caller.send(login("a"), LIST)
    first = caller.replies.readline()
    if first == DONE:
        return first + caller.replies.readline()
    with contextlib.suppress(BrokenPipeError, ConnectionResetError):
        caller.send(STREAM)
    return first + caller.rest()


def strangers_take_no_tenants_place(program):
    """Who hasn't logged in counts for no tenant; and where all places are taken he lets in who comes."""
    with Server(program, TENANTS, callers=BESIDE) as server, contextlib.ExitStack() as open_ones:
        strangers = sessions_of(open_ones, server, BESIDE // 4)
        told = collections.Counter()
        for _ in range(3 * BESIDE // 4):
            told[open_ones.enter_context(Caller(server)).ask(login("a"))] += 1
        yield "one tenant beside strangers", difference(told, {DONE: 3 * BESIDE // 4})
        yield "who hasn't logged in", difference(sum(it.is_silent(0.05) for it in strangers), BESIDE // 4)
        for _ in range(3):
            yield "another tenant beside both", served_in(server, TICK, "b")


def told_so_far(server):
    """The lines that a server has told, up to a moment in which nothing comes."""
    source, lines = server.child.stderr, b""
    while select.select([source], [], [], 0.3)[0]:
        some = source.read1(1 << 16)
        if not some:
            break
        lines += some
    return lines.splitlines()


def strangers_keep_nobody_out(program):
    """Beside thousands who connect and say nothing a caller comes in."""
    with Server(program, TENANTS, callers=FEW_PLACES) as server, contextlib.ExitStack() as open_ones:
        there = open_ones.enter_context(Caller(server, "b"))
        for _ in range(STRANGERS):
            stranger = open_ones.enter_context(socket.socket())
            stranger.setblocking(False)
            stranger.connect_ex(("127.0.0.1", server.port))
        for _ in range(3):
            yield "a caller beside strangers", served_in(server, 5 * TICK)
            yield "one who is there", conversation(there, (LIST, EMPTY))


# ---- Callers who have gone.


def goers_free_their_places(program):
    """Who asks for a long answer and resets the connection is gone: his place is free, and nobody computes for
    him."""
    with Server(program, TABLE, workers=4, answer=0) as server, Caller(server, "a") as maker:
        maker.serve(MADE)
        files = files_of(server)
        for name in ("at once", "when it is begun"):
            goers = [Caller(server, "a") for _ in range(GOERS)]
            for goer in goers:
                goer.send(FETCH_LONG)
            if name != "at once":
                time.sleep(0.5)
            for goer in goers:
                goer.reset()
            free = within(FREED, lambda: files_of(server) == files)
            yield f"places of those who go {name}", None if free else f"{files_of(server) - files} are taken"
            before = server.processor_time()
            time.sleep(TICK)
            taken = server.processor_time() - before
            yield f"what is computed for those who go {name}", None if taken < 0.1 else f"{taken:.2f} s of a second"
            yield f"lines behind those who go {name}", conversation(maker, (LIST, maker.ask(LIST)))


def what_was_whole_stays(program):
    """Of who puts, is told, and goes, the row stays; of the fetch that waits for him nothing is begun."""
    with Server(program, TABLE, workers=1, answer=0) as server, Caller(server, "a") as maker:
        maker.serve(MADE)
        goer = Caller(server, "b")
        yield "lines of one who goes", conversation(goer, (STREAM, DONE), (put(5, 1), DONE))
        goer.send(put(6, 1), FETCH_LONG)
        yield "a line before a fetch", difference(goer.replies.readline(), DONE)
        goer.reset()
        with Caller(server, "b") as caller:
            yield "what stays of him", conversation(caller, (LIST, stream_open_at(6)))


# ---- Callers who don't take their replies.


def who_is_deaf_for_long_goes(program):
    """Where a tenant's callers leave too much untaken, a caller who takes his reply a moment later stays, and the
    one goes who has taken nothing for the longest."""
    with Server(program, WIDE, workers=2) as server, contextlib.ExitStack() as open_ones:
        yield "rows for deaf callers", filled(server)
        deaf = [open_ones.enter_context(Caller(server, "a", window=4096)) for _ in range(HELD_BY)]
        for caller in deaf:
            caller.send(FETCH_ALL)
            yield "time of a long reply", calms_down(server, 30)
        wanted = told_of_all()
        for _ in range(LATE_ONES):
            late = open_ones.enter_context(Caller(server, "a", window=4096))
            late.send(FETCH_ALL)
            time.sleep(0.1)
            yield "the reply to one who takes it late", difference(late.replies.read(len(wanted)), wanted)
        whole = [taken_of(caller) == wanted for caller in deaf[:2]]
        yield "the two who were deaf for the longest", difference(whole, [False, True])


def taken_of(caller):
    """What a caller is told up to a line feed or the end, also where the connection is reset then."""
    with contextlib.suppress(ConnectionResetError):
        return caller.replies.readline()
    return b""


# ---- Logins that are refused.


def refused_logins_are_told(program):
    """Whatever stands behind a login that is refused, its reply comes, and then a clean end."""
    told = collections.Counter()
    with Server(program, TENANTS, workers=2) as server:
        for number in range(REFUSED):
            with Caller(server) as caller:
                line = line_of(key="k", tenant="a") + b"x" * BEHIND[number % len(BEHIND)]
                with contextlib.suppress(BrokenPipeError, ConnectionResetError):
                    caller.send(line)
                try:
                    told[caller.replies.read()] += 1
                except ConnectionResetError:
                    told["a fault"] += 1
        yield "the replies to logins with more behind them", difference(told, {WRONG_KEY: REFUSED})
        files = files_of(server)
        with contextlib.ExitStack() as open_ones:
            stay = sessions_of(open_ones, server, 10)
            for caller in stay:
                caller.send(line_of(key="k", tenant="a"))
                yield "a refused login of who stays", difference(caller.replies.read(), WRONG_KEY)
            yield "a caller beside them", served_in(server, TICK)
            gone = within(2 * TICK, lambda: files_of(server) <= files)
            yield "how long they stay", None if gone else f"{files_of(server) - files} are there"


# ---- The log.


def a_log_that_nobody_reads(program):
    """It stops nobody, also not the end; and what there was no room for is counted."""
    with Server(program, TENANTS, workers=2, log=100, sessions=TOLD + 1) as server:
        for _ in range(TOLD):
            with Caller(server, "a"):
                pass
        yield "a caller beside a log that nobody reads", served_in(server, TICK)
        status = server.child.wait(10)
        yield "its end", difference(status, 0)
        *lines, last = server.child.stderr.read().split(b"\n")
        yield "the last line", difference(last, b"")
        told = collections.Counter(next(iter(unstamped(line))) for line in lines)
        yield "what is told", None if told["login"] > 200 and told["ended"] > 200 else str(told)


def a_log_that_is_read_late(program):
    """What waits is told once it is read, each line whole, and of the rest how many there were."""
    with Server(program, TENANTS, workers=2, log=100) as server:
        for _ in range(TOLD):
            with Caller(server, "a"):
                pass
        time.sleep(0.5)
        lines = [json.loads(line) for line in told_so_far(server)]
        lost = sum(it["lost"] for it in lines if "lost" in it)
        told = collections.Counter(key for it in lines for key in it if key in ("login", "ended"))
        yield "lines that were told and not", difference(told["login"] + told["ended"] + lost, 2 * TOLD)
        yield "lines that weren't", None if lost else "there is none"
        times = [it["at"] for it in lines if "lost" not in it]
        yield "their times", None if times == sorted(times) else "they go back"


def strangers_and_the_log(program):
    """Of callers who haven't logged in so many lines are told a second, and how many more there were."""
    with Server(program, TENANTS, workers=2, log=100) as server:
        for _ in range(500):
            with Caller(server) as caller:
                caller.ask(line_of(key="k", tenant="a"))
        time.sleep(1.5)
        lines = [unstamped(line) for line in told_so_far(server)]
        more = sum(it["strangers"] for it in lines if "strangers" in it)
        told = len([it for it in lines if "strangers" not in it])
        yield "lines of strangers", difference(told + more, 1000)
        yield "lines of strangers a second", None if told <= 100 else f"{told}"


CHECKS = (
    a_tenant_of_many_callers,
    strangers_take_no_tenants_place,
    strangers_keep_nobody_out,
    goers_free_their_places,
    what_was_whole_stays,
    who_is_deaf_for_long_goes,
    refused_logins_are_told,
    a_log_that_nobody_reads,
    a_log_that_is_read_late,
    strangers_and_the_log,
)
