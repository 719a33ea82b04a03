"""What tests/server checks of whose turn it is, that each caller gets his replies whole, in their order and
once, and that who is quiet costs nothing. Each check gives pairs of a name and of what is wrong, or None.
"""
import collections
import contextlib
import heapq
import itertools
import json
import mmap
import pathlib
import random
import select
import socket
import statistics
import tempfile
import time

from failing import under_failing
from served import DONE, Caller, Server, beat, block, difference, line_of, login, put, tenants, told
from spoken import (
    BAD_COMMAND,
    BASE,
    EMPTY,
    FETCH,
    FETCH_ALL,
    LIST,
    QUERY,
    SILENCE,
    STREAM,
    TENANTS,
    WIDE,
    conversation,
    filled,
    growth,
    idleness,
    sessions_of,
    standing,
    told_of_all,
)
from wanted import are_wanting

# Callers who send so many lines each, some at once behind a reply and some later, up to so many seconds. Where no
# reply comes for so long, none will.
SPEAKERS, LINES, MOMENT, FOR_GOOD = 20, 40, 0.002, 10
# So many microseconds go by between a read that finds nothing and what a worker does then.
GAP = 1_000
# Callers of one tenant who send at once, and how many of them may be answered before another tenant's.
CROWD, MOST_BEFORE = 300, 100
# How often a caller leaves and another one has his place, and the longest that this may mostly take, in seconds.
LEAVES, AT_ONCE = 21, 0.025
# Callers who send a long line and fall silent, and what the server may then keep for each, in bytes.
TALKERS, MOST_OF_A_TALKER = 100, 16 << 10
# Rounds of a put, a heartbeat, a fetch and an ack, so many times; and the most sends that one may take where they
# take the fewest: beside other work a short fetch isn't at times.
ROUNDS, TIMES, MOST_SENDS = 20, 10, 1.1
# Of a caller who sends rounds and then puts in one write, so many requests for memory are refused, one in each session.
REFUSALS, FEW_ROUNDS, PUTS = 150, 4, 40
# A send that takes at most so many bytes, and lines whose replies are more, which stand ready together.
FEW_BYTES, GATHERED = 5_000, 1_000
# How many long replies one caller takes, of which more than 64 MiB are held back in all.
LONG_REPLIES = 5
# Texts of which a query tells each so often: a reply has 10 MB. How many callers don't take it, and the bytes that
# the server may take for them.
REPEATED = [f"{at:02500}" for at in range(8)]
OFTEN, DEAF, MOST_FLAT = 500, 3, 4 << 20
OF_REPEATED = (
    line_of(columns=[["v", "text"]], do="stream", name="s"),
    line_of(do="query", name="p", text=f"Select Istream({','.join(['v'] * OFTEN)}) From s"),
    *(put(at, text) for at, text in enumerate(REPEATED)),
    beat(len(REPEATED)),
)


# ---- Whose turn it is.


class Speakers:
    """Callers of whom each sends a list, and the next one once it is told, or a moment later."""

    def __init__(self, callers):
        self.callers = {caller.socket.fileno(): caller for caller in callers}
        self.left = {file: LINES for file in self.callers}
        self.due = [(0, file) for file in self.callers]
        self.draw = random.Random(1)
        self.poll = select.poll()
        for file in self.callers:
            self.poll.register(file, select.POLLIN)

    def send(self):
        """Sends what is due, and tells for how many milliseconds nothing more will be."""
        now = time.monotonic()
        while self.due and self.due[0][0] <= now:
            self.callers[heapq.heappop(self.due)[1]].send(LIST)
        return 1e3 * (self.due[0][0] - now) if self.due else 1e3 * FOR_GOOD

    def take(self, wait):
        """Takes the replies that come, and tells how many callers these are of."""
        heard = self.poll.poll(wait)
        for file, _ in heard:
            if self.callers[file].replies.readline() != EMPTY:
                raise OSError("another reply than that to a list")
            self.left[file] -= 1
            if self.left[file]:
                pause = MOMENT * self.draw.random() if self.draw.random() < 0.3 else 0
                heapq.heappush(self.due, (time.monotonic() + pause, file))
        return len(heard)

    def speak(self):
        """What is wrong once all are answered, or none is any more."""
        last = time.monotonic()
        while any(self.left.values()):
            if self.take(self.send()):
                last = time.monotonic()
            elif time.monotonic() > last + FOR_GOOD:
                waiting = sum(map(bool, self.left.values()))
                return f"{waiting} of {SPEAKERS} wait for good"
        return None


def nobody_is_forgotten(program):
    """Each line is answered, also one that comes while a worker puts its caller away."""
    if are_wanting("lines at once and a moment later", "gcc"):
        return
    with under_failing(RECV_TAKES=GAP) as under, Server(program, TENANTS, under, workers=4) as server:
        with contextlib.ExitStack() as open_ones:
            callers = sessions_of(open_ones, server, SPEAKERS, "a")
            yield "lines at once and a moment later", Speakers(callers).speak()


def tenants_take_turns(program):
    """Where many callers of one tenant wait, another tenant's caller comes soon. By what the lists tell that the
    many are answered, it is seen who came before him."""
    grant = line_of(do="grant", stream="s", to="a")
    lists = [line_of(queries=[], readable=[{"open": at, "stream": "b.s"}], streams=[]) for at in (0, 6)]
    with Server(program, TENANTS, workers=1) as server, contextlib.ExitStack() as open_ones:
        other = open_ones.enter_context(Caller(server, "b"))
        yield "before a crowd of one tenant", conversation(other, (STREAM, DONE), (grant, DONE))
        crowd = sessions_of(open_ones, server, CROWD, "a")
        with standing(server):
            for caller in crowd:
                caller.send(LIST)
            other.send(beat(5))
        yield "another tenant's line", difference(other.replies.readline(), DONE)
        told = collections.Counter(caller.replies.readline() for caller in crowd)
        yield "the lists of a crowd", difference(sum(told[it] for it in lists), CROWD)
        before = told[lists[0]]
        yield "a crowd before another tenant", None if before <= MOST_BEFORE else f"{before} of {CROWD}"


def places_are_given_at_once(program):
    """Who waits to be let in is let in as soon as another one has left."""
    taken = []
    with Server(program, TENANTS, callers=1, workers=2) as server, contextlib.ExitStack() as open_ones:
        here = open_ones.enter_context(Caller(server, "a"))
        for _ in range(LEAVES):
            further = open_ones.enter_context(Caller(server))
            further.send(login("a"))
            start = time.monotonic()
            here.__exit__()
            fault = difference(further.replies.readline(), DONE)
            taken.append(time.monotonic() - start)
            yield "a caller behind one who leaves", fault
            here = further
    mostly = statistics.median(taken)
    yield "the time of a place", None if mostly <= AT_ONCE else f"mostly {mostly:.3f} s"


def places_of_none(program):
    """A connection for which the system has no room ends, and its place is another one's."""
    if are_wanting("callers of whom a fifth has no room", "gcc"):
        return
    with under_failing(ADD_FAILS_AT=5) as under:
        with Server(program, TENANTS, under, callers=3, workers=1) as server:
            told = collections.Counter(first_of(server) for _ in range(40))
        few = {it: told[it] >= 5 for it in (DONE, b"")}
        yield "callers of whom a fifth has no room", difference(set(told), {DONE, b""})
        yield "of either kind", difference(few, {DONE: True, b"": True})


def first_of(server):
    """What a caller is told of a login; nothing where he is sent away."""
    with Caller(server, seconds=FOR_GOOD) as caller:
        with contextlib.suppress(BrokenPipeError, ConnectionResetError):
            return caller.ask(login("a"))
    return b""


# ---- Replies that come later, or aren't taken at once.


def fetches_among_lines(program):
    """In one write fetches stand among other lines, which are more than one turn has: each is answered once, in
    its place."""
    pairs = [(STREAM, DONE), (QUERY, BASE), (put(5, 1), DONE), (beat(8), DONE)]
    fetch, other = (FETCH, told(9, block(5, 5, 1))), (b"{}\n", BAD_COMMAND)
    pairs += [fetch, other, other] * 20 + [other] * 600 + [fetch, other]
    with Server(program, TENANTS, workers=2) as server, Caller(server, "a", seconds=FOR_GOOD) as caller:
        caller.send(*(line for line, _ in pairs))
        wanted = b"".join(reply for _, reply in pairs)
        yield "fetches among lines", difference(caller.replies.read(len(wanted)), wanted)


def rounds_are_one_send(program):
    """The replies to lines of one write, a short fetch among them, are written together."""
    with tempfile.TemporaryDirectory() as folder:
        sends = pathlib.Path(folder) / "sends"
        with under_failing(SENDS_TOLD=sends) as under, Server(program, TENANTS, under, workers=2) as server:
            with Caller(server, "a", seconds=FOR_GOOD) as caller:
                yield "a query for rounds", conversation(caller, (STREAM, DONE), (QUERY, BASE), (FETCH, told(0)))
                counts = [sends.stat().st_size]
                for at in range(1, ROUNDS * TIMES + 1):
                    ack = line_of(do="ack", name="q", to=at + 1)
                    caller.send(put(at, at), beat(at), FETCH, ack)
                    wanted = DONE + DONE + told(at + 1, block(at, at, at)) + DONE
                    if fault := difference(caller.replies.read(len(wanted)), wanted):
                        break
                    if at % ROUNDS == 0:
                        counts.append(sends.stat().st_size)
                yield "replies of rounds", fault
                each = min((after - before for before, after in itertools.pairwise(counts)), default=0) / ROUNDS
                yield "sends of a round", None if each <= MOST_SENDS else f"{each:.2f}"


def taken_later(caller, wanted):
    """What is wrong with the next reply, which is held back for a while."""
    time.sleep(SILENCE)
    return difference(caller.replies.read(len(wanted)), wanted)


def long_replies_in_pieces(program):
    """What one caller takes in many pieces comes whole and once, one long reply behind another."""
    with Server(program, WIDE, workers=2) as server, contextlib.ExitStack() as open_ones:
        yield "rows for replies in pieces", filled(server)
        wanted = told_of_all()
        slow = open_ones.enter_context(Caller(server, "a", window=4096))
        for _ in range(LONG_REPLIES):
            slow.send(FETCH_ALL)
            if fault := taken_later(slow, wanted):
                break
        yield "replies in pieces", fault
        last = open_ones.enter_context(Caller(server, "a", window=4096))
        last.send(FETCH_ALL[:-1])
        last.socket.shutdown(socket.SHUT_WR)
        yield "the reply to a last line without a feed", taken_later(last, wanted)


def told_of_repeated():
    """The reply to FETCH_ALL where each row tells its text OFTEN times."""
    rows = ({"from": at, "rows": [[text] * OFTEN], "to": at} for at, text in enumerate(REPEATED))
    return told(len(REPEATED) + 1, *rows)


def replies_by_few_bytes(program):
    """Of what a send takes in part the rest comes, once and in its place."""
    if are_wanting("replies that are sent by few bytes", "gcc"):
        return
    with under_failing(SEND_TAKES=FEW_BYTES) as under:
        with Server(program, tenants("a", queries=64), under, workers=1) as server:
            with Caller(server, "a", seconds=FOR_GOOD) as caller:
                wanted = long_list(caller)
                caller.send(*[b"{}\n"] * GATHERED, LIST, *[b"{}\n"] * GATHERED)
                wanted = BAD_COMMAND * GATHERED + wanted + BAD_COMMAND * GATHERED
                yield "replies that are sent by few bytes", difference(caller.replies.read(len(wanted)), wanted)


def replies_taken_late(program):
    """Each of some callers takes his replies late, in another order than they asked: they are whole, and what
    is told of the lines behind a fetch comes behind its reply. So it is too where calls are kept."""
    for words in ({}, {"sessions": DEAF + 1, "audit": True}):
        with Server(program, WIDE, workers=2, **words) as server, contextlib.ExitStack() as open_ones:
            with Caller(server, "a") as maker:
                maker.serve(OF_REPEATED)
                wanted = told_of_repeated() + maker.ask(LIST) + told_of_repeated() + BAD_COMMAND
            late = [open_ones.enter_context(Caller(server, "a", window=4096)) for _ in range(DEAF)]
            for caller in late:
                caller.send(FETCH_ALL, LIST, FETCH_ALL, b"{}\n")
            time.sleep(SILENCE)
            for number, caller in enumerate(reversed(late)):
                found = caller.replies.read(len(wanted))
                yield f"the replies to late one {number}, {words}", difference(found, wanted)


def replies_that_nobody_takes(program):
    """What callers don't take of long replies takes no memory of their bytes."""
    with Server(program, WIDE, workers=2) as server, contextlib.ExitStack() as open_ones:
        with Caller(server, "a") as maker:
            maker.serve(OF_REPEATED)
        before = server.memory()
        for _ in range(DEAF):
            open_ones.enter_context(Caller(server, "a", window=4096)).send(FETCH_ALL)
        time.sleep(SILENCE)
        yield "memory of replies that nobody takes", growth(before, server.peak(), MOST_FLAT)
        yield "the time of who takes nothing", idleness(server, 1)


def long_list(caller):
    """The reply to a list of many queries of long texts, which it makes."""
    text = "Select * From s Where " + " Or ".join(["v = 123456789"] * 200)
    caller.serve([STREAM, *(line_of(do="query", name=f"a_query_of_a_long_name_{at:02}", text=text) for at in range(40))])
    return caller.ask(LIST)


def lists_taken_late(program):
    """A long list that its caller takes late, in many pieces, comes whole and once, and what is told of the lines
    behind it behind it. So it is too where calls are kept."""
    for words in ({}, {"sessions": 2, "audit": True}):
        with Server(program, tenants("a", queries=64), workers=1, **words) as server:
            with Caller(server, "a") as maker:
                wanted = (long_list(maker) + BAD_COMMAND) * 3
            with Caller(server, "a", window=4096) as late:
                late.send(*[LIST, b"{}\n"] * 3)
                yield f"lists that are taken late, {words}", taken_later(late, wanted)


def replies_keep_their_order(program):
    """Behind what can't be written nothing else is, though it could."""
    if are_wanting("replies of which some are held back", "gcc"):
        return
    with under_failing(SEND_FAILS_AT=2) as under:
        with Server(program, tenants("a", queries=64), under, workers=1) as server:
            with Caller(server, "a", seconds=FOR_GOOD) as caller:
                wanted = long_list(caller)
                yield "a long list", None if len(wanted) > 1e5 and wanted.endswith(b"}\n") else "it is short"
                for number in range(12):
                    caller.send(b"{}\n" * number + LIST)
                    replies = [caller.replies.readline() for _ in range(number + 1)]
                    yield "replies of which some are held back", difference(
                        replies, [BAD_COMMAND] * number + [wanted]
                    )


# ---- Callers who are quiet.


def quick_and_then_quiet(program):
    """Who has sent line upon line, and then says nothing, takes no time of a processor."""
    with Server(program, TENANTS, workers=2) as server, Caller(server, "a") as caller:
        yield "many lines", conversation(caller, *[(LIST, EMPTY)] * 200)
        yield "the time of who is quiet then", idleness(server, 1)


def silent_behind_long_lines(program):
    """What a long line took is given back once its caller is silent."""
    line = b'{"do":"' + b"x" * 60_000 + b'"}\n'
    with Server(program, TENANTS, workers=2) as server, contextlib.ExitStack() as open_ones:
        talkers = sessions_of(open_ones, server, TALKERS, "a")
        before = server.memory()
        for caller in talkers:
            caller.send(line[:30_000])
            time.sleep(0.002)
            yield "the reply to a long line", conversation(caller, (line[30_000:], BAD_COMMAND))
        end = time.monotonic() + FOR_GOOD
        while (each := (server.memory() - before) // TALKERS) > MOST_OF_A_TALKER and time.monotonic() < end:
            time.sleep(0.1)
        yield "what is kept behind long lines", None if each <= MOST_OF_A_TALKER else f"{each} bytes of each"


# ---- Want of memory.


def of_rounds(first):
    """Lines of rounds and of puts, each put at an instant of its own."""
    for at in range(first, first + FEW_ROUNDS):
        yield from (put(at, at), beat(at), FETCH)
    yield from (put(at, at) for at in range(first + FEW_ROUNDS, first + FEW_ROUNDS + PUTS))


def replies_until_the_end(caller):
    """The lines that come until the connection ends, in whatever way."""
    told = b""
    with contextlib.suppress(ConnectionResetError):
        while piece := caller.socket.recv(1 << 16):
            told += piece
    return told.splitlines(keepends=True)


def nothing_done_is_lost(program):
    """Where a request for memory is refused, whichever it is, each line that was done is told so."""
    if are_wanting("replies where memory is refused", "gcc"):
        return
    with tempfile.NamedTemporaryFile() as file:
        file.write(bytes(8))
        file.flush()
        lost, refused = [], mmap.mmap(file.fileno(), 8)
        table = tenants("a", hold=1000)
        with under_failing(REFUSED_IN=file.name) as under, Server(program, table, under, workers=1) as server:
            with Caller(server, "a") as maker:
                maker.serve([STREAM, QUERY, line_of(do="query", name="seen", text="Select Istream(v) From s [Now]")])
                for number in range(1, REFUSALS + 1):
                    first = number * (FEW_ROUNDS + PUTS)
                    lines = list(of_rounds(first))
                    with Caller(server, "a") as caller:
                        refused[:] = number.to_bytes(8, "little")
                        with contextlib.suppress(OSError):
                            caller.send(*lines)
                            caller.socket.shutdown(socket.SHUT_WR)
                        told_all = replies_until_the_end(caller)
                        refused[:] = bytes(8)
                    told_ones = [at for at, (line, reply) in enumerate(zip(lines, told_all)) if b'"put"' in line and reply == DONE]
                    maker.serve([beat(first + FEW_ROUNDS + PUTS - 1)])
                    seen = json.loads(maker.ask(line_of(do="fetch", name="seen")))
                    done = sum(len(it["rows"]) for it in seen["blocks"])
                    maker.serve(line_of(do="ack", name=name, to=seen["next"]) for name in ("q", "seen"))
                    if done != len(told_ones):
                        lost.append(f"{done} puts are done and {len(told_ones)} told without request {number}")
        yield "replies where memory is refused", lost[0] if lost else None


CHECKS = (
    nobody_is_forgotten,
    tenants_take_turns,
    places_are_given_at_once,
    places_of_none,
    fetches_among_lines,
    rounds_are_one_send,
    long_replies_in_pieces,
    replies_by_few_bytes,
    replies_taken_late,
    replies_that_nobody_takes,
    lists_taken_late,
    replies_keep_their_order,
    quick_and_then_quiet,
    silent_behind_long_lines,
    nothing_done_is_lost,
)
