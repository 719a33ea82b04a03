"""What tests/server checks of a crowd: 64 sessions at once of 4 tenants, who share streams by grants. Each
check gives pairs of a name and of what is wrong, or None.
"""
import collections
import contextlib
import random
import threading

from served import DONE, SECONDS, Caller, Server, beat, difference, line_of, put, shown, tenants
from spoken import well

SESSIONS = 64
LINES = 1000
CROWD = "abcd"

# The numbers with which a line of each command may be refused in the crowd, and how else its reply
# begins.
REPLIES = {
    "put": ({30, 41}, DONE[:3]),
    "beat": ({30, 41}, DONE[:3]),
    "query": ({30, 54, 55, 56}, b'{"base"'),
    "fetch": ({57, 60, 62}, b'{"blocks"'),
    "ack": ({57, 60, 61, 62}, DONE[:3]),
    "drop": ({57}, DONE[:3]),
    "list": (set(), b'{"queries"'),
    "stream": ({20}, DONE[:3]),
    "grant": ({30, 32}, DONE[:3]),
}
TEXTS = (
    "Select Istream(*) From {0}.s{1} [Now]",
    "Select * From {0}.s{1} [Range 3]",
    "Select Rstream(Count(*)) From {0}.s{1} [Rows 5]",
    "Select Istream(x.v) From {0}.s{1} [Now] x, {2}.s{3} [Rows 2] y Where x.v = y.v",
)


def crowd_line(draw, at, tenant):
    """A line of a session that is at its line `at`, and its command."""
    kinds, weights = [*REPLIES], (40, 10, 6, 15, 15, 4, 3, 3, 4)
    do = draw.choices(kinds, weights)[0]
    stream, name = f"s{draw.randrange(3)}", f"q{draw.randrange(12)}"
    if do == "put":
        return do, put(at, draw.randrange(5), stream=stream)
    if do == "beat":
        return do, beat(at, stream=stream)
    if do == "query":
        owners = draw.choice(CROWD), draw.randrange(3), draw.choice(CROWD), draw.randrange(3)
        return do, line_of(do=do, name=name, text=draw.choice(TEXTS).format(*owners))
    if do == "ack":
        return do, line_of(do=do, name=name, to=max(0, at - draw.randrange(20)))
    if do == "grant":
        to = draw.choice([other for other in CROWD if other != tenant])
        return do, line_of(do=do, stream=stream, to=to)
    if do == "stream":
        return do, line_of(columns=[["v", "int"]], do=do, name=stream)
    return do, line_of(do=do) if do == "list" else line_of(do=do, name=name)


def unfit(do, reply):
    """Whether a reply isn't one to such a command."""
    numbers, begins = REPLIES[do]
    if reply.startswith(b'{"name":') or b'"refused":' in reply[:60]:
        return int(reply.rpartition(b":")[2].rstrip(b"}\n")) not in numbers
    return not reply.startswith(begins) or not reply.endswith(b"}\n")


def crowd_session(caller, number, start, faults, counts):
    """Sends the lines of one session, and reads their replies meanwhile."""
    draw = random.Random(number)
    tenant = CROWD[number % len(CROWD)]
    lines = [crowd_line(draw, at, tenant) for at in range(LINES)]
    start.wait(SECONDS)
    sender = threading.Thread(target=caller.send, args=[line for _, line in lines])
    sender.start()
    for do, line in lines:
        reply = caller.replies.readline()
        if unfit(do, reply):
            faults.append(f"session {number}: {shown(reply)} is the reply to {shown(line)}")
            break
        counts[do, b'"refused":' in reply[:60]] += 1
    sender.join()
    if rest := caller.rest():
        faults.append(f"session {number}: behind its replies comes {shown(rest)}")


def crowd(program):
    """Each line has one fitting reply, and the audit agrees of just as many calls as lines."""
    faults, counts = [], collections.Counter()
    start = threading.Barrier(SESSIONS)
    table = tenants(CROWD, streams=8, queries=8, hold=100, result=1000)
    words = {"workers": SESSIONS, "sessions": SESSIONS, "audit": True}
    with Server(program, table, **words) as server, contextlib.ExitStack() as open_ones:
        tenant = [CROWD[number % len(CROWD)] for number in range(SESSIONS)]
        callers = [open_ones.enter_context(Caller(server, name)) for name in tenant]
        threads = [
            threading.Thread(target=crowd_session, args=(caller, number, start, faults, counts))
            for number, caller in enumerate(callers)
        ]
        for thread in threads:
            thread.start()
        for thread in threads:
            thread.join()
        yield "replies to a crowd", faults[0] if faults else None
        missing = [do for do in REPLIES if not counts[do, False]]
        yield "each command done in a crowd", f"no {missing[0]}" if missing else None
        yield "the audit of a crowd", difference(server.end(), well(SESSIONS * LINES))


CHECKS = (
    crowd,
)
