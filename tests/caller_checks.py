"""What tests/server checks of callers who are many, say nothing, break off, don't read or never end a line,
and of a server that has few files or is stopped amid them. Each check gives pairs of a name and of what is
wrong, or None. Each time limit is a second, and a second more is allowed.
"""
import collections
import contextlib
import resource
import signal
import threading
import time

from served import DONE, Caller, Ended, Server, difference, line_of, login, put
from spoken import (
    BAD_LINE,
    EMPTY,
    FETCH,
    FETCH_ALL,
    LENT,
    LIST,
    MOST_KEPT,
    SILENCE,
    STREAM,
    TENANTS,
    WIDE,
    WRONG_KEY,
    conversation,
    ends_in,
    files_of,
    filled,
    growth,
    idleness,
    served_in,
    sessions_of,
    stream_open_at,
    well,
)

TICK = 1
# Connections of one check, and how many of them have logged in.
MANY, LOGGED_IN = 1_000, 900
# What the server may keep of each of them, in bytes.
MOST_EACH = 4 << 10
# Callers who don't read, the bytes that the server may hold for all of them, and how many lists one of them
# asks for who reads them at last.
DEAF, MOST_HELD, LATE_LISTS = 10, 8 << 20, 1_500
# Callers who don't take replies of 20 MB, and the bytes that the server may hold for all of them: 64 MiB, one
# reply more, and what the C library keeps.
UNTAKEN, MOST_UNTAKEN = 12, 128 << 20


def calms_down(server, seconds):
    """What is wrong with a server that is to have nothing to do within so long."""
    end = time.monotonic() + seconds
    while (fault := idleness(server, 1)) and time.monotonic() < end:
        pass
    return fault


# ---- Many callers.


def silent_callers(program):
    """Callers who say nothing hold no worker, however many they are."""
    with Server(program, TENANTS, workers=1, sessions=7, login=0, audit=True) as server:
        with contextlib.ExitStack() as open_ones:
            mute = sessions_of(open_ones, server, 2)
            silent = sessions_of(open_ones, server, 2, "a")
            half = open_ones.enter_context(Caller(server, "b"))
            half.send(LIST[:5])
            for _ in range(2):
                yield "beside silent callers", served_in(server, TICK, "b")
            yield "half a line's other half", conversation(half, (LIST[5:], EMPTY))
            for caller in silent:
                yield "a silent one who speaks", conversation(caller, (LIST, EMPTY))
            for caller in [*mute, *silent, half]:
                yield "a silent one at its end", difference(caller.rest(), b"")
        yield "calls beside silent callers", difference(server.end(), well(5))


def a_thousand_callers(program):
    """Most say nothing. Others are served beside them, and each of them at once when he speaks."""
    with Server(program, TENANTS, login=0, callers=2 * MANY) as server, contextlib.ExitStack() as open_ones:
        yield "before a thousand", served_in(server, TICK)
        before = server.memory()
        mute = sessions_of(open_ones, server, MANY - LOGGED_IN)
        silent = sessions_of(open_ones, server, LOGGED_IN, "a")
        yield "beside a thousand", served_in(server, TICK)
        each = (server.memory() - before) // MANY
        yield "memory of each of a thousand", None if each <= MOST_EACH else f"{each} bytes"
        yield "time of a thousand silent ones", idleness(server, 2)
        for caller in mute:
            caller.send(login("b"))
        for caller in [*silent, *mute]:
            caller.send(LIST)
        told = collections.Counter(caller.replies.readline() for caller in silent)
        yield "a list to each of a thousand", difference(told, {EMPTY: LOGGED_IN})
        told = collections.Counter(caller.replies.read(len(DONE + EMPTY)) for caller in mute)
        yield "a login of each that was mute", difference(told, {DONE + EMPTY: MANY - LOGGED_IN})


def further_callers(program):
    """More than --callers are accepted as others leave, in whatever way they do."""
    with Server(program, TENANTS, callers=4, workers=2) as server, contextlib.ExitStack() as open_ones:
        first = sessions_of(open_ones, server, 3, "a") + sessions_of(open_ones, server, 1, "b")
        files = files_of(server)
        further = sessions_of(open_ones, server, 3)
        for caller in further:
            caller.send(login("a"))
        yield "a fifth waits", None if further[0].is_silent(SILENCE) else "it is answered"
        yield "no file of a fifth", difference(files_of(server), files)
        for caller in first:
            yield "one of four at once", conversation(caller, (LIST, EMPTY))
        yield "time while a fifth waits", idleness(server, 2)
        first[0].rest()
        yield "a fifth in its turn", difference(further[0].replies.readline(), DONE)
        yield "a sixth waits", None if further[1].is_silent(SILENCE) else "it is answered"
        first[1].reset()
        yield "a sixth behind one that broke off", difference(further[1].replies.readline(), DONE)
        first[2].send(LIST[:3])
        first[2].reset()
        yield "a seventh behind half a line", difference(further[2].replies.readline(), DONE)
        yield "one of the first", conversation(first[3], (LIST, EMPTY))


def logins_of_a_thousand(program):
    """Each of a thousand who say nothing is let go in the time of --login."""
    words = {"login": 2 * TICK, "callers": 3 * MANY}
    with Server(program, TENANTS, **words) as server, contextlib.ExitStack() as open_ones:
        first = time.monotonic()
        silent = sessions_of(open_ones, server, MANY)
        last = time.monotonic()
        for number, caller in enumerate(silent):
            caller.send((b"", b"\n", login("a")[:9])[number % 3])
        yield "beside a thousand without a login", served_in(server, TICK)
        yield "the first of a thousand", ends_between(silent[0], first + 2 * TICK, last + 3 * TICK)
        yield "the last of a thousand", ends_between(silent[-1], first + 2 * TICK, last + 3 * TICK)
        told = collections.Counter(rest_of(caller) for caller in silent)
        yield "what they are told", difference(told, {b"": MANY})
        yield "a caller behind a thousand", served_in(server, TICK)


def rest_of(caller):
    """What a caller is told up to the end, also where the other end has left bytes of his unread."""
    try:
        return caller.replies.read()
    except ConnectionResetError:
        return b""


def ends_between(caller, soonest, latest):
    """What is wrong with a session that is to end by itself, between these two times."""
    now = time.monotonic()
    return ends_in(caller, soonest - now, latest - now)


# ---- Callers who keep what they have.


def silent_without_a_login(program):
    """As many silent connections as workers, with the times of the words and without words."""
    for words in ({"login": TICK}, {}, {"login": 0, "idle": TICK}):
        with Server(program, TENANTS, **words) as server, contextlib.ExitStack() as open_ones:
            silent = sessions_of(open_ones, server, 4)
            silent[0].send(login("a")[:-1])
            silent[1].send(b"\n" * 100)
            yield f"a caller behind silent ones, {words}", served_in(server, TICK)
            for caller in silent:
                yield f"a silent one's end, {words}", difference(caller.replies.read(), b"")
    with Server(program, TENANTS, login=0, workers=1) as server, Caller(server) as caller:
        yield "no time for a login", None if caller.is_silent(2 * TICK) else "it has ended"
        yield "a login in its own time", conversation(caller, (login("a"), DONE))


def dribble(caller, line, faults):
    """Sends a line byte by byte, in steps of a tenth of a second, as long as that goes."""
    try:
        for at in range(len(line)):
            caller.send(line[at : at + 1])
            time.sleep(0.1)
        faults.append("all of it was taken")
    except OSError:
        pass


def dribbled_logins(program):
    """A byte each tenth of a second keeps no session, whatever the bytes are."""
    lines = login("a"), b"\n" * 40, b"x" * 40, b" " * 40
    faults = []
    words = {"workers": 4, "login": TICK, "idle": TICK}
    with Server(program, TENANTS, **words) as server, contextlib.ExitStack() as open_ones:
        callers = sessions_of(open_ones, server, len(lines))
        senders = [
            threading.Thread(target=dribble, args=(caller, line, faults))
            for caller, line in zip(callers, lines)
        ]
        for sender in senders:
            sender.start()
        yield "a caller behind dribbled logins", served_in(server, TICK)
        for sender in senders:
            sender.join()
        yield "dribbled logins", faults[0] if faults else None


def silent_behind_a_login(program):
    """They end under --idle, with half a line too, and such a line has no effect."""
    words = {"workers": 2, "login": TICK, "idle": 2 * TICK, "sessions": 4, "audit": True}
    with Server(program, TENANTS, **words) as server:
        with Caller(server, "a") as first, Caller(server, "a") as second:
            yield "before the silence", conversation(first, (STREAM, DONE), (put(5, 1), DONE))
            first.send(put(9, 1)[:-1])
            for name, caller in (("half a line", first), ("no line", second)):
                yield f"the end behind {name}", ends_in(caller, 0, 2 * TICK + 1)
        with Caller(server, "a") as caller:
            yield "behind half a line", conversation(caller, (LIST, stream_open_at(5)))
        with Caller(server, "b") as caller:
            for _ in range(3):
                time.sleep(1.2 * TICK)
                yield "a slow caller", conversation(caller, (LIST, EMPTY))
        yield "the audit of silent callers", difference(server.end(), well(6))


# ---- Callers who don't read, or break off.

# What the C library is told in the service file of docs/OPERATING.md, so that long replies go back to the system.
GIVES_BACK = "env", "GLIBC_TUNABLES=glibc.malloc.tcache_count=0:glibc.malloc.mxfast=0"


def callers_who_do_not_read(program):
    """They end under --idle: of a write some bytes may be taken, and of the next none."""
    words = {"workers": 2, "login": TICK, "idle": TICK}
    with Server(program, WIDE, GIVES_BACK, **words) as server:
        yield "rows for those who don't read", filled(server)
        files, sizes = files_at_rest(server), []
        for _ in range(4):
            with contextlib.ExitStack() as open_ones:
                callers = [
                    open_ones.enter_context(Caller(server, "a", window=4096)) for _ in range(2)
                ]
                for caller in callers:
                    caller.send(*[FETCH_ALL] * 4)
                yield "a caller behind them", served_in(server, 2 * TICK + 1, "b")
                settle(server, files, 60)
                yield "files of those who don't read", difference(files_of(server), files)
            sizes.append(server.memory())
        # the C library keeps the room of one long reply for good, from the first or the second time on
        yield "memory behind them", growth(sizes[1], sizes[-1], MOST_KEPT + LENT)


def files_at_rest(server):
    """How many files the server has open once callers who have left are let go of."""
    time.sleep(SILENCE)
    return files_of(server)


# So many streams, each of a long name, make a long list.
NAMES = [f"a_stream_of_a_long_name_{number:08}" for number in range(64)]
LONG = line_of(queries=[], readable=[], streams=[{"name": name, "open": 0} for name in NAMES])


def deaf_floods(program):
    """Some send commands without an end and read nothing: no more is read from them than they take of their
    replies, and others are served."""
    with Server(program, WIDE, workers=4) as server, contextlib.ExitStack() as open_ones:
        with Caller(server, "a") as caller:
            caller.serve(line_of(columns=[["v", "int"]], do="stream", name=name) for name in NAMES)
            yield "before deaf callers", conversation(caller, (LIST, LONG))
        before = server.memory()
        late = open_ones.enter_context(Caller(server, "a", window=4096))
        late.send(LIST * LATE_LISTS)
        deaf = [open_ones.enter_context(Caller(server, "a", window=4096)) for _ in range(DEAF)]
        send_until_full(deaf, LIST * 1_000)
        yield "time of deaf callers", calms_down(server, 30)
        yield "memory of deaf callers", growth(before, server.memory(), MOST_HELD)
        yield "a caller beside deaf ones", served_in(server, TICK, "b")
        found = late.replies.read(len(LONG) * LATE_LISTS)
        yield "one who reads at last", None if found == LONG * LATE_LISTS else f"{len(found)} bytes"
        yield "the next reply to that one", conversation(late, (LIST, LONG))


def untaken_answers(program):
    """Of the long replies of a tenant's callers who don't read so much is held, and the others are let go;
    other tenants' callers stay."""
    with Server(program, WIDE, workers=2) as server, contextlib.ExitStack() as open_ones:
        yield "rows for long replies", filled(server)
        other = open_ones.enter_context(Caller(server, "b"))
        files, before = files_at_rest(server), server.memory()
        for _ in range(UNTAKEN):
            caller = open_ones.enter_context(Caller(server, "a", window=4096))
            caller.send(FETCH_ALL)
        yield "time of long replies", calms_down(server, 60)
        yield "memory of long replies", growth(before, server.memory(), MOST_UNTAKEN)
        end = time.monotonic() + 30
        while (stay := files_of(server) - files) == UNTAKEN and time.monotonic() < end:
            time.sleep(0.1)
        yield "who is let go", None if 0 < stay < UNTAKEN else f"{stay} of {UNTAKEN} stay"
        yield "another tenant's caller", conversation(other, (LIST, EMPTY))
        yield "a further caller of that tenant", served_in(server, TICK, "b")


def send_until_full(callers, lines, seconds=1):
    """Sends the lines again and again to each, until nothing more is taken from anybody for so long."""
    sent = [0] * len(callers)
    for caller in callers:
        caller.socket.setblocking(False)
    last = time.monotonic()
    while time.monotonic() < last + seconds:
        for number, caller in enumerate(callers):
            with contextlib.suppress(BlockingIOError):
                sent[number] += caller.socket.send(lines[sent[number] % len(lines) :])
                last = time.monotonic()
        time.sleep(0.01)


def resets_in_mid_reply(program):
    """Callers who break off while their replies are told leave nothing behind."""
    with Server(program, WIDE, workers=2) as server:
        yield "rows for those who break off", filled(server)
        files, memory = files_at_rest(server), None
        for turn in range(12):
            callers = [Caller(server, "a", window=4096) for _ in range(20)]
            for caller in callers:
                caller.send(FETCH * 40)
            for caller in callers:
                caller.replies.read(100)
            for number, caller in enumerate(callers):
                if number % 2:
                    caller.reset()
                else:
                    caller.__exit__()
            yield f"a caller behind {turn + 1} times 20 that broke off", served_in(server, 5 * TICK, "b")
            settle(server, files)
            if turn == 5:
                # by then each thread has the room that it lends
                memory = server.memory()
        yield "memory behind those who broke off", growth(memory, server.memory(), 4 * MOST_KEPT)
        yield "files behind those who broke off", difference(files_of(server), files)


def settle(server, files, seconds=10):
    """Waits until no more files are open than there were."""
    end = time.monotonic() + seconds
    while files_of(server) > files and time.monotonic() < end:
        time.sleep(0.05)


def knock(server, times):
    """Connections that are opened, shut and reset, a hundred at once, each with half a line."""
    for _ in range(times // 100):
        callers = [Caller(server) for _ in range(100)]
        for number, caller in enumerate(callers):
            caller.send((b"", login("a")[:-9], b"\n\n", LIST)[number % 4])
        for number, caller in enumerate(callers):
            if number % 2:
                caller.reset()
            else:
                caller.__exit__()


def shut_at_once(server, times):
    """Connections that are shut or reset as soon as they are there."""
    for number in range(times):
        caller = Caller(server)
        if number % 2:
            caller.reset()
        else:
            caller.__exit__()


def wrong_keys(server, times):
    """The replies to so many logins with a wrong key."""
    told = collections.Counter()
    for _ in range(times):
        with Caller(server) as caller:
            told[caller.ask(line_of(key="k", tenant="a"))] += 1
    return told


def half_lines(server, times):
    """Sessions that break off within a put."""
    for number in range(times):
        with Caller(server, "a") as caller:
            caller.send(put(7, 1)[:-9])
            if number % 2:
                caller.reset()


def unfed(server, size):
    """Much data without a line feed, before a login and behind one: the reply to that behind one."""
    piece = b"x" * (1 << 20)
    with contextlib.suppress(OSError), Caller(server) as caller:
        for _ in range(size >> 20):
            caller.send(piece)
    with Caller(server, "a") as caller:
        for _ in range(size >> 20):
            caller.send(piece)
        return caller.ask(b"\n")


def floods(program):
    """Behind many of them the server answers as before, with the memory and the files of before."""
    kinds = (
        ("connections", knock, 100, 1_000, None),
        ("connections that shut at once", shut_at_once, 100, 2_000, None),
        ("wrong keys", wrong_keys, 1_000, 10_000, {WRONG_KEY: 10_000}),
        ("half lines", half_lines, 100, 1_000, None),
        ("bytes without a feed", unfed, 4 << 20, 256 << 20, BAD_LINE),
    )
    with Server(program, TENANTS, workers=4, login=2 * TICK, idle=TICK) as server:
        with Caller(server, "a") as caller:
            yield "before the floods", conversation(caller, (STREAM, DONE), (put(5, 1), DONE))
        for name, flood, few, many, wanted in kinds:
            flood(server, few)
            fault = served_in(server, TICK, wanted=stream_open_at(5))
            yield f"a caller behind few {name}", fault
            memory, files = server.memory(), files_of(server)
            told = flood(server, many)
            yield f"the replies to many {name}", difference(told, wanted)
            yield f"a caller behind many {name}", served_in(server, TICK, wanted=stream_open_at(5))
            yield f"memory behind many {name}", growth(memory, server.memory())
            most = files + 4
            found = files_of(server)
            yield f"files behind many {name}", None if found <= most else f"{found}, {files} before"


# ---- A server that has few files, or is stopped.

# Runs a program that may open 40 files, of which 16 are kept for other uses.
FORTY = "sh", "-c", 'ulimit -n 40; exec "$@"', "sh"
FEWER = b"cqld: the system lets it open 40 files, so 24 callers are connected at once\n"


def files_for_callers(program):
    """Where there are files for fewer callers than may be connected it says so, and takes so many."""
    with Server(program, TENANTS, FORTY, login=0) as server, contextlib.ExitStack() as open_ones:
        callers = sessions_of(open_ones, server, 18, "a") + sessions_of(open_ones, server, 6, "b")
        further = open_ones.enter_context(Caller(server))
        further.send(login("a"))
        yield "a caller beyond the files", None if further.is_silent(SILENCE) else "it is answered"
        for caller in callers:
            yield "one of as many as there are files for", conversation(caller, (LIST, EMPTY))
        callers[0].rest()
        yield "the one beyond in its turn", difference(further.replies.readline(), DONE)
        server.child.send_signal(signal.SIGTERM)
        yield "what it says of files", difference(server.end(), Ended(-signal.SIGTERM, FEWER, b""))
    with Server(program, TENANTS, FORTY, callers=24, sessions=1) as server:
        yield "as many callers as files", served_in(server, TICK)
        yield "what it says where files are enough", difference(server.end(), well())


def few_files(program):
    """Where no further connection can be had it serves those who are there, and goes on once one ends."""
    with Server(program, TENANTS, workers=4, login=2 * TICK) as server, Caller(server, "b") as there:
        room = files_of(server) + 3
        resource.prlimit(server.child.pid, resource.RLIMIT_NOFILE, (room, room))
        with contextlib.ExitStack() as open_ones:
            silent = sessions_of(open_ones, server, 3)
            further = sessions_of(open_ones, server, 4)
            for caller in further:
                caller.send(login("a"), LIST)
            for _ in range(3):
                yield "one who is there", conversation(there, (LIST, EMPTY))
            yield "time while there is no file", idleness(server, TICK)
            for caller in further:
                found = caller.replies.read(len(DONE + EMPTY))
                yield "a caller without a file left", difference(found, DONE + EMPTY)
                caller.rest()
            for caller in silent:
                yield "a silent one's end", difference(caller.replies.read(), b"")
        yield "a caller with files again", served_in(server, TICK)
        yield "one who was there", conversation(there, (LIST, EMPTY))


def stopped(program):
    """A server that is stopped and goes on, or whose terminal's size changes, ends nobody's session."""
    with Server(program, WIDE, workers=2, login=0) as server, contextlib.ExitStack() as open_ones:
        yield "rows before a stop", filled(server)
        with Caller(server, "a") as caller:
            wanted = caller.ask(FETCH)
        mute = open_ones.enter_context(Caller(server))
        silent, half, reading = sessions_of(open_ones, server, 3, "b")
        half.send(LIST[:5])
        deaf = open_ones.enter_context(Caller(server, "a", window=4096))
        deaf.send(FETCH * 20)
        begun = deaf.replies.read(10)
        for _ in range(3):
            server.child.send_signal(signal.SIGSTOP)
            reading.send(LIST)
            time.sleep(0.2)
            server.child.send_signal(signal.SIGCONT)
            server.child.send_signal(signal.SIGWINCH)
            yield "a line that came while it stood", difference(reading.replies.readline(), EMPTY)
            yield "one who was silent", conversation(silent, (LIST, EMPTY))
        yield "half a line before a stop", conversation(half, (LIST[5:], EMPTY))
        yield "a reply amid a stop", difference(begun + deaf.replies.read(20 * len(wanted) - 10), wanted * 20)
        yield "a login behind a stop", conversation(mute, (login("b"), DONE), (LIST, EMPTY))
        yield "a further caller behind a stop", served_in(server, TICK, "b")


CHECKS = (
    silent_callers,
    a_thousand_callers,
    further_callers,
    logins_of_a_thousand,
    silent_without_a_login,
    dribbled_logins,
    silent_behind_a_login,
    callers_who_do_not_read,
    deaf_floods,
    untaken_answers,
    resets_in_mid_reply,
    floods,
    files_for_callers,
    few_files,
    stopped,
)
