"""What tests/server checks of `cqld --journal`: that a server goes on where the last one was killed, what its
file says, what is cut off it and what it is refused for, and that nobody is told what isn't durable. Each check
gives pairs of a name and of what is wrong, or None.
"""
import concurrent.futures
import contextlib
import os
import pathlib
import random
import re
import shutil
import subprocess
import time

from journals import (
    HEADING,
    Record,
    a_journal,
    batches_of,
    ends_at_start,
    judged,
    killed,
    records_of,
    said_by,
    under_wrong_disk,
)
from served import DONE, Caller, Ended, Server, beat, block, difference, line_of, login, put, refused, tenants, told
from spoken import BASE, EMPTY, FETCH, LATE, LIST, QUERY, STREAM, TENANTS, conversation, well

TOP = pathlib.Path(__file__).resolve().parent.parent
JUDGE = TOP / "crates/cqlrun/out/cqlrun"
# How the page says that a journal's file is made a script.
AS_A_SCRIPT = re.compile(r"(?m)^(awk .*) journal$").search((TOP / "docs/OPERATING.md").read_text(encoding="utf-8"))[1]
READ = line_of(do="query", name="r", text="Select Istream(*) From a.s [Now]")
FETCH_READ = line_of(do="fetch", name="r")
GRANT = line_of(do="grant", stream="s", to="b")
ACK = line_of(do="ack", name="q", to=9)
# The most bytes for lines that wait to be written, for a batch, for the one before it, and for what callers send
# meanwhile: measured were 24 MiB, and 88 on a busy machine; without a bound it is more than the 137 of all lines.
MOST_QUEUED = 100 << 20
WRITING = b"cqld: writing the journal failed\n"
# What changes something of the run below, in order.
CHANGES = (
    ("a", STREAM), ("a", QUERY), ("a", put(5, 1)), ("a", beat(8)), ("a", GRANT), ("b", READ), ("a", ACK), ("a", put(9, 2)), ("a", beat(10)),
)


def a_run(server):
    """Some calls of two tenants, of which some change nothing."""
    with Caller(server, "a") as owner, Caller(server, "b") as reader:
        yield "the owner's calls", conversation(
            owner,
            (STREAM, DONE), (QUERY, BASE), (put(5, 1), DONE), (put(4, 1), LATE), (beat(8), DONE),
            (FETCH, told(9, block(5, 5, 1))), (GRANT, DONE), (b"{}\n", refused(11, "BadCommand")),
        )
        yield "the reader's call", conversation(reader, (READ, line_of(base=9)))
        yield "more of the owner's", conversation(owner, (ACK, DONE), (put(9, 2), DONE), (beat(10), DONE))


def goes_on(server):
    """What they are told behind it."""
    own = {"base": 0, "name": "q", "next": 9, "text": "ISTREAM(SELECT * FROM s [RANGE 2])"}
    with Caller(server, "a") as owner, Caller(server, "b") as reader:
        yield "the owner's list", difference(
            owner.ask(LIST), line_of(queries=[own], readable=[], streams=[{"name": "s", "open": 11}])
        )
        yield "the owner's fetch", difference(owner.ask(FETCH), told(11, block(9, 9, 2)))
        yield "the reader's fetch", difference(reader.ask(FETCH_READ), told(11, block(9, 9, 2)))
        yield "a late row", difference(owner.ask(put(10, 1)), LATE)


def killed_and_begun_again(program):
    """A server goes on where the last one was killed, as often as that is; its file has what changed something,
    and is a script that tells so."""
    with a_journal() as journal:
        with Server(program, TENANTS, journal=journal) as server:
            yield from a_run(server)
            killed(server)
        wanted = [Record(tenant, line.rstrip(b"\n")) for tenant, line in CHANGES]
        yield "the records", difference(records_of(journal), wanted)
        for number in range(3):
            with Server(program, TENANTS, journal=journal) as server:
                for name, fault in goes_on(server):
                    yield f"{name} behind start {number}", fault
                killed(server)
        yield "the records then", difference(records_of(journal), wanted)
        made = subprocess.run(f"{AS_A_SCRIPT} '{journal}'", shell=True, stdout=subprocess.PIPE, check=True)
        yield "the page's script", difference(made.stdout.splitlines(keepends=True), [*map(said_by, wanted)])
        if JUDGE.exists():
            replies = judged(JUDGE, TENANTS, map(said_by, wanted))
            yield "the file as a script", difference(
                [it for it in replies if b"refused" in it or it == b""], []
            )
            yield "as many replies", difference(len(replies), len(wanted))


def copied_under_load(program):
    """A copy of the file, whenever it is made, leads to a front of what was put."""
    with a_journal() as journal:
        copies = [journal.with_name(f"copy{number}") for number in range(8)]
        with Server(program, TENANTS, journal=journal) as server, Caller(server, "a") as owner:
            owner.ask(STREAM)
            for number, copy in enumerate(copies):
                owner.send(*(put(at, at) for at in range(number * 500, (number + 1) * 500)))
                shutil.copyfile(journal, copy)
                yield f"replies {number}", difference([owner.replies.readline() for _ in range(500)], [DONE] * 500)
            killed(server)
        for number, copy in enumerate(copies):
            puts = [it.line for it in records_of(copy)][1:]
            yield f"the puts of copy {number}", difference(puts, [put(at, at).rstrip(b"\n") for at in range(len(puts))])
            yield f"the least of copy {number}", difference(len(puts) >= number * 500, True)
            with Server(program, TENANTS, journal=copy) as server, Caller(server, "a") as owner:
                opens = {"name": "s", "open": max(0, len(puts) - 1)}
                yield f"the list of copy {number}", difference(owner.ask(LIST), line_of(queries=[], readable=[], streams=[opens]))
                killed(server)


def audited(program):
    """Sessions end, and an audit begins at the table's opening: what the file has are calls as others are."""
    with a_journal() as journal:
        with Server(program, TENANTS, journal=journal) as server:
            yield from a_run(server)
            killed(server)
        for number in range(2):
            with Server(program, TENANTS, journal=journal, sessions=2, **({"audit": True} if number else {})) as server:
                for name, fault in goes_on(server):
                    yield f"{name} of run {number}", fault
                yield f"the end of run {number}", difference(server.end(), well(len(CHANGES) + 4 if number else None))
        with Server(program, TENANTS, journal=journal, sessions=1, audit=True) as server:
            with Caller(server, "a") as owner:
                yield "a further call", conversation(owner, (put(11, 3), DONE))
            yield "the audit behind it", difference(server.end(), well(len(CHANGES) + 1))
        with Server(program, TENANTS, journal=journal, sessions=1, audit=True) as server:
            with Caller(server, "a") as owner:
                yield "calls behind that", conversation(owner, (beat(12), DONE), (FETCH, told(13, block(9, 9, 2), block(11, 11, 3))))
            yield "the audit behind them", difference(server.end(), well(len(CHANGES) + 3))
        wanted = [Record(tenant, line.rstrip(b"\n")) for tenant, line in (*CHANGES, ("a", put(11, 3)), ("a", beat(12)))]
        yield "the records of all", difference(records_of(journal), wanted)


def without_a_journal(program):
    """Nothing is kept, and no file is made."""
    with a_journal() as journal:
        with Server(program, TENANTS) as server:
            yield from a_run(server)
        yield "the folder", difference(list(journal.parent.iterdir()), [])


def cut_off(program):
    """What isn't a whole batch at the end is cut off, and told: a batch that is torn anywhere, zeros, or what was
    there before."""
    with a_journal() as journal:
        with Server(program, TENANTS, journal=journal) as server, Caller(server, "a") as owner:
            yield "calls", conversation(owner, (STREAM, DONE), (put(5, 1), DONE), (put(6, 1), DONE))
            killed(server)
        text = journal.read_bytes()
        places = [it for it, _ in batches_of(text)]
        yield "whole batches", difference((places[-1], len(places)), (len(text), 4))
        behind = [text[places[-2] : it] for it in range(places[-2] + 1, len(text), 9)]
        behind += [bytes(len(text) - places[-2]), bytes(4096), text[places[1] + 5 : places[2]], text[places[-2] : -3] + b"x\n"]
        for tail in behind:
            journal.write_bytes(text[: places[-2]] + tail)
            with Server(program, TENANTS, journal=journal) as server, Caller(server, "a") as owner:
                found = owner.ask(put(6, 1))
                killed(server)
                said = server.child.stderr.read()
            wanted = b"cqld: the last %d bytes of the journal are no whole batch, and are cut off\n" % len(tail)
            yield f"behind {tail!r}", difference((found, said), (DONE, wanted))
            yield f"the file behind {tail!r}", difference(journal.read_bytes(), text)
        for size in range(len(HEADING)):
            journal.write_bytes(HEADING[:size])
            with Server(program, TENANTS, journal=journal) as server:
                killed(server)
            yield f"{size} bytes of the first line", difference(journal.read_bytes(), HEADING)


def refused_at_start(program):
    """A journal that another server has, that is damaged or of another format, or that the table contradicts."""
    with a_journal() as journal:
        def ended(table=TENANTS):
            return ends_at_start(program, table, journal)

        def well(table):
            with Server(program, table, journal=journal) as server:
                yield from goes_on(server)
                killed(server)

        with Server(program, TENANTS, journal=journal) as server:
            yield from a_run(server)
            yield "two servers", difference(ended(), Ended(8, b"cqld: the journal is in use\n", b""))
            killed(server)
        text = journal.read_bytes()
        yield from well(tenants("abc"))
        yield from well(tenants("ba"))
        yield from well(tenants("ab").replace(b'"key":"kc"', b'"key":"kd"'))
        yield "a tenant less", difference(
            ended(tenants("a")), Ended(8, b"cqld: the journal is refused at record 5: UnknownTenant\n", b"")
        )
        yield "a stream less", difference(
            ended(tenants("ab", streams=0)), Ended(8, b"cqld: the journal is refused at record 1: TooManyStreams\n", b"")
        )
        yield "a query less", difference(
            ended(tenants("ab", queries=0)), Ended(8, b"cqld: the journal is refused at record 2: TooManyQueries\n", b"")
        )
        yield "the file behind that", difference(journal.read_bytes(), text)
        journal.write_bytes(b"0000000000000002\n")
        yield "another format", difference(ended(), Ended(8, b"cqld: the journal is of another format\n", b""))
        places = [it for it, _ in batches_of(text)]
        at = places[2] + 40
        journal.write_bytes(text[:at] + bytes([text[at] ^ 1]) + text[at + 1 :])
        yield "damage", difference(
            ended(), Ended(8, b"cqld: the journal is damaged behind byte %d\n" % places[2], b"")
        )
        journal.write_bytes(text + b"x\n" + text[places[0] : places[1]])
        yield "a whole batch behind what is none", difference(
            ended(), Ended(8, b"cqld: the journal is damaged behind byte %d\n" % len(text), b"")
        )
        journal.unlink()
        journal.mkdir()
        yield "a folder", difference(ended().status, 8)


def asked(caller, *lines):
    """All that comes to lines that are sent at once, up to the connection's end."""
    caller.send(*lines)
    return caller.replies.read()


def a_wrong_disk(program):
    """Where a write or a sync fails, the server ends, and nobody is told what isn't durable. A short write is gone
    on with."""
    # the first line is a write; a batch is one
    for words in ({"write_fails_from": 3}, {"sync_fails_from": 2}):
        with a_journal() as journal, under_wrong_disk(**words) as under:
            with Server(program, TENANTS, under, journal=journal) as server, Caller(server, "a") as owner:
                first = owner.ask(STREAM)
                found = first, asked(owner, LIST, put(5, 1), LIST, FETCH)
                open_then = line_of(queries=[], readable=[], streams=[{"name": "s", "open": 0}])
                yield f"what is told, {words}", difference(found[0], DONE)
                yield f"what isn't, {words}", difference(found[1] in (b"", open_then), True)
                yield f"the end, {words}", difference(server.end(), Ended(9, WRITING, b""))
            with Server(program, TENANTS, journal=journal) as server, Caller(server, "a") as owner:
                yield f"the next start, {words}", difference(owner.ask(STREAM), refused(20, "StreamExists"))
    with a_journal() as journal, under_wrong_disk(write_takes=7) as under:
        with Server(program, TENANTS, under, journal=journal) as server:
            yield from a_run(server)
            killed(server)
        with Server(program, TENANTS, journal=journal) as server:
            yield from goes_on(server)


def held_back(program):
    """Every reply waits for what it rests on, a fetch's and a list's too, of who waits no worker; and other
    tenants' callers wait only for what they are told."""
    with a_journal() as journal, under_wrong_disk(sync_lasts=300_000) as under:
        with Server(program, TENANTS, under, journal=journal, workers=1) as server, contextlib.ExitStack() as open_ones:
            one, other, third = (open_ones.enter_context(Caller(server, it)) for it in "aab")
            begun = time.monotonic()
            one.send(STREAM)
            time.sleep(0.02)
            other.send(LIST)
            third.send(LIST)
            yield "silence", difference((one.is_silent(0.1), other.is_silent(0.05)), (True, True))
            replies = one.replies.readline(), other.replies.readline()
            wanted = DONE, line_of(queries=[], readable=[], streams=[{"name": "s", "open": 0}])
            yield "replies", difference(replies, wanted)
            yield "the third's", difference(third.replies.readline(), line_of(queries=[], readable=[], streams=[]))
            yield "how long that took", difference(time.monotonic() - begun > 0.25, True)


def many_at_once(program):
    """Callers who send without waiting: replies in order, and all is there behind a kill, also where the disk is
    slow and the changes are gathered."""
    many = 3_000
    for words, under_words in (({}, {}), ({"sync": 5}, {}), ({}, {"sync_lasts": 5_000})):
        with a_journal() as journal, under_wrong_disk(**under_words) as under:
            with Server(program, TENANTS, under, journal=journal, **words) as server, contextlib.ExitStack() as open_ones:
                callers = [open_ones.enter_context(Caller(server, it)) for it in "ab"]
                for caller in callers:
                    caller.serve([STREAM, QUERY, *(put(it, it) for it in range(many))])
                killed(server)
            counts = [sum(it.tenant == name for it in records_of(journal)) for name in "ab"]
            yield f"records {words} {under_words}", difference(counts, [many + 2] * 2)
            with Server(program, TENANTS, journal=journal) as server, Caller(server, "b") as caller:
                found = caller.ask(LIST)
                yield f"the open of it {words} {under_words}", difference(b'"open":%d' % (many - 1) in found, True)


def of_who_has_gone(program):
    """What callers who are gone have done is in the file within some seconds, though nobody waits for it."""
    with a_journal() as journal, Server(program, TENANTS, journal=journal) as server:
        with Caller(server, "a") as caller:
            caller.serve([STREAM])
        for turn in range(10):
            gone = Caller(server, "a")
            gone.send(*(put(turn, it) for it in range(20_000)))
            gone.reset()
        time.sleep(2.5)
        before = len(records_of(journal))
        with Caller(server, "a") as caller:
            caller.ask(LIST)
        yield "records", difference(len(records_of(journal)), before)
        yield "some", difference(before > 1, True)


def a_bounded_queue(program):
    """Where the disk is slow, callers who send long lines without waiting wait, and take no memory by how much they
    send; all get their replies."""
    stream = line_of(columns=[["t", "text"]], do="stream", name="s")
    long = line_of(at=1, do="put", row=["x" * 60_000], stream="s")
    with a_journal() as journal, under_wrong_disk(sync_lasts=100_000) as under, contextlib.ExitStack() as open_ones:
        server = open_ones.enter_context(Server(program, TENANTS, under, journal=journal))
        callers = [open_ones.enter_context(Caller(server, "a")) for _ in range(4)]
        callers[0].serve([stream])
        before = server.of_status("VmHWM")
        with concurrent.futures.ThreadPoolExecutor(len(callers)) as pool:
            list(pool.map(lambda it: it.serve([long] * 600), callers))
        more = server.of_status("VmHWM") - before
        yield "memory", None if more < MOST_QUEUED else f"{more >> 20} MiB for 137 MiB of lines"


# ---- Kills. Callers draw what they send; all that they were told has to be what the file leads to.


class Drawn:
    """A tenant's caller who draws lines, and keeps which of them were told what."""

    def __init__(self, name, seed):
        self.name, self.random = name, random.Random(seed)
        self.sent, self.told, self.at, self.number = [], [], 0, 0

    def line(self):
        """One line more."""
        draw = self.random.random()
        if self.number == 0 or draw < 0.02:
            self.number += 1
            return line_of(columns=[["v", "int"]], do="stream", name=f"s{self.number}")
        stream = f"s{self.random.randint(1, self.number)}"
        if draw < 0.6:
            self.at += self.random.randint(0, 2)
            return put(self.at, self.random.randint(0, 9), stream=stream)
        if draw < 0.7:
            return beat(self.at, stream=stream)
        query = f"q{self.random.randint(0, 5)}"
        if draw < 0.78:
            return line_of(do="query", name=query, text=f"Select Istream(*) From {stream} [Range 3]")
        if draw < 0.9:
            return line_of(do="fetch", name=query)
        if draw < 0.95:
            return line_of(do="ack", name=query, to=self.random.randint(0, self.at + 1))
        if draw < 0.98:
            return line_of(do="drop", name=query)
        return LIST


def talk(callers, drawn, seconds, together):
    """Has callers send drawn lines, some at once, for so long, and keeps the replies."""
    end = time.monotonic() + seconds
    while time.monotonic() < end:
        for caller, one in zip(callers, drawn):
            lines = [one.line() for _ in range(one.random.randint(1, together))]
            one.sent += lines
            caller.send(*lines)
        for caller, one in zip(callers, drawn):
            while len(one.told) < len(one.sent):
                if one.random.random() < 0.02 and time.monotonic() > end:
                    return
                one.told.append(caller.replies.readline())


def leftovers(caller, one):
    """What was told before the end of a connection that was cut."""
    with contextlib.suppress(OSError):
        while (reply := caller.replies.readline()).endswith(b"\n"):
            one.told.append(reply)


def of_tenant(one, line):
    return b'{"tenant":"' + one.name.encode() + b'",' + line[1:]


def changes_of(lines, replies):
    """Of lines those that changed something, by their replies."""
    return [
        line.rstrip(b"\n")
        for line, reply in zip(lines, replies)
        if (reply == DONE or reply.startswith(b'{"base"')) and b'"do":"list"' not in line
    ]


def lasting(program, judge, seed, seconds, together=20, table=tenants("abcd", streams=64, queries=16, hold=10_000, result=10_000), under=(), rounds=3, **words):
    """Kills a server under load, again and again, and looks after each kill whether all that was told lasts; and at the
    end has all of it audited."""
    names = "abcd"
    with a_journal() as journal:
        drawn = [Drawn(name, f"{seed} {name}") for name in names]
        for number in range(rounds):
            with Server(program, table, under, journal=journal, **words) as server, contextlib.ExitStack() as open_ones:
                callers = [open_ones.enter_context(Caller(server, name)) for name in names]
                where = f"round {number} of seed {seed}"
                moment = random.Random(f"{seed} {number}").random() * seconds
                talk(callers, drawn, moment, together)
                for caller, one in zip(callers, drawn):
                    lines = [one.line() for _ in range(together)]
                    one.sent += lines
                    caller.send(*lines)
                time.sleep(random.Random(f"{seed} {number} b").random() * 0.01)
                killed(server)
                for caller, one in zip(callers, drawn):
                    leftovers(caller, one)
            records = records_of(journal)
            for one in drawn:
                had = [it.line for it in records if it.tenant == one.name]
                replies = judged(judge, table, [of_tenant(one, it) for it in one.sent])
                yield f"what {one.name} was told, {where}", difference(one.told, replies[: len(one.told)])
                all_changes = changes_of(one.sent, replies)
                told_changes = changes_of(one.sent[: len(one.told)], replies)
                yield f"the records of {one.name}, {where}", difference(had, all_changes[: len(had)])
                yield f"what {one.name} was told lasts, {where}", difference(len(had) >= len(told_changes), True)
                # from here on those lines alone were sent that the file has, or that were told
                count = max(len(one.told), line_behind(one.sent, replies, len(had)))
                one.sent = one.sent[:count]
                one.told = replies[:count]
        with Server(program, table, journal=journal, sessions=1, audit=True) as server:
            with Caller(server, "a") as caller:
                caller.ask(LIST)
            ended = server.end()
            # how far the start was may have been said
            yield f"the audit of seed {seed}", difference(ended._replace(said=b""), well(len(records) + 1))


def line_behind(lines, replies, count):
    """How many lines there are up to the one that changed something as the last of so many."""
    done = 0
    for at, (line, reply) in enumerate(zip(lines, replies), 1):
        done += len(changes_of([line], [reply]))
        if done == count and count:
            return at
    return 0


def killed_under_load(program):
    """The same, of a few rounds."""
    if not JUDGE.exists():
        yield "the judge", f"{JUDGE} isn't there"
        return
    yield from lasting(program, JUDGE, 1, 0.3)
    yield from lasting(program, JUDGE, 2, 0.3, sync=10)


CHECKS = (
    killed_and_begun_again,
    copied_under_load,
    audited,
    without_a_journal,
    cut_off,
    refused_at_start,
    a_wrong_disk,
    held_back,
    many_at_once,
    of_who_has_gone,
    a_bounded_queue,
    killed_under_load,
)
