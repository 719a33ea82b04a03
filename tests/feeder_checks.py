"""What tests/server checks of the examples that stand on clients/python: scripts, the feeder and its
consumers over kills, and a load. Each check gives pairs of a name and of what is wrong, or None.
"""
import contextlib
import json
import os
import pathlib
import random
import select
import subprocess
import sys
import tempfile
import time

from clients import LOAD, TENANTS, TOP, ending, environment, free_port, session, wait_for
from served import SECONDS, Caller, Server, beat, difference, line_of, put, tenants

import romburik
import romburik.session

FEED = TOP / "examples/feed.py"
CONSUME = TOP / "examples/consume.py"
STAGE = TOP / "examples/stage.py"
EXAMPLES = TOP / "examples"
# How long something is looked at that should stay as it is.
SILENCE = 0.2


# ---- Scripts, and what is waited for.


def scripts(program):
    """A script of cqlrun by sessions of its tenants tells what cqlrun does."""
    for path in sorted(EXAMPLES.glob("*.jsonl")):
        table = path.read_bytes().splitlines(True)[0]
        with Server(program, table) as server:
            words = [sys.executable, "-m", "romburik", "--port", str(server.port)]
            ran = subprocess.run(
                [*words, "--script", path],
                env=environment(None),
                capture_output=True,
                timeout=SECONDS,
                check=False,
            )
        replies = [line[2:] for line in ran.stdout.splitlines(True) if line[:2] == b"< "]
        wanted = path.with_suffix(".out").read_bytes().splitlines(True)
        if path.stem in ("refusals", "two_tenants"):
            said = b"the line names no tenant of the script's first line, and isn't sent"
            found = ran.returncode, said in ran.stdout, len(replies) < len(wanted)
            yield f"the script {path.name}, with lines of nobody", difference(
                found, (1, True, True)
            )
        else:
            yield f"the script {path.name}", difference(replies, wanted)


def said_within(children, seconds):
    """The first line on standard error of each of some programs, or what there is of it so late."""
    end = time.monotonic() + seconds
    found = []
    for child in children:
        ready = select.select([child.stderr], [], [], max(0, end - time.monotonic()))[0]
        found.append(os.read(child.stderr.fileno(), 1 << 16).decode() if ready else "")
    return found


def waits_are_told(program):
    """Who waits for a server, a slot at one or a query says so. How soon is a matter of a clock and of
    how busy a machine is; that it is meant to be within five seconds is seen at the number."""
    yield "how soon it is told", None if romburik.session.SOON < 4 else "it is late"
    with tempfile.TemporaryDirectory() as folder, contextlib.ExitStack() as open_ones:
        server = open_ones.enter_context(Server(program, TENANTS, callers=1))
        other = open_ones.enter_context(Server(program, TENANTS))
        open_ones.enter_context(Caller(server, "a"))
        for name in "setup", "log":
            pathlib.Path(folder, name).touch()
        files = [f"--{name}={folder}/{name}" for name in ("setup", "log")]
        consume, feed = [CONSUME, "--query", "q"], [FEED, *files]
        children = []

        def start(words, port):
            words = [sys.executable, *words, "--port", str(port), "--tenant", "a"]
            how = {"stdout": subprocess.DEVNULL, "stderr": subprocess.PIPE, "env": environment()}
            child = subprocess.Popen(words, **how)
            children.append(open_ones.enter_context(ending(child)))

        nobody = free_port()
        for script in consume, feed:
            start([*script, "--offsets", folder], nobody)
            start([*script, "--offsets", folder], server.port)
        start([*consume, "--offsets", folder], other.port)
        start(["-m", "romburik", "--follow", "q"], server.port)
        start(["-m", "romburik", "watch", "q"], other.port)
        found = said_within(children, SECONDS)
    for name, said, wanted in zip(
        (
            "a consumer without a server",
            "a consumer without a slot",
            "a feeder without a server",
            "a feeder without a slot",
            "a consumer without a query",
            "a terminal without a slot",
            "a watch without a query",
        ),
        found,
        ("no connection", "--callers", "no connection", "--callers", "57", "--callers", "57"),
    ):
        yield name, None if wanted in said else f"it says {said!r}"


# ---- The feeder and its consumers.


SETUP = (
    {"columns": [["k", "text"], ["v", "int"]], "do": "stream", "name": "s"},
    {"columns": [["k", "text"], ["w", "int"]], "do": "stream", "name": "u"},
)
TEXTS = {
    "came": "Select Istream(*) From s [Range 3]",
    "counts": "Select Rstream(k, Count(*), Sum(v)) From s [Range 12] Group By k",
    "pairs": "Select s.k, v, w From s [Rows 4], u [Partition By k Rows 1] Where s.k = u.k",
}


class Feed:
    """A folder with the files of a feeder and its consumers, and their processes."""

    def __init__(self, folder, texts, log):
        self.folder = pathlib.Path(folder)
        self.texts = texts
        self.log = log
        self.offsets = self.folder / "offsets"
        self.offsets.mkdir()
        queries = [{"do": "query", "name": name, "text": text} for name, text in texts.items()]
        (self.folder / "setup").write_bytes(b"".join(line_of(**it) for it in (*SETUP, *queries)))
        (self.folder / "log").write_bytes(b"".join(log))
        self.children = {}

    def __enter__(self):
        return self

    def add(self, lines):
        """Adds lines to the log."""
        with open(self.folder / "log", "ab") as log:
            log.write(b"".join(lines))

    def __exit__(self, *_):
        for child in self.children.values():
            child.kill()
            child.wait()

    def start(self, name, port, *words):
        """Starts the feeder, or the consumer of a query."""
        script = {"feed": FEED, "stage": STAGE}.get(name, CONSUME)
        offsets = [] if name == "stage" else ["--offsets", self.offsets]
        words = ["--port", str(port), "--tenant", "a", *offsets, *words]
        with open(self.folder / "errors", "ab") as errors:
            self.children[name] = subprocess.Popen(
                [sys.executable, script, "--poll", "0.01", *words],
                env=environment(),
                stderr=errors,
            )

    def feed(self, port, *words):
        files = ["--setup", self.folder / "setup", "--log", self.folder / "log"]
        self.start("feed", port, *files, "--ahead", "20", *words)

    def consume(self, port, query, until):
        out = ["--out", self.folder / query, "--until", str(until)]
        self.start(query, port, "--query", query, *out)

    def stop(self, name):
        self.children[name].kill()
        self.children[name].wait()

    def printed(self):
        """What each consumer has printed."""
        files = {query: self.folder / query for query in self.texts}
        return {query: it.read_bytes() if it.exists() else b"" for query, it in files.items()}

    def blocks(self):
        return sum(text.count(b"\n") for text in self.printed().values())

    def has_ended(self):
        """Whether all consumers are at their end; an end that is none is an error."""
        statuses = [child.poll() for child in self.children.values()]
        if any(statuses) or self.children["feed"].poll() is not None:
            raise OSError((self.folder / "errors").read_text() or f"statuses {statuses}")
        return statuses.count(0) == len(self.texts)


def log_of(draw, rows):
    """Lines of both streams in the order of their times, and the instant behind all of them."""
    lines, at = [], 0
    for number in range(rows):
        at += draw.choice((0, 0, 1, 1, 2, 7))
        row = draw.choice("xyz"), draw.randrange(9)
        lines.append(put(at, *row, stream="u" if number % 5 == 0 else "s"))
        if number % 20 == 19:
            lines += [beat(at, stream="s"), beat(at, stream="u")]
            at += 1
    return [*lines, beat(at + 20, stream="s"), beat(at + 20, stream="u")], at + 21


def blocks_of_one_run(program, texts, log):
    """The whole blocks of each query, where the server goes on and all is fetched at once."""
    found = {}
    table = tenants("a", hold=65536)
    with Server(program, table) as server, Caller(server, "a") as caller:
        queries = [{"do": "query", "name": name, "text": text} for name, text in texts.items()]
        for line in (*(line_of(**it) for it in (*SETUP, *queries)), *log):
            reply = caller.ask(line)
            if b"refused" in reply:
                raise OSError(f"{reply!r} is the reply to {line!r}")
        for query in texts:
            answer = json.loads(caller.ask(line_of(do="fetch", name=query)))
            whole = [it for it in answer["blocks"] if it["to"] + 1 < answer["next"]]
            found[query] = b"".join(line_of(**it) for it in whole)
    return found


def kills(program, seed, texts, *words):
    """The server is killed five times, here and there a consumer too, and nothing is told twice."""
    draw = random.Random(seed)
    log, until = log_of(draw, 240)
    wanted = blocks_of_one_run(program, texts, log)
    count = sum(text.count(b"\n") for text in wanted.values())
    places = sorted(draw.sample(range(count * 3 // 4), 5))
    port = free_port()
    with tempfile.TemporaryDirectory() as folder, Feed(folder, texts, log) as feed:
        feed.feed(port, *words)
        for query in texts:
            feed.consume(port, query, until)
        for place in places:
            with Server(program, tenants("a"), port=port, workers=8):
                wait_for(lambda place=place: feed.blocks() >= place)
                time.sleep(draw.uniform(0, 0.1))
                feed.has_ended()
            if draw.random() < 0.5:
                query = draw.choice([*texts])
                feed.stop(query)
                feed.consume(port, query, until)
        with Server(program, tenants("a"), port=port, workers=8):
            wait_for(feed.has_ended)
        printed = feed.printed()
    yield f"{count} blocks and kills at {places}", None if count > 100 else "they are few"
    for query in texts:
        yield f"{query} over kills at {places}", difference(printed[query], wanted[query])


def feeder_outlives_servers(program):
    yield from kills(program, 1, TEXTS)
    recent = {name: text for name, text in TEXTS.items() if name != "pairs"}
    yield from kills(program, 2, recent, "--reach", "12")


def feeder_waits_for_consumers(program):
    """It acknowledges for one that is away, and goes no further than it may."""
    log = [put(at, "x", at) for at in range(60)] + [beat(at, stream="u") for at in range(60)]
    log.sort(key=lambda line: json.loads(line)["at"])
    with tempfile.TemporaryDirectory() as folder, Feed(folder, TEXTS, log) as feed:
        for query in TEXTS:
            (feed.offsets / query).write_text('{"next":30}')
        with Server(program, tenants("a")) as server, session(server) as it:
            feed.feed(server.port)
            wait_for(lambda: [one.next for one in it.list().queries] == [30] * 3)
            # who looks at a copy that he doesn't acknowledge holds nobody up
            look = romburik.OwnLooker(it, "came").look()
            yield "a copy at the feeder's place", difference(look.since <= 50, True)
            for query in TEXTS:
                # at once, since the feeder reads it meanwhile
                (feed.folder / "next").write_text('{"next":40}')
                os.replace(feed.folder / "next", feed.offsets / query)
            wait_for(lambda: [one.next for one in it.list().queries][:3] == [40] * 3)
            time.sleep(SILENCE)
            listing = it.list()
            found = [one.next for one in listing.queries][:3], listing.streams[0].open < 60
        yield "consumers that are away", difference(found, ([40] * 3, True))


def feeder_is_started_anew(program):
    """It goes on where the server is, and ends where that isn't known."""
    texts = {"came": TEXTS["came"]}
    log = [put(2 * at + 2, "x", at, stream="su"[at % 2]) for at in range(60)]
    log += [beat(200, stream=stream) for stream in "su"]
    wanted = blocks_of_one_run(program, texts, log)
    with tempfile.TemporaryDirectory() as folder, Feed(folder, texts, log) as feed:
        with Server(program, tenants("a"), workers=8) as server:
            feed.feed(server.port)
            feed.consume(server.port, "came", 201)
            for blocks in 3, 7, 20:
                wait_for(lambda blocks=blocks: feed.blocks() >= blocks)
                feed.stop("feed")
                feed.feed(server.port)
            wait_for(feed.has_ended)
        yield "a feeder started anew", difference(feed.printed(), wanted)
        with open(feed.folder / "came", "ab") as out, Server(program, tenants("a")) as server:
            out.write(b"what its offset doesn't know of")
            out.flush()
            feed.consume(server.port, "came", 201)
            wait_for(feed.has_ended)
        yield "what a consumer didn't keep", difference(feed.printed(), wanted)
    log = [put(1, "x", 1), put(1, "x", 1), put(1, "x", 2, stream="u")]
    with tempfile.TemporaryDirectory() as folder, Feed(folder, texts, log) as feed:
        with Server(program, tenants("a")) as server:
            with Caller(server, "a") as caller:
                for line in SETUP:
                    caller.ask(line_of(**line))
                caller.ask(log[0])
            feed.feed(server.port)
            status = feed.children["feed"].wait(SECONDS)
            said = (feed.folder / "errors").read_text()
    wanted = (
        1,
        "feed: it isn't known which lines came in; start the server anew, and feed it by --sc",
    )
    yield "a feeder in doubt", difference((status, said[: len(wanted[1])]), wanted)


def consumers_refuse_short_files(program):
    """A file that is shorter than the offset knows isn't filled with anything."""
    texts = {"came": TEXTS["came"]}
    log = [put(at, "x", at) for at in range(1, 20)] + [beat(30), beat(30, stream="u")]
    with tempfile.TemporaryDirectory() as folder, Feed(folder, texts, log) as feed:
        with Server(program, tenants("a")) as server:
            feed.feed(server.port)
            feed.consume(server.port, "came", 20)
            wait_for(feed.has_ended)
            before = feed.printed()["came"]
            feed.stop("feed")
            (feed.folder / "came").write_bytes(b"")
            feed.consume(server.port, "came", 31)
            status = feed.children["came"].wait(SECONDS)
        said = (
            f"has 0 bytes and the offset knows of {len(before)}"
            in (feed.folder / "errors").read_text()
        )
        found = status, said, feed.printed()["came"]
    yield "a file that is too short", difference(found, (1, True, b""))


def consumers_run_commands(program):
    """A command over each block, again until its status is 0; rows as comma-separated values."""
    with Server(program, TENANTS) as server, session(server) as it:
        it.stream("s", {"k": "text", "v": "int"})
        it.query("q", "Select k, v From s [Now]")
        it.put("s", 5, ["a, b", 1])
        it.put("s", 7, ["c", 2])
        it.beat("s", 8)
        with tempfile.TemporaryDirectory() as folder:
            shown, failed = f"{folder}/shown", f"{folder}/failed"
            command = f"test -e {failed} && cat >> {shown} || {{ touch {failed}; exit 3; }}"
            words = [
                "--port",
                str(server.port),
                "--tenant",
                "a",
                "--query",
                "q",
                "--offsets",
                folder,
            ]
            how = {"env": environment(), "capture_output": True, "timeout": SECONDS, "check": False}
            ran = subprocess.run(
                [sys.executable, CONSUME, *words, "--until", "9", "--exec", command], **how
            )
            said = b"consume: the command ended with status 3, and is run again in 1 seconds\n"
            found = ran.returncode, ran.stderr, pathlib.Path(shown).read_bytes()
            plus, minus = [[["a, b", 1]], [["c", 2]]], []
            blocks = (
                {"from": 5, "to": 5, "plus": plus[0], "minus": minus},
                {"from": 6, "to": 6, "plus": minus, "minus": plus[0]},
                {"from": 7, "to": 7, "plus": plus[1], "minus": minus},
                {"from": 8, "to": 8, "plus": minus, "minus": plus[1]},
            )
            wanted = b"".join(line_of(**one) for one in blocks[:3])
            # the last block may go on, so it isn't told before it is at its end
            yield "a command over blocks", difference(found[:2], (0, said))
            yield "what it was given", None if found[2].startswith(wanted) else f"it is {found[2]}"
            it.drop("q")
            base = it.query("q", "Select Istream(k, v) From s [Now]")
            pathlib.Path(folder, "q").write_text(f'{{"bytes":0,"held":null,"next":{base}}}')
            it.put("s", 10, ["d, e", 3])
            it.beat("s", 20)
            words += ["--until", "20", "--form", "csv"]
            ran = subprocess.run([sys.executable, CONSUME, *words], **how)
            found = ran.returncode, ran.stdout, ran.stderr
            yield "comma-separated values", difference(found, (0, b'10,10,row,"d, e",3\n', b""))


def load_goes_on(program):
    """The rows of a machine's load, started twice."""
    with Server(program, TENANTS) as server, session(server) as it:
        words = ["--port", str(server.port), "--tenant", "a", "--seconds", "5", "--every", "0"]
        for _ in range(2):
            subprocess.run(
                [sys.executable, LOAD, *words], env=environment(), timeout=SECONDS, check=True
            )
        yield "a load that is started twice", difference(it.list().streams[0].open, 10)


CHECKS = (
    scripts,
    waits_are_told,
    feeder_outlives_servers,
    feeder_waits_for_consumers,
    feeder_is_started_anew,
    consumers_refuse_short_files,
    consumers_run_commands,
    load_goes_on,
)
