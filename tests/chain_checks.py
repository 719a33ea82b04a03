"""A chain of a feeder, a query, a stage behind it, a second query and consumers of two, of which each is
killed: for tests/server and, of many kills, tests/kills. Each check gives pairs of a name and of what is
wrong, or None.
"""
import contextlib
import random
import tempfile
import time

from clients import free_port, wait_for
from feeder_checks import Feed, log_of
from served import Server, difference, line_of, tenants

SCALE, STAGE_SCALE = 32, 8
SUMS = {"columns": [["k", "text"], ["total", "int"]], "do": "stream", "name": "sums"}
CHAIN = {
    "came": f"Select Istream(*) From s [Range {3 * SCALE}]",
    "totals": f"Select Istream(k, Sum(v) As total) From s [Range {12 * SCALE}] Group By k",
    "high": "Select Istream(*) From sums [Now] Where total > 12",
}
READ = "came", "high"
TABLE = tenants("a", hold=65536)


class Chain(Feed):
    """A feeder of one row an instant, a stage behind a query, and consumers of two others."""

    def __init__(self, folder):
        super().__init__(folder, CHAIN, [])
        setup = self.folder / "setup"
        setup.write_bytes(line_of(**SUMS) + setup.read_bytes())

    def begin(self, name, port, until):
        """Starts one of the four."""
        if name == "feed":
            self.feed(port, "--scale", str(SCALE))
        elif name == "stage":
            scale = ["--scale", str(STAGE_SCALE)]
            self.start("stage", port, "--query", "totals", "--stream", "sums", *scale)
        else:
            end = until * SCALE * (STAGE_SCALE if name == "high" else 1)
            self.consume(port, name, end)

    def has_ended(self):
        statuses = {name: child.poll() for name, child in self.children.items()}
        if any(statuses.values()) or {statuses["feed"], statuses["stage"]} != {None}:
            raise OSError((self.folder / "errors").read_text() or f"statuses {statuses}")
        return all(statuses[name] == 0 for name in READ)

    def printed(self):
        files = {query: self.folder / query for query in READ}
        return {query: it.read_bytes() if it.exists() else b"" for query, it in files.items()}


# What is killed. Of the consumers it is now one, now the other.
KINDS = "feed", "stage", "consumer", "server"


def order_of(draw, count):
    """So many kinds in a drawn order. Within the first 17 each comes once behind each, itself too: they are
    the places of a closed walk over all 16 steps."""
    left = {kind: draw.sample(KINDS, len(KINDS)) for kind in KINDS}
    walk, path = [], [draw.choice(KINDS)]
    while path:
        if left[path[-1]]:
            path.append(left[path[-1]].pop())
        else:
            walk.append(path.pop())
    walk += draw.choices(KINDS, k=max(0, count - len(walk)))
    return walk[:count]


def parts_of(draw, log, count):
    """A log in so many parts, cut at drawn lines."""
    cuts = sorted(draw.sample(range(1, len(log)), count - 1))
    return [log[start:end] for start, end in zip([0, *cuts], [*cuts, len(log)])]


class Killed:
    """A chain whose parts are killed, each in the midst of what it does."""

    def __init__(self, chain, program, open_ones, until, **words):
        self.chain = chain
        self.until = until
        self.open_ones = open_ones
        self.words = {"port": free_port(), "workers": 8, **words}
        self.program = program
        self.serve()
        for name in ("feed", "stage", *READ):
            chain.begin(name, self.words["port"], until)

    def serve(self):
        self.server = self.open_ones.enter_context(Server(self.program, TABLE, **self.words))

    def go_on(self, lines, seconds):
        """Gives the feeder more lines, and waits until something is printed behind them, or so long."""
        before, end = self.chain.blocks(), time.monotonic() + seconds
        self.chain.add(lines)
        wait_for(lambda: self.chain.blocks() > before or time.monotonic() > end or self.chain.has_ended())

    def kill(self, draw, kind):
        """Kills one of a kind, and starts it anew."""
        if kind == "server":
            self.server.__exit__()
            self.serve()
        else:
            name = draw.choice(READ) if kind == "consumer" else kind
            self.chain.stop(name)
            self.chain.begin(name, self.words["port"], self.until)


def chained(program, log, until, draw=None, kills=0, keeps=False):
    """What a chain prints, with so many kills. Before each the feeder is given more of the log, and something is
    printed of it; one in four is killed sooner, while what was killed before it begins. The server may keep a
    journal."""
    parts = parts_of(draw, log, kills + 1) if kills else [log]
    with tempfile.TemporaryDirectory() as folder, Chain(folder) as chain, contextlib.ExitStack() as open_ones:
        words = {"journal": chain.folder / "journal"} if keeps else {}
        killed = Killed(chain, program, open_ones, until, **words)
        for kind, lines in zip(order_of(draw, kills) if kills else (), parts):
            killed.go_on(lines, draw.choice((0, 2, 2, 2)))
            time.sleep(draw.uniform(0, 0.1))
            killed.kill(draw, kind)
        chain.add(parts[-1])
        wait_for(chain.has_ended)
        return chain.printed()


def chain_outlives(program, seed, kills, keeps=False):
    """A chain of a drawn log, of which so many kills change no byte of what is printed. That nothing asks for a
    new start of the server is seen by that the feeder and the stage go on to the end."""
    draw = random.Random(seed)
    log, until = log_of(draw, 30 * (kills + 1))
    wanted = chained(program, log, until)
    blocks = sum(text.count(b"\n") for text in wanted.values())
    yield f"{blocks} blocks of a chain", None if min(map(len, wanted.values())) > 500 else "few"
    found = chained(program, log, until, draw, kills, keeps)
    for query in READ:
        yield f"{query} over {kills} kills by {seed}", difference(found[query], wanted[query])


def chain_outlives_all(program):
    """Feeder, stage, consumers and server are killed one behind the other, also where the server keeps a journal;
    tests/kills does so with more."""
    yield from chain_outlives(program, 1, 8)
    yield from chain_outlives(program, 2, 8, keeps=True)


CHECKS = (chain_outlives_all,)
