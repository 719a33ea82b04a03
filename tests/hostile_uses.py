"""Draws what two tenants do to a server for bench/hostile: streams, rows, queries and the order of calls."""
import collections
import random
import re

import hostile_texts
from hostile_named import ack, beat, drop, fetch, put, query, stream
from served import line_of, tenants
from sized import ALWAYS, MIB, Quotas, Text, at_rest, of_bench, of_reply, row

READER, OWNER = "a", "o"
# Of one seed the rows that are held have so many bytes in all, or a stream has one.
MOST_BYTES = 10 << 20
SIZES = 0, 1, 20, 1_000, 20_000, 59_000
# A stream's columns, and whether they are of texts.
NARROW = {"v": False, "a": True}
WIDE = {"v": False, "k": False, **{f"c{it}": it % 2 == 0 for it in range(14)}}
KEYS = "one", "few", "distinct"
USES = "fetches", "rounds", "revoke", "overrun", "acks"

# A use: what it draws from, its kind, the quotas, columns and streams of each tenant, the bytes of a text, what
# the values are, whether the rows of a round are of one instant, how many they are in each stream, and whether
# texts differ at their ends.
Use = collections.namedtuple("Use", "draw kind queries hold result columns streams size keys at_once rows prefix")
# What a run is given, and what it is judged by.
Drawn = collections.namedtuple("Drawn", "name table tenant steps drops quotas texts fetched")
FETCHED, MOST_QUERIES, FEW_PARTS = 3, 64, 3
COMPARISON = re.compile(r"[<>=!]+")
INPUT = re.compile(r" [xyz](?=[, )]|$)")
READ = re.compile(r"(?:o\.)?\bs\d\b")
AGGREGATE = re.compile(r"\b(?:Sum|Min|Max)\([^)]*\)")


def value(use, is_text, number):
    """A number, or a text of the use's size, for the row of a number."""
    key = {"one": 0, "few": number % 7, "distinct": number}[use.keys]
    if not is_text:
        return key
    if use.size < 8:
        return "xyz"[key % 3] * use.size
    return f"{key:08}".rjust(use.size, "x") if use.prefix else f"{key:08}".ljust(use.size, "x")


def values(use, number):
    return [value(use, is_text, number) for is_text in use.columns.values()]


def use_of(draw):
    """What is drawn first. A window holds the rows of a round, and is charged those of two."""
    columns = draw.choice((NARROW, NARROW, WIDE))
    texts = sum(columns.values())
    size = min(draw.choice(SIZES), 59_000 // texts)
    streams = [f"s{it}" for it in range(draw.choice((1, 1, 2, 3, 6)))]
    most = max(1, MOST_BYTES // (2 * len(streams)) // row(len(columns), texts, texts * size))
    rows = min(draw.choice((1, 25, 150, 1_000, 1_000, 3_000)), most)
    words = draw.choice((1, 3, 12)), 2 * rows + 3, draw.choice((1, 100, 2_000, 20_000))
    kinds = draw.choice(KEYS), draw.random() < 0.5
    return Use(draw, draw.choice(USES), *words, columns, streams, size, *kinds, rows, draw.random() < 0.5)


def names_of(use):
    """Streams as the reader names them: its own, and those of the owner."""
    own = {it: use.columns for it in use.streams}
    return {**own, **{f"{OWNER}.{it}": use.columns for it in use.streams}}


def made(use):
    columns = [(name, "text" if is_text else "int") for name, is_text in use.columns.items()]
    for name in use.streams:
        yield READER, stream(name, columns)
        yield OWNER, stream(name, columns)
        yield OWNER, line_of(do="grant", stream=name, to=READER)


def puts(use, start, rows):
    """Rows of all streams from an instant on, and beats behind them."""
    for number in range(rows):
        at = start if use.at_once else start + number
        for name in use.streams:
            for owner in (READER, OWNER):
                yield owner, put(at, values(use, start + number), name)
    last = start if use.at_once else start + rows - 1
    for name in use.streams:
        for owner in (READER, OWNER):
            yield owner, beat(last, name)


def end_of(use, start, rows):
    """The limit behind these."""
    return start + 1 if use.at_once else start + rows


def registered(use, texts):
    return [(READER, query(f"q{place}", text)) for place, text in enumerate(texts)]


def each(use, make):
    return [(READER, make(f"q{place}")) for place in range(use.queries)]


def some_fetches(use):
    """A few, since an answer may take as long as the server lets it."""
    return each(use, fetch)[:FETCHED]


def once(use, texts, start):
    """Registrations, puts, fetches, acks, a few puts more, and fetches that go on."""
    yield from registered(use, texts)
    yield from puts(use, start, use.rows)
    yield from some_fetches(use)
    end = end_of(use, start, use.rows)
    yield from each(use, lambda name: ack(name, end))
    yield from puts(use, end, min(use.rows, 3))
    yield from some_fetches(use)


def fetches(use, texts):
    yield from once(use, texts, 0)


def rounds(use, texts):
    """The same again and again, without fetches."""
    start = 0
    for turn in range(use.draw.choice((2, 8))):
        if turn:
            yield from each(use, drop)
        yield from registered(use, texts)
        yield from puts(use, start, use.rows)
        start = end_of(use, start, use.rows)
        yield from each(use, lambda name: ack(name, start))


def revoke(use, texts):
    """The owner takes all back, one after another."""
    yield from once(use, texts, 0)
    for name in use.streams:
        yield OWNER, line_of(do="revoke", stream=name, to=READER)


def overrun(use, texts):
    """More rows than windows may be charged."""
    yield from registered(use, texts)
    yield from puts(use, 0, use.rows)
    yield from puts(use, end_of(use, 0, use.rows), use.hold)
    yield from some_fetches(use)


def acks(use, texts):
    """Acks of few rows each."""
    yield from registered(use, texts)
    start = 0
    for _ in range(5):
        rows = max(1, use.rows // 5)
        yield from puts(use, start, rows)
        start = end_of(use, start, rows)
        yield from each(use, lambda name: ack(name, start))
        yield from some_fetches(use)[:1]


KINDS = {"fetches": fetches, "rounds": rounds, "revoke": revoke, "overrun": overrun, "acks": acks}


def text_of(text):
    """What a text has, or some more."""
    comparisons = len(COMPARISON.findall(text))
    names = 2 * comparisons + sum(map(text.count, ",+-*")) + 4
    # a window stands behind a stream's name, and before its alias
    windows = len(INPUT.findall(text))
    blocks = text.count("Select")
    return Text(windows, text.count("Partition"), blocks, len(text), comparisons, names, len(set(AGGREGATE.findall(text))))


def quotas_of(use, texts):
    """What the quotas, and the rows that come, let the server hold: of each stream that is read."""
    read = {it for text in texts for it in READ.findall(text)}
    places = sum(use.columns.values())
    weight = row(len(use.columns), places, places * use.size)
    return Quotas(len(read), use.hold, use.result, weight)


def name_of(use, quotas):
    when = "one instant" if use.at_once else "one by one"
    rows = f"{use.rows} rows of {quotas.weight} bytes, {use.keys} keys, {when}"
    return f"{use.kind}, {use.queries} queries, {len(use.streams)} streams twice, {rows}, result {use.result}"


def of_parts(draw, use):
    """A text of several windows by Partition By."""
    text = ""
    while text.count("Partition") < FEW_PARTS:
        text = hostile_texts.query(draw, names_of(use), use.hold)
    return text


def of_seed(seed):
    """The run of a seed."""
    draw = random.Random(seed)
    use = use_of(draw)
    if use.kind == "rounds" and draw.random() < 0.3:
        use = use._replace(queries=MOST_QUERIES)
        texts = [of_parts(draw, use)] * use.queries
    else:
        texts = [hostile_texts.query(draw, names_of(use), use.hold) for _ in range(use.queries)]
    steps = [*made(use), *KINDS[use.kind](use, texts)]
    table = tenants([READER, OWNER], hold=use.hold, queries=use.queries, result=use.result, streams=8)
    quotas = quotas_of(use, texts)
    # a use without fetches has no answers
    fetched = [] if use.kind == "rounds" else [text_of(it) for it in texts[:FETCHED]]
    return Drawn(name_of(use, quotas), table, READER, steps, each(use, drop), quotas, texts, fetched)


def kept_by_benches(drawn, room=None):
    """What benches may keep of the answers. `room`: how many MiB they may together, where that is known."""
    kept = sum(of_bench(drawn.quotas, it) for it in drawn.fetched)
    return kept if room is None else min(kept, room * MIB)


def left_of(drawn, room=None):
    """The most that may be left behind the last drop: without a room benches stay for a minute."""
    return ALWAYS + (kept_by_benches(drawn) if room is None else 0)


def bounds(drawn, held, room=None):
    """The most that a run may have at its greatest, at the end of its lines, and behind the last drop."""
    rest = at_rest(drawn.quotas, [text_of(it) for it in drawn.texts]) + kept_by_benches(drawn, room)
    greatest = max((of_bench(drawn.quotas, it) for it in drawn.fetched), default=0)
    told = max((of_reply(it, held.rows) for it in drawn.fetched), default=0)
    return rest + greatest + told, rest, left_of(drawn, room)
