"""What tenants once could do to others, by name, for bench/hostile: texts, rows and calls that took far more
than their rows are worth.
"""
import collections

from served import line_of, tenants
from sized import STUB, row

# `table`: the tenants; `tenant`: who is served; `steps`: pairs of a tenant and a line up to the last drops,
# which are those of `drops`; `rows`: the bytes of the rows that are held at once; `under`: what runs the
# server. Of `refusals` none may come.
Named = collections.namedtuple("Named", "name table tenant steps drops rows under refusals", defaults=((), ()))
ONE_GIB = "prlimit", f"--as={1 << 30}"
TEXTS, NUMBERS = "text", "int"
LONGEST_TEXT = 4096


def stream(name, columns):
    return line_of(columns=[list(it) for it in columns], do="stream", name=name)


def query(name, text):
    if len(text) > LONGEST_TEXT:
        raise ValueError(f"a text of {len(text)} bytes")
    return line_of(do="query", name=name, text=text)


def put(at, values, name="s"):
    return line_of(at=at, do="put", row=values, stream=name)


def beat(at, name="s"):
    return line_of(at=at, do="beat", stream=name)


def ack(name, to):
    return line_of(do="ack", name=name, to=to)


def fetch(name):
    return line_of(do="fetch", name=name)


def drop(name):
    return line_of(do="drop", name=name)


def of_a(lines):
    """Lines of the one tenant."""
    return [("a", it) for it in lines]


def long_text(number, size):
    """A text of so many bytes, another one for each number."""
    return f"{number:08}".ljust(size, "x")


def filled(head, tail, again, size=LONGEST_TEXT, most=10**6):
    """A text between head and tail of `again`, parted by commas, as often as there is room."""
    times = min(most, (size - len(head) - len(tail) + 1) // (len(again) + 1))
    return head + ",".join([again] * times) + tail


def one_answer(name, text, count, size, hold=65536, result=65536):
    """Rows of one text each at one instant, and one fetch of one query over them."""
    lines = [stream("s", [("a", TEXTS)]), query("q", text)]
    lines += [put(0, [long_text(it, size)]) for it in range(count)]
    lines += [beat(0), fetch("q")]
    table = tenants("a", hold=hold, result=result)
    return Named(name, table, "a", of_a(lines), of_a([drop("q")]), count * row(1, 1, size))


def parts_of_one_column(name, kind, value, count, hold):
    """One ack over a window whose parts are named by one column again and again."""
    text = filled("Select Istream(Count(*)) From s [Partition By ", " Rows 1]", "v", most=1_900)
    lines = [stream("s", [("v", kind)]), query("q", text)]
    lines += [put(it, [value(it)]) for it in range(count)]
    lines += [beat(count), ack("q", count)]
    weight = row(1, 1, len(value(0))) if kind == TEXTS else row(1, 0, 0)
    table = tenants("a", hold=hold, result=10_000)
    return Named(name, table, "a", of_a(lines), of_a([drop("q")]), count * weight)


def repeated_items():
    return filled("Dstream(Select ", " From s)", "a", most=2_030)


def by_example_quotas():
    """Two queries of three inputs over 21 rows, by the quotas of the example of a tenants line."""
    texts = [filled(f"Dstream(Select Distinct {it},x.v,y.v,z.v,", " From s x,s y,s z)", "x.v") for it in range(2)]
    names = ["q0", "q1"]
    lines = [stream("s", [("v", NUMBERS)]), *(query(*it) for it in zip(names, texts))]
    lines += [put(0, [it]) for it in range(21)]
    lines += [beat(0), *map(fetch, names)]
    table = tenants("a", hold=1000, result=10000)
    name = "21 rows and two queries of three inputs by the quotas of the example"
    return Named(name, table, "a", of_a(lines), of_a(map(drop, names)), 21 * row(1, 0, 0))


SHORT = "Dstream(Select Distinct x.a,y.a,z.a From s x,s y,s z)"


def short_texts(name, queries, under=(), refusals=()):
    """Queries of some 60 bytes over ten long rows, each fetched once."""
    names = [f"q{it}" for it in range(queries)]
    lines = [stream("s", [("a", TEXTS)]), *(query(it, SHORT) for it in names)]
    lines += [put(0, [long_text(it, 60_000)]) for it in range(10)]
    lines += [beat(0), *map(fetch, names)]
    table = tenants("a", queries=64, hold=1000, result=10000)
    return Named(name, table, "a", of_a(lines), of_a(map(drop, names)), 10 * row(1, 1, 60_000), under, refusals)


def last_pins():
    """Rounds of rows of one instant, which one query fetches and all acknowledge."""
    names = [f"q{it}" for it in range(6)]
    lines = [stream("s", [("a", TEXTS)])]
    lines += [query(it, f"Select Istream(Count(*)) From s [Now] Where a <> '{it}'") for it in names]
    for at, name in enumerate(names):
        lines += [put(at, [long_text(it, 60_000)]) for it in range(1_000)]
        lines += [beat(at), fetch(name), *(ack(it, at + 1) for it in names)]
    table = tenants("a", hold=2000, result=10000)
    rows = 1_000 * row(1, 1, 60_000)
    name = "six rounds of long rows that six queries acknowledge"
    return Named(name, table, "a", of_a(lines), of_a(map(drop, names)), rows)


COLUMNS = [chr(ord("a") + it) for it in range(16)]
SAID = 2_029


def three_streams(name, text):
    """10,000 rows of 16 numbers on each of three streams, and one fetch of a text of some 2,029 bytes."""
    lines = [stream(it, [(column, NUMBERS) for column in COLUMNS]) for it in "spu"] + [query("q", text)]
    for place in range(10_000):
        lines += [put(0, [place * 16 + it for it in range(16)], stream) for stream in "spu"]
    lines += [*(beat(0, it) for it in "spu"), fetch("q")]
    table = tenants("a", hold=65536, result=65536)
    name = f"10,000 rows on each of three streams, {name} in {len(text)} bytes"
    return Named(name, table, "a", of_a(lines), of_a([drop("q")]), 30_000 * row(16, 0, 0))


def many_equalities():
    """Every pair of columns is joined."""
    pairs = [f"{left}.{one}={right}.{other}" for one in COLUMNS for other in COLUMNS for left, right in ("xy", "yz")]
    text = "Select Istream(Count(*)) From s x,p y,u z Where " + " And ".join(pairs)
    return three_streams("every pair of columns equal", text[: text.rindex(" And ", 0, SAID)])


def many_items():
    """Rows that meet once each have many items."""
    text = filled("Dstream(Select Distinct ", " From s x,p y,u z Where x.a=y.a And y.a=z.a)", "x.a", SAID)
    return three_streams("items of rows that meet", text)


def many_groups():
    """Groups of what meets by many columns."""
    head = "Dstream(Select Count(*) From s x,p y,u z Where x.a=y.a And y.a=z.a Group By "
    each = ",".join(f"{alias}.{column}" for alias in "xyz" for column in COLUMNS)
    return three_streams("groups of rows that meet", filled(head, ")", each, SAID))


def six(window, item="Count(*)"):
    """A text of six windows."""
    inputs = ",".join(f"s {window} {it}" for it in "xyz")
    return f"Istream(Select {item} From {inputs} Union All Select {item} From {inputs})"


def rounds_of_parts(rounds):
    """Rounds of registrations, puts, acks and drops of windows of parts."""
    names = [f"q{it}" for it in range(64)]
    made, lines, gone = [stream("s", [("v", NUMBERS)])], [], of_a(map(drop, names))
    for turn in range(rounds):
        at = turn * 1_000
        lines += [query(it, six("[Partition By v Rows 1]")) for it in names]
        lines += [put(at + it, [it]) for it in range(1_000)]
        lines += [beat(at + 999), *(ack(it, at + 1_000) for it in names)]
        lines += map(drop, names) if turn < rounds - 1 else ()
    table = tenants("a", queries=64, hold=1000, result=10000)
    name = f"{rounds} rounds of 64 registrations, 1,000 puts, 64 acks and 64 drops, six windows of parts"
    return Named(name, table, "a", of_a([*made, *lines]), gone, 1_000 * row(1, 0, 0))


def owned():
    """320 streams, of the reader itself and of four owners who grant him theirs: of each its owner and name."""
    return [(owner, f"s{number}") for owner in "abcde" for number in range(64)]


def reader_of(others):
    """A text over the stream that will be revoked and five others."""
    blocks = [("o.x", *others[:2]), others[2:]]
    said = [",".join(f"{it} {alias}" for it, alias in zip(some, "xyz")) for some in blocks]
    return " Union All ".join(f"Select Count(*) From {it}" for it in said)


def only_readers():
    """A revoke that ends the queries which alone read 320 other streams."""
    streams, rows = owned(), 300
    steps = [("o", stream("x", [("v", NUMBERS)])), ("o", line_of(do="grant", stream="x", to="a"))]
    for owner, name in streams:
        steps.append((owner, stream(name, [("v", NUMBERS)])))
        steps += [(owner, line_of(do="grant", stream=name, to="a"))] if owner != "a" else []
    for number in range(64):
        five = [f"{owner}.{name}" for owner, name in streams[number * 5 : number * 5 + 5]]
        steps.append(("a", query(f"q{number}", reader_of(five))))
    steps += [(owner, put(at, [at], name)) for owner, name in streams for at in range(rows)]
    steps.append(("o", line_of(do="revoke", stream="x", to="a")))
    table = tenants("aobcde", streams=64, queries=64, hold=65536, result=1000)
    drops = of_a(drop(f"q{it}") for it in range(64))
    name = "a revoke beside which 320 streams lose their only reader"
    return Named(name, table, "a", steps, drops, 320 * rows * row(1, 0, 0))


def six_streams(dropped):
    """An ack or a drop that lets rows of 16 texts go of six streams."""
    names = [f"s{it}" for it in range(6)]
    columns = [(f"c{it}", TEXTS) for it in range(16)]
    blocks = [",".join(f"{name} [Now] {alias}" for name, alias in zip(some, "xyz")) for some in (names[:3], names[3:])]
    lines = [stream(it, columns) for it in names]
    lines.append(query("q", " Union All ".join(f"Select Count(*) From {it}" for it in blocks)))
    for at in range(256):
        values = [long_text(at * 16 + it, 3_600) for it in range(16)]
        lines += [put(at, values, it) for it in names]
    lines += [beat(255, it) for it in names]
    lines += [] if dropped else [ack("q", 256)]
    name = f"{'a drop' if dropped else 'an ack'} over six streams of rows of 16 texts of 3,600 bytes"
    table = tenants("a", hold=65536, result=1000)
    return Named(name, table, "a", of_a(lines), of_a([drop("q")]), 6 * 256 * row(16, 16, 16 * 3_600))


def overrun_stubs():
    """A put that overruns all windows that 255 tenants may have on a stream."""
    others = [f"t{it}" for it in range(255)]
    steps = [("a", stream("s", [("v", NUMBERS)]))]
    steps += [("a", line_of(do="grant", stream="s", to=it)) for it in others]
    inputs = ",".join(f"a.s [Partition By v Rows 1] {it}" for it in "xyz")
    text = f"Select Count(*) From {inputs} Union All Select Count(*) From {inputs}"
    steps += [(it, query(f"q{number}", text)) for it in others for number in range(64)]
    steps += [("a", put(it, [it])) for it in range(3)]
    drops = [(it, drop(f"q{number}")) for it in others for number in range(64)]
    table = tenants(["a", *others], queries=64, hold=2, result=1000)
    # a window that holds no row weighs something, too
    windows = 255 * 64 * 6 * STUB
    return Named("a put that overruns 97,920 windows of parts", table, "a", steps, drops, windows)


def shared_prefixes():
    """An ack over parts that are told apart at the end of long texts."""
    count = 60_000
    lines = [stream("s", [("a", TEXTS)]), query("q", "Select Istream(Count(*)) From s [Partition By a Rows 1]")]
    lines += [put(it, ["x" * 892 + f"{it * 7919 % 100_003:08}"]) for it in range(count)]
    lines += [beat(count), ack("q", count)]
    table = tenants("a", hold=65536, result=1000)
    name = "an ack of 60,000 parts whose texts of 900 bytes share a prefix"
    return Named(name, table, "a", of_a(lines), of_a([drop("q")]), count * row(1, 1, 900))


def window_of_one():
    """Long rows of which each but the last is acknowledged and needed by nobody, on eight streams."""
    names = [f"s{it}" for it in range(8)]
    lines = [stream(it, [("a", TEXTS)]) for it in names]
    lines += [query("q" + it, f"Select Istream(Count(*)) From {it} [Rows 1] Where a <> ''") for it in names]
    for at in range(127):
        for name in names:
            lines += [put(at, [long_text(at, 60_000)], name), beat(at, name), ack("q" + name, at + 1)]
    table = tenants("a", hold=1000, result=1000)
    rows = len(names) * 2 * row(1, 1, 60_000)
    drops = of_a(drop("q" + it) for it in names)
    name = "long rows, a window of one, all acknowledged, eight streams"
    return Named(name, table, "a", of_a(lines), drops, rows)


def long_value(it):
    return long_text(it, 59_000)


COUNT_OF_THREE = "Select Istream(Count(*)) From s x, s y, s z"

# Each is made only as it is asked for.
ALL = (
    lambda: parts_of_one_column("parts by one long column 1,900 times", TEXTS, long_value, 10, 10),
    lambda: parts_of_one_column("parts by one int column 1,900 times", NUMBERS, int, 20_000, 65_536),
    lambda: one_answer("a count of three inputs over 20 long rows", COUNT_OF_THREE, 20, 60_000),
    lambda: one_answer("one column 2,030 times over 24 long rows", repeated_items(), 24, 60_000),
    by_example_quotas,
    lambda: short_texts("12 queries of 60 bytes over ten long rows", 12),
    lambda: short_texts("four queries of 60 bytes over ten long rows, under 1 GiB of addresses", 4, ONE_GIB, (70,)),
    last_pins,
    many_equalities,
    many_items,
    many_groups,
    lambda: rounds_of_parts(2),
    lambda: rounds_of_parts(6),
    only_readers,
    lambda: six_streams(False),
    lambda: six_streams(True),
    overrun_stubs,
    shared_prefixes,
    window_of_one,
)
