"""What tests/server checks of clients/python as a terminal. Each check gives pairs of a name and of what is
wrong, or None.
"""
import contextlib
import fcntl
import json
import os
import pty
import re
import select
import signal
import subprocess
import sys
import tempfile
import termios
import threading
import time

from clients import (
    BASE,
    EMPTY,
    FETCH,
    LATE,
    LIST,
    LIST_OF_ONE,
    LOG_IN,
    MODULE,
    QUERY,
    STREAM,
    TENANTS,
    WIDE,
    Peer,
    ending,
    environment,
    free_port,
    lines_of,
    session,
    terminal,
    terminal_words,
)
from served import (
    DONE,
    SECONDS,
    Caller,
    Ended,
    Server,
    Stalled,
    beat,
    block,
    difference,
    line_of,
    put,
    refused,
    told,
)

import romburik
import romburik.terminal

LATE_MEANS = b"  41: the time is below the least that the stream still takes\n"


@contextlib.contextmanager
def file_of(*lines):
    """The path of a file of these lines."""
    with tempfile.NamedTemporaryFile() as file:
        file.write(b"".join(lines))
        file.flush()
        yield file.name


def terminal_lines(program):
    """Lines of a file, and lines one by one, with their replies."""
    lines = STREAM, QUERY, put(5, 1), b"put s 4 [1]\n", b" \t\r\n", beat(8), b"fetch q\n"
    pairs = (
        (STREAM, DONE),
        (QUERY, BASE),
        (put(5, 1), DONE),
        (b"put s 4 [1]\n", LATE + LATE_MEANS),
        (beat(8), DONE),
        (b"fetch q\n", told(9, block(5, 5, 1))),
    )
    list_told = b"> " + LIST + b"< " + LIST_OF_ONE
    with Server(program, TENANTS) as server:
        with file_of(*lines) as path:
            wanted = b"".join(b"> " + line + b"< " + reply for line, reply in pairs)
            ended = terminal(server.port, "--file", path)
            yield "the terminal with a file", difference(ended, Ended(1, b"", wanted))
        ended = terminal(server.port, given=LIST + b"\n" + LIST)
        yield "the terminal with lines", difference(ended, Ended(0, b"", list_told * 2))
        ended = terminal(server.port, given=b"lists\nput s\nlist\n")
        wanted = (
            b"> lists\n  there is no command lists, but "
            b"stream, grant, revoke, put, beat, query, fetch, ack, drop, list\n"
            b"> put s\n  the form is: put STREAM AT ROW\n> list\n< " + LIST_OF_ONE
        )
        yield "the terminal with no commands", difference(ended, Ended(1, b"", wanted))
        ended = terminal(server.port, given=b"revoke s b card\ndrop q q\n")
        wanted = (
            b"> revoke s b card\n  the form is: revoke STREAM TENANT\n"
            b"> drop q q\n  the form is: drop QUERY\n"
        )
        yield "the terminal with too many words", difference(ended, Ended(1, b"", wanted))
        ended = terminal(server.port, given=b"help\nexit\nlists\n")
        wanted = Ended(0, b"", romburik.terminal.HELP.encode() + b"\n")
        yield "the terminal is asked for help by a pipe", difference(ended, wanted)
        with file_of(LIST, b"put s\n") as path:
            ended = terminal(server.port, "--file", path)
            wanted = f"romburik: line 2 of {path}: the form is: put STREAM AT ROW\n".encode()
            yield "the terminal with a bad file", difference(ended, Ended(2, wanted, b""))


def terminal_statuses(program):
    wrong = b"romburik: the login is refused: 13 WrongKey: "
    with Server(program, TENANTS) as server, file_of(b"ka\r\nkb\n") as keys:
        empty = Ended(0, b"", b"")
        ended = terminal(server.port, "--key-file", keys, key=None)
        yield "the key of a file", difference(ended, empty)
        ended = terminal(server.port, key=None, given=b"ka\n")
        found = ended.status, ended.written, b"key of a: " in ended.said
        yield "the terminal asks for the key", difference(found, (0, b"", True))
        for key in ("kb", "k\u00e4"):
            ended = terminal(server.port, key=key, given=LIST)
            found = ended.status, ended.said[: len(wrong)], ended.written
            yield f"the terminal with the key {key!a}", difference(found, (3, wrong, b""))
        ended = terminal(server.port, key=b"k\xff", given=LIST)
        yield "a key that is no text", difference((ended.status, ended.written), (2, b""))
        for words in (
            ["--file", "/nowhere/lines"],
            ["--key-file", "/nowhere/key"],
            ["--key", "ka"],
            ["--follow", "q", "--file", keys],
            ["--port", "65536"],
            ["--timeout", "0"],
        ):
            key = None if "--key-file" in words else "ka"
            ended = terminal(server.port, *words, key=key)
            name = " ".join(["the terminal with", *words[:1]])
            yield name, difference((ended.status, ended.written), (2, b""))
        ended = terminal(server.port, "--follow", "q")
        wanted = Ended(1, b"romburik: 57 UnknownQuery: there is no query of that name\n", b"")
        yield "the terminal follows no query", difference(ended, wanted)
    ended = terminal(server.port)
    yield "the terminal without a server", difference((ended.status, ended.written), (4, b""))
    with Peer([LOG_IN, (LIST, None)]) as peer:
        ended = terminal(peer.port, given=LIST)
    wanted = Ended(4, b"romburik: the connection broke off\n", b"")
    yield "the terminal is broken off", difference(ended, wanted)


TABLE_LINES = (
    b"stream s k text v int\n",
    b"query q Select Istream(*) From s [Range 2]\n",
    b"query p Select * From s [Now]\n",
    b'put s 5 ["\\u001b[1m\\u4e2d",-1]\n',
    b'put s 10 ["abcd",12]\n',
    b"beat s 11\n",
    b"fetch p\n",
    b"fetch q 10\n",
    b"query f Select k, v * 4611686018427387904 From s [Rows 1]\n",
    b'put s 12 ["overflow",-1]\n',
    b'put s 13 ["overflow",2]\n',
    b"beat s 14\n",
    b"fetch f\n",
    b"list\n",
)
TABLES = """\
from  to  kind  k            v
   5   5  +     \\u001b[1m\u4e2d  -1
   6   6  -     \\u001b[1m\u4e2d  -1
  10  10  +     abcd         12
  11  11  -     abcd         12
next 12
from  to  kind  k            v
   5   5  row   \\u001b[1m\u4e2d  -1
next 10
from  to  kind   k         v * 4611686018427387904
  12  12  +      overflow     -4611686018427387904
  13  14  fault  overflow
next 15
query  base  next  behind  text
q         0     0      15  ISTREAM(SELECT * FROM s [RANGE 2])
p         0     0      15  SELECT * FROM s [NOW]
f        12    12       3  SELECT k, v * 4611686018427387904 FROM s [ROWS 1]
stream  open  columns
s         15  k v
"""


def terminal_tables(program):
    """Blocks and lists as aligned columns, without what would steer a terminal."""
    with Server(program, TENANTS) as server, file_of(*TABLE_LINES) as path:
        ended = terminal(server.port, "--table", "--file", path)
    lines = ended.written.decode().splitlines(True)
    found = "".join(line for line in lines if line[0] not in "<>")
    yield "tables", difference((ended.status, found), (0, TABLES))


def terminal_follows(program):
    """Blocks come as they are final, and are acknowledged behind that."""
    with Server(program, TENANTS) as server, Caller(server, "a") as caller:
        for line in STREAM, QUERY, put(5, 1), beat(8):
            caller.ask(line)
        child = subprocess.Popen(
            terminal_words(server.port, "--follow", "q"),
            env=environment(),
            stdout=subprocess.PIPE,
            stderr=subprocess.PIPE,
            # an interrupt may be ignored by whoever runs this, and a child would take that over
            preexec_fn=lambda: signal.signal(signal.SIGINT, signal.SIG_DFL),
        )
        with ending(child):
            first = lines_of(child.stdout, 1)
            yield "a first block", difference(first, line_of(**block(5, 5, 1)))
            caller.send(put(9, 2), put(10, 3), beat(10))
            more = lines_of(child.stdout, 2)
            wanted = line_of(**block(9, 9, 2)) + line_of(**block(10, 10, 3))
            yield "more blocks", difference(more, wanted)
            for _ in range(3):
                caller.replies.readline()
            end = time.monotonic() + SECONDS
            while json.loads(caller.ask(LIST))["queries"][0]["next"] < 11:
                if time.monotonic() > end:
                    raise Stalled("what was shown isn't acknowledged")
                time.sleep(0.02)
            child.send_signal(signal.SIGINT)
            written, said = child.communicate(timeout=SECONDS)
        found = Ended(child.returncode, said, written)
        yield "an interrupt", difference(found, Ended(130, b"", b""))


# What Ctrl-C types.
INTERRUPT = b"\x03"


def typed(port, history, *keys, interrupts=None):
    """What a terminal shows where these keys are typed, each once the prompt is there, and a
    program's status. A key may be what gives it; `interrupts` is an event at which Ctrl-C is
    typed."""
    near, far = pty.openpty()
    child = subprocess.Popen(
        terminal_words(port),
        env=environment(TERM="dumb", INPUTRC="/dev/null", ROMBURIK_HISTORY=history),
        stdin=far,
        stdout=far,
        stderr=far,
        start_new_session=True,
        # the terminal from which Ctrl-C interrupts
        preexec_fn=lambda: fcntl.ioctl(0, termios.TIOCSCTTY, 0),
    )
    os.close(far)
    seen, end, begin, key = b"\n", time.monotonic() + SECONDS, 0, b""
    waiting = [*keys]
    try:
        while time.monotonic() < end:
            more = select.select([near], [], [], 1)[0]
            try:
                seen += os.read(near, 1 << 16) if more else b""
            except OSError:
                break  # the other end is closed
            # a line that is drawn anew begins with a prompt too, but behind no line feed; and on a busy machine
            # something may stand behind the prompt
            since = seen[begin:]
            if waiting and (since.endswith(b"\na> ") or not more and b"\na> " in since):
                begin, key = len(seen), waiting.pop(0)
                key = key() if callable(key) else key
                os.write(near, key)
            elif not more and interrupts is not None and interrupts.is_set():
                os.write(near, INTERRUPT)
            elif not more and key.endswith(INTERRUPT):
                # one that comes just before Python waits for a key is seen at the next one
                os.write(near, INTERRUPT)
        return seen, child.wait(SECONDS)
    finally:
        child.kill()
        child.wait()
        os.close(near)


def terminal_is_typed_at(program):
    """Words are completed, names among them; earlier lines come back, also of an earlier run."""
    with Server(program, TENANTS) as server, tempfile.TemporaryDirectory() as folder:
        with Caller(server, "a") as caller:
            for line in STREAM, QUERY, beat(8):
                caller.ask(line)
        history = os.path.join(folder, "history")
        seen, status = typed(server.port, history, b"li\t\n", b"put s 5 [1]\n", b"exit\n")
        found = status, LIST_OF_ONE.rstrip() in seen, LATE.rstrip() in seen, b"  41: " in seen
        yield "lines that are typed", difference(found, (0, True, True, True))
        seen, status = typed(server.port, history, b"fet\tq\t\n", b"\x10\x10\x10\x10\n", b"\x04")
        found = status, told(9).rstrip() in seen, LIST_OF_ONE.rstrip() in seen
        yield "earlier lines", difference(found, (0, True, True))


def terminal_goes_on(_):
    """Over a lost connection a line that changes nothing is sent again, another isn't; and it is
    told where the server was started anew."""
    with Peer([LOG_IN, (LIST, None)], [LOG_IN, (LIST, LIST_OF_ONE)]) as peer:
        seen, status = typed(peer.port, "", b"list\n", b"exit\n")
    found = status, b"broke off" in seen, LIST_OF_ONE.rstrip() in seen
    yield "a list over a lost connection", difference(found, (0, False, True))
    with Peer([LOG_IN, (beat(8), None)], [LOG_IN, (LIST, LIST_OF_ONE)]) as peer:
        seen, status = typed(peer.port, "", b"beat s 8\n", b"list\n", b"exit\n")
    said = b"broke off, and was made anew; the line may have been done"
    found = status, said in seen, LIST_OF_ONE.rstrip() in seen
    yield "a heartbeat over a lost connection", difference(found, (0, True, True))
    anew = [LOG_IN, (LIST, EMPTY), (FETCH, refused(57, "UnknownQuery"))]
    with Peer([LOG_IN, (STREAM, DONE), (FETCH, None)], anew) as peer:
        seen, status = typed(peer.port, "", b"stream s v int\n", b"fetch q\n", b"exit\n")
    found = status, b"nothing stands there any more" in seen, b"  57: " in seen
    yield "a fetch behind a new start", difference(found, (0, True, True))


def terminal_clears_a_line(program):
    """Ctrl-C on a line that isn't whole lets it go, and the next is asked for."""
    with Server(program, TENANTS) as server:
        keys = b"stream s\x03", b"\x03", b"list\n", b"exit\n"
        seen, status = typed(server.port, "", *keys)
    found = status, EMPTY.rstrip() in seen, b"the form is" in seen
    yield "a line that is let go", difference(found, (0, True, False))


def terminal_knows_columns(program):
    """Tab completes the columns of a stream that was made here."""
    with Server(program, TENANTS) as server:
        keys = b"stream s humidity int\n", b"query q Select hum\tFrom s [Now]\n", b"list\n"
        seen, status = typed(server.port, "", *keys, b"exit\n")
    text = b'"text":"SELECT humidity FROM s [NOW]"'
    yield "a column that is completed", difference((status, text in seen), (0, True))


def terminal_stays(program):
    """Where the server is away, and where a fetch is interrupted, the next line tries again; words
    that end it or ask for help; a query of several lines."""
    port = free_port()
    with contextlib.ExitStack() as open_ones:
        server = open_ones.enter_context(Server(program, TENANTS, port=port))

        def without_a_server():
            server.__exit__()
            return b"list\n"

        def with_a_new_server():
            open_ones.enter_context(Server(program, TENANTS, port=port))
            return b"list\n"

        keys = STREAM, without_a_server, b"list\n", with_a_new_server, b"?\n", b"\\q\n"
        seen, status = typed(port, "", *keys)
        found = status, seen.count(b"the next line tries again"), EMPTY.rstrip() in seen
        yield "a terminal without a server for a while", difference(found, (0, 2, True))
        yield "a terminal that is asked", difference(b"Tab completes" in seen, True)
    is_asked = threading.Event()

    def nothing():
        is_asked.set()
        return b""

    def listed():
        is_asked.clear()
        return b"list\n"

    with Peer([LOG_IN, (FETCH, nothing)], [LOG_IN, (LIST, LIST_OF_ONE)]) as peer:
        seen, status = typed(peer.port, "", b"fetch q\n", listed, b"quit\n", interrupts=is_asked)
    found = status, b"interrupted" in seen, LIST_OF_ONE.rstrip() in seen, peer.fault
    yield "a fetch that is interrupted", difference(found, (0, True, True, None))
    with Server(program, TENANTS) as server:
        keys = STREAM, b"query q Select v,\nv + 1\nFrom s\n[Now];\n", b"list\n", b"exit\n"
        seen, status = typed(server.port, "", *keys)
    text = b'"text":"SELECT v, v + 1 FROM s [NOW]"'
    yield "a query of several lines", difference((status, text in seen), (0, True))


def terminal_words_of_its_own(program):
    """What is told of streams, whether the server answers, fewer lines, lines of standard input."""
    with Server(program, TENANTS) as server:
        ended = terminal(server.port, "--ping")
        found = ended.status, ended.said, ended.written[:16]
        yield "a ping", difference(found, (0, b"", b"a is answered in"))
        with file_of(STREAM, QUERY, put(5, 1), put(4, 1)) as path:
            ended = terminal(server.port, "--quiet", "--file", path)
        wanted = BASE + LATE + b"  " + put(4, 1) + LATE_MEANS
        yield "a quiet file", difference(ended, Ended(1, b"", wanted))
        ended = terminal(server.port, "--quiet", "--file", "-", given=put(6, 1) + beat(8))
        yield "lines of standard input", difference(ended, Ended(0, b"", b""))
        keys = b"stream u room text degrees int\n", b"describe\n", b"describe x\n", b"exit\n"
        seen, status = typed(server.port, "", *keys)
        shown = re.sub(rb"\s+", b" ", seen)
        found = status, b"u 0 room text degrees int" in shown, b"elsewhere) q" in shown
        yield "streams that are described", difference(found, (0, True, True))
        yield "no stream to describe", difference(b"no stream x" in seen, True)
    words = subprocess.run(
        [sys.executable, "-m", "romburik", "--version"],
        env=environment(),
        capture_output=True,
        timeout=SECONDS,
        check=True,
    )
    version = re.search('version = "(.*)"', (MODULE / "pyproject.toml").read_text())[1]
    yield "a version", difference(words.stdout.decode(), f"romburik {version}\n")


ROWS = 20_000


def rows_of_a_file(program):
    """Rows of comma-separated values, in one go; columns that are chosen; dates; bad rows."""
    with Server(program, WIDE) as server, session(server) as it:
        it.stream("s", {"host": "text", "value": "int"})
        it.query(
            "q", "Select Rstream(host, Count(*), Sum(value)) From s [Rows 65536] Group By host"
        )
        lines = (f'{at // 3},{at},"a, b"\n'.encode() for at in range(ROWS))
        with file_of(b"time,value,host\n", *lines) as path:
            words = ["put", "s", "--csv", path, "--at", "time"]
            ended = terminal(server.port, *words, "--columns", "host,value", "--beat")
            wanted = Ended(0, b"", b"%d rows were put, 0 refused\n" % ROWS)
            yield "rows of a file", difference(ended, wanted)
            last = (ROWS - 1) // 3
            rows = it.fetch("q").blocks[-1].rows
            wanted = (("a, b", ROWS, sum(range(ROWS))),)
            yield "what was put", difference((rows, it.list().streams[0].open), (wanted, last + 1))
            ended = terminal(server.port, *words)
            found = ended.status, ended.said.count(b"\n"), ended.written
            wanted = 1, 10, b"0 rows were put, %d refused\n" % ROWS
            yield "rows in another order", difference(found, wanted)
        it.stream("t", {"n": "text", "v": "int"})
        it.query("r", "Select Istream(*) From t [Now]")
        rows = b"when,n,v\n1970-01-01T00:00:09Z,7,-1\n1970-01-01 00:00:10,8,+2\n11,9,x\n"
        with file_of(rows) as path:
            ended = terminal(server.port, "put", "t", "--csv", path, "--at", "when", "--text", "n")
            said = f"romburik: row 4 of {path}: invalid literal for int() with base 10: 'x'\n"
            yield "a row that is none", difference(ended, Ended(2, said.encode(), b""))
            ended = terminal(server.port, "put", "t", "--csv", path, "--at", "now")
            said = f"romburik: no column of {path} is called now: when, n, v\n"
            yield "a column that is none", difference(ended, Ended(2, said.encode(), b""))
        with file_of(b"when,n,v\n1970-01-01T00:00:19.500+00:00,z,3\n") as path:
            words = ["--csv", path, "--at", "when", "--epoch", "ms"]
            it.stream("m", {"n": "text", "v": "int"})
            ended = terminal(server.port, "put", "m", *words)
            found = ended.status, it.list().streams[-1].open
            yield "a time in milliseconds", difference(found, (0, 19_500))
        it.beat("t", 20)
        wanted = romburik.Rows(9, 9, (("7", -1),)), romburik.Rows(10, 10, (("8", 2),))
        yield "rows before one that is none", difference(it.fetch("r").blocks, wanted)


CHECKS = (
    terminal_lines,
    terminal_statuses,
    terminal_tables,
    terminal_follows,
    terminal_is_typed_at,
    terminal_goes_on,
    terminal_clears_a_line,
    terminal_stays,
    terminal_words_of_its_own,
    rows_of_a_file,
    terminal_knows_columns,
)
