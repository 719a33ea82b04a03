"""What the checks of clients/python and of the examples share: sessions, programs that run beside a
check, a server that says what it is to, and what is sent."""
import contextlib
import os
import pathlib
import pty
import random
import re
import select
import signal
import socket
import subprocess
import sys
import threading
import time

from served import DONE, SECONDS, Ended, Stalled, difference, line_of, refused, tenants

TOP = pathlib.Path(__file__).resolve().parent.parent
MODULE = TOP / "clients/python"
sys.path.append(str(MODULE))
import romburik

LOAD = TOP / "examples/load.py"
TENANTS = tenants("ab")
WIDE = tenants("a", hold=65536, result=65536)
STREAM = line_of(columns=[["v", "int"]], do="stream", name="s")
QUERY = line_of(do="query", name="q", text="Select Istream(*) From s [Range 2]")
FETCH = line_of(do="fetch", name="q")
LIST = line_of(do="list")
EMPTY = line_of(queries=[], readable=[], streams=[])
BASE = line_of(base=0)
LATE = refused(41, "Late")
OWN_QUERY = {"base": 0, "name": "q", "next": 0, "text": "ISTREAM(SELECT * FROM s [RANGE 2])"}
LIST_OF_ONE = line_of(queries=[OWN_QUERY], readable=[], streams=[{"name": "s", "open": 9}])
GREATEST = 2**63 - 1


# ---- The module.


def session(server, tenant="a", timeout=SECONDS):
    return romburik.Session(port=server.port, tenant=tenant, key="k" + tenant, timeout=timeout)


def error_of(call, *given):
    """What a call raises, or None."""
    try:
        call(*given)
    except Exception as error:
        return error
    return None


def refusal_of(call, *given):
    """Class, name and number of a call's refusal, or what else becomes of it."""
    error = error_of(call, *given)
    known = isinstance(error, romburik.Refused)
    return (type(error), error.name, error.number) if known else error


class Peer:
    """Stands for a server. It takes a connection for each list of pairs: of a line that has to
    come, or None for none, and of its reply, what gives it, or None where the connection is to
    break off."""

    def __init__(self, *connections):
        self.fault = None
        self.connections = connections
        self.listener = socket.create_server(("127.0.0.1", 0))
        self.listener.settimeout(SECONDS)
        self.port = self.listener.getsockname()[1]
        self.thread = threading.Thread(target=self.serve)

    def __enter__(self):
        self.thread.start()
        return self

    def __exit__(self, *_):
        self.thread.join()
        self.listener.close()

    def serve(self):
        with contextlib.suppress(OSError):
            for pairs in self.connections:
                with self.listener.accept()[0] as near, near.makefile("rb") as lines:
                    near.settimeout(SECONDS)
                    self.converse(near, lines, pairs)

    def converse(self, near, lines, pairs):
        for wanted, reply in pairs:
            if wanted is not None:
                self.fault = self.fault or difference(lines.readline(), wanted)
            if reply is None:
                return
            near.sendall(reply() if callable(reply) else reply)
        lines.readline()  # a line more, or the end


LOG_IN = line_of(key="ka", tenant="a"), DONE


# ---- Programs.


def environment(key="ka", **more):
    """That of a program whose key is in it, without this one's own."""
    kept = {name: it for name, it in os.environ.items() if name not in ("CQL_KEY", "PYTHONPATH")}
    kept.update(PYTHONPATH=str(MODULE), PYTHONDONTWRITEBYTECODE="1", ROMBURIK_HISTORY="")
    return {**kept, **more, **({} if key is None else {"CQL_KEY": key})}


def terminal_words(port, *words):
    return [sys.executable, "-m", "romburik", "--port", str(port), "--tenant", "a", *words]


def terminal(port, *words, key="ka", given=b""):
    """Runs the terminal with these lines on its standard input, and with the key around it."""
    ran = subprocess.run(
        terminal_words(port, *words),
        input=given,
        env=environment(key),
        capture_output=True,
        timeout=SECONDS,
        check=False,
        start_new_session=True,
    )
    return Ended(ran.returncode, ran.stderr, ran.stdout)


def lines_of(stream, count):
    """So many lines that a program writes, as they come."""
    found, end = b"", time.monotonic() + SECONDS
    while found.count(b"\n") < count:
        if not select.select([stream], [], [], max(0, end - time.monotonic()))[0]:
            raise Stalled(f"it wrote only {found!r}")
        read = os.read(stream.fileno(), 1 << 16)
        if not read:
            break
        found += read
    return found


@contextlib.contextmanager
def ending(child):
    """A child that is killed where a check breaks off before its end."""
    with child:
        try:
            yield child
        finally:
            child.kill()


def started(port, *words, key="ka", **how):
    """A terminal that goes on until it is interrupted."""
    how = {"stdout": subprocess.PIPE, "stderr": subprocess.PIPE, "env": environment(key), **how}
    # an interrupt may be ignored by whoever runs this, and a child would take that over
    how.setdefault("preexec_fn", lambda: signal.signal(signal.SIGINT, signal.SIG_DFL))
    return subprocess.Popen(terminal_words(port, *words), **how)


def shown_until(near, text):
    """What a terminal shows, up to a text of bytes."""
    seen, end = b"", time.monotonic() + SECONDS
    while text not in seen:
        if not select.select([near], [], [], max(0, end - time.monotonic()))[0]:
            raise Stalled(f"it shows only {seen!r}")
        seen += os.read(near, 1 << 16)
    return seen.decode()


@contextlib.contextmanager
def watching(port, query):
    """The near end of a terminal at which a query is watched."""
    near, far = pty.openpty()
    sizes = {"TERM": "xterm", "COLUMNS": "100", "LINES": "20"}
    there = {"stdin": far, "stdout": far, "stderr": far}
    child = started(port, "watch", query, env=environment(**sizes), **there)
    os.close(far)
    with ending(child):
        yield near
    os.close(near)


def frame_of(port, query):
    """The first state that is drawn of a query."""
    with watching(port, query) as near:
        seen = shown_until(near, b"Ctrl-C ends\r\n")
    return seen.rpartition("\x1b[J")[2].replace("\r\n", "\n")


# ---- The page.


@contextlib.contextmanager
def page(port, key, tenant="a", *more):
    """The address of a page that is served meanwhile, with more words."""
    words = [sys.executable, "-m", "romburik", "page", "--port", str(port), "--listen", "0"]
    child = subprocess.Popen(
        [*words, "--tenant", tenant, *more], env=environment(key), stdout=subprocess.PIPE
    )
    with ending(child):
        said = lines_of(child.stdout, 1).decode()
        yield re.search(r"http://\S+", said)[0]


def eager_consumer(it, instants, query="q", stream="s"):
    """Puts a row at each of some instants, and takes it at once, ten in a second."""
    for at in instants:
        it.put(stream, at, [at])
        it.beat(stream, at)
        it.ack(query, it.fetch(query).next)
        time.sleep(0.1)


def wait_for(condition):
    """Looks until it holds."""
    end = time.monotonic() + SECONDS
    while not condition():
        if time.monotonic() > end:
            raise Stalled("what is waited for doesn't come")
        time.sleep(0.002)


def free_port():
    """A port below those that the system gives to connections."""
    for port in random.Random().sample(range(20_000, 30_000), 100):
        with contextlib.suppress(OSError), socket.create_server(("127.0.0.1", port)):
            return port
    raise OSError("no port is free")
