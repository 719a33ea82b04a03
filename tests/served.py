"""Starts a cqld and talks to it, for tests/server, the checks of the clients and the scripts of
bench/. Each wait ends after SECONDS with an error.
"""
import collections
import json
import os
import pathlib
import re
import resource
import select
import socket
import struct
import subprocess
import tempfile
import time

SECONDS = 60

DONE = b'{"ok":true}\n'

# How a program ended: its status, and all that it wrote on standard error and on standard output
# behind the line that tells its port.
Ended = collections.namedtuple("Ended", "status said written")


def line_of(**keys):
    """A line of JSON as the server writes it: no blanks, keys in order, texts as they are."""
    text = json.dumps(keys, separators=(",", ":"), sort_keys=True, ensure_ascii=False)
    return text.encode() + b"\n"


def refused(number, name):
    return line_of(name=name, refused=number)


def tenants(names, streams=8, queries=8, hold=100, result=1000):
    """A tenants line; the key of each is its name behind a k."""
    quotas = {"hold": hold, "queries": queries, "result": result, "streams": streams}
    return line_of(tenants=[{"key": "k" + name, "name": name, **quotas} for name in names])


def login(name):
    return line_of(key="k" + name, tenant=name)


def audit(entries):
    """The line of an audit that agrees, of so many calls."""
    return b"audit: %d entries, %d receipts, agreed\n" % (entries, entries)


def put(at, *row, stream="s"):
    return line_of(at=at, do="put", row=row, stream=stream)


def beat(at, stream="s"):
    return line_of(at=at, do="beat", stream=stream)


def block(start, end, *rows):
    return {"from": start, "rows": [[row] for row in rows], "to": end}


def told(end, *blocks):
    return line_of(blocks=blocks, next=end)


def shown(value):
    """A value in a line of its own, not too long."""
    text = repr(value)
    return text if len(text) <= 160 else f"{text[:120]}.. ({len(value)} bytes)"


def difference(found, wanted):
    """What is found that isn't expected, or None."""
    return None if found == wanted else f"it is {shown(found)} and not {shown(wanted)}"


def room_for_files(number):
    """Lets this process, and those that it starts, open so many files, or as many as the system lets it."""
    most = resource.getrlimit(resource.RLIMIT_NOFILE)[1]
    most = number if most == resource.RLIM_INFINITY else min(number, most)
    resource.setrlimit(resource.RLIMIT_NOFILE, (most, resource.getrlimit(resource.RLIMIT_NOFILE)[1]))
    return most


class Stalled(OSError):
    """A wait was too long."""


class Server:
    """A cqld that listens. It is killed at the end of the `with`, if it is still there."""

    def __init__(self, program, table, under=(), **words):
        """Of the words --some-word N is written some_word=N, and --word alone word=True. `under`: the
        words of a program that runs it."""
        spelled = []
        for name, value in words.items():
            spelled += ["--" + name.replace("_", "-")] + [str(value)] * (value is not True)
        with tempfile.TemporaryFile() as given:
            given.write(table)
            given.seek(0)
            self.child = subprocess.Popen(
                [*under, program, *spelled], stdin=given, stdout=subprocess.PIPE, stderr=subprocess.PIPE
            )
        try:
            line = self.first_line()
            listens = re.fullmatch(rb"listening on ([0-9.]+):(\d+)\n", line)
            if listens is None:
                raise OSError(f"it says {line!r}")
            self.address, self.port = listens[1].decode(), int(listens[2])
        except BaseException:
            self.__exit__()
            raise

    def first_line(self):
        """What it writes up to its first line feed."""
        line, end = b"", time.monotonic() + SECONDS
        while not line.endswith(b"\n"):
            ready = select.select([self.child.stdout], [], [], max(0, end - time.monotonic()))[0]
            if not ready:
                raise Stalled("it doesn't say that it listens")
            byte = os.read(self.child.stdout.fileno(), 1)
            if not byte:
                raise OSError(f"it ended before it listened: {self.end()}")
            line += byte
        return line

    def __enter__(self):
        return self

    def __exit__(self, *_):
        self.child.kill()
        self.child.wait()
        self.child.stdout.close()
        self.child.stderr.close()

    def of_status(self, name):
        """The bytes of memory that the system tells of it under a name."""
        status = pathlib.Path(f"/proc/{self.child.pid}/status").read_text(encoding="ascii")
        return int(re.search(rf"^{name}:\s+(\d+) kB$", status, re.MULTILINE)[1]) << 10

    def memory(self):
        """The bytes of memory that it has."""
        return self.of_status("VmRSS")

    def peak(self):
        """The most that it has had."""
        return self.of_status("VmHWM")

    def processor_time(self):
        """The seconds of processor time that it has taken. The clock of a process, as clock_getcpuclockid
        numbers it."""
        return time.clock_gettime(~self.child.pid << 3 | 2)

    def end(self, seconds=SECONDS):
        """Waits for its end."""
        written, said = self.child.communicate(timeout=seconds)
        return Ended(self.child.returncode, said, written)


# The time in a line of the log: UTC, in milliseconds.
STAMP = re.compile(r"\d{4}-\d\d-\d\dT\d\d:\d\d:\d\d\.\d{3}Z")


def unstamped(line):
    """What a line of the log tells but for its time, which stands before all else."""
    told = json.loads(line)
    if next(iter(told)) != "at" or not STAMP.fullmatch(told.pop("at")):
        raise OSError(f"{line!r} has no time")
    return told


def counts_of(server, seconds):
    """The counts that a server tells in so long, line by line, without their times."""
    source, lines, end = server.child.stderr.fileno(), b"", time.monotonic() + seconds
    while (left := end - time.monotonic()) > 0:
        if select.select([source], [], [], left)[0]:
            lines += os.read(source, 1 << 16)
    return [unstamped(line) for line in lines.splitlines()]


def went_on_and_anew(server):
    """How many answers went on and how many began anew, by a server that tells its counts each second,
    since this was asked last."""
    counts = [it for it in counts_of(server, 1.5) if "sessions" in it]
    return sum(it["warm"] for it in counts), sum(it["cold"] for it in counts)


class Caller:
    """One connection. With a tenant's name it logs in, and the reply has to be right."""

    def __init__(self, server, tenant=None, window=None, seconds=SECONDS):
        """`window`: how many bytes the system is to hold for it that it hasn't read. `seconds`: how
        long one call may wait."""
        self.socket = socket.socket()
        self.socket.settimeout(seconds)
        if window:
            self.socket.setsockopt(socket.SOL_SOCKET, socket.SO_RCVBUF, window)
        self.socket.setsockopt(socket.IPPROTO_TCP, socket.TCP_NODELAY, 1)
        self.socket.connect(("127.0.0.1", server.port))
        self.replies = self.socket.makefile("rb")
        if tenant is not None and self.ask(login(tenant)) != DONE:
            raise OSError(f"{tenant} isn't let in")

    def __enter__(self):
        return self

    def __exit__(self, *_):
        self.replies.close()
        self.socket.close()

    def send(self, *lines):
        self.socket.sendall(b"".join(lines))

    def ask(self, line):
        """The reply to a line, or what there is of it at the end."""
        self.send(line)
        return self.replies.readline()

    def serve(self, lines):
        """Sends lines, a thousand at a time, and reads their replies, of which none may refuse."""
        lines = list(lines)
        for at in range(0, len(lines), 1000):
            part = lines[at : at + 1000]
            self.send(*part)
            for line in part:
                if b'"refused"' in (reply := self.replies.readline()) or not reply:
                    raise OSError(f"{line!r} is answered {reply!r}")

    def is_silent(self, seconds):
        """Whether nothing comes for so long."""
        poll = select.poll()
        poll.register(self.socket, select.POLLIN)
        return not poll.poll(1e3 * seconds)

    def rest(self):
        """Says that no more lines come, and reads to the end."""
        self.socket.shutdown(socket.SHUT_WR)
        return self.replies.read()

    def reset(self):
        """Breaks off at once: what isn't sent is let go, and the other end's calls fail."""
        self.socket.setsockopt(socket.SOL_SOCKET, socket.SO_LINGER, struct.pack("ii", 1, 0))
        self.__exit__()


def connected(server, number, tenant=None, together=100):
    """So many connections, a hundred at once. With a tenant's name each logs in."""
    callers = []
    for at in range(0, number, together):
        some = [Caller(server) for _ in range(min(together, number - at))]
        for caller in some if tenant else ():
            caller.send(login(tenant))
        for caller in some if tenant else ():
            if caller.replies.readline() != DONE:
                raise OSError(f"{tenant} isn't let in")
        callers += some
    return callers
