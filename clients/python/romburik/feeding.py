"""Putting the lines of a log: what examples/feed.py and the cluster's feeders share. They differ in
where the log is, and in how a feeder finds where it goes on."""
import collections
import contextlib
import json
import os
import time
from typing import Any, Callable, Collection, Deque, Dict, Iterable, Iterator, Optional, Tuple

from .columns import inputs_of
from .errors import AlreadyGranted, Behind, QueryExists, Refused, StreamExists
from .looking import final_of
from .owning import is_copy
from .session import Session
from .taking import CannotGoOn

Line = Dict[str, Any]
"""A put or a heartbeat, by the keys of its line."""

SETTLED = 0.3
"""Seconds for which the streams' times stand still before they are relied on."""


def line_read(text: bytes) -> Optional[Line]:
    """A put or a heartbeat of a log, or None where a text is none."""
    with contextlib.suppress(ValueError):
        read = json.loads(text)
        if isinstance(read, dict) and read.get("do") in ("put", "beat"):
            if isinstance(read.get("at"), int) and isinstance(read.get("stream"), str):
                return read
    return None


class Scale:
    """Gives each row of a stream an instant of its own."""

    def __init__(self, scale: int) -> None:
        self._scale = scale
        self._rows: Dict[Tuple[Optional[str], str], Tuple[int, int]] = {}

    def line(self, line: Line) -> Line:
        """A line as it is put, of lines that come in the log's order."""
        if self._scale == 1:
            return line
        stream, at = line["stream"], line["at"]
        if line["do"] == "beat":
            return {**line, "at": at * self._scale + self._scale - 1}
        whose = line.get("tenant"), stream
        last, count = self._rows.get(whose, (-1, 0))
        count = count + 1 if last == at else 1
        if count >= self._scale:
            raise CannotGoOn(f"{stream} has {count} rows at {at}, and --scale {self._scale} less")
        self._rows[whose] = at, count
        return {**line, "at": at * self._scale + count}


class Log:
    """The lines of a file that are whole, numbered from 0."""

    def __init__(self, path: str, scale: int) -> None:
        self._file = open(path, "rb")
        self._width = scale
        self._scale = Scale(scale)
        self._next = 0

    def lines(self, start: int) -> Iterator[Line]:
        """The lines from one on that are there so far."""
        if start < self._next:
            self._file.seek(0)
            self._scale = Scale(self._width)
            self._next = 0
        while True:
            line = self._file.readline()
            if not line.endswith(b"\n"):
                self._file.seek(-len(line), os.SEEK_CUR)
                return
            self._next += 1
            read = self._scale.line(self._read(line))
            if self._next > start:
                yield read

    def _read(self, line: bytes) -> Line:
        read = line_read(line)
        if read is None:
            raise CannotGoOn(f"line {self._next} of the log is no put or heartbeat: {line!r:.100}")
        return read


def make_all(session: Session, commands: Iterable[Line]) -> None:
    """Makes streams, grants and queries, where they don't stand."""
    for command in commands:
        try:
            session.call(command)
        except (StreamExists, AlreadyGranted, QueryExists):
            pass  # it was made before the connection was lost
        except Refused as refusal:
            raise CannotGoOn(f"the setup's {command}: {refusal}") from refusal


def settled(times: Callable[[], Dict[str, int]], seconds: float = SETTLED) -> Dict[str, int]:
    """The times that streams still take, once they stand still: the server may be about to take
    lines that were sent before a kill."""
    told: Dict[str, int] = {}
    since = time.monotonic()
    while time.monotonic() - since < seconds:
        now = times()
        if now != told:
            told, since = now, time.monotonic()
        time.sleep(seconds / 10)
    return told


def acknowledge(
    session: Session,
    streams: Collection[str],
    offset_of: Callable[[str], int],
    queries: Optional[Collection[str]] = None,
) -> Tuple[int, int]:
    """Acknowledges what a tenant's consumers have taken, and gives the least cursor and the instant
    below which all is final, of the queries over these streams alone. Who asks by a query that isn't
    among `queries` is nobody to wait for; without them all are waited for."""
    listing = session.list()
    seen = (*listing.streams, *listing.readable)
    fed = {it.name: it.open for it in seen if it.name in streams}
    final = min(fed.values(), default=0)
    slowest = final
    for query in listing.queries:
        if is_copy(query.name) or queries is not None and query.name not in queries:
            continue
        told = final_of(listing, query)
        offset = min(offset_of(query.name), final if told is None else told)
        if offset > query.next:
            # the consumer may have acknowledged more meanwhile
            with contextlib.suppress(Behind):
                session.ack(query.name, offset)
        if inputs_of(query.text) <= fed.keys():
            slowest = min(slowest, max(offset, query.next))
    return slowest, final


class Ahead:
    """The times of the last rows, without those that all consumers have taken: of these there are to
    be no more than so many."""

    def __init__(self, most: int) -> None:
        self._most = most
        self._times: Deque[int] = collections.deque(maxlen=most)

    def clear(self) -> None:
        self._times.clear()

    def put(self, at: int) -> None:
        self._times.append(at)

    def has_room(self, slowest: int, final: int, count: int) -> bool:
        """Whether so many more rows may be put, where the slowest consumer has taken all below an
        instant and all is final below another."""
        while self._times and self._times[0] < slowest:
            self._times.popleft()
        return slowest >= final or len(self._times) + count <= self._most
