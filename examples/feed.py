#!/usr/bin/env python3
"""Puts the lines of a log, and puts them again where a cqld was started anew.

usage: examples/feed.py --port N --tenant NAME --setup FILE --log FILE --offsets FOLDER
           [--ahead ROWS] [--reach TICKS] [--scale N] [--poll SECONDS]

A cqld without a journal keeps nothing when it stops. What lasts stands in front of it, here as two
files of commands, a line of JSON each, as the server takes them: the setup with streams, grants and
queries, and the log with puts and heartbeats, in the order of their times. The log may grow; the
feeder waits for more of it.

Where a connection is lost the feeder connects anew. A server without streams was started anew: it
is told the setup and then the log from its beginning. With --reach, lines are left out which are
too old for windows that look back so many ticks from where the slowest consumer is. Each query is
acknowledged up to the offset of its consumer (examples/consume.py), the `next` of FOLDER/QUERY; so
each consumer goes on where it was, and is told what it would have been told without the stop.

The feeder is at most ROWS rows ahead of the slowest consumer, but for rows of one instant, and for
those that stand before the next line of the stream that is furthest behind, since a query of both
is final no further. So no query is overrun where the quota `hold` is as large as ROWS, a window's
rows and those together: each query needs a consumer, and each stream lines in the log that go on,
heartbeats if no rows.

A connection may be lost, or the feeder be killed, while the server goes on, or comes back with its
journal. Then the times that the streams still take say which lines came in. Where a stream has
several rows at one instant they don't say which of these: the feeder then ends rather than put a row
twice or leave one out, and a new start of the server, without what it had, sets that right. So let it
put at most one row of a stream an instant, by --scale N: the
row that is the i-th of its stream at `at` is put at at * N + i, with i from 1 and below N, and a
heartbeat of `at` at at * N + N - 1. Lengths in the queries' texts are then N times as long, such as
[Range 6000] for 60 ticks by --scale 100. With it the feeder goes on after any kill. Before it asks for
the times it waits until they stand still, since the server may be about to take lines that were sent
before the kill.

What it waits for, a server or a slot at one, it says on standard error within five seconds. The
key is taken from the environment variable CQL_KEY. The feeder runs until it is interrupted. The
status is 1 where it can't go on, 2 for its words.

Times are ticks, of which the units of a query's text count a second as one. Where the rows come
with milliseconds, either put seconds, "at": ms // 1000, or write lengths as numbers of milliseconds,
[Range 300000] for five minutes.

On a topic of Kafka or Redpanda the same stands so. The log is a topic of one partition, a line the
value of a record, and a line's number its offset: Log.lines then assigns the partition, seeks to
the offset and polls. No offset is committed, since it is the server that forgets, not the feeder.
The topic has to keep its records for as long as windows look back from the slowest consumer, and
with --reach the first offset is found by offsetsForTimes, where records have the times of their
lines. The setup is a file as here. A consumer keeps its offset where its output goes, in the same
transaction: as records of the output's topic, or in the rows of a database.
"""
import argparse
import contextlib
import itertools
import json
import os
import pathlib
import sys
import time
from typing import Dict, Optional, Sequence, Set

sys.path.append(str(pathlib.Path(__file__).resolve().parent.parent / "clients/python"))
import romburik
from romburik import Session
from romburik.calling import check_words, key_of, parser_of, serve_for_ever
from romburik.feeding import Ahead, Line, Log, acknowledge, make_all, settled
from romburik.taking import CannotGoOn


def say(text: str) -> None:
    print(f"feed: {text}", file=sys.stderr, flush=True)


class Feeder:
    """What is known beyond one connection."""

    def __init__(self, words: argparse.Namespace) -> None:
        self._words = words
        self._log = Log(words.log, words.scale)
        with open(words.setup, encoding="utf-8") as setup:
            self._setup = [json.loads(line) for line in setup if line.strip()]
        # how many lines of the log were answered, and how many were sent, if that is known
        self._answered = 0
        self._sent: Optional[int] = None
        # up to which line refusals were told
        self._told = 0
        # the streams that lines of the log name
        self._streams: Set[str] = set()
        self._ahead = Ahead(words.ahead)

    def run(self, key: str) -> None:
        """Feeds one server after another, without an end."""
        serve_for_ever(self._words, key, say, self._serve)

    def _serve(self, session: Session, trouble: romburik.Trouble) -> None:
        """Feeds a server, as long as it is there."""
        trouble.is_over()
        self._begin(session)
        self._feed(session)

    def _begin(self, session: Session) -> None:
        """Makes what the setup has, and finds the line of the log that comes next."""
        is_new = not session.list().streams
        if is_new:
            self._answered = self._sent = 0
        make_all(session, self._setup)
        self._answered = self._first_line() if is_new else self._line_reached(session)
        self._ahead.clear()
        if not is_new:
            lines = itertools.islice(self._log.lines(0), self._answered)
            for line in lines:
                self._streams.add(line["stream"])
                if line["do"] == "put":
                    self._ahead.put(line["at"])

    def _first_line(self) -> int:
        """The first line that the slowest consumer's windows may still look at."""
        if self._words.reach is None:
            return 0
        names = [it["name"] for it in self._setup if it["do"] == "query"]
        least = min(map(self._offset, names), default=0) - 1 - self._words.reach
        lines = self._log.lines(0)
        return sum(1 for _ in itertools.takewhile(lambda line: line["at"] < least, lines))

    def _line_reached(self, session: Session) -> int:
        """The line behind those that came in, told by the times that the streams still take."""
        told = settled(lambda: {it.name: it.open for it in session.list().streams})
        lines = [*itertools.islice(self._log.lines(0), self._sent)]
        told = {name: told.get(name, 0) for name in {line["stream"] for line in lines} or told}
        opens = dict.fromkeys(told, 0)
        fits = [0] if opens == told and self._answered == 0 else []
        for number, line in enumerate(lines, start=1):
            stream = line["stream"]
            opens[stream] = max(opens[stream], line["at"] + (line["do"] == "beat"))
            if number >= self._answered and opens == told:
                fits.append(number)
        # heartbeats that change nothing may have come in or not
        if not fits or any(line["do"] == "put" for line in lines[fits[0] : fits[-1]]):
            raise CannotGoOn(
                "it isn't known which lines came in; start the server anew, and feed it by --scale, "
                "which gives each row an instant of its own"
            )
        return fits[-1]

    def _offset(self, query: str) -> int:
        """The instant up to which the query's consumer has taken all."""
        try:
            with open(os.path.join(self._words.offsets, query), encoding="utf-8") as file:
                return int(json.load(file)["next"])
        except FileNotFoundError:
            return 0

    def _feed(self, session: Session) -> None:
        """Puts what the log has, and what comes into it."""
        size = max(1, self._words.ahead // 2)
        while True:
            self._wait_for_consumers(session, size)
            lines = [*itertools.islice(self._log.lines(self._answered), size)]
            if not lines:
                time.sleep(self._words.poll)
            self._sent = self._answered + len(lines)
            with contextlib.closing(session.call_many(lines)) as outcomes:
                for line, outcome in zip(lines, outcomes):
                    self._count(line, outcome)

    def _count(self, line: Line, outcome: object) -> None:
        """Takes note of a line that was answered."""
        self._streams.add(line["stream"])
        if isinstance(outcome, romburik.NoMemory):
            raise CannotGoOn(f"line {self._answered + 1} of the log: {outcome}")
        if isinstance(outcome, romburik.Refused):
            if self._answered >= self._told:
                say(f"line {self._answered + 1} of the log: {outcome}")
        elif line["do"] == "put":
            self._ahead.put(line["at"])
        self._answered += 1
        self._told = max(self._told, self._answered)

    def _wait_for_consumers(self, session: Session, count: int) -> None:
        """Waits until so many more rows may be put."""
        while True:
            slowest, final = acknowledge(session, self._streams, self._offset)
            if self._ahead.has_room(slowest, final, count):
                return
            time.sleep(self._words.poll)


def main(given: Optional[Sequence[str]] = None) -> int:
    parser = parser_of("Puts the lines of a log, again where needed.")
    parser.add_argument("--setup", required=True, help="streams, grants and queries")
    parser.add_argument("--log", required=True, help="puts and heartbeats")
    parser.add_argument("--offsets", required=True, help="the folder of the consumers' offsets")
    parser.add_argument("--ahead", type=int, default=100, help="rows ahead of consumers (100)")
    parser.add_argument("--reach", type=int, help="ticks that windows look back")
    parser.add_argument(
        "--scale", type=int, default=1, help="instants for each of the log's, one a row (1)"
    )
    parser.add_argument("--poll", type=float, default=0.2, help="seconds between looks (0.2)")
    words = parser.parse_args(given)
    check_words(parser, words)
    key = key_of(parser)
    if words.ahead < 1 or words.scale < 1:
        parser.error("--ahead and --scale are at least 1")
    try:
        Feeder(words).run(key)
    except KeyboardInterrupt:
        return 0
    except (CannotGoOn, romburik.Error, OSError, ValueError) as error:
        say(str(error))
    return 1


if __name__ == "__main__":
    sys.exit(main())
