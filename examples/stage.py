#!/usr/bin/env python3
"""Puts what a query tells into a stream, each row once, so that further queries read it.

usage: examples/stage.py --port N --tenant NAME --query NAME --stream NAME
           [--scale N] [--poll SECONDS]

So a query may select by a sum, as HAVING does, or tell an alert of it:

    query totals Select Istream(room, Sum(degrees) As total) From reading [Range 60] Group By room
    stream sums room text total int
    query high Select Istream(*) From sums [Now] Where total > 100

with the stage between `totals` and `sums`. The stream has the query's columns. A row that is the i-th
at instant t is put at t * N + i of the stream, i from 1 and below N (--scale, 100 where nothing is
said), so no two rows of it have one instant. What was told up to an instant is beaten there, and then
acknowledged. Which rows came in before a connection was lost, or the stage killed, is told by the time
that the stream still takes: the stage keeps nothing itself, and puts each row exactly once over any
kills of it. On a server that was started anew, where the query and the stream are made again and the
query's own streams are fed again (examples/feed.py), it does all from the beginning.

The query is by ISTREAM or DSTREAM. At a fault of it the stage ends, since there are rows that it
can't put. The key is taken from the environment variable CQL_KEY. The stage runs until it is
interrupted. The status is 1 where it can't go on, 2 for its words.
"""
import argparse
import pathlib
import sys
import time
from typing import Dict, Iterator, Optional, Sequence, Tuple

sys.path.append(str(pathlib.Path(__file__).resolve().parent.parent / "clients/python"))
import romburik
from romburik import Answer, Block, Row, Rows, Session
from romburik.calling import check_words, key_of, parser_of, serve_for_ever
from romburik.columns import operator_of

SETTLED = 0.3
"""Seconds for which the stream's time stands still before it is relied on: the server may be about
to take lines that a stage before this one has sent."""


class CannotGoOn(Exception):
    """The stage ends, since what it did next could be wrong."""


def say(text: str) -> None:
    print(f"stage: {text}", file=sys.stderr, flush=True)


class Stage:
    """What is known beyond one connection."""

    def __init__(self, words: argparse.Namespace) -> None:
        self._words = words

    def run(self, key: str) -> None:
        """Serves one server after another, without an end."""
        lost = romburik.ConnectionLost, romburik.UnknownQuery, romburik.UnknownStream
        serve_for_ever(self._words, key, say, self._serve, lost)

    def _serve(self, session: Session, trouble: romburik.Trouble) -> None:
        """Puts what the query tells, from where the stream is."""
        words = self._words
        done = self._settled(session)
        while True:
            answer = session.fetch(words.query)
            trouble.is_over()
            if answer.next * words.scale > done:
                done = self._put(session, answer, done)
                session.ack(words.query, answer.next)
            else:
                # all of it was put and beaten before, and perhaps not acknowledged
                session.ack(words.query, answer.next)
                time.sleep(words.poll)

    def _settled(self, session: Session) -> int:
        """The time that the stream still takes, once it stands still."""
        words = self._words
        told, since = -1, time.monotonic()
        while time.monotonic() - since < SETTLED:
            listing = session.list()
            opens: Dict[str, int] = {it.name: it.open for it in listing.streams}
            texts = {it.name: it.text for it in listing.queries}
            if words.stream not in opens or words.query not in texts:
                raise romburik.UnknownStream()
            if operator_of(texts[words.query]) not in ("ISTREAM", "DSTREAM"):
                raise CannotGoOn(f"{words.query} isn't by ISTREAM or DSTREAM")
            if opens[words.stream] != told:
                told, since = opens[words.stream], time.monotonic()
            time.sleep(SETTLED / 10)
        return told

    def _put(self, session: Session, answer: Answer, done: int) -> int:
        """Puts the rows of an answer that aren't in, and says that no more come; gives up to where."""
        words = self._words
        rows = (it for block in answer.blocks for it in self._rows(block) if it[0] > done)
        puts = session.put_many(words.stream, rows)
        if puts.refused:
            it = puts.refused[0]
            raise CannotGoOn(f"the row {list(it.row)} at {it.at} is refused: {it.refusal}")
        behind = answer.next * int(words.scale)
        session.beat(words.stream, behind - 1)
        return behind

    def _rows(self, block: Block) -> Iterator[Tuple[int, Row]]:
        """The rows of a block, each behind its instant of the stream."""
        if not isinstance(block, Rows):
            raise CannotGoOn(f"{self._words.query} tells {block.line():.200}")
        scale = self._words.scale
        if len(block.rows) >= scale:
            raise CannotGoOn(f"there are {len(block.rows)} rows at {block.first}: a larger --scale")
        for instant in range(block.first, block.last + 1):
            for number, row in enumerate(block.rows, start=1):
                yield instant * scale + number, row


def main(given: Optional[Sequence[str]] = None) -> int:
    parser = parser_of("Puts what a query tells into a stream.")
    parser.add_argument("--query", required=True)
    parser.add_argument("--stream", required=True)
    parser.add_argument("--scale", type=int, default=100, help="the stream's instants an instant")
    parser.add_argument("--poll", type=float, default=0.2, help="seconds between fetches (0.2)")
    words = parser.parse_args(given)
    check_words(parser, words)
    key = key_of(parser)
    if words.scale < 2:
        parser.error("--scale is at least 2")
    try:
        Stage(words).run(key)
    except KeyboardInterrupt:
        return 0
    except (CannotGoOn, romburik.Error, OSError) as error:
        say(str(error))
    return 1


if __name__ == "__main__":
    sys.exit(main())
