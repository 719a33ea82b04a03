#!/usr/bin/env python3
"""Puts this machine's load once a second, for something to watch: rows of one's own, live.

usage: examples/load.py --port N --tenant NAME [--seconds N] [--every SECONDS]

It makes the stream `load`, of the mean load over a minute and over a quarter of an hour in
hundredths, and the query `busy` over the last twenty seconds. Then it puts a row a second and beats
behind it. Nobody else takes what the query tells, so it acknowledges what is older than a minute: a
query that nobody acknowledges is overrun in the end.

Where the stream and the query stand, from an earlier run, it goes on behind what was put. Times are
whole seconds from its first start, one tick each. Who has milliseconds puts at // 1000, or
writes lengths in them, [Range 20000] for twenty seconds.

The key is taken from the environment variable CQL_KEY. The status is 1 where it can't go on, 2 for
its words.
"""
import contextlib
import os
import pathlib
import sys
import time
from typing import Optional, Sequence

sys.path.append(str(pathlib.Path(__file__).resolve().parent.parent / "clients/python"))
import romburik
from romburik.calling import check_words, key_of, parser_of, session_of

TEXT = (
    "Select Rstream(Max(short) As greatest, Min(short) As least, Max(long) As quarter) "
    "From load [Range 20 Seconds]"
)
KEPT = 60
"""For how many seconds what the query tells isn't acknowledged."""


def say(text: str) -> None:
    print(f"load: {text}", file=sys.stderr, flush=True)


def made(session: romburik.Session) -> int:
    """Makes the stream and the query, where they don't stand, and gives the next second."""
    with contextlib.suppress(romburik.StreamExists):
        session.stream("load", {"short": "int", "long": "int"})
    with contextlib.suppress(romburik.QueryExists):
        session.query("busy", TEXT)
    return next(it.open for it in session.list().streams if it.name == "load")


def put_load(session: romburik.Session, seconds: int, every: float) -> None:
    """Puts rows."""
    first = made(session)
    for second in range(first, first + seconds):
        short, _, long = os.getloadavg()
        session.put("load", second, [round(short * 100), round(long * 100)])
        session.beat("load", second)
        # another consumer may have acknowledged more
        with contextlib.suppress(romburik.Behind):
            session.ack("busy", max(0, second - KEPT))
        time.sleep(every)


def main(given: Optional[Sequence[str]] = None) -> int:
    parser = parser_of("Puts this machine's load once a second.")
    parser.add_argument("--seconds", type=int, default=3600, help="how many rows (3600)")
    parser.add_argument("--every", type=float, default=1.0, help="seconds between them (1)")
    words = parser.parse_args(given)
    check_words(parser, words)
    key = key_of(parser)
    try:
        with session_of(words, words.tenant, key, say) as session:
            put_load(session, words.seconds, words.every)
    except KeyboardInterrupt:
        return 0
    except romburik.Error as error:
        say(str(error))
        return 1
    return 0


if __name__ == "__main__":
    sys.exit(main())
