#!/usr/bin/env python3
"""Prints each block of a query once, also where the cqld is stopped and started anew.

usage: examples/consume.py --port N --tenant NAME --query NAME --offsets FOLDER
           [--out FILE] [--exec COMMAND] [--form json|csv] [--until INSTANT] [--poll SECONDS]

The consumer's offset is kept in FOLDER/QUERY: up to which instant all was taken, and the block that
ends there and may go on. A block is printed when it is at its end, whole, as a line of JSON. So
what is printed doesn't depend on when the server was stopped, or when it was asked. On a server
started anew the consumer waits until the query is made and fed again (examples/feed.py does both),
and goes on at its offset.

With --out the blocks go to a file. The offset knows how long that file is, and what stands behind is
cut off at the start: so each block is there once even if the consumer itself is killed. A file that
is shorter than that was cut or taken away, and the consumer says so and ends. Without --out the
blocks of its last answer may be printed again after a kill.

With --exec a command of the shell is run for each block, which has the block as its standard input;
the block counts as taken once the command ends with status 0, and until then it is run again, each
time behind a longer pause of up to a minute. After a kill the blocks of the last answer are told
again. So an alert goes to a broker of MQTT by --exec 'mosquitto_pub -q 1 -t alerts -s'.

With --form csv each row is a line of comma-separated values: the first and the last of its instants,
`row`, `+`, `-` or `fault`, and its values.

What it waits for, a server, a slot at one or the query, it says on standard error within five
seconds. The key is taken from the environment variable CQL_KEY. The consumer ends once all below INSTANT was
taken, else it runs until it is interrupted. The status is 1 where it can't go on, 2 for its words.
"""
import argparse
import os
import pathlib
import sys
import tempfile
from typing import Optional, Sequence

sys.path.append(str(pathlib.Path(__file__).resolve().parent.parent / "clients/python"))
from romburik.calling import add_words, check_words, key_of
from romburik.taking import Offset, Place, add_taking_words, take


class File(Place):
    """A file of a folder."""

    def __init__(self, folder: str, query: str) -> None:
        self._path = pathlib.Path(folder, query)
        self.where = str(self._path)

    def read(self) -> Offset:
        try:
            return Offset.of(self._path.read_text(encoding="utf-8"))
        except FileNotFoundError:
            return Offset()

    def write(self, offset: Offset) -> None:
        """Writes the offset so that the file has the old one or this one, whatever happens."""
        with tempfile.NamedTemporaryFile("w", dir=self._path.parent, delete=False) as file:
            file.write(offset.text())
            file.flush()
            os.fsync(file.fileno())
        os.replace(file.name, self._path)


def say(text: str) -> None:
    print(f"consume: {text}", file=sys.stderr, flush=True)


def main(given: Optional[Sequence[str]] = None) -> int:
    parser = argparse.ArgumentParser(description="Prints each block of a query once.")
    add_words(parser)
    add_taking_words(parser)
    parser.add_argument("--offsets", required=True, help="the folder of the consumers' offsets")
    words = parser.parse_args(given)
    check_words(parser, words)
    key = key_of(parser)
    return take(words, key, File(words.offsets, words.query), say)


if __name__ == "__main__":
    sys.exit(main())
