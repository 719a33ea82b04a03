"""Taking each block of a query once: what examples/consume.py and the cluster's consumers share. They
differ in where the place of a consumer is kept."""
import argparse
import contextlib
import csv
import io
import json
import os
import subprocess
import sys
import time
from dataclasses import dataclass
from typing import BinaryIO, Callable, List, Optional

from .calling import session_of
from .errors import ConnectionLost, Error
from .session import Session, Trouble
from .tables import block_cells
from .told import Block, WholeBlocks

Say = Callable[[str], None]

LONGEST_PAUSE = 60.0
"""Seconds between two runs of a command that fails, at most."""


class CannotGoOn(Exception):
    """A program ends, since what it did next could be wrong."""


@dataclass(frozen=True)
class Offset:
    """Up to which instant all was taken, the block that may go on there, and the output's bytes."""

    next: int = 0
    held: Optional[Block] = None
    bytes: int = 0

    @staticmethod
    def of(text: str) -> "Offset":
        kept = json.loads(text)
        held = kept["held"]
        return Offset(kept["next"], Block.of(held) if held else None, kept["bytes"])

    def text(self) -> str:
        held = json.loads(self.held.line()) if self.held else None
        return json.dumps({"bytes": self.bytes, "held": held, "next": self.next})


class Place:
    """Where the offset of one consumer is kept."""

    where = ""
    """What it is called."""

    def read(self) -> Offset:
        """What was kept last, or the beginning."""
        raise NotImplementedError

    def write(self, offset: Offset) -> None:
        """Keeps an offset, so that the old one or this one is kept, whatever happens."""
        raise NotImplementedError


def text_of(block: Block, form: str) -> bytes:
    """What is written of a block."""
    if form == "json":
        return block.line().encode() + b"\n"
    lines = io.StringIO()
    csv.writer(lines, lineterminator="\n").writerows(block_cells(block))
    return lines.getvalue().encode()


def run(command: str, text: bytes, say: Say) -> None:
    """Runs a command over a text until it ends well."""
    pause = 1.0
    while True:
        status = subprocess.run(command, shell=True, input=text, check=False).returncode
        if status == 0:
            return
        say(f"the command ended with status {status}, and is run again in {pause:.0f} seconds")
        time.sleep(pause)
        pause = min(2 * pause, LONGEST_PAUSE)


def give(blocks: List[Block], words: argparse.Namespace, out: BinaryIO, say: Say) -> int:
    """Writes blocks, or runs the command over each; gives how many bytes were written."""
    texts = [text_of(block, words.form) for block in blocks]
    if words.exec:
        for text in texts:
            run(words.exec, text, say)
        return 0
    out.write(b"".join(texts))
    out.flush()
    if words.out:
        os.fsync(out.fileno())
    return sum(map(len, texts))


def cut(out: BinaryIO, path: str, where: str, offset: Offset) -> None:
    """Cuts off what the offset doesn't know of; what it knows of has to be there."""
    size = os.fstat(out.fileno()).st_size
    if size < offset.bytes:
        raise CannotGoOn(
            f"{path} has {size} bytes and the offset knows of {offset.bytes}: it was cut, or "
            f"another file is in its place. Put it back; or, where its blocks stand elsewhere, "
            f"write 0 for bytes into {where}"
        )
    out.truncate(offset.bytes)


def consume(
    session: Session, words: argparse.Namespace, out: BinaryIO, place: Place, say: Say
) -> None:
    """Gives blocks from the consumer's offset on, and keeps its offset."""
    offset = place.read()
    if words.out:
        cut(out, words.out, place.where, offset)
    blocks = WholeBlocks(offset.held)
    if words.until is not None and offset.next >= words.until:
        return
    answers = session.answers(words.query, since=offset.next, poll=words.poll, patience=None)
    for answer in answers:
        written = give(blocks.take(answer), words, out, say)
        offset = Offset(answer.next, blocks.held, offset.bytes + written)
        place.write(offset)
        if words.until is not None and offset.next >= words.until:
            return


def connected(words: argparse.Namespace, key: str, say: Say) -> Session:
    """A session, as soon as there is a server."""
    trouble = Trouble(None, say)
    while True:
        try:
            return session_of(words, words.tenant, key, say)
        except ConnectionLost as lost:
            trouble.is_too_long(lost, words.poll)
        time.sleep(words.poll)


def add_taking_words(parser: argparse.ArgumentParser) -> None:
    """Adds the words to a program's that say what is taken, and where it goes."""
    parser.add_argument("--tenant", required=True)
    parser.add_argument("--query", required=True)
    where = parser.add_mutually_exclusive_group()
    where.add_argument("--out", help="a file for the blocks")
    where.add_argument("--exec", metavar="COMMAND", help="what is run for each block")
    parser.add_argument("--form", choices=("json", "csv"), default="json", help="how it is written")
    parser.add_argument("--until", type=int, help="the instant at which it ends")
    parser.add_argument("--poll", type=float, default=0.2, help="seconds between fetches (0.2)")


def take(words: argparse.Namespace, key: str, place: Place, say: Say) -> int:
    """Takes the query's blocks to the end; gives the program's status."""
    try:
        with contextlib.ExitStack() as open_ones:
            out: BinaryIO = sys.stdout.buffer
            if words.out:
                out = open_ones.enter_context(open(words.out, "ab"))
            session = open_ones.enter_context(connected(words, key, say))
            consume(session, words, out, place, say)
    except KeyboardInterrupt:
        return 0
    except (CannotGoOn, Error, OSError) as error:
        say(str(error))
        return 1
    return 0
