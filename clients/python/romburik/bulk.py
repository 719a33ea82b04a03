"""Rows of a file of comma-separated values, put as fast as the server takes them."""
import csv
import datetime
import json
import os
import sys
import time
from dataclasses import dataclass
from typing import IO, Callable, Iterator, List, Optional, Sequence, Tuple

from .errors import Error, Refused
from .session import Session

BATCH = 1000
"""How many rows are sent at once."""

SHOWN = 10
"""How many refused rows are told one by one."""

OFTEN = 0.2
"""Seconds between two states of the bar."""

_text = json.JSONEncoder(ensure_ascii=False).encode


class BadFile(Error):
    """A file that isn't one of rows with these columns."""


@dataclass(frozen=True)
class Source:
    """Which file is put, and how: `at` is the column of the instants, whole numbers, or dates and
    times that count seconds or, with `epoch` ms, milliseconds since 1970. The row has the other
    columns in their order, or those that `columns` names. A column is of numbers where its first
    value is a whole number and `texts` doesn't name it."""

    path: str
    at: str
    columns: Optional[Sequence[str]] = None
    texts: Sequence[str] = ()
    epoch: str = "s"
    has_beat: bool = False


@dataclass
class Done:
    """How many rows were accepted and refused, and the last instant that was put."""

    accepted: int = 0
    refused: int = 0
    last: Optional[int] = None


def _instant(word: str, epoch: str) -> int:
    """An instant of a file."""
    try:
        return int(word)
    except ValueError:
        pass
    when = datetime.datetime.fromisoformat(word.replace("Z", "+00:00"))
    if when.tzinfo is None:
        when = when.replace(tzinfo=datetime.timezone.utc)
    since = when - datetime.datetime(1970, 1, 1, tzinfo=datetime.timezone.utc)
    return since // datetime.timedelta(**{"milliseconds" if epoch == "ms" else "seconds": 1})


def _number(word: str) -> str:
    """A whole number as a line has it."""
    return str(int(word))


def _is_number(word: str) -> bool:
    return word.strip().lstrip("+-").isdigit() and word.isascii()


class _Lines:
    """The lines of the puts of a file."""

    def __init__(self, stream: str, source: Source, rows: Iterator[List[str]]) -> None:
        self._source = source
        self._rows = rows
        head: List[str] = next(rows, [])
        if source.at not in head:
            raise BadFile(f"no column of {source.path} is called {source.at}: {', '.join(head)}")
        self._at = head.index(source.at)
        names = source.columns or [it for it in head if it != source.at]
        missing = [it for it in (*names, *source.texts) if it not in head]
        if missing:
            raise BadFile(f"no column of {source.path} is called {missing[0]}: {', '.join(head)}")
        self._places = [head.index(it) for it in names]
        self._names = names
        self._behind = f'],"stream":{_text(stream)}}}\n'

    def lines(self) -> Iterator[Tuple[int, int, str]]:
        """Each row's line number, instant and line."""
        first = next(self._rows, None)
        if first is None:
            return
        how = self._encoders(first)
        epoch, at, behind = self._source.epoch, self._at, self._behind
        for number, row in enumerate(self._whole(first), start=2):
            try:
                instant = _instant(row[at], epoch)
                values = ",".join([encode(row[place]) for encode, place in how])
            except (ValueError, IndexError) as error:
                raise BadFile(f"row {number} of {self._source.path}: {error}") from error
            yield number, instant, f'{{"at":{instant},"do":"put","row":[{values}{behind}'

    def _whole(self, first: List[str]) -> Iterator[List[str]]:
        yield first
        yield from self._rows

    def _encoders(self, first: List[str]) -> List[Tuple[Callable[[str], str], int]]:
        if len(first) <= max([self._at, *self._places]):
            raise BadFile(f"row 2 of {self._source.path} has too few values")
        texts = self._source.texts
        return [
            (_number if _is_number(first[place]) and name not in texts else _text, place)
            for name, place in zip(self._names, self._places)
        ]


class _Bar:
    """How far a file is put, on a terminal."""

    def __init__(self, file: IO[str], out: IO[str]) -> None:
        self._file = file
        self._out = out
        self._whole = os.fstat(file.fileno()).st_size
        self._started = self._told = time.monotonic()
        self._is_shown = out.isatty()

    def show(self, done: Done, is_last: bool = False) -> None:
        now = time.monotonic()
        if not self._is_shown or now - self._told < OFTEN and not is_last:
            return
        self._told = now
        count = done.accepted + done.refused
        share = self._file.buffer.tell() / self._whole if self._whole else 1.0  # type: ignore
        full = round(min(1.0, share) * 30)
        speed = count / max(1e-3, now - self._started)
        bar = "#" * full + "." * (30 - full)
        end = "\n" if is_last else ""
        self._out.write(f"\r[{bar}] {share:4.0%}  {count:,} rows, {speed:,.0f} a second {end}")
        self._out.flush()


def put_file(session: Session, stream: str, source: Source, say: Callable[[str], None]) -> Done:
    """Puts the rows of a file, and tells the first that are refused. BadFile where it isn't one; the
    rows before the one that it names were put."""
    done = Done()
    with open(source.path, newline="", encoding="utf-8-sig") as file:
        bar = _Bar(file, sys.stderr)
        lines = _Lines(stream, source, csv.reader(file)).lines()
        batches = session.ask_batches(_batches(lines, done))
        for numbers, replies in batches:
            _count(done, numbers, replies, say)
            bar.show(done)
        bar.show(done, is_last=True)
    if source.has_beat and done.last is not None:
        try:
            session.beat(stream, done.last)
        except Refused as refusal:
            say(f"the heartbeat at {done.last}: {refusal}")
            done.refused += 1
    return done


def _batches(lines: Iterator[Tuple[int, int, str]], done: Done) -> Iterator[Tuple[range, bytes]]:
    """Batches of lines behind their numbers in the file."""
    batch: List[str] = []
    first = 2
    bad: Optional[BadFile] = None
    try:
        for number, instant, line in lines:
            batch.append(line)
            done.last = instant
            if len(batch) == BATCH:
                yield range(first, number + 1), "".join(batch).encode()
                first, batch = number + 1, []
    except BadFile as error:
        bad = error
    if batch:
        yield range(first, first + len(batch)), "".join(batch).encode()
    if bad:
        raise bad


def _count(done: Done, numbers: range, replies: bytes, say: Callable[[str], None]) -> None:
    """Takes note of the replies to a batch."""
    if replies == b'{"ok":true}\n' * len(numbers):
        done.accepted += len(numbers)
        return
    for number, reply in zip(numbers, replies.splitlines()):
        told = json.loads(reply)
        if "refused" not in told:
            done.accepted += 1
            continue
        done.refused += 1
        if done.refused <= SHOWN:
            say(f"row {number}: {Refused.of(told)}")
