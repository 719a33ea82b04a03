"""What a server tells: blocks, answers, listings."""
import dataclasses
import json
from dataclasses import dataclass
from typing import Any, Callable, Dict, Iterable, List, Mapping, Optional, Tuple, TypeVar, Union

from .errors import BadReply, ConnectionLost, Refused

Value = Union[int, str]
Row = Tuple[Value, ...]
Reply = Dict[str, Any]
T = TypeVar("T")

encoded = json.JSONEncoder(
    ensure_ascii=False, allow_nan=False, separators=(",", ":"), sort_keys=True
).encode


@dataclass(frozen=True)
class Block:
    """A run of instants at which the same is told, from `first` to `last`, which both count.

    It is one of `Rows`, `Changes` and `Fault`.
    """

    first: int
    last: int

    def output(self) -> Dict[str, object]:
        """What is told at each of the instants, under the keys of the server's line."""
        raise NotImplementedError

    def line(self) -> str:
        """The block as the server writes it."""
        return encoded({"from": self.first, "to": self.last, **self.output()})

    def joined(self, later: "Block") -> Optional["Block"]:
        """Both as one block, where the later one adjoins and tells the same; else None."""
        whole = dataclasses.replace(self, last=later.last)
        same = whole == dataclasses.replace(later, first=self.first)
        return whole if same and self.last + 1 == later.first else None

    def behind(self, first: int) -> "Block":
        """What it tells of the instants from one on, which is at most `last`."""
        return self if self.first >= first else dataclasses.replace(self, first=first)

    @staticmethod
    def of(told: Mapping[str, Any]) -> "Block":
        """The block that an object of the server's line tells."""
        first, last = int(told["from"]), int(told["to"])
        if "fault" in told:
            return Fault(first, last, str(told["fault"]))
        if "rows" in told:
            return Rows(first, last, rows_of(told["rows"]))
        return Changes(first, last, plus=rows_of(told["plus"]), minus=rows_of(told["minus"]))


@dataclass(frozen=True)
class Rows(Block):
    """Of Istream, Dstream or Rstream: rows in ascending order, each as often as it counts."""

    rows: Tuple[Row, ...]

    def output(self) -> Dict[str, object]:
        return {"rows": self.rows}


@dataclass(frozen=True)
class Changes(Block):
    """Of a query without a stream operator: the rows that came and those that left."""

    plus: Tuple[Row, ...]
    minus: Tuple[Row, ...]

    def output(self) -> Dict[str, object]:
        return {"minus": self.minus, "plus": self.plus}


@dataclass(frozen=True)
class Fault(Block):
    """Instants that have no rows to tell: `fault` is `overflow` or `oversize`."""

    fault: str

    def output(self) -> Dict[str, object]:
        return {"fault": self.fault}


@dataclass(frozen=True)
class Answer:
    """A fetch's blocks; all instants below `next` are final."""

    blocks: Tuple[Block, ...]
    next: int


@dataclass(frozen=True)
class Query:
    """A query in a listing: `next` is its cursor, `text` its canonical spelling."""

    name: str
    text: str
    base: int
    next: int


@dataclass(frozen=True)
class Stream:
    """A stream in a listing, as `owner.name` where it is another's.

    `open` is the least time that it still takes. `columns` has the columns that the grant names.
    """

    name: str
    open: int
    columns: Optional[Tuple[str, ...]] = None


@dataclass(frozen=True)
class Listing:
    """A tenant's queries, the streams granted to it, and its own streams."""

    queries: Tuple[Query, ...]
    readable: Tuple[Stream, ...]
    streams: Tuple[Stream, ...]


@dataclass(frozen=True)
class RefusedPut:
    """A row of `put_many` that was refused; `index` is its index among the rows, from 0."""

    index: int
    at: int
    row: Row
    refusal: Refused


@dataclass(frozen=True)
class Puts:
    """How many rows of `put_many` came in, and those that were refused."""

    accepted: int
    refused: Tuple[RefusedPut, ...]


class PutsLost(ConnectionLost):
    """The connection was lost within `put_many`.

    `done` tells of the rows that were answered. Those `in_doubt` follow them: they were under way,
    and some of them, in order from the first, may have come in. No later row was sent.
    """

    def __init__(self, text: str, done: Puts, in_doubt: Tuple[Tuple[int, Row], ...]) -> None:
        super().__init__(text)
        self.done = done
        self.in_doubt = in_doubt


class WholeBlocks:
    """Joins the blocks of one answer after another, so that each comes out once and whole.

    An answer ends behind the last final instant, and may cut a block there. The block that may
    still go on is held back, as `held`, until an answer tells where it ends. So what comes out
    doesn't depend on when it was fetched.
    """

    def __init__(self, held: Optional[Block] = None) -> None:
        self.held = held

    def take(self, answer: Answer) -> List[Block]:
        """The blocks that end with this answer, which begins where the one before it ended."""
        whole: List[Block] = []
        for block in answer.blocks:
            joined = self.held.joined(block) if self.held else None
            if self.held and not joined:
                whole.append(self.held)
            self.held = joined or block
        if self.held and self.held.last + 1 < answer.next:
            whole.append(self.held)
            self.held = None
        return whole


def object_of(line: bytes) -> Reply:
    told = json.loads(line)
    if not isinstance(told, dict):
        raise ValueError("no object")
    return told


def read(how: Callable[[Any], T], told: Any) -> T:
    """What a reply says."""
    try:
        return how(told)
    except (AttributeError, KeyError, TypeError, ValueError) as error:
        raise BadReply(f"this is no reply of a cqld: {told!r:.200}") from error


def base_of(reply: Reply) -> int:
    return int(reply["base"])


def rows_of(told: Iterable[Iterable[Value]]) -> Tuple[Row, ...]:
    return tuple(tuple(row) for row in told)


def answer_of(reply: Reply) -> Answer:
    return Answer(tuple(Block.of(block) for block in reply["blocks"]), int(reply["next"]))


def readable_of(told: Mapping[str, Any]) -> Stream:
    columns = told.get("columns")
    return Stream(told["stream"], told["open"], None if columns is None else tuple(columns))


def listing_of(reply: Reply) -> Listing:
    return Listing(
        tuple(Query(it["name"], it["text"], it["base"], it["next"]) for it in reply["queries"]),
        tuple(readable_of(it) for it in reply["readable"]),
        tuple(Stream(it["name"], it["open"]) for it in reply["streams"]),
    )
