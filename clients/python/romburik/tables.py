"""What a server tells, as aligned columns."""
import collections
import json
import unicodedata
from typing import Deque, Dict, FrozenSet, Iterable, Iterator, List, Optional, Sequence, Tuple

from .columns import Columns
from .looking import final_of
from .told import Answer, Block, Changes, Fault, Listing, Row, Rows, Value

BARS = "▁▂▃▄▅▆▇█"


def printable(text: str) -> str:
    """A text without the characters that steer a terminal."""
    if text.isprintable():
        return text
    return "".join(it if it.isprintable() else json.dumps(it)[1:-1] for it in text)


def _width_of(letter: str) -> int:
    if unicodedata.combining(letter):
        return 0
    return 2 if unicodedata.east_asian_width(letter) in "WF" else 1


def width(text: str) -> int:
    """How many cells a text takes on a terminal."""
    return sum(map(_width_of, text))


def cut(text: str, cells: int) -> str:
    """As much of a text as so many cells of a terminal take, with a mark where it is cut."""
    if width(text) <= cells:
        return text
    taken = 1
    for index, letter in enumerate(text):
        taken += _width_of(letter)
        if taken > cells:
            return text[:index] + "…"
    return text


class Table:
    """Lines of cells, which stand below those of earlier lines. No column ever gets narrower."""

    def __init__(self) -> None:
        self._widths: List[int] = []

    def lines(self, rows: Iterable[Sequence[Value]]) -> List[str]:
        """Numbers are aligned to the right, texts to the left."""
        cells = [[(printable(str(it)), isinstance(it, int)) for it in row] for row in rows]
        for row in cells:
            self._widths += [0] * (len(row) - len(self._widths))
            for column, (text, _) in enumerate(row):
                self._widths[column] = max(self._widths[column], width(text))
        return [self._line(row) for row in cells]

    def _line(self, row: Sequence[Tuple[str, bool]]) -> str:
        padded = []
        for (text, is_number), cells in zip(row, self._widths):
            blanks = " " * (cells - width(text))
            padded.append(blanks + text if is_number else text + blanks)
        return "  ".join(padded).rstrip()


def row_columns(names: Optional[Sequence[str]] = None) -> Sequence[str]:
    """The names above a table of blocks, where `kind` says what a line is."""
    return ("from", "to", "kind", *(names or ("row",)))


def block_cells(block: Block) -> Iterator[Sequence[Value]]:
    """A line of cells for each row, and one for a fault, which its kind tells from a row."""
    if isinstance(block, Rows):
        kinds = {"row": block.rows}
    elif isinstance(block, Changes):
        kinds = {"-": block.minus, "+": block.plus}
    elif isinstance(block, Fault):
        kinds = {"fault": ((block.fault,),)}
    else:
        kinds = {}
    for kind, rows in kinds.items():
        for row in rows:
            yield (block.first, block.last, kind, *row)


def answer_lines(answer: Answer, names: Optional[Sequence[str]]) -> List[str]:
    """The blocks of an answer, and its `next`."""
    rows = (row for block in answer.blocks for row in block_cells(block))
    return [*Table().lines([row_columns(names), *rows]), f"next {answer.next}"]


def listing_lines(listing: Listing, known: Columns) -> List[str]:
    """Queries and streams, these with their columns, as far as they are known. `behind` is how many
    instants are final that a query's consumer hasn't acknowledged."""
    queries = []
    for query in listing.queries:
        final = final_of(listing, query)
        behind: Value = "" if final is None else max(0, final - query.next)
        queries.append((query.name, query.base, query.next, behind, query.text))
    streams = []
    for stream in (*listing.streams, *listing.readable):
        columns = stream.columns or known.get(stream.name) or ()
        streams.append((stream.name, stream.open, " ".join(columns)))
    return [
        *Table().lines([("query", "base", "next", "behind", "text"), *queries]),
        *Table().lines([("stream", "open", "columns"), *streams]),
    ]


# ---- Values over time.


def bars(values: Sequence[int]) -> str:
    """A line of bars, the least value the lowest and the greatest the highest."""
    least, greatest = min(values, default=0), max(values, default=0)
    steps = len(BARS) - 1
    if least == greatest:
        return BARS[0] * len(values)
    return "".join(BARS[(it - least) * steps // (greatest - least)] for it in values)


Key = Tuple[object, ...]


def keyed(rows: Iterable[Row], keys: FrozenSet[int]) -> Iterator[Tuple[Key, Row]]:
    """Rows behind what tells them from others of the same instant: their texts and their values in
    the columns that are keys, and where several rows have the same, their number."""
    counts: Dict[Key, int] = collections.Counter()
    for row in rows:
        key = tuple(it for at, it in enumerate(row) if isinstance(it, str) or at in keys)
        counts[key] += 1
        yield (*key, counts[key]), row


class Past:
    """The last values of the numbers of rows, by what tells the rows apart."""

    def __init__(self, length: int, most: int = 10_000) -> None:
        self._length = length
        self._most = most
        self._values: "collections.OrderedDict[Tuple[Key, int], Deque[int]]"
        self._values = collections.OrderedDict()

    def note(self, rows: Iterable[Row], keys: FrozenSet[int]) -> None:
        """Takes note of the rows of an instant."""
        for key, row in keyed(rows, keys):
            for at, value in enumerate(row):
                if isinstance(value, int) and at not in keys:
                    self._note((key, at), value)
        while len(self._values) > self._most:
            self._values.popitem(last=False)

    def _note(self, name: Tuple[Key, int], value: int) -> None:
        values = self._values.pop(name, None)
        if values is None:
            values = collections.deque(maxlen=self._length)
        values.append(value)
        self._values[name] = values

    def cells(self, rows: Iterable[Row], keys: FrozenSet[int]) -> Iterator[List[Value]]:
        """The cells of rows, each number that is no key with a line of its last values behind it."""
        for key, row in keyed(rows, keys):
            found: List[Value] = []
            for at, value in enumerate(row):
                found.append(value)
                if isinstance(value, int) and at not in keys:
                    found.append(bars([*self._values.get((key, at), ())]))
            yield found
