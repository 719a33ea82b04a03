"""Looking at a query without acknowledging anything, so that its consumer loses nothing."""
import bisect
import dataclasses
from dataclasses import dataclass
from typing import Any, Iterator, List, Optional, Tuple

from .columns import Columns, inputs_of, operator_of
from .errors import UnknownQuery
from .session import Session
from .told import Answer, Block, Changes, Fault, Listing, Query, Row, Rows

FEW = 8
"""For how many instants a first look asks first."""

MANY = 20_000
"""Behind how many rows a look asks for no further instants."""


@dataclass(frozen=True)
class Look:
    """What a query tells of the instants from `first` to before `next`, and how it stands.

    Of what is below the query's cursor, its consumer acknowledged it, nothing is told any more:
    `first` is above the `next` of the look before where that was more than had been looked at.
    `is_new` says that the looks before it count no more: it is the first, or the query was made
    anew. `columns` has the names of the columns of granted streams, as far as grants name them.
    `final` is the instant below which all is final, as far as the streams tell: where it is above
    `next`, more is there than a look takes at once. `since` is the instant from which on rows are
    seen, where it is a copy of the query that is looked at.
    """

    query: Query
    first: int
    next: int
    blocks: Tuple[Block, ...]
    is_new: bool
    columns: Columns = dataclasses.field(default_factory=dict)
    final: Optional[int] = None
    since: Optional[int] = None

    @property
    def is_behind(self) -> bool:
        """Whether more is final than the look tells."""
        return self.final is not None and self.next < self.final


def final_of(listing: Listing, query: Query) -> Optional[int]:
    """The instant below which all of a query is final, as far as the listing tells."""
    opens = {it.name: it.open for it in (*listing.streams, *listing.readable)}
    names = inputs_of(query.text)
    return min(map(opens.__getitem__, names)) if names and names <= opens.keys() else None


def _weight(answer: Answer) -> int:
    """How many rows an answer tells."""
    weight = 0
    for block in answer.blocks:
        if isinstance(block, Rows):
            weight += len(block.rows)
        elif isinstance(block, Changes):
            weight += len(block.plus) + len(block.minus)
    return weight


def bounded(session: Session, query: Query, final: Optional[int], start: int) -> Answer:
    """An answer from the query's cursor on, which a look before asked for up to `start`. It goes so
    far beyond that it has some MANY rows, or tells all that is final. What is asked for grows step
    by step, so that no answer is many times as long as what is shown of it."""
    step = max(FEW, start - query.next)
    until = max(start, query.next) + step
    while final is not None and until < final:
        answer = session.fetch(query.name, until)
        if answer.next < until or _weight(answer) >= MANY:
            return answer
        step *= 2
        until += min(step, max(FEW, (final - until) // 8))
    return session.fetch(query.name)


def _from(block: Block, first: int) -> Optional[Block]:
    """What a block tells of the instants from one on."""
    return block.behind(first) if block.last >= first else None


class Looker:
    """Looks at one query, again and again, by `list` and `fetch` alone.

    A look takes a bounded number of rows. Where the query's consumer is further behind, what is
    final beyond that is seen once it has acknowledged; `OwnLooker` sees it at once.
    """

    trouble = None

    def __init__(self, session: Session, query: str) -> None:
        self._session = session
        self._name = query
        self._seen: Optional[Listing] = None
        self._before: Optional[Look] = None
        self._is_full = False

    def look(self) -> Optional[Look]:
        """What has come since the look before, or None where nothing has moved.

        Raises what `list` and `fetch` do, and UnknownQuery; then it may be called again.
        """
        listing = self._session.list()
        if listing == self._seen:
            return None
        self._seen = None
        query, answer, listing = self._fetched(listing)
        before = self._before
        is_new = before is None or not _goes_on(before, query, answer)
        first = query.next if before is None or is_new else max(query.next, before.next)
        rest = (_from(block, first) for block in answer.blocks)
        blocks = tuple(block for block in rest if block)
        columns = {it.name: it.columns for it in listing.readable if it.columns}
        final = final_of(listing, query)
        self._is_full = _weight(answer) >= MANY or self._stands_full(query)
        self._before = Look(query, first, answer.next, blocks, is_new, columns, final)
        self._seen = listing if self._is_full or not self._before.is_behind else None
        return self._before

    def close(self) -> None:
        """Does nothing: nothing was made."""

    def _fetched(self, listing: Listing) -> Tuple[Query, Answer, Listing]:
        """An answer, the query with the cursor at which the answer begins, and the listing before
        the fetch. It is fetched anew where the cursor was moved meanwhile."""
        while True:
            query = self._query(listing)
            answer = self._answer(listing, query)
            later = self._session.list()
            if self._query(later) == query:
                return query, answer, listing
            listing = later

    def _answer(self, listing: Listing, query: Query) -> Answer:
        """What can be told of the query; nothing where a look before had all that a look takes,
        and the cursor stands where it stood."""
        before = self._before
        if before is not None and self._stands_full(query):
            self._session.fetch(query.name, query.next)  # an overrun or a revoke is still told
            return Answer((), before.next)
        start = 0 if before is None else before.next
        return bounded(self._session, query, final_of(listing, query), start)

    def _stands_full(self, query: Query) -> bool:
        return self._is_full and self._before is not None and self._before.query == query

    def _query(self, listing: Listing) -> Query:
        for query in listing.queries:
            if query.name == self._name:
                return query
        self._seen = self._before = None
        self._is_full = False
        raise UnknownQuery()


def _goes_on(before: Look, query: Query, answer: Answer) -> bool:
    """Whether it is the query that was looked at before, as far as its clocks tell: on a server
    that went on, or on one that was started anew and is told again what it was told before."""
    was = before.query
    is_same = (was.text, was.base) == (query.text, query.base)
    return is_same and was.next <= query.next and before.next <= answer.next


@dataclass(frozen=True)
class Step:
    """Instants at which a query's rows stay the same, or are a fault."""

    first: int
    last: int
    rows: Tuple[Row, ...]
    fault: Optional[str] = None


def _order(row: Row) -> Tuple[Tuple[Any, ...], Row]:
    """A row behind its rank in the server's order: numbers before texts, these by their bytes."""
    return tuple((1, it.encode()) if isinstance(it, str) else (0, it) for it in row), row


class View:
    """What is known of a query by the looks at it.

    Of a query by RSTREAM or without a stream operator that is the relation at the instant `at`, the
    last final one that was told; of one by ISTREAM or DSTREAM what was told is given by `take`.
    """

    def __init__(self) -> None:
        self.look: Optional[Look] = None
        self.at: Optional[int] = None
        self.rows: Tuple[Row, ...] = ()
        self.fault: Optional[Fault] = None
        self.since: Optional[int] = None
        """Of a relation that is known by its changes: since when they are, None where all are."""
        self._relation: List[Tuple[Tuple[Any, ...], Row]] = []

    @property
    def has_lines(self) -> bool:
        """Whether it has rows as they were told, and no relation."""
        return self._operator() in ("ISTREAM", "DSTREAM")

    def _operator(self) -> Optional[str]:
        return operator_of(self.look.query.text) if self.look else None

    def take(self, look: Look) -> List[Step]:
        """Takes a look, and gives what the query's rows were at its instants, in their order."""
        before = self.look
        self.look = look
        if look.is_new:
            self.at = self.fault = None
            self.rows = ()
        if look.is_new or before is None or look.first > before.next or look.since != before.since:
            self._begin(look)
        if look.first == look.next:
            return []
        self.at = look.next - 1
        self.fault = None
        if self.has_lines:
            return [*self._told()]
        steps = [*(self._shown() if self._operator() else self._changed())]
        self.rows = steps[-1].rows
        return steps

    def _begin(self, look: Look) -> None:
        """No change before the look is known, unless it begins at the query's base."""
        if self._operator() is None:
            is_whole = look.since is None and look.first == look.query.base
            self.since = None if is_whole else look.first
            self.rows = ()
            self._relation.clear()

    def _blocks(self) -> Tuple[Tuple[Block, ...], int, int]:
        assert self.look
        return self.look.blocks, self.look.first, self.look.next

    def _note(self, block: Block) -> None:
        """Keeps a fault that lasts to the last final instant."""
        assert self.look
        lasts = isinstance(block, Fault) and block.last + 1 == self.look.next
        self.fault = block if isinstance(block, Fault) and lasts else None

    def _told(self) -> Iterator[Step]:
        """The rows as they were told."""
        for block in self._blocks()[0]:
            self._note(block)
            yield _step(block)

    def _shown(self) -> Iterator[Step]:
        """The relation of a query by RSTREAM, which is empty where no block stands."""
        blocks, instant, end = self._blocks()
        for block in blocks:
            if instant < block.first:
                yield Step(instant, block.first - 1, ())
            self._note(block)
            yield _step(block)
            instant = block.last + 1
        if instant < end:
            yield Step(instant, end - 1, ())

    def _changed(self) -> Iterator[Step]:
        """The relation by its changes. Where it isn't known from its beginning on, rows that leave
        and didn't come are among those that aren't known."""
        blocks, instant, end = self._blocks()
        rows = self.rows
        for block in blocks:
            if instant < block.first:
                yield Step(instant, block.first - 1, rows)
            self._note(block)
            if isinstance(block, Changes):
                for at in range(block.first, block.last + 1):
                    rows = self._after(block)
                    yield Step(at, at, rows)
            else:
                self._relation.clear()
                rows, self.since = (), block.last + 1
                yield _step(block)
            instant = block.last + 1
        if instant < end:
            yield Step(instant, end - 1, rows)

    def _after(self, changes: Changes) -> Tuple[Row, ...]:
        relation = self._relation
        for it in map(_order, changes.minus):
            index = bisect.bisect_left(relation, it)
            if relation[index : index + 1] == [it]:
                del relation[index]
        for it in map(_order, changes.plus):
            bisect.insort(relation, it)
        return tuple(row for _, row in relation)


def _step(block: Block) -> Step:
    if isinstance(block, Fault):
        return Step(block.first, block.last, (), block.fault)
    return Step(block.first, block.last, block.rows if isinstance(block, Rows) else ())
