"""Looking at a copy of a query, which nobody else acknowledges: all is seen, and a look costs what is
new. The copy takes one of the tenant's queries; it is dropped at the end, and what a program that was
killed has left is dropped at the next start on the same machine.
"""
import contextlib
import dataclasses
import enum
import hashlib
import itertools
import os
import re
import socket
from typing import Iterator, Optional, Union

from .columns import operator_of
from .errors import Error, NoMemory, Overrun, Refused, Revoked, TooManyQueries, UnknownQuery
from .looking import FEW, Look, Looker, bounded, final_of
from .session import Session
from .told import Listing, Query

AT_THE_END = 5.0
"""How many seconds a server may take to have a copy dropped at the end."""


class Copies(enum.Enum):
    """When a copy is looked at."""

    ALWAYS = "always"
    WHERE_NEEDED = "where needed"
    """Where somebody acknowledges the query, or its consumer is further behind than a look takes,
    and the tenant has a query to spare."""
    NEVER = "never"


def _machine() -> str:
    return hashlib.sha256(socket.gethostname().encode()).hexdigest()[:6]


def _names() -> Iterator[str]:
    """The names that this process gives to its copies."""
    return (f"own_{_machine()}_{os.getpid()}_{number}" for number in itertools.count())


def _is_alive(process: int) -> bool:
    try:
        os.kill(process, 0)
    except (ProcessLookupError, OverflowError):
        return False
    except PermissionError:
        pass
    return True


def is_copy(name: str) -> bool:
    """Whether a query is a looker's copy, of this machine or of another."""
    return re.fullmatch(r"own_[0-9a-f]{6}_\d+_\d+", name) is not None


def drop_leftovers(session: Session) -> None:
    """Drops the copies of programs of this machine that are no more."""
    for query in session.list().queries:
        found = re.fullmatch(rf"own_{_machine()}_(\d+)_\d+", query.name)
        if found and not _is_alive(int(found[1])):
            with contextlib.suppress(UnknownQuery):
                session.drop(query.name)


def _named(listing: Listing, name: Optional[str]) -> Optional[Query]:
    return next((it for it in listing.queries if it.name == name), None)


def _is_shown_whole(query: Query) -> bool:
    """Whether each instant of a query tells all of its rows."""
    return operator_of(query.text) == "RSTREAM"


class OwnLooker:
    """Looks at a copy of a query, which it registers at its first look. It sees the rows that come
    from then on. What a look told is acknowledged at the next one.

    `trouble` is why the query itself tells nothing any more, where it is overrun and the copy isn't.
    With `skips` it passes over instants of a query by RSTREAM where more is final than two looks
    take, to be soon at the newest.
    """

    def __init__(self, session: Session, query: str, skips: bool = False) -> None:
        self.trouble: Optional[Refused] = None
        self._session = session
        self._name = query
        self._skips = skips
        self._copied: Optional[Query] = None
        self._copy: Optional[str] = None
        self._before: Optional[Look] = None

    def look(self) -> Optional[Look]:
        """What has come since the look before, or None where nothing has moved.

        Raises what the session's methods do: UnknownQuery where the query isn't there, Revoked
        where it is revoked, TooManyQueries where the tenant has none to spare.
        """
        listing = self._session.list()
        query = _named(listing, self._name)
        if query is None:
            self._forget()
            raise UnknownQuery()
        self._note_trouble(query)
        copy = self._registered(listing, query)
        if self._before and self._before.next > copy.next:
            self._session.ack(copy.name, self._before.next)
        return self._looked(listing, query, copy)

    def close(self) -> None:
        """Drops the copy, if the server lets it."""
        name, self._copy = self._copy, None
        if name is None:
            return
        with contextlib.suppress(Error):
            if self._session.is_open:
                self._session.drop(name)
            else:
                self._drop_anew(name)

    def _drop_anew(self, name: str) -> None:
        """Drops the copy over a connection that is made for that alone, and doesn't wait for long."""
        session = self._session
        patience, session.timeout = session.timeout, AT_THE_END
        try:
            session.connect()
            session.drop(name)
        finally:
            session.close()
            session.timeout = patience

    def _note_trouble(self, query: Query) -> None:
        """Asks the query itself for no instant at all, to which an overrun is told too."""
        try:
            self._session.fetch(query.name, query.next)
            self.trouble = None
        except Overrun as overrun:
            self.trouble = overrun
        except Revoked:
            self._forget()
            raise

    def _registered(self, listing: Listing, query: Query) -> Query:
        """The copy, which is made where it isn't there or is one of another query."""
        copy = _named(listing, self._copy)
        was = self._copied
        if copy and was and (was.text, was.base) == (query.text, query.base):
            return copy
        self._forget()
        taken = {it.name for it in listing.queries}
        name = next(it for it in _names() if it not in taken)
        # noted first, so that it is dropped also where this is broken off before the reply
        self._copy = name
        try:
            base = self._session.query(name, query.text)
        except Refused:
            self._copy = None
            raise
        self._copied = query
        return Query(name, query.text, base, base)

    def _forget(self) -> None:
        """Drops the copy, and nothing that was looked at counts any more."""
        if self._copy is not None:
            with contextlib.suppress(UnknownQuery):
                self._session.drop(self._copy)
        self._copy = self._copied = self._before = None

    def _looked(self, listing: Listing, query: Query, copy: Query) -> Optional[Look]:
        before = self._before
        final = final_of(listing, copy)
        is_same = before is not None and before.query == query
        if before and is_same and final is not None and final <= before.next:
            return None
        start = before.next if before else copy.next
        if before and before.is_behind and final and self._skips and _is_shown_whole(copy):
            start = max(start, final - FEW)
            self._session.ack(copy.name, start)
        try:
            # what was told before has been acknowledged
            there = Query(copy.name, copy.text, copy.base, start)
            answer = bounded(self._session, there, final, start)
        except Overrun:
            self._forget()
            return None
        columns = {it.name: it.columns for it in listing.readable if it.columns}
        is_new = before is None
        self._before = Look(
            query, start, answer.next, answer.blocks, is_new, columns, final, since=copy.base
        )
        return self._before


class ChoosingLooker:
    """Looks at a query itself, and goes over to a copy where that is needed: at the first instants
    that the query itself wasn't seen at. Each instant is told once."""

    def __init__(self, session: Session, query: str, skips: bool = False) -> None:
        self._session = session
        self._name = query
        self._itself = Looker(session, query)
        self._own = OwnLooker(session, query, skips)
        self._has_spare = True
        self._is_needed = False
        self._shows_copy = False
        self._before: Optional[Look] = None

    @property
    def trouble(self) -> Optional[Refused]:
        return self._own.trouble if self._shows_copy else None

    def look(self) -> Optional[Look]:
        """As of the two, but for TooManyQueries, behind which the query itself is looked at."""
        if self._shows_copy:
            return self._of_copy()
        # first the copy, which then tells nothing that the query itself isn't asked for behind it
        own = self._of_copy() if self._is_needed else None
        before = self._before
        look = self._itself.look()
        if self._is_needed and self._has_spare and before and _has_missed(before, look):
            self._shows_copy = True
            return own
        if look:
            self._before = look
            self._need(look)
        return look

    def _need(self, look: Look) -> None:
        """Has a copy made, once somebody acknowledges the query or is far behind."""
        is_needed = look.query.next > look.query.base or look.is_behind
        if is_needed and not self._is_needed:
            self._is_needed = True
            self._of_copy()

    def _of_copy(self) -> Optional[Look]:
        """What the copy tells of instants that weren't shown."""
        if not self._has_spare:
            return None
        try:
            own = self._own.look()
        except (TooManyQueries, NoMemory):
            self._has_spare = self._shows_copy = False
            return None
        except UnknownQuery:
            self._shows_copy = self._is_needed = False
            self._itself = Looker(self._session, self._name)
            self._before = None
            raise
        if own and own.is_new and self._shows_copy:
            self._before = None  # of a server that was started anew, or of another query
        return own if own is None or self._before is None else _behind(own, self._before.next)

    def close(self) -> None:
        self._own.close()


def _has_missed(before: Look, look: Optional[Look]) -> bool:
    """Whether a look at the query itself leaves instants out, or lags behind."""
    if look is None:
        return before.is_behind
    return not look.is_new and (look.first > before.next or look.is_behind)


def _behind(own: Look, shown: int) -> Optional[Look]:
    """What a look at a copy tells of the instants from one on, which were shown before by the query
    itself."""
    if own.next <= shown:
        return None
    first = max(own.first, shown)
    rest = (block.behind(first) for block in own.blocks if block.last >= first)
    return dataclasses.replace(own, first=first, blocks=tuple(rest))


AnyLooker = Union[Looker, OwnLooker, ChoosingLooker]


def looker_of(session: Session, query: str, copies: Copies, skips: bool) -> AnyLooker:
    """What looks at a query."""
    if copies is Copies.NEVER:
        return Looker(session, query)
    drop_leftovers(session)
    if copies is Copies.ALWAYS:
        return OwnLooker(session, query, skips)
    return ChoosingLooker(session, query, skips)
