"""Watching a query at a terminal: its newest state, redrawn in place. Nothing is acknowledged."""
import collections
import os
import shutil
import sys
import time
from typing import Callable, Deque, FrozenSet, List, Optional, Sequence, Tuple

from .columns import Columns, keys_of, names_of
from .errors import ConnectionLost, Overrun, Revoked, UnknownQuery
from .looking import Look, Step, View
from .owning import AnyLooker, Copies, looker_of
from .session import Session
from .tables import Past, Table, block_cells, cut, printable, row_columns
from .told import Value

POLL = 0.5
"""Seconds between two looks."""

LENGTH = 12
"""How many values a line of last values has."""

MOST = 1000
"""How many of the last steps of a look are looked at."""

_NOTE = "nothing is acknowledged; Ctrl-C ends"
_WAITS = ConnectionLost, UnknownQuery, Overrun, Revoked


def why(error: Exception) -> str:
    """What is said of an error that may pass: the query may be made anew, the server be back."""
    if isinstance(error, Overrun):
        return (
            "overrun (60): more rows came than the quota `hold` allows behind what is acknowledged; "
            "drop the query and register it anew"
        )
    if isinstance(error, UnknownQuery):
        return f"{error} so far; it is shown once it is made"
    return str(error)


class Watched:
    """A query as it is shown."""

    def __init__(self, known: Columns, lines: int) -> None:
        self.view = View()
        self._known = known
        self._past = Past(LENGTH)
        self._lines = lines
        self._told: Deque[Sequence[Value]] = collections.deque(maxlen=lines)
        self._row: Sequence[Value] = ()

    def take(self, look: Look) -> None:
        """Takes a look into what is shown."""
        if look.is_new:
            self._past = Past(LENGTH)
            self._told.clear()
        keys = self._keys(look)
        before = self.view.rows
        for step in self.view.take(look)[-MOST:]:
            self._row = step.rows[0] if step.rows else self._row
            if self.view.has_lines:
                self._past.note(step.rows, keys)
                self._tell(step, keys)
            elif step.rows != before:
                self._past.note(step.rows, keys)
            before = step.rows

    def _keys(self, look: Look) -> FrozenSet[int]:
        return keys_of(look.query.text, {**look.columns, **self._known})

    def _tell(self, step: Step, keys: FrozenSet[int]) -> None:
        """Adds the lines of rows as they were told."""
        if step.fault is not None:
            self._told.append((step.first, step.last, "fault", step.fault))
        for cells in self._past.cells(step.rows[-self._lines :], keys):
            self._told.append((step.first, step.last, "row", *cells))

    def frame(self, wide: int, high: int) -> List[str]:
        """The lines that are shown."""
        look = self.view.look
        if look is None:
            return []
        room = max(2, high - 2)
        if self.view.has_lines:
            told = [("from", "to", "kind", *self._names(look)), *[*self._told][1 - room :]]
            body = Table().lines(told)
        else:
            body = self._relation(look)
        if len(body) > room:
            body = [*body[: room - 1], f"and {len(body) - room + 1} rows more"]
        head = f"{look.query.name}  {printable(look.query.text)}"
        return [cut(line, wide) for line in [head, self._standing(look), *body]]

    def _standing(self, look: Look) -> str:
        """How far the query is, and what isn't known of it."""
        view = self.view
        if look.next == look.query.base:
            return f"nothing is final so far; its first instant is {look.query.base}"
        final = f"final below {look.final if look.is_behind else look.next}"
        final += f", acknowledged below {look.query.next}"
        if look.is_behind and look.since is None:
            final += "; its consumer is further behind than a look takes"
        if view.at is None:
            return f"{final}: what is acknowledged is told to nobody any more"
        if view.fault:
            return f"at {view.at}: FAULT {view.fault.fault} since {view.fault.first}; {final}"
        since = look.since if look.since is not None else None if view.has_lines else view.since
        if since is not None:
            return f"at {view.at}, of the rows that came from {since} on; {final}"
        return f"at {view.at}; {final}"

    def _names(self, look: Look) -> List[str]:
        """The names above the columns, with a blank one above each line of last values."""
        columns = {**look.columns, **self._known}
        names = names_of(look.query.text, columns) or ("",) * len(self._row)
        if len(names) != len(self._row):
            return [*names]
        keys = self._keys(look)
        found: List[str] = []
        for at, (name, value) in enumerate(zip(names, self._row)):
            found += [name, ""] if isinstance(value, int) and at not in keys else [name]
        return found

    def _relation(self, look: Look) -> List[str]:
        if self.view.at is None or self.view.fault:
            return []
        cells = self._past.cells(self.view.rows, self._keys(look))
        lines = Table().lines([self._names(look), *cells])
        return lines if self.view.rows else [*lines, "no rows"]


class _Screen:
    """Lines at a terminal that later ones take the place of."""

    def __init__(self) -> None:
        self._drawn = 0

    def draw(self, lines: Sequence[str]) -> None:
        up = f"\x1b[{self._drawn}A" if self._drawn else ""
        sys.stdout.write(f"{up}\r\x1b[J" + "".join(line + "\n" for line in lines))
        sys.stdout.flush()
        self._drawn = len(lines)


def looks(
    session: Session,
    query: str,
    copies: Copies,
    skips: bool,
    take: Callable[[Look], None],
    trouble: Callable[[Optional[str]], None],
) -> None:
    """Looks at a query without an end. What may pass is told to `trouble` once, and None then."""
    looker = looker_of(session, query, copies, skips)
    told: Optional[str] = None
    try:
        while True:
            look, said = _one(session, looker)
            if look:
                take(look)
            if said != told:
                trouble(said)
            told = said
            is_going_on = look is not None and look.is_behind and look.next > look.first
            time.sleep(0 if is_going_on else POLL)
    finally:
        looker.close()


def _one(session: Session, looker: AnyLooker) -> Tuple[Optional[Look], Optional[str]]:
    """A look, and what is said where the query tells nothing, or nothing more."""
    try:
        if not session.is_open:
            session.connect()
        look = looker.look()
        return look, why(looker.trouble) if looker.trouble else None
    except _WAITS as error:
        return None, why(error)


def watch_at_terminal(session: Session, query: str, known: Columns, copies: Copies) -> None:
    """Redraws a query's newest state."""
    screen = _Screen()
    watched = Watched(known, 500)

    def draw(note: str) -> None:
        wide, high = shutil.get_terminal_size()
        lines = watched.frame(wide, high - 2)
        screen.draw([*lines, cut(note, wide)])

    def take(look: Look) -> None:
        watched.take(look)
        draw(_NOTE)

    def trouble(text: Optional[str]) -> None:
        draw(_NOTE if text is None else f"waiting: {printable(text)}")

    looks(session, query, copies, True, take, trouble)


def watch_in_lines(
    session: Session, query: str, known: Columns, has_tables: bool, copies: Copies
) -> None:
    """Prints a query's blocks, each once, as they become final."""
    table: Optional[Table] = None

    def take(look: Look) -> None:
        nonlocal table
        if has_tables and table is None:
            table = Table()
            names = names_of(look.query.text, {**look.columns, **known})
            print(*table.lines([row_columns(names)]))
        for block in look.blocks:
            if table:
                print(*table.lines(block_cells(block)), sep="\n")
            else:
                print(printable(block.line()))
        sys.stdout.flush()

    def trouble(text: Optional[str]) -> None:
        if text is not None:
            print(f"romburik: waiting: {text}", file=sys.stderr, flush=True)

    looks(session, query, copies, False, take, trouble)


def watch(
    session: Session,
    query: str,
    known: Columns,
    has_tables: bool,
    copies: Copies = Copies.WHERE_NEEDED,
) -> None:
    """Shows a query until it is interrupted. A refusal that doesn't pass is raised."""
    if sys.stdout.isatty() and os.environ.get("TERM") != "dumb":
        watch_at_terminal(session, query, known, copies)
    else:
        watch_in_lines(session, query, known, has_tables, copies)
