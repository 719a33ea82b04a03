"""What a page is told of a query: its newest rows, and a bounded number of lines of its plots.

Numbers are sent as texts, since a browser's numbers have 53 bits.
"""
import collections
import dataclasses
from dataclasses import dataclass
from typing import Deque, Dict, FrozenSet, Iterable, List, Mapping, Optional, Sequence, Tuple

from .columns import keys_of, names_of
from .looking import Look, Step, View, final_of
from .owning import is_copy
from .tables import Key, keyed
from .told import Listing, Row, Stream

MOST_ROWS, MOST_STEPS, MOST_LINES = 500, 2000, 24
"""How many rows are shown, how many instants are plotted, and how many lines of a column."""

MOST_KEPT = 100_000
"""How many rows of past instants are kept, for lines that are chosen later."""

MOST_LOOKED = 20_000
"""In how many rows of a look it is looked up which lines there are."""

ORDERS = "first", "newest", "greatest"
"""Which lines are drawn, where there are more: those that came first or last, or whose first number
is the greatest now."""

Told = Dict[str, object]
Point = Tuple[int, int, int]
"""The first and the last of the instants at which a line has a value, and the value."""


@dataclass(frozen=True)
class Choice:
    """Which lines of a query are drawn: of those whose name has the text, the ones by the order."""

    order: str = "first"
    search: str = ""


def _stream(stream: Stream) -> Told:
    columns = None if stream.columns is None else [*stream.columns]
    return {"name": stream.name, "open": str(stream.open), "columns": columns}


def listing_told(listing: Listing, states: Mapping[str, str]) -> Told:
    """A tenant's streams and queries with their clocks, and what is wrong with a query."""
    queries = []
    for it in listing.queries:
        final = final_of(listing, it)
        told = {"name": it.name, "text": it.text, "base": str(it.base), "next": str(it.next)}
        behind = None if final is None else str(max(0, final - it.next))
        if not is_copy(it.name):
            queries.append({**told, "behind": behind, "state": states.get(it.name)})
    return {
        "streams": [*map(_stream, listing.streams)],
        "readable": [*map(_stream, listing.readable)],
        "queries": queries,
    }


def _label(key: Key) -> str:
    """What a line is called by its rows' key, whose last part numbers rows of one key."""
    *values, number = key
    told = [*map(str, values)]
    return " ".join(told if number == 1 else [*told, f"({number})"])


def _numeric(rows: Sequence[Row]) -> List[bool]:
    return [isinstance(it, int) for it in rows[0]] if rows else []


class Past:
    """The steps of a query's last looks."""

    def __init__(self) -> None:
        self.steps: Deque[Step] = collections.deque()
        self._rows = 0

    def take(self, steps: Iterable[Step]) -> None:
        for step in steps:
            self.steps.append(step)
            self._rows += len(step.rows)
            while len(self.steps) > MOST_STEPS or self._rows > MOST_KEPT and len(self.steps) > 1:
                self._rows -= len(self.steps.popleft().rows)


class _Finder:
    """Finds the rows of some keys, step by step: mostly each stands where it stood before."""

    def __init__(self, keys: FrozenSet[int]) -> None:
        self._keys = keys
        self._places: Dict[Key, int] = {}

    def find(self, rows: Sequence[Row], wanted: Iterable[Key]) -> Dict[Key, Row]:
        found: Dict[Key, Row] = {}
        missing = set()
        for key in wanted:
            at = self._place(rows, key)
            if at is None:
                missing.add(key)
            else:
                found[key] = rows[at]
        if missing:
            for at, (key, row) in enumerate(keyed(rows, self._keys)):
                if key in missing:
                    found[key] = row
                    self._places[key] = at
        return found

    def _place(self, rows: Sequence[Row], key: Key) -> Optional[int]:
        """Where the first row of a key stands, if that is where it stood, or beside that."""
        was = self._places.get(key)
        if was is None or key[-1] != 1:
            return None
        for at in (was, was - 1, was + 1):
            is_there = 0 <= at < len(rows) and self._key(rows[at]) == key[:-1]
            if is_there and (at == 0 or self._key(rows[at - 1]) != key[:-1]):
                self._places[key] = at
                return at
        return None

    def _key(self, row: Row) -> Key:
        return tuple(it for at, it in enumerate(row) if isinstance(it, str) or at in self._keys)


class Line:
    """A line of the plots: the values of the rows of one key, for each of its columns."""

    def __init__(self, number: int, label: str) -> None:
        self.number = number
        self.label = label
        self.points: Dict[int, Deque[Point]] = {}

    def add(self, step: Step, row: Row, columns: Sequence[int]) -> None:
        for at in columns:
            points = self.points.setdefault(at, collections.deque(maxlen=MOST_STEPS))
            value = row[at]
            if isinstance(value, int):
                points.append((step.first, step.last, value))

    def told(self) -> Dict[str, List[List[str]]]:
        """All of its points, by columns."""
        return {str(at): [[*map(str, it)] for it in points] for at, points in self.points.items()}


def _candidates(steps: Sequence[Step], keys: FrozenSet[int]) -> Dict[Key, Row]:
    """The keys of the newest rows, each with its newest row, in the order in which they stand."""
    found: Dict[Key, Row] = {}
    looked, first = 0, len(steps)
    while first > 0 and looked <= MOST_LOOKED:
        first -= 1
        looked += len(steps[first].rows)
    for step in steps[first:]:
        found.update(keyed(step.rows, keys))
    return found


class Drawing:
    """The lines of a query that are drawn by one choice. `version` is one more behind what a look
    added, and more than that where all is to be told anew."""

    def __init__(self, choice: Choice) -> None:
        self.version = 0
        self._choice = choice
        self._lines: Dict[Key, Line] = {}
        self._seen: Dict[Key, None] = {}
        self._finder = _Finder(frozenset())
        self._columns: List[int] = []
        self._names: Optional[Sequence[str]] = None
        self._undrawn = 0
        self._faults: Deque[Tuple[int, int]] = collections.deque(maxlen=MOST_STEPS)
        self._added: Told = {}

    def begin(self) -> None:
        """Nothing that was drawn counts any more."""
        self._lines.clear()
        self._seen.clear()
        self._faults.clear()
        self.version += 1

    def take(self, look: Look, steps: Sequence[Step], past: Past, has_lines: bool) -> None:
        """Takes the steps of a look, which stand last among the past ones. `has_lines`: their rows
        are those that were told, and no relation."""
        keys = keys_of(look.query.text, look.columns)
        self._names = names_of(look.query.text, look.columns)
        self._finder = _Finder(keys)
        is_now = self._choice.order == "greatest" and not has_lines
        candidates = _candidates(steps[-1:] if is_now else steps, keys)
        if candidates:
            row = next(iter(candidates.values()))
            self._columns = [
                at for at, it in enumerate(row) if isinstance(it, int) and at not in keys
            ]
        chosen = self._chosen(candidates, has_lines)
        gone = [self._lines.pop(key).number for key in [*self._lines] if key not in chosen]
        old = [*self._lines]
        new = [key for key in chosen if key not in self._lines]
        for key in new:
            self._lines[key] = Line(self._free_number(), _label(key))
        told = [self._points(step, old) for step in steps]
        for step in past.steps if new else ():
            self._points(step, new)
        self._faults.extend((it.first, it.last) for it in steps if it.fault is not None)
        self._added = {
            "isNew": False,
            "steps": told,
            "gone": gone,
            "history": {str(it.number): it.told() for it in map(self._lines.__getitem__, new)},
        }
        self.version += 1

    def _chosen(self, candidates: Mapping[Key, Row], has_lines: bool) -> List[Key]:
        """The keys of the lines that are drawn now."""
        if not candidates:
            return [*self._lines]
        word = self._choice.search.casefold()
        fitting = [key for key in candidates if word in _label(key).casefold()]
        self._note(fitting)
        self._undrawn = max(0, len(self._seen if has_lines else fitting) - MOST_LINES)
        if self._choice.order == "greatest" and self._columns:
            rank = self._columns[0]
            return sorted(fitting, key=lambda key: _number(candidates[key], rank))[
                : -MOST_LINES - 1 : -1
            ]
        if self._choice.order == "newest":
            return [*self._seen][: -MOST_LINES - 1 : -1]
        return [*self._lines, *(key for key in fitting if key not in self._lines)][:MOST_LINES]

    def _note(self, keys: Iterable[Key]) -> None:
        """Takes note of which keys came, in their order."""
        for key in keys:
            self._seen.setdefault(key)
        while len(self._seen) > MOST_KEPT:
            del self._seen[next(iter(self._seen))]

    def _free_number(self) -> int:
        taken = {it.number for it in self._lines.values()}
        return next(it for it in range(MOST_LINES + 1) if it not in taken)

    def _points(self, step: Step, keys: Sequence[Key]) -> Told:
        """The instants of a step, its fault, and the numbers of some lines."""
        points = []
        for key, row in self._finder.find(step.rows, keys).items():
            line = self._lines[key]
            line.add(step, row, self._columns)
            points += [[line.number, at, str(row[at])] for at in self._columns]
        span = {"first": str(step.first), "last": str(step.last)}
        return {**span, "fault": step.fault, "points": points}

    def told(self, is_whole: bool) -> Told:
        """What was taken last, or all that there is."""
        whole = {
            "isNew": True,
            "steps": [],
            "gone": [],
            "history": {str(it.number): it.told() for it in self._lines.values()},
            "faults": [[str(first), str(last)] for first, last in self._faults],
        }
        names = self._names
        return {
            **(whole if is_whole else self._added),
            "lines": {str(it.number): it.label for it in self._lines.values()},
            "columns": [[at, names[at] if names else f"column {at + 1}"] for at in self._columns],
            "undrawn": self._undrawn,
        }


def _number(row: Row, at: int) -> int:
    value = row[at]
    return value if isinstance(value, int) else 0


class Shown:
    """A query as all pages show it."""

    def __init__(self) -> None:
        self.view = View()
        self.look: Optional[Look] = None
        self._past = Past()
        self._drawings: Dict[Choice, Drawing] = {}
        self._rows: List[Step] = []

    def take(self, look: Look) -> None:
        """Takes a look into all that is drawn."""
        self.look = dataclasses.replace(look, blocks=())
        if look.is_new:
            self._past = Past()
            self._rows.clear()
            for drawing in self._drawings.values():
                drawing.begin()
        steps = self.view.take(look)[-MOST_STEPS:]
        self._past.take(steps)
        self._rows = [*self._rows, *steps][-MOST_ROWS:] if self.view.has_lines else []
        for drawing in self._drawings.values():
            drawing.take(look, steps, self._past, self.view.has_lines)

    def drawing(self, choice: Choice) -> Drawing:
        """What is drawn by a choice, made of what is kept where nobody chose so before."""
        if choice not in self._drawings and self.look:
            made = self._drawings[choice] = Drawing(choice)
            made.take(self.look, [*self._past.steps], self._past, self.view.has_lines)
        return self._drawings.get(choice) or Drawing(choice)

    def keep(self, choices: Iterable[Choice]) -> None:
        """Lets go what no page draws any more."""
        wanted = {*choices}
        self._drawings = {it: made for it, made in self._drawings.items() if it in wanted}

    def told(self, choice: Choice, is_whole: bool) -> Told:
        """What a page is told: all, or what the last look added."""
        look, view = self.look, self.view
        assert look
        told: Told = {
            "text": look.query.text,
            "base": str(look.query.base),
            "acknowledged": str(look.query.next),
            "next": str(look.next),
            "final": str(look.final if look.final is not None and look.is_behind else look.next),
            "at": None if view.at is None else str(view.at),
            "since": self._since(look),
            "fault": view.fault.fault if view.fault else None,
            "names": names_of(look.query.text, look.columns),
            **self.drawing(choice).told(is_whole),
        }
        return {**told, **(self._told_rows(choice) if view.has_lines else self._relation(choice))}

    def _since(self, look: Look) -> Optional[str]:
        """From which instant on rows are seen, where not all are."""
        since = self.view.since if look.since is None and not self.view.has_lines else look.since
        return None if since is None else str(since)

    def _told_rows(self, choice: Choice) -> Told:
        """The last rows that were told, the newest first, each behind its instants."""
        rows: List[Told] = []
        for step in reversed(self._rows):
            span = {"first": str(step.first), "last": str(step.last), "fault": step.fault}
            kept = _fitting(step.rows, choice)
            if step.fault is not None or kept:
                rows += [{**span, "cells": [*map(str, row)]} for row in kept or ((),)]
        return {"told": rows[:MOST_ROWS], "numeric": _numeric(self._newest())}

    def _newest(self) -> Sequence[Row]:
        return next((step.rows for step in reversed(self._rows) if step.rows), ())

    def _relation(self, choice: Choice) -> Told:
        rows = _fitting(self.view.rows, choice)
        return {
            "rows": [[*map(str, row)] for row in rows[:MOST_ROWS]],
            "count": len(rows),
            "numeric": _numeric(self.view.rows),
        }


def _fitting(rows: Sequence[Row], choice: Choice) -> Sequence[Row]:
    """The rows that have the text that is searched for."""
    word = choice.search.casefold()
    if not word:
        return rows
    return [row for row in rows if any(word in str(it).casefold() for it in row)]
