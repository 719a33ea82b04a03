"""Why a command is refused, in words, by what is known of the streams: which word of a query's text
names no stream or no column, which has another type, which key or value of a line is wrong.
"""
import difflib
import re
from dataclasses import dataclass, field
from typing import AbstractSet, Callable, Dict, Iterable, List, Mapping, Optional, Sequence, Tuple

from .columns import Columns

Types = Mapping[str, Mapping[str, str]]
"""The types of the columns of streams, as far as they are known."""


@dataclass(frozen=True)
class Mistake:
    """What is wrong, and where: a byte of the query's text, if it is there."""

    why: str
    at: Optional[int] = None


@dataclass(frozen=True)
class _Token:
    text: str
    at: int

    @property
    def word(self) -> str:
        return self.text.upper()


@dataclass(frozen=True)
class _Input:
    stream: str
    alias: str
    at: int
    alias_at: int
    parts: Tuple["_Name", ...] = ()


@dataclass(frozen=True)
class _Name:
    """A column as it is written."""

    alias: Optional[str]
    column: str
    at: int

    def __str__(self) -> str:
        return self.column if self.alias is None else f"{self.alias}.{self.column}"


@dataclass
class _Block:
    inputs: List[_Input] = field(default_factory=list)
    items: List[_Token] = field(default_factory=list)
    where: List[_Token] = field(default_factory=list)
    group: List[_Token] = field(default_factory=list)


_TOKEN = re.compile(r"\w+|'(?:[^']|'')*'|<>|!=|<=|>=|[^\s]")
_RESERVED = frozenset(
    "ALL AND AS BY COUNT DISTINCT DSTREAM EXCEPT FROM GROUP ISTREAM MAX MIN NOT NOW OR PARTITION "
    "RANGE ROWS RSTREAM SELECT SLIDE SUM UNBOUNDED UNION WHERE".split()
)
_SIGNS = "=", "<>", "!=", "<", "<=", ">", ">="


def _tokens(text: str) -> List[_Token]:
    return [_Token(it[0], len(text[: it.start()].encode())) for it in _TOKEN.finditer(text)]


def _is_name(token: _Token) -> bool:
    return re.fullmatch(r"[A-Za-z_]\w*", token.text) is not None and token.word not in _RESERVED


# ---- A text that can be read, as its blocks.


def _blocks(text: str) -> List[_Block]:
    blocks: List[_Block] = []
    part: List[_Token] = []
    depth = 0
    tokens = [it for it in _tokens(text) if it.text != ";"]
    for token in tokens:
        depth += (token.text in ("(", "[")) - (token.text in (")", "]"))
        if token.word == "SELECT":
            blocks.append(_Block())
            part = blocks[-1].items
        elif not blocks or token.word in ("UNION", "EXCEPT"):
            part = []
        elif token.word == "FROM":
            part = []
            blocks[-1].inputs = _inputs(tokens[tokens.index(token) + 1 :])
        elif token.word == "WHERE":
            part = blocks[-1].where
        elif token.word == "GROUP":
            part = blocks[-1].group
        else:
            part.append(token)
    return blocks


def _inputs(tokens: Sequence[_Token]) -> List[_Input]:
    """The inputs that stand at the beginning of some tokens."""
    found: List[List[_Token]] = [[]]
    depth = 0
    for token in tokens:
        depth += (token.text in ("(", "[")) - (token.text in (")", "]"))
        if depth < 0 or depth == 0 and token.word in ("WHERE", "GROUP", "UNION", "EXCEPT"):
            break
        if token.text == "," and depth == 0:
            found.append([])
        else:
            found[-1].append(token)
    return [_input(it) for it in found if it]


def _input(tokens: Sequence[_Token]) -> _Input:
    has_owner = len(tokens) > 2 and tokens[1].text == "."
    name = tokens[2] if has_owner else tokens[0]
    stream = f"{tokens[0].text}.{name.text}" if has_owner else name.text
    last = tokens[-1] if len(tokens) > 1 and _is_name(tokens[-1]) else name
    inside = [it for it in tokens if it.word == "PARTITION"]
    parts: List[_Name] = []
    if inside:
        start = tokens.index(inside[0])
        rows = [at for at, it in enumerate(tokens) if it.word == "ROWS"]
        parts = _names(tokens[start + 2 : rows[0] if rows else len(tokens)])
    return _Input(stream, last.text, tokens[0].at, last.at, tuple(parts))


def _names(tokens: Sequence[_Token]) -> List[_Name]:
    """The columns that some tokens name, without the items' own names."""
    found: List[_Name] = []
    at = 0
    while at < len(tokens):
        token = tokens[at]
        is_own = at > 0 and tokens[at - 1].word == "AS"
        if not _is_name(token) or is_own:
            at += 1
        elif at + 2 < len(tokens) and tokens[at + 1].text == ".":
            found.append(_Name(token.text, tokens[at + 2].text, token.at))
            at += 3
        else:
            found.append(_Name(None, token.text, token.at))
            at += 1
    return found


# ---- What stands in a text.


class _Typing:
    """A query's text, over what is known of the streams that it names."""

    def __init__(
        self, text: str, columns: Columns, types: Types, streams: AbstractSet[str]
    ) -> None:
        self._blocks = _blocks(text)
        self._columns = columns
        self._types = types
        self._streams = streams

    def unknown_stream(self) -> Optional[Mistake]:
        inputs = [it for block in self._blocks for it in block.inputs]
        missing = [it for it in inputs if it.stream not in self._streams]
        # what stands before the dot may be the tenant's own name
        sure = [it for it in missing if it.stream.partition(".")[2] not in self._streams]
        for one in (sure or missing)[:1]:
            said = f"there is no stream {one.stream} that may be read"
            return Mistake(said + _meant(one.stream, self._streams), one.at)
        return None

    def unknown_column(self) -> Optional[Mistake]:
        for block in self._blocks:
            for one in block.inputs:
                for name in one.parts:
                    found = self._missing(_Name(one.alias, name.column, name.at), [one])
                    if found:
                        return found
            for name in _names([*block.where, *block.group, *block.items]):
                found = self._missing(name, block.inputs)
                if found:
                    return found
        return None

    def _missing(self, name: _Name, inputs: Sequence[_Input]) -> Optional[Mistake]:
        """A column that no input has, as far as all that it may be of are known."""
        of = [it for it in inputs if name.alias in (None, it.alias)]
        if not of:
            there = ", ".join(it.alias for it in inputs)
            return Mistake(f"no input is called {name.alias}: the inputs are {there}", name.at)
        known = [self._columns.get(it.stream) for it in of]
        names = [one for it in known if it is not None for one in it]
        if name.column in names or None in known:
            return None
        streams = " and ".join(dict.fromkeys(it.stream for it in of))
        has = "have" if len(of) > 1 else "has"
        said = f"{streams} {has} no column {name.column}, but {', '.join(dict.fromkeys(names))}"
        return Mistake(said + _meant(name.column, names), name.at)

    def ambiguous(self) -> Optional[Mistake]:
        for block in self._blocks:
            aliases = [it.alias for it in block.inputs]
            for at, one in enumerate(block.inputs):
                if one.alias in aliases[:at]:
                    said = f"two inputs are called {one.alias}: give one another name, behind its window"
                    return Mistake(said, one.alias_at)
            for name in _names([*block.where, *block.group, *block.items]):
                of = [it for it in block.inputs if name.column in self._columns.get(it.stream, ())]
                if name.alias is None and len(of) > 1:
                    written = " or ".join(f"{it.alias}.{name.column}" for it in of)
                    said = f"{len(of)} inputs have a column {name.column}: write {written}"
                    return Mistake(said, name.at)
        return None

    def wrong_type(self) -> Optional[Mistake]:
        checks: Sequence[Callable[[_Block], Optional[Mistake]]] = (
            self._compared,
            self._computed,
            self._ungrouped,
        )
        for block in self._blocks:
            for check in checks:
                found = check(block)
                if found:
                    return found
        return self._unlike()

    def _type(self, block: _Block, name: _Name) -> Optional[str]:
        for one in block.inputs:
            if name.alias in (None, one.alias):
                found = self._types.get(one.stream, {}).get(name.column)
                if found:
                    return found
        return None

    def _side(self, block: _Block, tokens: Sequence[_Token]) -> Tuple[str, Optional[str], int]:
        """What stands on a side of a comparison, its type, and where."""
        if not tokens:
            return "", None, 0
        names = _names(tokens)
        if names:
            return str(names[0]), self._type(block, names[0]), names[0].at
        kind = "text" if tokens[0].text[0] == "'" else "int"
        return "".join(it.text for it in tokens), kind, tokens[0].at

    def _compared(self, block: _Block) -> Optional[Mistake]:
        """Two sides of a comparison that aren't of one type."""
        where = block.where
        for at, token in enumerate(where):
            if token.text in _SIGNS:
                left = self._side(block, _operand(where[:at][::-1])[::-1])
                right = self._side(block, _operand(where[at + 1 :]))
                if left[1] and right[1] and left[1] != right[1]:
                    said = f"{left[0]} is {_of(left[1])} and {right[0]} {_of(right[1])}"
                    return Mistake(said, left[2])
        return None

    def _computed(self, block: _Block) -> Optional[Mistake]:
        """A text that is summed or computed with."""
        items = block.items
        for at, token in enumerate(items):
            if token.word == "SUM" and at + 2 < len(items):
                name = _names(items[at + 2 : at + 5])[:1]
                if name and self._type(block, name[0]) == "text":
                    return Mistake(f"SUM takes numbers, and {name[0]} is a text", name[0].at)
            is_star = token.text == "*" and (at == 0 or items[at - 1].text in ("(", ","))
            if token.text in ("+", "-", "*") and not is_star:
                sides = _operand(items[:at][::-1])[::-1], _operand(items[at + 1 :])
                for told, kind, place in (self._side(block, it) for it in sides if it):
                    if kind == "text":
                        return Mistake(f"{token.text} takes numbers, and {told} is a text", place)
        return None

    def _ungrouped(self, block: _Block) -> Optional[Mistake]:
        """An item that a grouped block doesn't allow."""
        has_aggregate = any(it.word in ("COUNT", "SUM", "MIN", "MAX") for it in block.items)
        if not (block.group or has_aggregate):
            return None
        groups = {it.column for it in _names(block.group)}
        for item in _items(block.items):
            names = _names(item)
            if item[0].text == "*":
                return Mistake("* doesn't stand beside GROUP BY or an aggregate", item[0].at)
            is_aggregate = item[0].word in ("COUNT", "SUM", "MIN", "MAX")
            if not is_aggregate and names and names[0].column not in groups:
                said = (
                    f"{names[0]} is no column of GROUP BY: name it there, or take MIN or MAX of it"
                )
                return Mistake(said, names[0].at)
        return None

    def _unlike(self) -> Optional[Mistake]:
        """Two blocks of different columns."""
        if len(self._blocks) != 2 or any(
            it.items[:1] and it.items[0].text == "*" for it in self._blocks
        ):
            return None
        both = [_items(it.items) for it in self._blocks]
        if len(both[0]) != len(both[1]):
            first, second = (f"{len(it)}, {', '.join(map(_told, it))}" for it in both)
            said = f"the first block has other columns, {first}, than the second, {second}"
            return Mistake(said, both[1][0][0].at)
        for one, other in zip(*both):
            told = self._side(self._blocks[0], one), self._side(self._blocks[1], other)
            kinds = [kind for _, kind, _ in told]
            if None not in kinds and kinds[0] != kinds[1]:
                (name, kind, _), (second, its, at) = told
                return Mistake(f"{name} is {_of(str(kind))} and {second} {_of(str(its))}", at)
        return None


def _told(item: Sequence[_Token]) -> str:
    """An item as it is written."""
    return re.sub(r" ?([().,]) ?", r"\1", " ".join(it.text for it in item))


def _of(kind: str) -> str:
    return "a text" if kind == "text" else "a number"


def _operand(tokens: Sequence[_Token]) -> List[_Token]:
    """The tokens of the operand that some tokens begin with, which may be turned round."""
    found: List[_Token] = []
    for token in tokens:
        is_part = token.text == "." or _is_name(token) or token.text[0] in "'0123456789"
        has_dot = bool(found) and (found[-1].text == "." or token.text == ".")
        is_minus = token.text == "-" and not found
        if is_minus or is_part and (not found or has_dot or found[-1].text == "-"):
            found.append(token)
        else:
            break
    return found


def _items(tokens: Sequence[_Token]) -> List[List[_Token]]:
    found: List[List[_Token]] = [[]]
    depth = 0
    for token in tokens:
        depth += (token.text == "(") - (token.text == ")")
        if depth < 0:
            break
        if token.text == "," and depth == 0:
            found.append([])
        elif token.word != "DISTINCT":
            found[-1].append(token)
    return [it for it in found if it]


def _meant(word: str, there: Iterable[str]) -> str:
    near = difflib.get_close_matches(word.lower(), sorted({it.lower() for it in there}), 1, 0.7)
    spelled = [it for it in there if near and it.lower() == near[0]]
    return f": was {spelled[0]} meant?" if spelled else ""


# ---- What stands in a line.

_INT, _TEXT, _LIST = "a whole number from 0 on", "a text", "a list"
_KEYS: Mapping[str, Mapping[str, str]] = {
    "stream": {"name": _TEXT, "columns": _LIST},
    "grant": {"stream": _TEXT, "to": _TEXT},
    "revoke": {"stream": _TEXT, "to": _TEXT},
    "put": {"stream": _TEXT, "at": _INT, "row": _LIST},
    "beat": {"stream": _TEXT, "at": _INT},
    "query": {"name": _TEXT, "text": _TEXT},
    "fetch": {"name": _TEXT},
    "ack": {"name": _TEXT, "to": _INT},
    "drop": {"name": _TEXT},
    "list": {},
}
_MAY: Mapping[str, Mapping[str, str]] = {"grant": {"columns": _LIST}, "fetch": {"until": _INT}}


def _fits(value: object, kind: str) -> bool:
    if kind == _INT:
        return isinstance(value, int) and not isinstance(value, bool) and value >= 0
    return isinstance(value, str if kind == _TEXT else list)


def _wrong_key(keys: Mapping[str, object]) -> Optional[Mistake]:
    """A key of a line that is missing, unknown or of another kind."""
    do = str(keys.get("do"))
    if do not in _KEYS:
        return None
    asked, may = _KEYS[do], _MAY.get(do, {})
    for key in asked:
        if key not in keys:
            return Mistake(f"the key {key} is missing: {do} takes {', '.join([*asked, *may])}")
    for key, value in keys.items():
        kind = {**asked, **may}.get(key)
        if key != "do" and kind is None:
            own = " and the login says whose it is" if key == "tenant" else ""
            takes = ", ".join([*asked, *may]) or "no keys"
            return Mistake(f"{do} has no key {key}: it takes {takes}{own}")
        if kind is not None and not _fits(value, kind):
            return Mistake(f"{key} is {value!r:.60}, and not {kind}")
    for value in keys.get("row", ()) if do == "put" else ():  # type: ignore
        if not isinstance(value, (int, str)) or isinstance(value, bool):
            return Mistake(f"the row has {value!r:.60}, which is no whole number and no text")
    return None


def _wrong_row(keys: Mapping[str, object], types: Types) -> Optional[Mistake]:
    """A row that isn't one of its stream."""
    stream, row = str(keys.get("stream")), keys.get("row")
    columns = types.get(stream)
    if columns is None or not isinstance(row, list):
        return None
    told = ", ".join(f"{name} {kind}" for name, kind in columns.items())
    if len(row) != len(columns):
        values = f"{len(row)} value" + "s" * (len(row) != 1)
        return Mistake(f"the row has {values}, and {stream} the columns {told}")
    for value, (name, kind) in zip(row, columns.items()):
        if isinstance(value, str) != (kind == "text"):
            said = f"{value!r:.60} stands at {name}, which takes {_of(kind)[2:]}s"
            return Mistake(said)
    return None


def mistake(
    number: int,
    keys: Mapping[str, object],
    columns: Columns,
    types: Types,
    streams: AbstractSet[str],
) -> Optional[Mistake]:
    """What is wrong with a command that was refused by a number, or None where it isn't known.
    `keys` are those of its line, the others what is known of the streams that may be read."""
    if number == 12:
        return _wrong_key(keys)
    if number == 40:
        return _wrong_row(keys, types)
    if keys.get("do") == "query":
        typing = _Typing(str(keys.get("text", "")), columns, types, streams)
        found: Dict[int, Callable[[], Optional[Mistake]]] = {
            30: typing.unknown_stream,
            52: typing.unknown_column,
            53: typing.ambiguous,
            54: typing.wrong_type,
        }
        return found[number]() if number in found else None
    stream = keys.get("stream")
    if number == 30 and isinstance(stream, str):
        own = {it for it in streams if "." not in it}
        if stream in streams:
            return Mistake(f"{stream} is another tenant's: it may be read alone")
        return Mistake(f"there is no stream {stream} of the tenant's own" + _meant(stream, own))
    return None
