"""What a query's columns are called, and which of them tell its rows apart, by its text."""
import re
from typing import FrozenSet, List, Mapping, Optional, Sequence, Tuple

Columns = Mapping[str, Sequence[str]]
"""The names of the columns of streams, as far as they are known."""

_TOKEN = re.compile(r"\w+|'(?:[^']|'')*'|<>|!=|<=|>=|[^\s]")
_TIGHT = re.compile(r" (?=[)\].,])|(?<=[(\[.]) |(?<=COUNT) (?=\()|(?<=SUM|MIN|MAX) (?=\()", re.I)


def operator_of(text: str) -> Optional[str]:
    """The stream operator of a query in its canonical spelling, or None."""
    operator = text.partition("(")[0]
    return operator if operator in ("ISTREAM", "DSTREAM", "RSTREAM") else None


def _split(tokens: Sequence[str]) -> List[List[str]]:
    """What stands between the commas that stand in no brackets."""
    parts: List[List[str]] = [[]]
    depth = 0
    for token in tokens:
        depth += (token in ("(", "[")) - (token in (")", "]"))
        if token == "," and depth == 0:
            parts.append([])
        else:
            parts[-1].append(token)
    return parts


def _between(tokens: Sequence[str], start: str, ends: Sequence[str]) -> List[str]:
    """What stands behind the first of a word, up to one of others that stands in no brackets."""
    words = [token.upper() for token in tokens]
    if start not in words:
        return []
    found: List[str] = []
    depth = 0
    for token in tokens[words.index(start) + 1 :]:
        depth += (token in ("(", "[")) - (token in (")", "]"))
        if depth < 0 or depth == 0 and token.upper() in ends:
            break
        found.append(token)
    return found


def _items(tokens: Sequence[str]) -> List[List[str]]:
    """The items of a query's first block."""
    items = _between(tokens, "SELECT", ["FROM"])
    if items[:1] and items[0].upper() in ("ISTREAM", "DSTREAM", "RSTREAM"):
        items = items[2:-1]
    return _split(items[1:] if items[:1] and items[0].upper() == "DISTINCT" else items)


def _inputs(tokens: Sequence[str]) -> List[str]:
    """The streams of a query's first block, as they are named."""
    inputs = _between(tokens, "FROM", ["WHERE", "GROUP", "UNION", "EXCEPT", ";"])
    names = []
    for one in _split(inputs):
        names.append(".".join((one + [""])[0:3:2]) if one[1:2] == ["."] else "".join(one[:1]))
    return names


def inputs_of(text: str) -> FrozenSet[str]:
    """The streams that a query reads, in either of its blocks, as they are named."""
    tokens = _TOKEN.findall(text)
    starts = [at for at, token in enumerate(tokens) if token.upper() == "FROM"]
    return frozenset(name for start in starts for name in _inputs(tokens[start:]))


def _has_name(item: Sequence[str]) -> bool:
    return len(item) > 2 and item[-2].upper() == "AS"


def _called(item: Sequence[str]) -> str:
    """What an item is called: its own name, else itself."""
    return item[-1] if _has_name(item) else _TIGHT.sub("", " ".join(item))


def _simple(item: Sequence[str]) -> str:
    """The last word of a column's name, or another item as it stands, without its own name."""
    bare = item[:-2] if _has_name(item) else item
    return bare[-1] if len(bare) == 3 and bare[1] == "." else "".join(bare)


def names_of(text: str, columns: Columns) -> Optional[Tuple[str, ...]]:
    """The names of a query's columns, where they are known."""
    tokens = _TOKEN.findall(text)
    items = _items(tokens)
    if items != [["*"]]:
        return tuple(map(_called, items))
    inputs = _inputs(tokens)
    if any(it not in columns for it in inputs):
        return None
    return tuple(name for it in inputs for name in columns[it])


def keys_of(text: str, columns: Columns) -> FrozenSet[int]:
    """The indices of the columns by which the query groups or parts its rows."""
    tokens = _TOKEN.findall(text)
    keys = set()
    for word in "GROUP", "PARTITION":
        parts = _between(tokens, word, ["UNION", "EXCEPT", ";", "ROWS"])[1:]
        keys |= {_simple(part) for part in _split(parts)}
    items = _items(tokens)
    is_whole = items == [["*"]]
    names = (names_of(text, columns) or ()) if is_whole else [_simple(it) for it in items]
    return frozenset(index for index, name in enumerate(names) if name in keys)
