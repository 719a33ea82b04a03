"""Why a text is no query, in words: what stands at the byte that a refusal 50 tells, looked up
among what the language leaves out (docs/LANGUAGE.md) and among slips that are often made.
"""
import re
from typing import List, Optional, Tuple

LONGEST_TEXT, LONGEST_NAME = 4096, 32
NEAR = 200
"""How many tokens on each side of the one that is refused are looked at."""

_RESERVED = (
    "ALL AND AS BY COUNT DISTINCT DSTREAM EXCEPT FROM GROUP ISTREAM MAX MIN NOT NOW OR PARTITION "
    "RANGE ROWS RSTREAM SELECT SLIDE SUM UNBOUNDED UNION WHERE"
).split()
_TOKEN = re.compile(r"[A-Za-z_][A-Za-z0-9_]*|[0-9]+|'(?:[^']|'')*'|<>|!=|<=|>=|[^ \t\n\r]")

# Each rule is a pattern of the text's tokens, words in upper case, with one blank between two and an
# @ before the one that is refused; and what is said of it, where {0} is the pattern's first group.
# The first rule that fits counts.
_AGGREGATE = r"(?:COUNT|SUM|MIN|MAX)"
_COLUMN = r"\w+(?: \. \w+)?"
_IN_WINDOW = r"\[ [^\]]*"
# MIN is left out, since it is written for minutes
_NO_NAME = rf"(?!(?:{'|'.join(it for it in _RESERVED if it != 'MIN')})\b)"
_STATEMENT = "CREATE|INSERT|UPDATE|DELETE|DROP|ALTER|REGISTER|EXPLAIN|SHOW|DESCRIBE|USE|SET"
_RULES = [
    (re.compile(pattern), words)
    for pattern, words in (
        # Signs.
        (r"@ (?:/ \*|/ /|#|- -)|- - @ [A-Z_]", "there are no comments"),
        (r'@ "', "a text stands in single quotes, 'so', and a name without quotes"),
        (r"@ `", "a name stands without quotes"),
        ("@ [\u2018\u2019\u201a\u201c\u201d\u201e]", "a text stands in straight single quotes, 'so'"),
        (r"= @ =", "equality is one sign: ="),
        (r"(?<!\S)= @ ([<>])", "this sign is written {0}="),
        (r"[<>=] @ [<>=~]|@ ~", "the comparisons are = <> != < <= > >="),
        (r"@ &", "&& isn't read: AND"),
        (r"WHERE .*@ \|", "|| isn't read: OR"),
        (r"@ \|", "texts aren't put together: who puts the row puts the whole text as a column"),
        (r"@ !", "! isn't read: NOT stands before a condition"),
        (r"\d @ \.|@ \. \d|@ \d+ \. ", "there are no fractions: whole numbers of a smaller unit"),
        (r"@ %", "% isn't served: who puts the row puts the remainder as a column"),
        (r"@ [?:$]", "there are no parameters: the value stands in the text"),
        (r"; @|@ ; \S", "a text is one query, and nothing stands behind its ;"),
        # Aggregates and functions.
        (r"(?:AVG|MEAN|AVERAGE) @ \(", "AVG isn't served: SUM and COUNT(*), divided by the reader"),
        (r"COUNT \( @ DISTINCT", "distinct values aren't counted: COUNT(*) in a second query over a DISTINCT"),
        (r"COUNT \( @ (?:\w|')", "COUNT takes * alone: there is no NULL, so it counts the same"),
        (rf"(SUM|MIN|MAX) \( (?:@|{_COLUMN} @ [-+*/,])", "{0} takes one column: who puts the row puts what is to be computed as a column"),
        (rf"{_AGGREGATE} \( [^()]*\) @ [-+*/]|SELECT [^@]*[-+*(/] @ {_AGGREGATE} \(", "an aggregate isn't computed with: ask for each as an item, and the reader computes"),
        (rf"WHERE [^@]*@ {_AGGREGATE}\b", "WHERE sees no aggregates: a second query reads what the first tells"),
        (rf"({_AGGREGATE}) @", "{0} is reserved: it begins an aggregate, and names no column"),
        (r"@ /", "division isn't served: the reader divides, or who puts the row"),
        (r"(?:TUMBLE|TUMBLING|HOP|HOPPING|SESSION) @ \(", "a window stands in [ ] behind the stream's name: [Range 59 Slide 60] tumbles by 60 ticks"),
        (r"(?:FIRST|LAST|LATEST|FIRST_VALUE|LAST_VALUE) @ \(", "the newest row of each key is a window: [Partition By key Rows 1]"),
        (r"(?:LAG|LEAD|ROW_NUMBER|RANK) @ \(|@ OVER\b|OVER @", "OVER isn't served: a window stands in [ ] behind the stream's name"),
        (r"(?:FROM|,) (?:\w+ \. )?\w+ @ \( (?:RANGE|ROWS|NOW|PARTITION|UNBOUNDED)", "a window stands in square brackets: [Range 60]"),
        (r"(?:FROM|,|=|<|>|IN|\() @ \( SELECT|FROM @ \(|EXISTS @ \(|WHERE [^@]*@ SELECT", "nested queries aren't served: a second query reads what the first tells"),
        (r"[=<>] @ \(", "a comparison has a column or a constant on each side, without brackets"),
        (r"GROUP BY [^@]*@ [-+*/(\d]", "GROUP BY takes columns as they are"),
        (r"\b(?!(?:AS|BY|ALL|IN|WHERE)\b)([A-Z_]\w*) @ \(", "{0} isn't served: the functions are COUNT, SUM, MIN and MAX; what another gives, who puts the row puts as a column"),
        # Conditions.
        (r"@ (?:NOT )?IN\b|\bIN @", "IN isn't served: comparisons joined by OR"),
        (r"@ (?:NOT )?BETWEEN\b", "BETWEEN isn't served: two comparisons joined by AND"),
        (r"@ (?:NOT )?(I?LIKE|RLIKE|REGEXP|GLOB|SIMILAR|MATCHES|CONTAINS)\b", "{0} isn't served: who puts the row puts what it gives as a column"),
        (r"@ IS\b", "there is no NULL: a value that means none, or a stream of its own for rows that lack it"),
        (r"\bCASE @|@ CASE\b|@ WHEN\b", "CASE isn't served: two queries, or a column that who puts the row fills"),
        (r"WHERE [^@]*@ [-+*]", "WHERE compares columns and constants as they are: who puts the row puts what is to be computed as a column"),
        (rf"WHERE (?:[^@]*(?:\b(?:AND|OR|NOT)|\() )?(?!NOT ){_COLUMN} @ (?:AND|OR|GROUP|UNION|EXCEPT|\)|;|$)", "a value alone is no condition, since there are no truth values: compare it, as flag = 1"),
        # Clauses of SQL, whose first word may have been read as an alias.
        (r"\b(?:LEFT|RIGHT|FULL|OUTER) @ |@ (?:LEFT|RIGHT|FULL|OUTER)\b", "outer joins aren't served: rows without a partner by EXCEPT ALL, beside the join"),
        (r"\bJOIN @|@ (?:INNER |CROSS |NATURAL )?JOIN\b|@ (?:INNER|CROSS|NATURAL)\b", "JOIN .. ON isn't read: FROM a, b WHERE a.k = b.k"),
        (r"FROM [^@]*\b(?:ON|USING) @|FROM [^@]*@ (?:ON|USING)\b", "ON isn't read: what joins two streams stands behind WHERE"),
        (r"\bORDER @|@ ORDER\b", "ORDER BY isn't served: rows come ascending, so name the column to sort by first"),
        (r"\bHAVING @|@ HAVING\b", "HAVING isn't served: a second query reads what the first tells"),
        (r"\b(LIMIT|TOP|OFFSET|FETCH|SAMPLE) @", "{0} isn't served: the greatest alone by MAX, else the reader takes them; [Rows N] holds the newest N"),
        (r"@ (LIMIT|OFFSET|FETCH|SAMPLE)\b", "{0} isn't served: the greatest alone by MAX, else the reader takes them; [Rows N] holds the newest N"),
        (r"\bINTERSECT @|@ INTERSECT\b", "INTERSECT isn't served: a join with DISTINCT, on all columns"),
        (r"\bMINUS @|@ MINUS\b", "MINUS isn't served: EXCEPT ALL"),
        (r"(UNION|EXCEPT) @", "{0} is served with ALL alone"),
        (r"(?:UNION|EXCEPT) ALL [^@]*@ (?:UNION|EXCEPT)", "a query has at most two blocks"),
        (r"SELECT ([IDR]STREAM) .*@ (?:UNION|EXCEPT)", "a stream operator stands round both blocks: {0}(SELECT .. UNION ALL SELECT ..)"),
        (r"\b(?:WINDOW|EMIT|WITHIN|TUMBLING|HOPPING|SESSION) @|@ (?:WINDOW|EMIT|WITHIN|TUMBLING|HOPPING|SESSION)\b", "a window stands in [ ] behind the stream's name, as [Range 60], and what is told is said by Istream, Dstream or Rstream"),
        # Windows.
        (rf"{_IN_WINDOW}ROWS \d+ @ {_NO_NAME}[A-Z]", "ROWS counts rows and takes no unit: RANGE takes one"),
        (rf"{_IN_WINDOW}\d @ (?:MS|MILLI\w*|US|MICRO\w*|NS|NANO\w*)\b", "a unit is a second or more: a tick is what the rows' times count, so write the ticks, as [Range 500]"),
        (rf"{_IN_WINDOW}\d @ WEEKS?\b", "a week is 7 days"),
        (rf"{_IN_WINDOW}\d @ (?:MONTH|QUARTER|YEAR)S?\b", "months and years have no one length: days"),
        (rf"{_IN_WINDOW}\d @ {_NO_NAME}[A-Z]", "the units are second, minute, hour and day, in full"),
        (rf"{_IN_WINDOW}(?:RANGE|SLIDE) @ (?:'|INTERVAL)", "a length is a number and a unit, without quotes: [Range 5 Minutes]"),
        (rf"{_IN_WINDOW}(?:ROWS|RANGE|SLIDE) @ -", "a length isn't negative"),
        (r"\[ PARTITION BY [^\]@]*@ (RANGE|SLIDE)", "PARTITION BY takes ROWS alone, without {0}"),
        (r"\[ PARTITION BY [^\]@]*@ \]", "PARTITION BY needs ROWS and a number: [Partition By key Rows 1]"),
        (rf"{_IN_WINDOW}(?:ROWS|SLIDE) @ 0+\b", "a number of rows, and a slide, is 1 or more"),
        (r"\[ @", "a window is [Range 60], [Range 5 Minutes], [Rows 10], [Partition By key Rows 1], [Now] or [Unbounded]"),
        (r"(?:FROM|,) [^\[@]*@ (?:RANGE|ROWS|NOW|UNBOUNDED|PARTITION)\b", "a window stands in square brackets: [Range 60]"),
        (rf"{_IN_WINDOW}@ $", "the window isn't whole"),
        (r"(?:FROM|,) (?:\w+ \. )?\w+ (?:AS )?\w+ @ \[", "a window stands between the stream's name and its alias"),
        # Items, inputs, groups.
        (r"\. @ \*", "name the columns: * stands alone, for all columns of all inputs"),
        (r"SELECT [^@]*(?:\* @ ,|, @ \*)", "* stands alone, for all columns of all inputs"),
        (r"- @ [A-Z_]", "a minus stands before a number alone: 0 - v"),
        (r"([IDR]STREAM) @ [^( ]", "{0} takes its items in brackets: {0}(*)"),
        (r"SELECT [IDR]STREAM \( @ SELECT", "ISTREAM( SELECT .. ) stands alone, without SELECT before it"),
        (r"FROM [^,@]*,[^,@]*,[^,@]*@ ,", "a block has at most three inputs"),
        (r", @ (FROM|WHERE|GROUP)\b", "a comma stands before {0}"),
        # The beginning and the end.
        (rf"^@ (?:{_STATEMENT})\b", "a text is a query alone: streams are made, and rows put, by commands of their own"),
        (r"^@ WITH\b", "named parts of a query aren't served: a second query reads what the first tells"),
        (r"^@ \S", "a query begins with SELECT, or with ISTREAM(, DSTREAM( or RSTREAM("),
        (r"^@ $", "the text is empty"),
    )
]  # fmt: skip


def _cut(text: str, at: int) -> Tuple[str, str]:
    """A text before a byte, and from there on."""
    octets = text.encode()
    return octets[:at].decode(errors="ignore"), octets[at:].decode(errors="ignore")


def _token(text: str) -> str:
    """A token as the rules see it: words in upper case, and nothing of what a text holds."""
    if text == "@":
        return "?"
    return "'T'" if text[0] == "'" and len(text) > 1 else text.upper()


def _tokens(text: str) -> List[str]:
    return [_token(it) for it in _TOKEN.findall(text)]


def _is_near(word: str, meant: str) -> bool:
    """Whether a word has another's letters in another order, or one letter more or less."""
    longer, shorter = sorted((word, meant), key=len, reverse=True)
    without_one = (longer[:at] + longer[at + 1 :] for at in range(len(longer)))
    return sorted(word) == sorted(meant) or shorter in without_one


def _misspelled(before: List[str], rest: List[str]) -> Optional[str]:
    """What is said of a reserved word that is misspelled, here, or just before as an alias."""
    if rest and _meant(rest[0], before):
        return f"{rest[0]} is no word of the language: was {_meant(rest[0], before)} meant?"
    is_alias = "FROM" in before[:-2] and "WHERE" not in before
    if is_alias and _meant(before[-1], before):
        return f"{before[-1]} is read as a name: was {_meant(before[-1], before)} meant?"
    return None


def _meant(word: str, before: List[str]) -> Optional[str]:
    if word in _RESERVED or len(word) < 3:
        return None
    near = [it for it in _RESERVED if _is_near(word, it) and not (it == "FROM" and it in before)]
    return near[0] if near else None


def _spelled(at: int, rest: List[str]) -> Optional[str]:
    """What is wrong with the length or the letters of what stands there."""
    if at >= LONGEST_TEXT:
        return f"a text has at most {LONGEST_TEXT} bytes"
    if rest and re.fullmatch(r"\w+", rest[0]):
        if rest[0].isdigit() and len(rest[0].lstrip("0")) > 18:
            return "the number is out of its range"
        if not rest[0].isdigit() and len(rest[0]) > LONGEST_NAME:
            return f"a name has at most {LONGEST_NAME} bytes"
    if rest and rest[0] == "'":
        return "the text that begins here isn't closed; a ' inside is written ''"
    if rest and rest[0].isalpha() and not rest[0].isascii():
        return "names are ASCII letters, digits and _"
    return None


def _general(before: List[str], rest: List[str]) -> Optional[str]:
    """What is said where no rule fits."""
    if not rest:
        return "the text ends too soon" if "FROM" in before else "FROM and a stream are missing"
    if rest[0] in _RESERVED and before[-1:] and before[-1] in ("SELECT", "FROM", "AS", ",", "."):
        return f"{rest[0]} is reserved, and names nothing"
    if rest[0][0].isalpha() and rest[0] not in _RESERVED and "FROM" not in before:
        return "AS is missing before an item's own name, or FROM before a stream"
    return None


def reason(text: str, at: int) -> Optional[str]:
    """Why a text is no query at a byte, in words, or None where the client doesn't know."""
    first, second = _cut(text, at)
    before, rest = _tokens(first), _tokens(second)
    near = before if len(before) <= NEAR else ["..", *before[-NEAR:]]
    shape = " ".join([*near, "@", *rest[:NEAR]]) + ("" if rest else " ")
    said = _spelled(at, rest)
    for pattern, words in () if said else _RULES:
        found = pattern.search(shape)
        if found:
            return words.format(*found.groups())
    return said or _misspelled(before, rest) or _general(before, rest)


def _names(said: str, token: str) -> bool:
    """Whether a reason names a token."""
    return bool(re.search(rf"(?<!\w){re.escape(token)}(?!\w)", said, re.IGNORECASE))


def place(text: str, at: int) -> str:
    """Where a text is no query: the byte, with what stands there, or at the end before it, where the
    reason doesn't name it."""
    first, second = _cut(text, at)
    before, rest = _TOKEN.findall(first), _TOKEN.findall(second)
    # of a text that isn't closed its first word
    here = second.split()[0] if rest[:1] == ["'"] else (rest or before or [""])[0 if rest else -1]
    said = reason(text, at) or ""
    if not here or any(_names(said, token) for token in (*before[-1:], here)):
        return f"byte {at}"
    return f"byte {at}, {'' if rest else 'behind '}{here[:LONGEST_NAME]},"


def marked(text: str, at: int) -> Tuple[str, str]:
    """The line of a text that has the byte, and what stands before the byte in it."""
    first, second = _cut(text, at)
    start = re.split(r"[\n\r]", first)[-1]
    return start + re.split(r"[\n\r]", second)[0], start
