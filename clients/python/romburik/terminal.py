"""The terminal: lines that are typed, piped or of a file, each with its reply."""
import contextlib
import json
import re
import sys
from dataclasses import dataclass
from typing import Callable, Dict, Iterator, List, Mapping, Optional, Sequence, Set, Tuple

from .columns import names_of
from .errors import BadQuery, ConnectionLost, Error, Refused
from .lines import Command, checked, is_blank, line_of
from .mistakes import mistake
from .reasons import marked, place
from .session import Session
from .tables import (
    Table,
    answer_lines,
    block_cells,
    listing_lines,
    printable,
    row_columns,
    width,
)
from .told import Reply, answer_of, listing_of, object_of, read

DONE, REFUSED, AT_FAULT, WRONG_LOGIN, NO_CONNECTION, INTERRUPTED = 0, 1, 2, 3, 4, 130


def _pairs(text: str) -> List[List[str]]:
    words = text.split()
    if len(words) % 2:
        raise ValueError("a column without a type")
    return [words[at : at + 2] for at in range(0, len(words), 2)]


def _word(text: str) -> str:
    if len(text.split()) != 1:
        raise ValueError("more than a word")
    return text.strip()


@dataclass(frozen=True)
class _Form:
    """How a command is typed: a word for each key, of which the last takes the rest of the line."""

    text: str
    keys: Mapping[str, Callable[[str], object]]
    least: int


FORMS = {
    "stream": _Form("NAME COLUMN TYPE [COLUMN TYPE ..]", {"name": _word, "columns": _pairs}, 2),
    "grant": _Form(
        "STREAM TENANT [COLUMN ..]", {"stream": _word, "to": _word, "columns": str.split}, 2
    ),
    "revoke": _Form("STREAM TENANT", {"stream": _word, "to": _word}, 2),
    "put": _Form("STREAM AT ROW", {"stream": _word, "at": int, "row": json.loads}, 3),
    "beat": _Form("STREAM AT", {"stream": _word, "at": int}, 2),
    "query": _Form("NAME TEXT", {"name": _word, "text": str}, 2),
    "fetch": _Form("QUERY [UNTIL]", {"name": _word, "until": int}, 1),
    "ack": _Form("QUERY TO", {"name": _word, "to": int}, 2),
    "drop": _Form("QUERY", {"name": _word}, 1),
    "list": _Form("", {}, 0),
}
HELP = "\n".join(
    (
        *(f"{do} {form.text}".rstrip() for do, form in FORMS.items()),
        "watch QUERY",
        "describe [STREAM]",
        'A ROW is a list such as [1,"x"], a TYPE is int or text. A line that begins with { is sent',
        "as it is. watch shows a query's newest state, describe what is known of streams. Ctrl-C ends",
        "a watch or a fetch, and clears a line that is being typed. The text of a query may go over",
        "several lines up to a ; where its first line isn't whole. Tab completes commands and names;",
        "? tells this; exit, quit or \\q ends the session.",
    )
)
ASKS_FOR_HELP, ENDS = ("help", "?"), ("exit", "quit", "\\q")
CQL_WORDS = (
    "All And As By Count Distinct Dstream Except From Group Istream Max Min Not Now Or Partition "
    "Range Rows Rstream Select Slide Sum Unbounded Union Where"
).split()
CHANGE_NOTHING = "list", "fetch"
_NAMES_OF_STREAMS = re.compile(rb'"refused":(?:30|52|53|54)\b')


class AtFault(Error):
    """A word, a key, a file or a line that can't be used."""


def command_of(line: str) -> Command:
    """The command that a typed line says, as `put s 5 [1]` does; ValueError where it says none."""
    do, _, rest = line.strip().partition(" ")
    form = FORMS.get(do)
    if form is None:
        raise ValueError(f"there is no command {do}, but {', '.join(FORMS)}")
    words = rest.split(None, max(0, len(form.keys) - 1))
    if not form.least <= len(words) <= len(form.keys):
        raise ValueError(f"the form is: {do} {form.text}")
    try:
        keys = {key: take(word) for (key, take), word in zip(form.keys.items(), words)}
    except ValueError as error:
        raise ValueError(f"the form is: {do} {form.text}") from error
    return {"do": do, **keys}


def sent_of(line: bytes) -> bytes:
    """What is sent for a line: itself where it is JSON, else the line of the command it says."""
    if line.lstrip().startswith(b"{"):
        return checked(line)
    return line_of(command_of(line.decode()))


def keys_of_line(line: bytes) -> Mapping[str, object]:
    """The keys of a line that is sent, none where it isn't an object."""
    with contextlib.suppress(ValueError, RecursionError):
        return object_of(line)
    return {}


class Known:
    """What a terminal knows beyond what a list tells: the columns of streams that were made here
    with their types, and the texts of queries."""

    def __init__(self) -> None:
        self.columns: Dict[str, Sequence[str]] = {}
        self.types: Dict[str, Dict[str, str]] = {}
        self.streams: Set[str] = set()
        self.texts: Dict[str, str] = {}
        self.has_any = False

    def note(self, sent: bytes, told: Reply) -> None:
        """Takes note of a line and its reply."""
        keys = keys_of_line(sent)
        do, name = keys.get("do"), str(keys.get("name"))
        if "queries" in told:
            self.note_listing(told)
        elif do == "stream" and "ok" in told:
            self.types[name] = dict(keys["columns"])  # type: ignore
            self.columns[name] = [*self.types[name]]
            self.streams.add(name)
            self.has_any = True
        elif do == "query" and "base" in told:
            self.texts[name] = str(keys["text"])
            self.has_any = True
        elif do == "drop" and "ok" in told:
            self.texts.pop(name, None)

    def note_listing(self, told: Reply) -> None:
        """Takes note of a listing."""
        listing = read(listing_of, told)
        self.texts = {it.name: it.text for it in listing.queries}
        streams = (*listing.streams, *listing.readable)
        self.streams = {it.name for it in streams}
        self.has_any = bool(streams or listing.queries)
        self.columns.update({it.name: it.columns for it in streams if it.columns})

    def forget(self) -> None:
        """Nothing is known any more."""
        self.columns.clear()
        self.types.clear()
        self.streams.clear()
        self.texts.clear()
        self.has_any = False

    def names(self, sent: bytes) -> Optional[Sequence[str]]:
        """The names of the columns that a fetch tells, where they are known."""
        text = self.texts.get(str(keys_of_line(sent).get("name")))
        return None if text is None else names_of(text, self.columns)


def _mark(text: str, at: int) -> Iterator[str]:
    """The line of a text that has a byte, with a mark below that."""
    line, start = marked(text, at)
    yield printable(line)
    yield " " * width(printable(start)) + "^"


def _why(refusal: Refused, sent: bytes, known: Known) -> Iterator[str]:
    """What a refusal means, with the line of a query's text where it is refused, and the word that
    is at fault as far as what is known tells it."""
    keys = keys_of_line(sent)
    if not isinstance(refusal, BadQuery):
        found = mistake(refusal.number, keys, known.columns, known.types, known.streams)
        if found is None:
            yield f"{refusal.number}: {refusal.meaning}"
            return
        if found.at is not None:
            yield from _mark(str(keys["text"]), found.at)
        yield f"{refusal.number}: {printable(found.why)}"
        return
    refusal.text = str(keys.get("text", ""))
    yield from _mark(refusal.text, refusal.at)
    reason = refusal.reason or "docs/LANGUAGE.md has the grammar"
    where = place(refusal.text, refusal.at)
    yield f"{refusal.number}: no query from {printable(where)} on: {printable(reason)}"


class Terminal:
    """Shows lines with their replies."""

    def __init__(self, has_tables: bool, has_echo: bool, is_quiet: bool = False) -> None:
        self.known = Known()
        self.status = DONE
        self._has_tables = has_tables
        self._has_echo = has_echo and not is_quiet
        self._is_quiet = is_quiet

    def ask(self, session: Session, line: bytes) -> None:
        """Sends a line, unless it says no command."""
        try:
            sent = sent_of(line)
        except ValueError as error:
            self.refuse(line, str(error))
        else:
            reply = session.ask(sent)
            if _NAMES_OF_STREAMS.search(reply):
                # what the refusal is told by
                self.known.note_listing(session.call({"do": "list"}))
            self.show(line, sent, reply)

    def show(self, line: bytes, sent: bytes, reply: bytes) -> None:
        """Shows a line with its reply and, of a refusal, with what it means."""
        self._echo(line)
        told = read(object_of, reply)
        self.known.note(sent, told)
        if self._has_tables and "blocks" in told:
            names = self.known.names(sent)
            print(*answer_lines(read(answer_of, told), names), sep="\n", flush=True)
        elif self._has_tables and "streams" in told:
            lines = listing_lines(read(listing_of, told), self.known.columns)
            print(*lines, sep="\n", flush=True)
        elif not (self._is_quiet and told == {"ok": True}):
            sign = "< " if self._has_echo else ""
            print(sign + printable(reply.decode(errors="replace")), flush=True)
        if "refused" in told:
            if self._is_quiet:
                self._say(printable(line.decode(errors="replace")))
            for why in _why(read(Refused.of, told), sent, self.known):
                self._say(why)
            self.status = REFUSED

    def refuse(self, line: bytes, why: str) -> None:
        """Shows a line that isn't sent, and why."""
        self._echo(line)
        self._say(why)
        self.status = REFUSED

    def _echo(self, line: bytes) -> None:
        if self._has_echo:
            print(f"> {printable(line.decode(errors='replace'))}", flush=True)

    def _say(self, why: str) -> None:
        print(f"  {why}", flush=True)


# ---- Lines of a pipe and of files.


def send_piped(session: Session, has_tables: bool, is_quiet: bool = False) -> int:
    """Sends each line of standard input once the one before it has its reply."""
    terminal = Terminal(has_tables, True, is_quiet)
    for line in sys.stdin.buffer:
        line = line.rstrip(b"\n")
        word = line.strip().decode(errors="replace")
        if word in ENDS:
            break
        if word in ASKS_FOR_HELP:
            print(HELP, flush=True)
        elif not is_blank(line):
            terminal.ask(session, line)
    return terminal.status


def _lines_of(path: str) -> Iterator[Tuple[int, bytes]]:
    """The lines of a file, or of standard input by the name -, that aren't blank, each behind its
    number."""
    if path == "-":
        lines = sys.stdin.buffer.read().split(b"\n")
    else:
        with open(path, "rb") as file:
            lines = file.read().split(b"\n")
    for number, line in enumerate(lines, start=1):
        if not is_blank(line):
            yield number, line


def send_file(session: Session, has_tables: bool, path: str, is_quiet: bool = False) -> int:
    """Sends the lines of a file, many of them under way at once."""
    shown, sent = [], []
    for number, line in _lines_of(path):
        try:
            sent.append(sent_of(line))
        except ValueError as error:
            raise AtFault(f"line {number} of {path}: {error}") from error
        shown.append(line)
    terminal = Terminal(has_tables, True, is_quiet)
    for line, one, reply in zip(shown, sent, session.ask_lines(sent)):
        terminal.show(line, one, reply)
    return terminal.status


def _tenants(line: bytes) -> Dict[str, str]:
    """The keys of the tenants of a script's first line."""
    try:
        return {str(it["name"]): str(it["key"]) for it in object_of(line)["tenants"]}
    except (ValueError, KeyError, TypeError) as error:
        raise ValueError("a script's first line names its tenants") from error


def _addressed(line: bytes, tenants: Mapping[str, str]) -> Tuple[str, bytes]:
    """The tenant of a script's line, and the line as its session sends it."""
    command = dict(keys_of_line(line))
    name = command.pop("tenant", None)
    if not isinstance(name, str) or name not in tenants:
        raise ValueError("the line names no tenant of the script's first line, and isn't sent")
    return name, line_of(command)


def send_script(connect: Callable[[str, str], Session], has_tables: bool, path: str) -> int:
    """Sends the lines of a script of cqlrun, each by a session of its tenant, whose key stands in
    the script's first line; `connect` gives a session for a name and a key."""
    lines = _lines_of(path)
    number, first = next(lines, (1, b""))
    try:
        keys = _tenants(first)
    except ValueError as error:
        raise AtFault(f"line {number} of {path}: {error}") from error
    terminals = {name: Terminal(has_tables, has_echo=True) for name in keys}
    nobody = Terminal(has_tables, has_echo=True)
    sessions: Dict[str, Session] = {}
    with contextlib.ExitStack() as open_ones:
        for _, line in lines:
            try:
                name, sent = _addressed(line, keys)
            except ValueError as error:
                nobody.refuse(line, str(error))
                continue
            if name not in sessions:
                sessions[name] = open_ones.enter_context(connect(name, keys[name]))
            terminals[name].show(line, sent, sessions[name].ask(sent))
    return max(it.status for it in (nobody, *terminals.values()))


def follow(session: Session, has_tables: bool, query: str) -> int:
    """Shows a query's blocks as they become final, and acknowledges what was shown."""
    table = Table()
    if has_tables:
        print(*table.lines([row_columns()]), flush=True)
    for answer in session.answers(query):
        for block in answer.blocks:
            if has_tables:
                print(*table.lines(block_cells(block)), sep="\n")
            else:
                print(printable(block.line()))
        sys.stdout.flush()
    return DONE
