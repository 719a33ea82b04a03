"""Lines that are typed at a terminal: completed, kept, of several parts, and sent."""
import contextlib
import os
import re
from typing import Callable, Iterator, List, Optional, Sequence

from .errors import ConnectionLost, Error, Refused
from .columns import inputs_of
from .session import Session
from .tables import Table
from .terminal import (
    ASKS_FOR_HELP,
    CHANGE_NOTHING,
    CQL_WORDS,
    DONE,
    ENDS,
    FORMS,
    HELP,
    Known,
    Terminal,
    keys_of_line,
    sent_of,
)
from .told import Listing
from .watch import watch


class _Completer:
    """What a typed word may become: a command, a name that the server knows, a column of a stream
    that was made here or granted by its columns, or a word of CQL."""

    def __init__(
        self, session: Session, known: Known, words_before: Callable[[], Sequence[str]]
    ) -> None:
        self._session = session
        self._known = known
        self._words_before = words_before
        self._found: List[str] = []

    def __call__(self, text: str, state: int) -> Optional[str]:
        if state == 0:
            names = self._names(self._words_before())
            self._found = [it + " " for it in names if it.lower().startswith(text.lower())]
        return self._found[state] if state < len(self._found) else None

    def _names(self, before: Sequence[str]) -> Sequence[str]:
        if not before:
            return (*FORMS, "watch", "describe", "help", "exit")
        if before[0] == "stream" and len(before) > 2:
            return ("int", "text") if len(before) % 2 else ()
        if before[0] == "grant" and len(before) > 2:
            return self._known.columns.get(before[1], ())
        try:
            listing = self._session.list()
        except Error:
            return ()
        streams = [it.name for it in listing.streams]
        if before[0] == "query" and len(before) > 1:
            readable = [it.name for it in listing.readable]
            return (*CQL_WORDS, *streams, *readable, *self._columns())
        if len(before) > 1:
            return ()
        if before[0] in ("grant", "revoke", "put", "beat"):
            return streams
        if before[0] == "describe":
            return [*streams, *(it.name for it in listing.readable)]
        is_of_query = before[0] in ("fetch", "ack", "drop", "watch")
        return [it.name for it in listing.queries] if is_of_query else ()

    def _columns(self) -> Sequence[str]:
        return sorted({column for columns in self._known.columns.values() for column in columns})


@contextlib.contextmanager
def _line_editing(session: Session, known: Known) -> Iterator[None]:
    """Gives typed lines a history, kept in a file, and completion, where there is readline."""
    try:
        import readline
    except ImportError:
        yield
        return
    history = os.path.expanduser(os.environ.get("ROMBURIK_HISTORY", "~/.romburik_history"))

    def words_before() -> Sequence[str]:
        return readline.get_line_buffer()[: readline.get_begidx()].split()

    readline.set_completer(_Completer(session, known, words_before))
    readline.set_completer_delims(" \t,([")
    is_libedit = "libedit" in (readline.__doc__ or "")
    readline.parse_and_bind("bind ^I rl_complete" if is_libedit else "tab: complete")
    if history:
        with contextlib.suppress(OSError):
            readline.read_history_file(history)
        readline.set_history_length(1000)
    try:
        yield
    finally:
        if history:
            with contextlib.suppress(OSError):
                readline.write_history_file(history)


class _Typed:
    """A session at a terminal, where lines are typed."""

    def __init__(self, session: Session, has_tables: bool) -> None:
        self._session = session
        self._has_tables = has_tables
        self._terminal = Terminal(has_tables, has_echo=False)

    def run(self) -> int:
        """Asks for one line after another, and sends each."""
        with _line_editing(self._session, self._terminal.known):
            while True:
                try:
                    line = self._line()
                except KeyboardInterrupt:
                    print()
                    continue
                except EOFError:
                    print()
                    return DONE
                if line in ENDS:
                    return DONE
                self._take(line)

    def _line(self) -> str:
        """What is typed: a line, and of a query whose text isn't whole more of them, up to one that
        ends with ; or to a blank one."""
        line = input(f"{self._session.tenant}> ").strip()
        more = _goes_on(line)
        while more:
            part = input(f"{self._session.tenant}.. ").strip()
            line += " " + part
            more = bool(part) and not part.endswith(";")
        return line

    def _take(self, line: str) -> None:
        do, _, rest = line.partition(" ")
        try:
            if line in ASKS_FOR_HELP:
                print(HELP)
            elif do == "watch":
                self._watch(rest.strip())
            elif do == "describe":
                self._describe(rest.strip())
            elif line:
                self._ask(line.encode(errors="surrogateescape"))
        except KeyboardInterrupt:
            print("\n  interrupted; the next line connects anew")
        except ConnectionLost as lost:
            print(f"  {lost}; the next line tries again")

    def _describe(self, stream: str) -> None:
        """Shows what is known of streams."""
        if not self._session.is_open:
            self._session.connect()
        lines = [*_described(self._session.list(), self._terminal.known, stream)]
        print(*(lines or [f"  there is no stream {stream} that may be read"]), sep="\n")

    def _watch(self, query: str) -> None:
        if len(query.split()) != 1:
            print("  the form is: watch QUERY")
            return
        try:
            watch(self._session, query, self._terminal.known.columns, self._has_tables)
        except KeyboardInterrupt:
            print()
        except Refused as refusal:
            print(f"  {refusal}")

    def _ask(self, line: bytes) -> None:
        """Sends a line. Where the connection was lost it is made anew, since a server may end a
        session that says nothing for long; and what changes nothing is sent again."""
        terminal = self._terminal
        try:
            if self._session.is_open:
                terminal.ask(self._session, line)
                return
            self._resume()
        except ConnectionLost as lost:
            self._resume()
            if not _changes_nothing(line):
                print(f"  {lost}, and was made anew; the line may have been done")
                return
        terminal.ask(self._session, line)

    def _resume(self) -> None:
        """Connects anew, and says where nothing stands any more that was seen before."""
        self._session.connect()
        known = self._terminal.known
        if known.has_any:
            listing = self._session.list()
            if not (listing.streams or listing.readable or listing.queries):
                known.forget()
                print("  the connection was made anew; nothing stands there any more, as behind a")
                print("  new start of the server: make streams and queries, and put rows, again")


_OPEN_END = re.compile(
    r"(?:[,(\[=<>+*-]|\b(?:select|from|where|and|or|not|by|group|as|union|except|all|distinct))$",
    re.I,
)


def _goes_on(line: str) -> bool:
    """Whether a line is the beginning of a query whose text can't end there."""
    do, _, rest = line.partition(" ")
    if do != "query" or line.endswith(";") or line.startswith("{"):
        return False
    name, _, text = rest.strip().partition(" ")
    is_open = text.count("(") > text.count(")") or text.count("[") > text.count("]")
    has_from = re.search(r"\bfrom\b", text, re.I) is not None
    begins = not text or re.match(r"\s*(select|[idr]stream)\b", text, re.I) is not None
    return bool(name) and begins and (not has_from or is_open or bool(_OPEN_END.search(text)))


def _described(listing: Listing, known: Known, stream: str) -> Iterator[str]:
    """Streams with their columns, as far as they are known, and with the queries that read them."""
    rows = []
    for it in (*listing.streams, *listing.readable):
        if stream in ("", it.name):
            types = known.types.get(it.name)
            names = it.columns or known.columns.get(it.name)
            columns = " ".join(f"{one} {of}" for one, of in types.items()) if types else ""
            told = columns or " ".join(names or ()) or "(no list tells them; it was made elsewhere)"
            readers = [one.name for one in listing.queries if it.name in inputs_of(one.text)]
            rows.append((it.name, it.open, told, " ".join(readers)))
    if rows:
        yield from Table().lines([("stream", "open", "columns", "queries"), *rows])


def _changes_nothing(line: bytes) -> bool:
    with contextlib.suppress(ValueError):
        return keys_of_line(sent_of(line)).get("do") in CHANGE_NOTHING
    return False


def send_typed(session: Session, has_tables: bool) -> int:
    """Sends what is typed, until it ends."""
    return _Typed(session, has_tables).run()
