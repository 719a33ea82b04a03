"""Sessions of a tenant."""
import collections
import contextlib
import time
from types import TracebackType
from typing import (
    Any,
    Callable,
    Deque,
    Dict,
    Generator,
    Iterable,
    Iterator,
    List,
    Mapping,
    Optional,
    Tuple,
    Type,
    Union,
)

from .errors import Ahead, BadQuery, BadReply, ConnectionLost, Refused, UnknownQuery, WrongRow
from .lines import Address, Command, Connection, Tls, checked, line_of, put_of
from .mistakes import mistake
from .told import (
    Answer,
    Block,
    Listing,
    Puts,
    PutsLost,
    RefusedPut,
    Reply,
    Row,
    T,
    Value,
    answer_of,
    base_of,
    listing_of,
    object_of,
    read,
)

WINDOW = 256
"""How many lines are under way at once, where the caller doesn't say."""

SOON = 2.5
"""After how many seconds it is told what is waited for."""

_ACCEPTED = b'{"ok":true}'
_NO_SLOT = (
    "waiting: the server takes no further caller so far; as many may be connected as its word "
    "--callers says"
)

Notice = Callable[[str], None]


def _silent(_: str) -> None:
    """Says nothing of what is waited for."""


class Trouble:
    """For how long something has failed, of the seconds that it may, None for ever. What is waited
    for is told once to `notice`, before it has failed for five seconds."""

    def __init__(self, seconds: Optional[float], notice: Notice = _silent) -> None:
        self._seconds = seconds
        self._notice = notice
        self._since: Optional[float] = None
        self._is_told = False

    def is_too_long(self, error: Exception, pause: float) -> bool:
        """It failed once more, and is tried again behind a pause."""
        now = time.monotonic()
        self._since = now if self._since is None else self._since
        is_late = self._seconds is not None and now - self._since >= self._seconds
        if not is_late and not self._is_told and now - self._since + pause > SOON:
            self._is_told = True
            self._notice(f"waiting: {error}")
        return is_late

    def is_over(self) -> None:
        self._since = None
        self._is_told = False


class Session:
    """A session of one tenant. It is connected and logged in when it is made.

    `timeout` is how many seconds a call may wait for the server to take or to tell anything, None
    without an end. A server to which as many callers are connected as it takes (`--callers`) is
    silent until one of them leaves; `notice` is told so, in words, and of all else that is waited
    for. With `tls` all is encrypted; without it the key is sent to this machine alone (InTheClear),
    unless `insecure` is set.
    """

    def __init__(
        self,
        *,
        port: int,
        tenant: str,
        key: str,
        host: str = "127.0.0.1",
        timeout: Optional[float] = 60.0,
        notice: Notice = _silent,
        tls: Optional[Tls] = None,
        insecure: bool = False,
    ) -> None:
        self.host = host
        self.port = port
        self._address = Address(host, port, tls, insecure)
        self.tenant = tenant
        self.timeout = timeout
        self._key = key
        self._notice = notice
        self._connection: Optional[Connection] = None
        # the types of the columns of the streams that were made here
        self._types: Dict[str, Dict[str, str]] = {}
        self.connect()

    def __repr__(self) -> str:
        return f"<Session of {self.tenant} with {self.host}:{self.port}>"

    def __enter__(self) -> "Session":
        return self

    def __exit__(
        self,
        kind: Optional[Type[BaseException]],
        error: Optional[BaseException],
        trace: Optional[TracebackType],
    ) -> None:
        self.close()

    @property
    def is_open(self) -> bool:
        """Whether there is a connection, as far as is known."""
        return self._connection is not None and self._connection.is_open

    def connect(self) -> None:
        """Connects and logs in, anew where there is a connection. Refused 13 for a wrong key."""
        self.close()
        self._connection = Connection(self._address, self.timeout)
        try:
            self._log_in(self._connection)
        except BaseException:
            self.close()
            raise

    def _log_in(self, connection: Connection) -> None:
        connection.send(line_of({"key": self._key, "tenant": self.tenant}))
        is_patient = self.timeout is None or self.timeout > SOON
        if is_patient and not connection.has_reply(SOON):
            self._notice(_NO_SLOT)
        outcome = self._outcome(connection.receive())
        if isinstance(outcome, Refused):
            raise outcome

    def close(self) -> None:
        """Ends the session. Streams and queries stay as they are."""
        if self._connection is not None:
            self._connection.close()

    # Any lines and commands.

    def ask(self, line: bytes) -> bytes:
        """The reply to a line as it is, both without their line feeds."""
        whole = checked(line)
        connection = self._free_connection()
        try:
            connection.send(whole)
            return connection.receive()
        except BaseException:
            connection.close()
            raise

    def ask_lines(
        self, lines: Iterable[bytes], window: int = WINDOW
    ) -> Generator[bytes, None, None]:
        """The replies to many lines, of which up to `window` are under way at once, in order.

        A line waits for those behind it, so they should be there. The session takes no other call
        until the generator is at its end or closed. What is under way then, or where `lines`
        raises, is done all the same.
        """
        connection = self._free_connection()
        try:
            for line in lines:
                connection.send(checked(line))
                if connection.owed >= window:
                    yield connection.receive()
            while connection.owed:
                yield connection.receive()
        finally:
            with contextlib.suppress(ConnectionLost):
                while connection.owed:
                    connection.receive()

    def ask_batches(
        self, batches: Iterable[Tuple[range, bytes]], window: int = 4
    ) -> Iterator[Tuple[range, bytes]]:
        """The replies to batches of lines, each of as many lines as its range has numbers, with their
        line feeds; up to `window` batches are under way at once. Where it is broken off, the
        replies to what was sent are awaited."""
        connection = self._free_connection()
        under_way: Deque[range] = collections.deque()
        try:
            for numbers, lines in batches:
                under_way.append(numbers)
                connection.send_many(lines, len(numbers))
                if len(under_way) >= window:
                    numbers = under_way.popleft()
                    yield numbers, connection.receive_many(len(numbers))
            while under_way:
                numbers = under_way.popleft()
                yield numbers, connection.receive_many(len(numbers))
        finally:
            with contextlib.suppress(ConnectionLost):
                connection.receive_many(connection.owed)

    def call(self, command: Command) -> Reply:
        """The reply to a command, given by the keys of its line."""
        outcome = self._outcome(self.ask(line_of(command)))
        if isinstance(outcome, Refused):
            self._explain(command, outcome)
            raise outcome
        if command.get("do") == "stream":
            columns: Any = command["columns"]
            self._types[str(command["name"])] = dict(columns)
        return outcome

    def _explain(self, command: Command, refusal: Refused) -> None:
        """Says which word of a command is at fault, as far as the streams are known: those that a
        list tells, and the columns of those that this session made."""
        columns: Dict[str, Iterable[str]] = dict(self._types)
        streams = {*columns}
        if refusal.number in (30, 52, 53, 54):
            with contextlib.suppress(Refused, ConnectionLost):
                told = self.list()
                streams = {it.name for it in (*told.streams, *told.readable)}
                columns.update({it.name: it.columns for it in told.readable if it.columns})
        known = {name: tuple(it) for name, it in columns.items()}
        found = mistake(refusal.number, command, known, self._types, streams)
        if found:
            refusal.why, refusal.at = found.why, found.at

    def call_many(
        self, commands: Iterable[Command], window: int = WINDOW
    ) -> Generator[Union[Reply, Refused], None, None]:
        """The reply to each of many commands or its refusal, as `ask_lines` has them."""
        with contextlib.closing(self.ask_lines(map(line_of, commands), window)) as replies:
            for reply in replies:
                yield self._outcome(reply)

    # The commands.

    def stream(self, name: str, columns: Mapping[str, str]) -> None:
        """Makes a stream; `columns` has the type of each, `int` or `text`, in order."""
        self.call({"do": "stream", "name": name, "columns": [[*it] for it in columns.items()]})

    def grant(self, stream: str, to: str, columns: Optional[Iterable[str]] = None) -> None:
        """Lets a tenant read a stream of this one: the named columns in their order, or all."""
        chosen = {} if columns is None else {"columns": [*columns]}
        self.call({"do": "grant", "stream": stream, "to": to, **chosen})

    def revoke(self, stream: str, to: str) -> None:
        """Takes the grant back; the tenant's queries on the stream are revoked with it."""
        self.call({"do": "revoke", "stream": stream, "to": to})

    def put(self, stream: str, at: int, row: Iterable[Value]) -> None:
        """Puts a row at an instant."""
        self.call(put_of(stream, at, row))

    def put_many(
        self, stream: str, rows: Iterable[Tuple[int, Iterable[Value]]], window: int = WINDOW
    ) -> Puts:
        """Puts rows, each behind its instant, with up to `window` of them under way at once.

        A row that is refused doesn't keep those behind it from being put. PutsLost where the
        connection is lost.
        """
        under_way: Deque[Tuple[int, Row]] = collections.deque()

        def commands() -> Iterator[Command]:
            for at, row in rows:
                under_way.append((at, tuple(row)))
                yield put_of(stream, *under_way[-1])

        accepted = 0
        refused: List[RefusedPut] = []
        try:
            for index, outcome in enumerate(self.call_many(commands(), window)):
                at, row = under_way.popleft()
                if isinstance(outcome, Refused):
                    if isinstance(outcome, WrongRow):
                        self._explain(put_of(stream, at, row), outcome)
                    refused.append(RefusedPut(index, at, row, outcome))
                else:
                    accepted += 1
        except ConnectionLost as lost:
            done = Puts(accepted, tuple(refused))
            raise PutsLost(str(lost), done, tuple(under_way)) from lost
        return Puts(accepted, tuple(refused))

    def beat(self, stream: str, at: int) -> None:
        """Says that no more rows come up to an instant, which counts."""
        self.call({"do": "beat", "stream": stream, "at": at})

    def query(self, name: str, text: str) -> int:
        """Registers a query and gives its base, its first instant."""
        try:
            reply = self.call({"do": "query", "name": name, "text": text})
        except BadQuery as refusal:
            refusal.text = text
            raise
        return self._read(base_of, reply)

    def fetch(self, query: str, until: Optional[int] = None) -> Answer:
        """The blocks from the query's cursor on, below `until` where it is given."""
        command: Dict[str, object] = {"do": "fetch", "name": query}
        if until is not None:
            command["until"] = until
        return self._read(answer_of, self.call(command))

    def ack(self, query: str, to: int) -> None:
        """Acknowledges all instants below `to`, which becomes the query's cursor."""
        self.call({"do": "ack", "name": query, "to": to})

    def drop(self, query: str) -> None:
        """Drops a query; its name is free again."""
        self.call({"do": "drop", "name": query})

    def list(self) -> Listing:
        """The tenant's queries and streams."""
        return self._read(listing_of, self.call({"do": "list"}))

    # Following a query.

    def answers(
        self,
        query: str,
        *,
        since: Optional[int] = None,
        span: Optional[int] = None,
        poll: float = 0.5,
        patience: Optional[float] = 60.0,
    ) -> Generator[Answer, None, None]:
        """One answer after another, without an end, each of instants that none before it told of.

        An answer is acknowledged when the next one is asked for, and so counts as taken; one that
        the loop breaks off at isn't. Where nothing more is final it is asked anew after `poll`
        seconds. With `span` an answer tells of at most so many instants.

        It begins at the query's cursor, or at `since`: what is below that is acknowledged first.
        After a lost connection it goes on behind what was taken, also on a server that was started
        anew and on which the query was made and fed again. It waits for that, and with `since` for
        the query at its beginning, up to `patience` seconds (None: without an end); then the last
        ConnectionLost, UnknownQuery or Ahead is raised. Behind: more was acknowledged by another,
        or the query was made anew and begins later. Overrun: rows were lost; see `drop`.
        """
        offset = self._cursor(query) if since is None else since
        is_there = since is None
        trouble = Trouble(patience, self._notice)
        while True:
            try:
                if not is_there:
                    self._return_to(query, offset)
                    is_there = True
                answer = self.fetch(query, None if span is None else offset + span)
            except (ConnectionLost, UnknownQuery, Ahead) as error:
                if trouble.is_too_long(error, poll) or is_there and isinstance(error, Refused):
                    raise
                is_there = False
                time.sleep(poll)
                continue
            trouble.is_over()
            if answer.next <= offset:
                time.sleep(poll)
                continue
            yield answer
            offset = answer.next
            try:
                self.ack(query, offset)
            except ConnectionLost:
                is_there = False

    def follow(
        self,
        query: str,
        *,
        since: Optional[int] = None,
        span: Optional[int] = None,
        poll: float = 0.5,
        patience: Optional[float] = 60.0,
    ) -> Generator[Block, None, None]:
        """The blocks of `answers`, as soon as they are final.

        A block that is cut where an answer ends comes in two; `WholeBlocks` joins them. What is
        acknowledged is whole answers: those all of whose blocks were taken.
        """
        answers = self.answers(query, since=since, span=span, poll=poll, patience=patience)
        for answer in answers:
            yield from answer.blocks

    def _return_to(self, query: str, offset: int) -> None:
        """Sets the query's cursor, with a new connection where that is needed."""
        if not self.is_open:
            self.connect()
        self.ack(query, offset)

    def _cursor(self, query: str) -> int:
        for it in self.list().queries:
            if it.name == query:
                return it.next
        raise UnknownQuery()

    # Replies.

    def _free_connection(self) -> Connection:
        """The connection, where no reply is awaited over it."""
        if self._connection is None or not self._connection.is_open:
            raise ConnectionLost("the session is closed")
        if self._connection.owed:
            raise RuntimeError("the replies to earlier lines are still awaited")
        return self._connection

    def _outcome(self, reply: bytes) -> Union[Reply, Refused]:
        if reply == _ACCEPTED:
            return {"ok": True}
        told = self._read(object_of, reply)
        return self._read(Refused.of, told) if "refused" in told else told

    def _read(self, how: Callable[[Any], T], told: Any) -> T:
        """What a reply says; where it can't be read, no more is read of this connection."""
        try:
            return read(how, told)
        except BadReply:
            self.close()
            raise
