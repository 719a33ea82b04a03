"""Lines of commands, and a connection that they go over."""
import contextlib
import ipaddress
import selectors
import socket
import ssl
import time
from dataclasses import dataclass
from typing import Iterable, Mapping, Optional

from .errors import ConnectionLost, InTheClear, LineTooLong
from .told import Value, encoded

LONGEST_LINE = 65_536
"""How many bytes a line may have before its line feed."""

_CHUNK = 1 << 16
_LATER = BlockingIOError, ssl.SSLWantReadError, ssl.SSLWantWriteError
"""What a call that doesn't wait raises where it would have to."""

Command = Mapping[str, object]


def put_of(stream: str, at: int, row: Iterable[Value]) -> Command:
    return {"do": "put", "stream": stream, "at": at, "row": [*row]}


def line_of(command: Command) -> bytes:
    """The line of a command, without its line feed. ValueError where it has none: for a float that
    is no number, a text that isn't Unicode, or more than 65,536 bytes (LineTooLong)."""
    return checked(encoded(command).encode())


def is_blank(line: bytes) -> bool:
    """Whether the server passes over a line without a reply."""
    return len(line) <= LONGEST_LINE and not line.strip(b" \t\r")


def checked(line: bytes) -> bytes:
    """A line that gets exactly one reply."""
    if len(line) > LONGEST_LINE:
        raise LineTooLong(f"the line has {len(line)} bytes; {LONGEST_LINE} are allowed")
    if b"\n" in line or is_blank(line):
        raise ValueError("this isn't one line that has a reply")
    return line


@dataclass(frozen=True)
class Tls:
    """How a connection is encrypted. The server shows a certificate that `ca`, a file of authorities,
    else the system's authorities vouch for. It is for the name that is asked for, `name`, else the
    host's; a proxy may go by it. `cert` and `key` are files of what this side shows, where the server
    asks for it."""

    ca: Optional[str] = None
    cert: Optional[str] = None
    key: Optional[str] = None
    name: Optional[str] = None

    def context(self) -> ssl.SSLContext:
        context = ssl.create_default_context(cafile=self.ca)
        if self.cert is not None:
            context.load_cert_chain(self.cert, self.key)
        return context


@dataclass(frozen=True)
class Address:
    """Where a server is, and how it is reached. A login goes in the clear to this machine alone,
    unless `insecure` lets it go anywhere."""

    host: str
    port: int
    tls: Optional[Tls] = None
    insecure: bool = False


def leaves_machine(own: str, peer: str) -> bool:
    """Whether a connection between two addresses leaves this machine."""
    address = ipaddress.ip_address(peer.partition("%")[0])
    mapped = getattr(address, "ipv4_mapped", None)
    return own != peer and not (mapped or address).is_loopback


def _connected(address: Address, timeout: Optional[float]) -> socket.socket:
    """A socket that is connected, and whose calls don't wait."""
    made = socket.create_connection((address.host, address.port), timeout)
    try:
        # the system may connect a port that nobody listens to with itself
        if made.getsockname() == made.getpeername():
            raise ConnectionRefusedError("nobody listens")
        made.setsockopt(socket.IPPROTO_TCP, socket.TCP_NODELAY, 1)
        if address.tls:
            name = address.tls.name or address.host
            made = address.tls.context().wrap_socket(made, server_hostname=name)
        elif not address.insecure and leaves_machine(made.getsockname()[0], made.getpeername()[0]):
            raise InTheClear(address.host)
        made.setblocking(False)
    except BaseException:
        made.close()
        raise
    return made


class Connection:
    """Lines over a socket, which are sent and received at the same time: a server that waits until
    its replies are read, and a client that waits until its lines are, would wait for ever."""

    def __init__(self, address: Address, timeout: Optional[float]) -> None:
        self.timeout = timeout
        self.owed = 0
        self.is_open = True
        self._unsent = bytearray()
        self._unread = bytearray()
        try:
            self._socket = _connected(address, timeout)
        except (OSError, UnicodeError) as error:
            where = f"{address.host} at port {address.port}"
            raise ConnectionLost(f"no connection to {where}: {error}") from error
        self._selector = selectors.DefaultSelector()
        self._selector.register(self._socket, selectors.EVENT_READ)

    def close(self) -> None:
        if self.is_open:
            self.is_open = False
            self.owed = 0
            self._selector.close()
            self._socket.close()

    def send(self, line: bytes) -> None:
        """Takes a line, which goes out with those behind it, or while a reply is awaited."""
        self._unsent += line
        self._unsent += b"\n"
        self.owed += 1
        if len(self._unsent) < _CHUNK:
            return
        try:
            self._write()
        except BaseException as error:
            raise self._broken(error)

    def send_many(self, lines: bytes, count: int) -> None:
        """Takes so many lines with their line feeds, as `send` does."""
        self._unsent += lines
        self.owed += count
        try:
            self._write()
        except BaseException as error:
            raise self._broken(error)

    def receive_many(self, count: int) -> bytes:
        """The next so many replies, with their line feeds."""
        if count == 0:
            return b""
        there, looked = 0, 0
        try:
            while True:
                there += self._unread.count(b"\n", looked)
                looked = len(self._unread)
                if there >= count:
                    break
                if not self._exchange(self.timeout):
                    raise ConnectionLost(f"nothing came for {self.timeout} seconds")
        except BaseException as error:
            raise self._broken(error)
        end = looked
        for _ in range(there - count + 1):
            end = self._unread.rfind(b"\n", 0, end)
        replies = bytes(self._unread[: end + 1])
        del self._unread[: end + 1]
        self.owed -= count
        return replies

    def receive(self) -> bytes:
        """The next reply, without its line feed."""
        looked = 0
        try:
            while (end := self._unread.find(b"\n", looked)) < 0:
                looked = len(self._unread)
                if not self._exchange(self.timeout):
                    raise ConnectionLost(f"nothing came for {self.timeout} seconds")
        except BaseException as error:
            raise self._broken(error)
        reply = bytes(self._unread[:end])
        del self._unread[: end + 1]
        self.owed -= 1
        return reply

    def has_reply(self, seconds: float) -> bool:
        """Whether a reply is there within so many seconds."""
        end = time.monotonic() + seconds
        try:
            while b"\n" not in self._unread:
                left = end - time.monotonic()
                if left <= 0 or not self._exchange(left):
                    return False
        except BaseException as error:
            raise self._broken(error)
        return True

    def _exchange(self, seconds: Optional[float]) -> bool:
        """Waits until something can be read or written, and does it; False where nothing can."""
        if isinstance(self._socket, ssl.SSLSocket) and self._socket.pending():
            self._read()
            return True
        wanted = selectors.EVENT_READ | (selectors.EVENT_WRITE if self._unsent else 0)
        self._selector.modify(self._socket, wanted)
        ready = self._selector.select(seconds)
        if not ready:
            return False
        if ready[0][1] & selectors.EVENT_WRITE:
            self._write()
        if ready[0][1] & selectors.EVENT_READ:
            self._read()
        return True

    def _read(self) -> None:
        with contextlib.suppress(*_LATER):
            received = self._socket.recv(_CHUNK)
            if not received:
                raise ConnectionLost("the connection broke off")
            self._unread += received

    def _write(self) -> None:
        with contextlib.suppress(*_LATER):
            while self._unsent:
                sent = self._socket.send(self._unsent[:_CHUNK])
                del self._unsent[:sent]

    def _broken(self, error: BaseException) -> BaseException:
        """Closes the connection, whose next reply may be another call's, and tells why."""
        self.close()
        if isinstance(error, OSError):
            lost = ConnectionLost(f"the connection broke off: {error}")
            lost.__cause__ = error
            return lost
        return error
