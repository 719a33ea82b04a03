"""What can go wrong."""
from typing import Any, ClassVar, Dict, Mapping, Optional, Type

from .reasons import place, reason


class Error(Exception):
    """What this module raises, but for ValueError, TypeError and RuntimeError of a wrong call."""


class ConnectionLost(Error):
    """There is no connection, it broke off, or the server was silent for longer than the timeout.

    The session is closed. A command whose reply didn't arrive may have had its effect.
    """


class BadReply(Error):
    """A reply that isn't one of a cqld. The session is closed."""


class InTheClear(Error):
    """The server is on another machine and the connection isn't encrypted: the key isn't sent."""

    def __init__(self, host: str) -> None:
        super().__init__(
            f"the key isn't sent in the clear to {host}, which is another machine: encrypt it by "
            "TLS, or say that it may be so (--insecure)"
        )


class LineTooLong(Error, ValueError):
    """A command whose line has more than 65,536 bytes. It wasn't sent."""


class Refused(Error):
    """A command that the server refused, and that changed nothing.

    Each refusal that this module knows is a subclass; one of a later server is a `Refused` itself.
    `why` names the word that is at fault, and `at` the byte of a query's text at which it stands,
    where the session knows them: of a key, a row, or a name in a query's text.
    """

    number: int = 0
    name: str = ""
    meaning: str = "this client doesn't know the number"
    why: Optional[str] = None
    at: Optional[int] = None

    _by_number: ClassVar[Dict[int, Type["Refused"]]] = {}

    def __init_subclass__(cls, **words: Any) -> None:
        super().__init_subclass__(**words)
        if "number" in vars(cls):
            cls.name = cls.__name__
            cls._by_number[cls.number] = cls

    def __str__(self) -> str:
        return f"{self.number} {self.name}: {self.why or self.meaning}"

    @classmethod
    def of(cls, reply: Mapping[str, Any]) -> "Refused":
        """The refusal that a reply tells."""
        refusal = cls._by_number.get(reply["refused"], Refused)()
        refusal.number, refusal.name = reply["refused"], reply["name"]
        if isinstance(refusal, BadQuery):
            refusal.at = reply["at"]
        return refusal


class BadLine(Refused):
    number, meaning = 10, "the line is no JSON object, or has more than 65,536 bytes"


class BadCommand(Refused):
    number, meaning = 11, "the key `do` is missing or names no command"


class BadKey(Refused):
    number, meaning = 12, "a key is missing, unknown or of another kind"


class WrongKey(Refused):
    number, meaning = 13, "the tenant is unknown, or the key is another"


class StreamExists(Refused):
    number, meaning = 20, "there is a stream of that name"


class BadName(Refused):
    number, meaning = 21, "the new name is no name, or a reserved word"


class BadColumns(Refused):
    number = 22
    meaning = "no column or more than 16, a name that is none, two equal names, or an unknown type"


class TooManyStreams(Refused):
    number, meaning = 23, "the quota of streams is used up"


class UnknownStream(Refused):
    number, meaning = 30, "there is no such stream, or none that the tenant may use so"


class UnknownTenant(Refused):
    number, meaning = 31, "there is no such tenant"


class AlreadyGranted(Refused):
    number, meaning = 32, "the stream was granted to that tenant before"


class SelfGrant(Refused):
    number, meaning = 33, "the stream is the tenant's own"


class BadGrantColumns(Refused):
    number, meaning = 34, "no column, a name that is none of the stream's, or one twice"


class NotGranted(Refused):
    number, meaning = 35, "the stream isn't granted to that tenant"


class WrongRow(Refused):
    number, meaning = 40, "other values than the stream's columns ask for"


class Late(Refused):
    number, meaning = 41, "the time is below the least that the stream still takes"


class AtTooLarge(Refused):
    number, meaning = 42, "the time is above 4611686018427387903"


class BadQuery(Refused):
    """`at` is the first byte of the text, as UTF-8, at which it can't be a query. `text` is the
    text, where the caller of `query` is told; `reason` is why, in words, where that is known."""

    number, meaning = 50, "the text is no query from the byte `at` on"
    at: int = 0
    text: Optional[str] = None

    @property
    def reason(self) -> Optional[str]:
        return None if self.text is None else reason(self.text, self.at)

    def __str__(self) -> str:
        where = f"byte {self.at}" if self.text is None else place(self.text, self.at)
        why = f"the text is no query from {where} on"
        return f"{self.number} {self.name}: {why}" + (f": {self.reason}" if self.reason else "")


class UnknownColumn(Refused):
    number, meaning = 52, "no input has the column"


class AmbiguousColumn(Refused):
    number, meaning = 53, "more than one input has the column, or two inputs have one alias"


class TypeMismatch(Refused):
    number = 54
    meaning = "a number in a text's place or the other way round, or columns that don't fit"


class TooManyQueries(Refused):
    number, meaning = 55, "the quota of queries is used up"


class QueryExists(Refused):
    number, meaning = 56, "there is a query of that name"


class UnknownQuery(Refused):
    number, meaning = 57, "there is no query of that name"


class Overrun(Refused):
    number = 60
    meaning = "a window had more rows to hold than the quota; drop the query and register it anew"


class Ahead(Refused):
    number = 61
    meaning = "the query isn't final so far; a fetch tells how far it is as `next`"


class Behind(Refused):
    number, meaning = 62, "it is below what was acknowledged"


class Revoked(Refused):
    number = 63
    meaning = "the grant of one of its streams was taken back; the query can only be dropped"


class NoMemory(Refused):
    number, meaning = 70, "the server had no memory for it"
