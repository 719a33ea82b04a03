"""Sessions with a cqld, and a terminal for one: `python3 -m romburik`.

    import os, romburik

    with romburik.Session(port=7000, tenant="a", key=os.environ["CQL_KEY"]) as session:
        session.stream("s", {"v": "int"})
        session.query("q", "Select Istream(*) From s [Range 2]")
        session.put("s", 5, [1])
        session.beat("s", 8)
        for block in session.fetch("q").blocks:
            print(block.line())

Instants are whole numbers from 0 to 2^62 - 1. A command that the server refuses raises a subclass
of `Refused` and has changed nothing. A connection that can't be had, or is lost, raises
`ConnectionLost`. A session isn't for several threads at once; a tenant may have several sessions.
"""
from .errors import (
    Ahead,
    AlreadyGranted,
    AmbiguousColumn,
    AtTooLarge,
    BadColumns,
    BadCommand,
    BadGrantColumns,
    BadKey,
    BadLine,
    BadName,
    BadQuery,
    BadReply,
    Behind,
    ConnectionLost,
    Error,
    InTheClear,
    Late,
    LineTooLong,
    NoMemory,
    NotGranted,
    Overrun,
    QueryExists,
    Refused,
    Revoked,
    SelfGrant,
    StreamExists,
    TooManyQueries,
    TooManyStreams,
    TypeMismatch,
    UnknownColumn,
    UnknownQuery,
    UnknownStream,
    UnknownTenant,
    WrongKey,
    WrongRow,
)
from .lines import LONGEST_LINE, Command, Tls, is_blank, line_of
from .looking import Look, Looker
from .owning import ChoosingLooker, Copies, OwnLooker
from .session import WINDOW, Session, Trouble
from .told import (
    Answer,
    Block,
    Changes,
    Fault,
    Listing,
    Puts,
    PutsLost,
    Query,
    RefusedPut,
    Row,
    Rows,
    Stream,
    Value,
    WholeBlocks,
)

__all__ = [
    "Ahead",
    "AlreadyGranted",
    "AmbiguousColumn",
    "Answer",
    "AtTooLarge",
    "BadColumns",
    "BadCommand",
    "BadGrantColumns",
    "BadKey",
    "BadLine",
    "BadName",
    "BadQuery",
    "BadReply",
    "Behind",
    "Block",
    "Changes",
    "ChoosingLooker",
    "Command",
    "ConnectionLost",
    "Copies",
    "Error",
    "Fault",
    "InTheClear",
    "LONGEST_LINE",
    "Late",
    "LineTooLong",
    "Look",
    "Looker",
    "Listing",
    "NoMemory",
    "NotGranted",
    "Overrun",
    "OwnLooker",
    "Puts",
    "PutsLost",
    "Query",
    "QueryExists",
    "Refused",
    "RefusedPut",
    "Revoked",
    "Row",
    "Rows",
    "SelfGrant",
    "Session",
    "Stream",
    "StreamExists",
    "Tls",
    "TooManyQueries",
    "TooManyStreams",
    "Trouble",
    "TypeMismatch",
    "UnknownColumn",
    "UnknownQuery",
    "UnknownStream",
    "UnknownTenant",
    "Value",
    "WINDOW",
    "WholeBlocks",
    "WrongKey",
    "WrongRow",
    "is_blank",
    "line_of",
]
