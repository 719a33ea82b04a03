"""The program: `python3 -m romburik`."""
import argparse
import getpass
import io
import os
import signal
import sys
import time
from typing import NoReturn, Optional, Sequence

from .calling import add_words, check_words, port_of, session_of
from .errors import BadReply, ConnectionLost, Error, Refused
from .owning import Copies
from .prompt import send_typed
from .session import Session
from .terminal import (
    AT_FAULT,
    DONE,
    INTERRUPTED,
    NO_CONNECTION,
    REFUSED,
    WRONG_LOGIN,
    AtFault,
    follow,
    send_file,
    send_piped,
    send_script,
)
from .watch import watch

STATUSES = """\
what may stand behind the words:
  watch QUERY   shows the query's newest state as it changes, and acknowledges nothing
  page          serves a page of the tenant's queries with their plots to a browser of this
                machine, and acknowledges nothing
  put STREAM    puts the rows of a file of comma-separated values, as --csv and --at say

The key is taken from --key-file, else from the environment variable CQL_KEY, else it is asked for
and not shown.

statuses:
  0    all was done and nothing refused; at a terminal, the lines typed came to their end
  1    a line was refused, or what --follow asks for
  2    a word, the key, a file, the output or the page's port is at fault
  3    the login was refused
  4    there was no connection, or it was lost
  130  it was interrupted
"""


VERSION = "0.1.0"


class _LoginRefused(Error):
    pass


def _key(given: argparse.Namespace) -> str:
    """The tenant's key, which is never among the words."""
    try:
        if given.key_file is not None:
            with open(given.key_file, encoding="utf-8") as file:
                return file.readline().rstrip("\r\n")
        return os.environ.get("CQL_KEY") or getpass.getpass(f"key of {given.tenant}: ")
    except (EOFError, UnicodeDecodeError) as error:
        raise AtFault("there is no key that is a text") from error


def _say(text: str) -> None:
    print(f"romburik: {text}", file=sys.stderr, flush=True)


def _session(given: argparse.Namespace, tenant: str, key: str) -> Session:
    try:
        return session_of(given, tenant, key, _say, timeout=given.timeout)
    except Refused as refusal:
        raise _LoginRefused(f"the login is refused: {refusal}") from refusal
    except UnicodeEncodeError as error:
        raise AtFault("the tenant's name or key is no text") from error


def _interrupt(*_: object) -> NoReturn:
    """Ends as by Ctrl-C, so that what was made is dropped."""
    raise KeyboardInterrupt


def _run(given: argparse.Namespace) -> int:
    if given.script is not None:
        return send_script(
            lambda tenant, key: _session(given, tenant, key), given.table, given.script
        )
    with _session(given, given.tenant, _key(given)) as session:
        if given.view[:1] in (["watch"], ["page"]):
            for one in (signal.SIGTERM, signal.SIGHUP):
                signal.signal(one, _interrupt)
        if given.view[:1] == ["watch"]:
            watch(session, given.view[1], {}, given.table, given.copies)
        if given.view == ["page"]:
            _serve(session, given)
        if given.view[:1] == ["put"]:
            return _put(session, given)
        if given.ping:
            return _ping(session)
        if given.follow is not None:
            return follow(session, given.table, given.follow)
        if given.file is not None:
            return send_file(session, given.table, given.file, given.quiet)
        if sys.stdin.isatty():
            return send_typed(session, given.table)
        return send_piped(session, given.table, given.quiet)


# What few runs need is imported by those alone, since a terminal is to be there at once.


def _serve(session: Session, given: argparse.Namespace) -> None:
    from .page import Site, serve

    serve(session, Site(given.listen, given.epoch, given.token_file, given.copies))


def _put(session: Session, given: argparse.Namespace) -> int:
    from .bulk import Source, put_file

    source = Source(
        given.csv,
        given.at,
        given.columns.split(",") if given.columns else None,
        given.text,
        given.epoch or "s",
        given.beat,
    )
    done = put_file(session, given.view[1], source, _say)
    print(f"{done.accepted} rows were put, {done.refused} refused", flush=True)
    return REFUSED if done.refused else DONE


def _ping(session: Session) -> int:
    """Tells that the server is there and takes this tenant."""
    started = time.monotonic()
    session.list()
    print(f"{session.tenant} is answered in {1e3 * (time.monotonic() - started):.1f} ms")
    return DONE


def _any_port(word: str) -> int:
    return 0 if word == "0" else port_of(word)


def _seconds(word: str) -> float:
    seconds = float(word)
    if not 0 < seconds < 1e9:
        raise ValueError("no time to wait")
    return seconds


def _parser() -> argparse.ArgumentParser:
    parser = argparse.ArgumentParser(
        prog="python3 -m romburik",
        description="Sends lines to a cqld as a tenant: of a file, of standard input, or typed.",
        epilog=STATUSES,
        formatter_class=argparse.RawDescriptionHelpFormatter,
        # else --key would be taken for --key-file, and a key for a file's name
        allow_abbrev=False,
    )
    parser.add_argument(
        "view",
        nargs="*",
        metavar="watch QUERY | page | put STREAM",
        help="what is shown, without being taken, or put",
    )
    parser.add_argument("--version", action="version", version=f"romburik {VERSION}")
    parser.add_argument("--tenant", help="who logs in; asked for but with --script")
    add_words(parser)
    parser.add_argument("--key-file", metavar="FILE", help="a file whose first line is the key")
    parser.add_argument(
        "--timeout", type=_seconds, default=60.0, help="seconds to wait for the server (60)"
    )
    what = parser.add_mutually_exclusive_group()
    what.add_argument("--file", metavar="FILE", help="lines to send; -: those of standard input")
    what.add_argument(
        "--script",
        metavar="FILE",
        help="a script of cqlrun, whose first line has the tenants and their keys, to send",
    )
    what.add_argument(
        "--follow",
        metavar="QUERY",
        help="takes its blocks: shows them as they come and ACKNOWLEDGES them, so that no other "
        "consumer is told them; watch acknowledges nothing",
    )
    what.add_argument("--ping", action="store_true", help="tells whether the server answers")
    parser.add_argument(
        "--quiet", action="store_true", help="tells no lines that are sent, and no plain ok"
    )
    _add_words_of_views(parser)
    _add_words_of_put(parser)
    return parser


def _add_words_of_views(parser: argparse.ArgumentParser) -> None:
    parser.add_argument("--table", action="store_true", help="blocks and lists as aligned columns")
    copies = parser.add_mutually_exclusive_group()
    copies.add_argument(
        "--own",
        dest="copies",
        action="store_const",
        const=Copies.ALWAYS,
        help="watch and page look at a copy of the query, which is dropped at the end: they see all "
        "from then on, and acknowledge it (where neither word stands: beside a consumer, where the "
        "tenant has a query to spare)",
    )
    copies.add_argument(
        "--shared",
        dest="copies",
        action="store_const",
        const=Copies.NEVER,
        help="watch and page look at the query itself alone",
    )
    parser.add_argument(
        "--listen", type=_any_port, help="the page's port of 127.0.0.1 (8000; 0: any that is free)"
    )
    parser.add_argument(
        "--epoch",
        choices=("s", "ms"),
        help="instants are seconds or milliseconds since 1970: the page shows times of day, and put "
        "takes dates and times",
    )
    parser.add_argument(
        "--token-file",
        metavar="FILE",
        help="keeps the random part of the page's address, which then stays over new starts",
    )


def _add_words_of_put(parser: argparse.ArgumentParser) -> None:
    rows = parser.add_argument_group("put STREAM")
    rows.add_argument("--csv", metavar="FILE", help="the rows, below a line of the columns' names")
    rows.add_argument(
        "--at", metavar="COLUMN", help="the column of the instants, which the rows don't have"
    )
    rows.add_argument("--columns", metavar="A,B,..", help="the rows' columns (all others)")
    rows.add_argument(
        "--text",
        metavar="COLUMN",
        action="append",
        default=[],
        help="a column of texts, also where its first value is a number",
    )
    rows.add_argument(
        "--beat", action="store_true", help="says at the end that no more rows come up to there"
    )


def _given(words: Optional[Sequence[str]]) -> argparse.Namespace:
    """The words, where they go together."""
    parser = _parser()
    given = parser.parse_intermixed_args(words)
    check_words(parser, given)
    is_page = given.view == ["page"]
    is_watch = given.view[:1] == ["watch"] and len(given.view) == 2
    is_put = given.view[:1] == ["put"] and len(given.view) == 2
    if given.view and not (is_page or is_watch or is_put):
        parser.error("behind the words stands nothing, watch QUERY, page, or put STREAM")
    if is_put != (given.csv is not None) or is_put != (given.at is not None):
        parser.error("put STREAM takes --csv and --at, and nothing else does")
    if given.view and (given.file or given.follow or given.script or given.ping):
        parser.error("watch, page and put go with no --file, --script, --follow or --ping")
    if not is_page and (given.listen is not None or given.token_file):
        parser.error("--listen and --token-file go with page")
    if given.epoch and not (is_page or is_put):
        parser.error("--epoch goes with page and put")
    if given.script is not None and (given.tenant is not None or given.key_file is not None):
        parser.error("--script has its tenants and keys, and goes with no --tenant or --key-file")
    if given.script is None and given.tenant is None:
        parser.error("--tenant is needed")
    if given.copies is not None and not (is_page or is_watch):
        parser.error("--own and --shared go with watch and page")
    given.copies = given.copies or Copies.WHERE_NEEDED
    given.listen = 8000 if given.listen is None else given.listen
    return given


def main(words: Optional[Sequence[str]] = None) -> int:
    """Runs the program and gives its status."""
    given = _given(words)
    if isinstance(sys.stdout, io.TextIOWrapper):
        sys.stdout.reconfigure(errors="backslashreplace")
    try:
        return _run(given)
    except KeyboardInterrupt:
        return INTERRUPTED
    except OSError as error:
        # what is still to be written can't be, and the end of the program would try it
        os.dup2(os.open(os.devnull, os.O_WRONLY), 1)
        why, status = str(error), AT_FAULT
    except Error as error:
        why, status = str(error), _status(error)
    _say(why)
    return status


def _status(error: Error) -> int:
    if isinstance(error, Refused):
        return REFUSED
    if isinstance(error, _LoginRefused):
        return WRONG_LOGIN
    return NO_CONNECTION if isinstance(error, (ConnectionLost, BadReply)) else AT_FAULT


if __name__ == "__main__":
    sys.exit(main())
