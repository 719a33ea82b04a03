"""The words by which a program is told where its server is, and the session that they give."""
import argparse
import os
import time
from typing import Any, Callable, Dict, Optional, Tuple, Type

from .errors import ConnectionLost
from .lines import Tls
from .session import Session, Trouble


def port_of(word: str) -> int:
    port = int(word)
    if not 0 < port < 1 << 16:
        raise ValueError("no port")
    return port


# The words by which a program is told where its server is.
WORDS: Dict[str, Dict[str, Any]] = {
    "--port": {"type": port_of, "required": True},
    "--host": {"default": "127.0.0.1", "help": "its machine (127.0.0.1)"},
    "--tls": {"action": "store_true", "help": "all is encrypted"},
    "--ca": {
        "metavar": "FILE",
        "help": "who vouches for the server's certificate, in place of the system",
    },
    "--tls-name": {
        "metavar": "NAME",
        "help": "the name that is asked for, in place of the machine's",
    },
    "--cert": {"metavar": "FILE", "help": "a certificate that is shown to the server"},
    "--cert-key": {"metavar": "FILE", "help": "the key of that certificate"},
    "--insecure": {
        "action": "store_true",
        "help": "sends the tenant's key in the clear also to another machine",
    },
}


def add_words(parser: argparse.ArgumentParser) -> None:
    """Adds the words to a program's."""
    where = parser.add_argument_group("where the server is")
    for word, settings in WORDS.items():
        where.add_argument(word, **settings)


def parser_of(description: str) -> argparse.ArgumentParser:
    """The parser of a program that logs in as a tenant."""
    parser = argparse.ArgumentParser(description=description)
    add_words(parser)
    parser.add_argument("--tenant", required=True)
    return parser


def check_words(parser: argparse.ArgumentParser, given: argparse.Namespace) -> None:
    """Ends where the words don't go together."""
    if not given.tls and (given.ca or given.tls_name or given.cert or given.cert_key):
        parser.error("--ca, --tls-name, --cert and --cert-key go with --tls")
    if given.cert_key and not given.cert:
        parser.error("--cert-key goes with --cert")
    if given.tls and given.insecure:
        parser.error("--insecure goes without --tls")


def key_of(parser: argparse.ArgumentParser) -> str:
    """The tenant's key, by the environment variable CQL_KEY. Ends where that isn't set."""
    if "CQL_KEY" not in os.environ:
        parser.error("CQL_KEY isn't set")
    return os.environ["CQL_KEY"]


def tls_of(given: argparse.Namespace) -> Optional[Tls]:
    return Tls(given.ca, given.cert, given.cert_key, given.tls_name) if given.tls else None


def session_of(
    given: argparse.Namespace, tenant: str, key: str, notice: Callable[[str], None], **more: float
) -> Session:
    """A session with the server that the words name."""
    return Session(
        host=given.host,
        port=given.port,
        tenant=tenant,
        key=key,
        notice=notice,
        tls=tls_of(given),
        insecure=given.insecure,
        **more,
    )


def serve_for_ever(
    given: argparse.Namespace,
    key: str,
    notice: Callable[[str], None],
    serve: Callable[[Session, Trouble], None],
    lost: Tuple[Type[Exception], ...] = (ConnectionLost,),
) -> None:
    """Serves one server after another, each by a session of its own, as long as they are lost so. The words
    have `tenant` and `poll`, the seconds until the next one."""
    trouble = Trouble(None, notice)
    while True:
        try:
            with session_of(given, given.tenant, key, notice) as session:
                serve(session, trouble)
        except lost as error:
            trouble.is_too_long(error, given.poll)
        time.sleep(given.poll)
