"""The log's store: keys of an etcd of several members, over its gateway of JSON.

The members agree on what is written (etcd's own Raft): what was answered is on the disks of most of
them. A member that is gone, paused or cut off is passed over, and the next one is asked.
"""
import base64
import http.client
import json
import time
from dataclasses import dataclass
from typing import Any, Callable, Dict, Iterable, List, Optional, Sequence, Tuple

SECONDS = 2.0
"""For how long one member is waited for."""

PAUSE = 0.1
"""Seconds between two rounds over all members."""

Operation = Dict[str, Any]


class Taken(Exception):
    """Somebody else has written a key meanwhile."""


@dataclass(frozen=True)
class Kept:
    """What a key has, and the revision at which it was written; 0 of a key that isn't there."""

    key: str
    value: Optional[str]
    revision: int


def _coded(text: str) -> str:
    return base64.b64encode(text.encode()).decode()


def _kept(told: Dict[str, str]) -> Kept:
    key, value = (base64.b64decode(told.get(it, "")).decode() for it in ("key", "value"))
    return Kept(key, value, int(told["mod_revision"]))


def put_of(key: str, value: str) -> Operation:
    return {"request_put": {"key": _coded(key), "value": _coded(value)}}


def delete_of(key: str) -> Operation:
    """Takes a key away."""
    return {"request_delete_range": {"key": _coded(key)}}


def range_of(start: str, end: str = "", limit: int = 0) -> Operation:
    """The keys from one on, below another, in order; or one key alone."""
    return {
        "request_range": {"key": _coded(start), "range_end": _coded(end), "limit": str(limit)}
    }


def below(prefix: str) -> Operation:
    """All keys that begin so, with a prefix that ends in a slash."""
    return range_of(prefix, prefix[:-1] + "0")


def _compare(kept: Kept) -> Operation:
    """That a key is as it was."""
    revision = str(kept.revision)
    return {"key": _coded(kept.key), "target": "MOD", "mod_revision": revision, "result": "EQUAL"}


class Store:
    """The members of an etcd on this machine, by their ports."""

    def __init__(self, ports: Sequence[int], say: Callable[[str], None]) -> None:
        self._ports = list(ports)
        self._say = say
        self._connection: Optional[http.client.HTTPConnection] = None

    def _ask(self, body: bytes) -> Any:
        """What the first member answers; the next call goes to the next one where it doesn't."""
        try:
            if self._connection is None:
                port = self._ports[0]
                self._connection = http.client.HTTPConnection("127.0.0.1", port, timeout=SECONDS)
            self._connection.request("POST", "/v3/kv/txn", body)
            answer = self._connection.getresponse()
            text = answer.read()
            if answer.status != 200:
                raise ConnectionError(f"status {answer.status}: {text!r:.200}")
            return json.loads(text)
        except (OSError, http.client.HTTPException, ValueError):
            self.close()
            self._ports.append(self._ports.pop(0))
            raise

    def close(self) -> None:
        if self._connection is not None:
            self._connection.close()
            self._connection = None

    def transaction(
        self,
        then: Sequence[Operation],
        otherwise: Sequence[Operation] = (),
        unchanged: Sequence[Kept] = (),
    ) -> Tuple[bool, List[Any]]:
        """Does all of `then` where these keys are unchanged, else all of `otherwise`; tells which,
        with the answers. A member that doesn't answer may have done it: it is asked once more."""
        compared = [*map(_compare, unchanged)]
        asked = {"compare": compared, "success": [*then], "failure": [*otherwise]}
        body = json.dumps(asked).encode()
        end = time.monotonic() + 2.5
        while True:
            for _ in self._ports:
                try:
                    told = self._ask(body)
                    return told.get("succeeded", False), told.get("responses", [])
                except (OSError, http.client.HTTPException, ValueError) as error:
                    last = error
            if time.monotonic() > end:
                self._say(f"waiting: no member of the log answers: {last}")
                end = float("inf")
            time.sleep(PAUSE)

    def ranges(self, asked: Sequence[Operation]) -> List[List[Kept]]:
        """What several ranges have, all at one revision."""
        if not asked:
            return []
        _, told = self.transaction(asked)
        return [[_kept(it) for it in one["response_range"].get("kvs", [])] for one in told]

    def get(self, key: str) -> Kept:
        found = self.ranges([range_of(key)])[0]
        return found[0] if found else Kept(key, None, 0)

    def swap(
        self, kept: Kept, value: str, more: Iterable[Operation] = (), also: Iterable[Kept] = ()
    ) -> Kept:
        """Writes a key that is as it was, as these others are, and with it all else; or nothing, and
        raises Taken. Where it has the value already, an earlier try was done to which no answer
        came: so a key is given a value that it had not."""
        puts = [put_of(kept.key, value), *more]
        is_done, told = self.transaction(puts, [range_of(kept.key)], [kept, *also])
        if is_done:
            return Kept(kept.key, value, int(told[0]["response_put"]["header"]["revision"]))
        found = [_kept(it) for it in told[0]["response_range"].get("kvs", [])]
        if not found or found[0].value != value:
            raise Taken(kept.key)
        return found[0]
