"""A page for a browser of this machine: a tenant's streams and queries, and the tables and plots of
those that are chosen, live. The key stays here, only GET is served, on 127.0.0.1 alone, and only to
who knows the page's token, which stands in its address.
"""
import hmac
import json
import os
import pathlib
import re
import secrets
import threading
import time
import urllib.parse
from dataclasses import dataclass
from http.server import BaseHTTPRequestHandler, ThreadingHTTPServer
from typing import Dict, List, Mapping, Optional, Sequence

from .drawing import ORDERS, Choice, Shown, Told, listing_told
from .errors import ConnectionLost, Error, Overrun, Refused, Revoked
from .owning import AnyLooker, Copies, looker_of
from .session import Session
from .told import Listing
from .watch import why

HERE = pathlib.Path(__file__).resolve().parent / "static"
CHARTS = pathlib.Path("/usr/share/javascript/chart.js/chart.min.js")
"""The plots' library, of the system's package libjs-chart.js."""

POLL = 0.5
ALIVE = 5.0
"""Seconds after which a page is told that nothing has changed."""

GRACE = 10.0
"""Seconds for which what was looked at is kept after the last page has gone, as for one that is
loaded again."""

PROBE = 10.0
"""Seconds between two questions whether a query that no page shows is overrun or revoked."""

_FILES = {
    "": ("page.html", "text/html; charset=utf-8"),
    "page.css": ("page.css", "text/css; charset=utf-8"),
    "page.js": ("page.js", "text/javascript; charset=utf-8"),
    "plots.js": ("plots.js", "text/javascript; charset=utf-8"),
    "stream.js": ("stream.js", "text/javascript; charset=utf-8"),
}
_POLICY = (
    "default-src 'none'; script-src 'self'; style-src 'self'; connect-src 'self'; img-src data:; "
    "worker-src 'self'"
)


@dataclass(frozen=True)
class Panel:
    """A query on a page, by which lines of it are drawn; `name` is what the page calls it."""

    name: str
    query: str
    choice: Choice


def panels_of(asked: Mapping[str, Sequence[str]]) -> List[Panel]:
    """The panels that an address asks for; ValueError where it is none that a page has made."""
    panels = [Panel(query, query, Choice()) for query in asked.get("query", [])]
    for it in json.loads(asked["panels"][0]) if "panels" in asked else []:
        choice = Choice(str(it.get("order", "first")), str(it.get("search", "")))
        if choice.order not in ORDERS:
            raise ValueError("no order of lines")
        panels.append(Panel(str(it["name"]), str(it["query"]), choice))
    return panels


class _Exhibit:
    """A query that is looked at for all pages."""

    def __init__(self, looker: AnyLooker) -> None:
        self.looker = looker
        self.shown = Shown()
        self.trouble: Optional[str] = None
        self.wanted_at = time.monotonic()

    def look(self) -> None:
        """Looks once, and again where more is final than a look takes, for a while."""
        end = time.monotonic() + POLL
        try:
            while True:
                look = self.looker.look()
                if look:
                    self.shown.take(look)
                trouble = self.looker.trouble
                self.trouble = why(trouble) if trouble else None
                is_going_on = look is not None and look.is_behind and look.next > look.first
                if not is_going_on or time.monotonic() > end:
                    return
        except Refused as refusal:
            self.trouble = why(refusal)


class Gallery:
    """All that pages show. It has one session, which is open only while somebody looks, and for a
    while behind that; so it is one of the server's callers only then."""

    def __init__(self, session: Session, copies: Copies = Copies.WHERE_NEEDED) -> None:
        self.changed = threading.Condition()
        self.listing: Told = {}
        self.trouble: Optional[str] = None
        self._session = session
        self._copies = copies
        self._exhibits: Dict[str, _Exhibit] = {}
        self._states: Dict[str, str] = {}
        self._probed_at = 0.0
        self._streams: List["_Stream"] = []
        self._left_at = 0.0
        self._looking: Optional[threading.Thread] = None
        self._is_ended = False

    @property
    def tenant(self) -> str:
        return self._session.tenant

    def enter(self, stream: "_Stream") -> None:
        with self.changed:
            self._streams.append(stream)
            if self._looking is None:
                self._looking = threading.Thread(target=self._look_on, daemon=True)
                self._looking.start()

    def leave(self, stream: "_Stream") -> None:
        with self.changed:
            self._streams.remove(stream)
            self._left_at = time.monotonic()

    def end(self) -> None:
        """Ends the looks, and drops what was made for them."""
        with self.changed:
            self._is_ended = True
            looking = self._looking
        if looking:
            looking.join(2 * GRACE)

    def exhibit(self, query: str) -> Optional[_Exhibit]:
        """What is shown of a query. The caller holds `changed`."""
        return self._exhibits.get(query)

    def _look_on(self) -> None:
        """Looks for as long as a page is there."""
        while True:
            started = time.monotonic()
            with self.changed:
                is_over = not self._streams and started - self._left_at > GRACE
                if is_over or self._is_ended:
                    self._let_go()
                    self._looking = None
                    return
                self._look()
                self.changed.notify_all()
            time.sleep(max(0.05, POLL - (time.monotonic() - started)))

    def _let_go(self) -> None:
        for exhibit in self._exhibits.values():
            exhibit.looker.close()
        self._exhibits.clear()
        self._session.close()

    def _look(self) -> None:
        try:
            if not self._session.is_open:
                self._session.connect()
            listing = self._session.list()
            self._look_at_exhibits()
            self._probe(listing)
        except ConnectionLost as lost:
            self.trouble = f"waiting: {lost}; the page goes on by itself once the server is there"
            return
        except Refused as refusal:
            self.trouble = f"waiting: {refusal}"
            return
        self.trouble = None
        self.listing = listing_told(listing, self._states)

    def _look_at_exhibits(self) -> None:
        now = time.monotonic()
        for panel in (it for stream in self._streams for it in stream.panels):
            if panel.query not in self._exhibits:
                looker = looker_of(self._session, panel.query, self._copies, True)
                self._exhibits[panel.query] = _Exhibit(looker)
            self._exhibits[panel.query].wanted_at = now
        for query, exhibit in [*self._exhibits.items()]:
            if now - exhibit.wanted_at > GRACE:
                exhibit.looker.close()
                del self._exhibits[query]
            else:
                exhibit.look()
                self._note_state(query, exhibit)
        for query, exhibit in self._exhibits.items():
            streams = (it for stream in self._streams for it in stream.panels)
            exhibit.shown.keep(it.choice for it in streams if it.query == query)

    def _note_state(self, query: str, exhibit: _Exhibit) -> None:
        fault = exhibit.shown.view.fault
        said = f"fault {fault.fault} since {fault.first}" if fault else ""
        if exhibit.trouble:
            said = exhibit.trouble.partition(":")[0]
        self._states.pop(query, None)
        if said:
            self._states[query] = said

    def _probe(self, listing: Listing) -> None:
        """Asks queries that no page shows for no instant at all, to which it is told if they are
        overrun or revoked."""
        now = time.monotonic()
        if now - self._probed_at < PROBE:
            return
        self._probed_at = now
        self._states = {it: said for it, said in self._states.items() if it in self._exhibits}
        for query in listing.queries:
            if query.name not in self._exhibits:
                try:
                    self._session.fetch(query.name, query.next)
                except (Overrun, Revoked) as refusal:
                    self._states[query.name] = f"{refusal.name.lower()} ({refusal.number})"


class _Stream:
    """The events of one browser, whose tabs share it: what it was told so far."""

    def __init__(self, gallery: Gallery, panels: List[Panel]) -> None:
        self.panels = panels
        self._gallery = gallery
        self._listing: Optional[Told] = None
        self._troubles: Dict[str, Optional[str]] = {}
        self._versions: Dict[str, int] = {}
        self._of: Dict[str, _Exhibit] = {}

    def events(self) -> bytes:
        """What has changed. The caller holds the gallery's `changed`."""
        gallery = self._gallery
        found = b""
        if gallery.listing and gallery.listing != self._listing:
            found += _event("listing", gallery.listing)
            self._listing = gallery.listing
        found += self._trouble("", gallery.trouble)
        for panel in self.panels:
            exhibit = gallery.exhibit(panel.query)
            if exhibit:
                found += self._look(panel, exhibit)
                found += self._trouble(panel.name, exhibit.trouble)
        return found

    def _look(self, panel: Panel, exhibit: _Exhibit) -> bytes:
        shown = exhibit.shown
        if shown.look is None:
            return b""
        version = shown.drawing(panel.choice).version
        was = self._versions.get(panel.name)
        is_same = self._of.get(panel.name) is exhibit
        if is_same and was == version:
            return b""
        is_whole = not is_same or was is None or was + 1 != version
        self._of[panel.name], self._versions[panel.name] = exhibit, version
        told = shown.told(panel.choice, is_whole)
        told.update(panel=panel.name, query=panel.query)
        return _event("look", told)

    def _trouble(self, name: str, trouble: Optional[str]) -> bytes:
        if trouble == self._troubles.get(name):
            return b""
        self._troubles[name] = trouble
        return _event("trouble", {"panel": name, "text": trouble})


def _event(name: str, told: Mapping[str, object]) -> bytes:
    return f"event: {name}\ndata: {json.dumps(told)}\n\n".encode()


class PageServer(ThreadingHTTPServer):
    """Serves pages of one gallery, under a token. `epoch` is "s" or "ms" where instants are seconds
    or milliseconds since 1970."""

    daemon_threads = True
    request_queue_size = 64

    def __init__(
        self,
        port: int,
        gallery: Gallery,
        charts: pathlib.Path,
        epoch: Optional[str] = None,
        token: Optional[str] = None,
    ) -> None:
        super().__init__(("127.0.0.1", port), _Handler)
        self.token = token or new_token()
        self.gallery = gallery
        self.charts = charts
        self.epoch = epoch

    @property
    def address(self) -> str:
        return f"http://127.0.0.1:{self.server_port}/{self.token}/"


class _Handler(BaseHTTPRequestHandler):
    server: PageServer
    server_version = "romburik"
    sys_version = ""
    timeout = 30.0

    def do_GET(self) -> None:
        path = urllib.parse.urlsplit(self.path)
        token, _, name = path.path.lstrip("/").partition("/")
        is_here = self.headers.get("Host") in (
            f"127.0.0.1:{self.server.server_port}",
            f"localhost:{self.server.server_port}",
        )
        if not is_here or not hmac.compare_digest(token.encode(), self.server.token.encode()):
            self._refuse()
        elif name == "events":
            self._ask_for_events(urllib.parse.parse_qs(path.query, keep_blank_values=True))
        elif name == "chart.js" and self.server.charts.is_file():
            self._send(self.server.charts.read_bytes(), "text/javascript; charset=utf-8")
        elif name == "about":
            about = {"tenant": self.server.gallery.tenant, "epoch": self.server.epoch}
            self._send(json.dumps(about).encode(), "application/json")
        elif name in _FILES:
            file, kind = _FILES[name]
            self._send((HERE / file).read_bytes(), kind)
        else:
            self._refuse()

    def log_message(self, *_: object) -> None:
        """Nothing: an address has the token."""

    def _refuse(self) -> None:
        self.send_error(404, "Nothing is here", "The address is told where the page was started.")

    def _head(self, kind: str) -> None:
        self.send_response(200)
        for name, value in (
            ("Content-Type", kind),
            ("Cache-Control", "no-store"),
            ("Content-Security-Policy", _POLICY),
            ("Referrer-Policy", "no-referrer"),
            ("X-Content-Type-Options", "nosniff"),
            ("X-Frame-Options", "DENY"),
            ("Cross-Origin-Resource-Policy", "same-origin"),
        ):
            self.send_header(name, value)

    def _send(self, body: bytes, kind: str) -> None:
        self._head(kind)
        self.send_header("Content-Length", str(len(body)))
        self.end_headers()
        self.wfile.write(body)

    def _ask_for_events(self, asked: Mapping[str, Sequence[str]]) -> None:
        try:
            panels = panels_of(asked)
        except (ValueError, KeyError, TypeError, AttributeError):
            self._refuse()
        else:
            self._events(_Stream(self.server.gallery, panels))

    def _events(self, stream: _Stream) -> None:
        """Tells what changes until the browser goes away."""
        self._head("text/event-stream; charset=utf-8")
        self.end_headers()
        gallery = self.server.gallery
        gallery.enter(stream)
        try:
            while True:
                events = _awaited(gallery, stream)
                self.wfile.write(events or b": nothing new\n\n")
                self.wfile.flush()
        except (OSError, Error):
            self.close_connection = True
        finally:
            gallery.leave(stream)


def _awaited(gallery: Gallery, stream: _Stream) -> bytes:
    """What a stream is told next, nothing where nothing has changed for a while."""
    end = time.monotonic() + ALIVE
    with gallery.changed:
        events = stream.events()
        while not events and (left := end - time.monotonic()) > 0:
            gallery.changed.wait(left)
            events = stream.events()
    return events


def new_token() -> str:
    return secrets.token_urlsafe(24)


def kept_token(path: str) -> str:
    """The token that a file keeps, which is made, for its owner alone, where it isn't there. OSError
    where others may read it, or it has none."""
    try:
        opened = os.open(path, os.O_WRONLY | os.O_CREAT | os.O_EXCL, 0o600)
    except FileExistsError:
        return _token_of(path)
    with open(opened, "w", encoding="ascii") as file:
        token = new_token()
        file.write(token + "\n")
    return token


def _token_of(path: str) -> str:
    if os.stat(path).st_mode & 0o077:
        raise OSError(f"others than its owner may use {path}, which has the page's token")
    with open(path, encoding="ascii", errors="replace") as file:
        token = file.readline().rstrip("\n")
    if not re.fullmatch(r"[A-Za-z0-9_-]{16,}", token):
        raise OSError(f"{path} has no token of a page; without the file one is made")
    return token


@dataclass(frozen=True)
class Site:
    """Where and how the page is served."""

    port: int = 8000
    epoch: Optional[str] = None
    token_file: Optional[str] = None
    copies: Copies = Copies.WHERE_NEEDED


def serve(session: Session, site: Site) -> None:
    """Serves the page until it is interrupted, and tells its address on standard output."""
    token = kept_token(site.token_file) if site.token_file else None
    gallery = Gallery(session, site.copies)
    try:
        server = PageServer(site.port, gallery, CHARTS, site.epoch, token)
    except OSError as error:
        raise OSError(f"the page can't be served on port {site.port}: {error}") from error
    session.close()
    print(f"the page is at {server.address}", flush=True)
    if not CHARTS.is_file():
        print("without plots: the package libjs-chart.js has their library", flush=True)
    try:
        server.serve_forever()
    finally:
        server.server_close()
        gallery.end()
