#!/usr/bin/env python3
"""Gives what `cqld --log` tells to Prometheus.

usage: cqld --port 7000 --log 15 < tenants.json 2> >(examples/exporter.py --listen 9700)
       journalctl -u cqld -o cat -f -n 0 | examples/exporter.py --listen 9700

It reads the log's lines from its standard input and serves the numbers at http://127.0.0.1:9700/metrics.
Counts of a line are since the line before, so they are added up; what there is at a line, such as
sessions and the rows that are held, is shown as it is. A line that is no JSON object is counted, and
passed over otherwise.

With --once it reads to the end of its input and prints the numbers. The status is 2 for its words or its
port.
"""
import argparse
import json
import re
import sys
import threading
from http.server import BaseHTTPRequestHandler, ThreadingHTTPServer
from typing import Any, Dict, List, Mapping, Optional, Sequence, Tuple

Labels = Tuple[Tuple[str, str], ...]

# What a line of counts tells since the line before, and what it is called here.
_COUNTS = {
    "calls": ("calls_total", "Calls that began."),
    "fetches": ("fetches_total", "Answers that were computed."),
    "warm": ("answers_gone_on_total", "Answers that went on from one before."),
    "cold": ("answers_anew_total", "Answers that began anew."),
}
# What a line of a tenant tells since the line before, under a label.
_OF_TENANT = {
    "commands": ("tenant_commands_total", "Commands of a tenant.", "command"),
    "refused": ("tenant_refusals_total", "Commands of a tenant that were refused.", "number"),
}
# What it tells of now.
_NOW = {
    "sessions": ("sessions", "Sessions that are open."),
    "fetching": ("answers_under_way", "Answers that are being computed."),
}
# What it tells in microseconds.
_TIMES = {
    "lock_us": ("longest_wait_seconds", "For how long a call kept others waiting, at most."),
    "answer_us": ("longest_answer_seconds", "For how long an answer was computed, at most."),
}


class Numbers:
    """All that the lines so far have told."""

    def __init__(self) -> None:
        self.lock = threading.Lock()
        self._values: Dict[str, Dict[Labels, float]] = {}
        self._kinds: Dict[str, Tuple[str, str]] = {}

    def take(self, line: bytes) -> None:
        """Takes a line of the log."""
        with self.lock:
            try:
                told = json.loads(line)
            except ValueError:
                told = None
            if isinstance(told, dict):
                self._take(told)
            elif line.strip():
                self._add("lines_passed_over_total", "Lines that are none of the log.", 1)

    def _take(self, told: Mapping[str, Any]) -> None:
        if "sessions" in told and "calls" in told:
            self._counts(told)
        elif "owner" in told:
            for stream, rows in told.get("held", {}).items():
                labels = {"tenant": told["owner"], "stream": stream}
                self._set("held_rows", "Rows that are held.", rows, **labels)
                weight = told.get("bytes", {}).get(stream, 0)
                self._set("held_bytes", "About how many bytes held rows take.", weight, **labels)
        elif "tenant" in told:
            self._of_tenant(str(told["tenant"]), told)
        elif "login" in told:
            self._add("logins_total", "Logins.", 1, tenant=told["login"])
        elif "refused_login" in told:
            tenant = told["refused_login"] or ""
            self._add("logins_refused_total", "Logins that were refused.", 1, tenant=tenant)
        elif "ended" in told:
            labels = {"tenant": told["ended"] or "", "why": told.get("why", "")}
            self._add("sessions_ended_total", "Sessions that ended.", 1, **labels)

    def _counts(self, told: Mapping[str, Any]) -> None:
        for key, (name, text) in _COUNTS.items():
            self._add(name, text, told.get(key, 0))
        for key, (name, text) in _NOW.items():
            if key in told:
                self._set(name, text, told[key])
        for key, (name, text) in _TIMES.items():
            if key in told:
                self._set(name, text, told[key] / 1e6)
        for command, count in told.get("commands", {}).items():
            self._add("commands_total", "Commands.", count, command=command)
        for number, count in told.get("refused", {}).items():
            self._add("refusals_total", "Commands that were refused.", count, number=number)
        # a stream that holds no rows any more is in no line behind this one
        self._values.pop("held_rows", None)
        self._values.pop("held_bytes", None)
        self._values.pop("lag_ticks", None)

    def _of_tenant(self, tenant: str, told: Mapping[str, Any]) -> None:
        """What a line tells of one tenant."""
        for key, (name, text, label) in _OF_TENANT.items():
            for of, count in told.get(key, {}).items():
                self._add(name, text, count, **{"tenant": tenant, label: of})
        name, text = "tenant_answers_given_up_total", "Answers of a tenant that were given up."
        self._add(name, text, told.get("given_up", 0), tenant=tenant)
        if "lag" in told:
            text = "How far a tenant's query that is the furthest behind is, in ticks."
            self._set("lag_ticks", text, told["lag"], tenant=tenant)

    def _add(self, name: str, text: str, count: float, **labels: str) -> None:
        values = self._of(name, "counter", text)
        at = tuple(labels.items())
        values[at] = values.get(at, 0) + count

    def _set(self, name: str, text: str, value: float, **labels: str) -> None:
        self._of(name, "gauge", text)[tuple(labels.items())] = value

    def _of(self, name: str, kind: str, text: str) -> Dict[Labels, float]:
        name = re.sub(r"\W", "_", name)
        self._kinds[name] = kind, text
        return self._values.setdefault(name, {})

    def text(self) -> str:
        """The numbers as Prometheus reads them."""
        lines: List[str] = []
        with self.lock:
            for name, values in sorted(self._values.items()):
                kind, text = self._kinds[name]
                lines += [f"# HELP cqld_{name} {text}", f"# TYPE cqld_{name} {kind}"]
                lines += [f"cqld_{name}{_told(labels)} {value}" for labels, value in values.items()]
        return "".join(line + "\n" for line in lines)


def _told(labels: Labels) -> str:
    def quoted(value: str) -> str:
        return value.replace("\\", "\\\\").replace('"', '\\"').replace("\n", "\\n")

    inside = ",".join(f'{name}="{quoted(str(value))}"' for name, value in labels)
    return f"{{{inside}}}" if inside else ""


class Exporter(ThreadingHTTPServer):
    """Serves the numbers to this machine."""

    daemon_threads = True

    def __init__(self, port: int, numbers: Numbers) -> None:
        super().__init__(("127.0.0.1", port), _Handler)
        self.numbers = numbers


class _Handler(BaseHTTPRequestHandler):
    server: Exporter

    def do_GET(self) -> None:
        if self.path != "/metrics":
            self.send_error(404)
            return
        body = self.server.numbers.text().encode()
        self.send_response(200)
        self.send_header("Content-Type", "text/plain; version=0.0.4; charset=utf-8")
        self.send_header("Content-Length", str(len(body)))
        self.end_headers()
        self.wfile.write(body)

    def log_message(self, *_: object) -> None:
        """Nothing: it is asked each few seconds."""


def main(given: Optional[Sequence[str]] = None) -> int:
    parser = argparse.ArgumentParser(description="Gives what cqld --log tells to Prometheus.")
    parser.add_argument("--listen", type=int, default=9700, help="the port of 127.0.0.1 (9700)")
    parser.add_argument("--once", action="store_true", help="prints the numbers, and serves nobody")
    words = parser.parse_args(given)
    numbers = Numbers()
    try:
        if not words.once:
            exporter = Exporter(words.listen, numbers)
            threading.Thread(target=exporter.serve_forever, daemon=True).start()
            print(f"listening on 127.0.0.1:{exporter.server_port}", flush=True)
        for line in sys.stdin.buffer:
            numbers.take(line)
    except KeyboardInterrupt:
        return 0
    except OSError as error:
        print(f"exporter: {error}", file=sys.stderr)
        return 2
    if words.once:
        print(numbers.text(), end="")
    return 0


if __name__ == "__main__":
    sys.exit(main())
