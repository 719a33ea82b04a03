#!/usr/bin/env python3
"""Writes what a broker of MQTT tells into the log that examples/feed.py puts.

usage: examples/bridge.py --topic TOPIC --stream NAME --log FILE [--broker HOST] [--broker-port N]
           [--name NAME] [--text] [--ms] [--beat SECONDS]

The stream has two columns, `topic text value int`, or with --text `topic text value text`. A row comes
for each message, at the second (with --ms the millisecond) in which it came, and never before the row
before it. A message that is no whole number is told on standard error and passed over, unless --text takes
it as it is. Where no message comes for so many seconds a heartbeat says so (--beat, 5). Lines are added to
the log, which the feeder puts with --scale, since several messages may come at one instant:

    examples/bridge.py --topic 'home/+/degrees' --stream reading --log log.jsonl
    examples/feed.py --port 7000 --tenant a --setup setup.jsonl --log log.jsonl --offsets offsets --scale 1000

The other way, from a query to a broker, takes the consumer and no bridge:

    examples/consume.py --port 7000 --tenant a --query high --offsets offsets \\
        --exec 'mosquitto_pub -q 1 -t alerts -s'

The messages come by the program mosquitto_sub, of Debian's package mosquitto-clients. With --name the
broker keeps what comes while the bridge is away (quality 1, and a session that lasts); what came in the
moment of a kill may be lost. The bridge runs until it is interrupted. The status is 1 where mosquitto_sub
ends, 2 for its words.
"""
import argparse
import json
import os
import select
import signal
import subprocess
import sys
import time
from typing import BinaryIO, Dict, List, NoReturn, Optional, Sequence, Union


def say(text: str) -> None:
    print(f"bridge: {text}", file=sys.stderr, flush=True)


class Log:
    """The log's end, with lines of one stream whose times don't fall."""

    def __init__(self, path: str, stream: str, ticks: int) -> None:
        self._file = open(path, "ab+")
        self._stream = stream
        self._ticks = ticks
        self._last = self._newest()
        self._is_beaten = False

    def _newest(self) -> int:
        """The greatest time that the log has. What a kill has left of a line is cut off."""
        self._file.seek(0)
        newest, whole = 0, 0
        for line in self._file:
            if line.endswith(b"\n"):
                whole += len(line)
                newest = max(newest, int(json.loads(line)["at"]))
        self._file.truncate(whole)
        return newest

    def put(self, seconds: float, row: List[Union[int, str]]) -> None:
        at = max(int(seconds * self._ticks), self._last + self._is_beaten)
        self._write({"at": at, "do": "put", "row": row, "stream": self._stream})
        self._is_beaten = False

    def beat(self, seconds: float) -> None:
        """Says that nothing came so far; the instant itself may still go on."""
        at = int(seconds * self._ticks) - 1
        if at >= self._last + self._is_beaten:
            self._write({"at": at, "do": "beat", "stream": self._stream})
            self._is_beaten = True

    def _write(self, line: Dict[str, object]) -> None:
        self._last = int(str(line["at"]))
        self._file.write(json.dumps(line, sort_keys=True).encode() + b"\n")
        self._file.flush()
        os.fsync(self._file.fileno())


class Bridge:
    """Messages as they come, and the log that they go to."""

    def __init__(self, words: argparse.Namespace) -> None:
        self._is_text = words.text
        self._beat = words.beat
        self._log = Log(words.log, words.stream, 1000 if words.ms else 1)

    def take(self, line: bytes) -> None:
        """A line of mosquitto_sub: the time, the message in hexadecimal digits, and the topic."""
        when, _, rest = line.rstrip(b"\n").decode(errors="replace").partition(" ")
        message, _, topic = rest.partition(" ")
        text = bytes.fromhex(message).decode(errors="replace")
        if self._is_text:
            self._log.put(float(when), [topic, text])
            return
        try:
            self._log.put(float(when), [topic, int(text)])
        except ValueError:
            say(f"a message of {topic} is no whole number: {text[:60]!r}")

    def run(self, messages: BinaryIO) -> None:
        """Takes messages to their end."""
        unread = b""
        while True:
            if select.select([messages], [], [], self._beat)[0]:
                read = os.read(messages.fileno(), 1 << 16)
                if not read:
                    return
                *lines, unread = (unread + read).split(b"\n")
                for line in lines:
                    self.take(line)
            else:
                self._log.beat(time.time())


def subscription(words: argparse.Namespace) -> List[str]:
    """The program that tells messages, with its words."""
    where = ["-h", words.broker, "-p", str(words.broker_port)]
    keeps = ["-i", words.name, "-c"] if words.name else []
    return ["mosquitto_sub", *where, *keeps, "-q", "1", "-t", words.topic, "-F", "%U %x %t"]


def interrupt(*_: object) -> NoReturn:
    """Ends as by Ctrl-C, so that mosquitto_sub ends too."""
    raise KeyboardInterrupt


def main(given: Optional[Sequence[str]] = None) -> int:
    parser = argparse.ArgumentParser(description="Writes messages of MQTT into a feeder's log.")
    parser.add_argument("--topic", required=True)
    parser.add_argument("--stream", required=True)
    parser.add_argument("--log", required=True, help="the feeder's log")
    parser.add_argument("--broker", default="127.0.0.1", help="the broker's machine (127.0.0.1)")
    parser.add_argument("--broker-port", type=int, default=1883, help="its port (1883)")
    parser.add_argument("--name", help="by which the broker keeps what comes meanwhile")
    parser.add_argument("--text", action="store_true", help="messages are texts, and no numbers")
    parser.add_argument("--ms", action="store_true", help="times are milliseconds")
    parser.add_argument("--beat", type=float, default=5.0, help="seconds of silence (5)")
    words = parser.parse_args(given)
    signal.signal(signal.SIGTERM, interrupt)
    try:
        bridge = Bridge(words)
        with subprocess.Popen(subscription(words), stdout=subprocess.PIPE) as child:
            assert child.stdout
            try:
                bridge.run(child.stdout)  # type: ignore
            finally:
                child.terminate()
        say(f"mosquitto_sub ended with status {child.returncode}")
    except KeyboardInterrupt:
        return 0
    except (OSError, ValueError, KeyError) as error:
        say(str(error))
    return 1


if __name__ == "__main__":
    sys.exit(main())
