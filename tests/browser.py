"""A browser without a screen, which tests/page drives: chromium over the pipe of its protocol."""
import base64
import contextlib
import fcntl
import itertools
import json
import os
import select
import shutil
import subprocess
import tempfile
import time

from served import SECONDS, Stalled

NAMES = ("chromium", "chromium-browser", "google-chrome")


def found():
    """The path of a browser, or None."""
    return next(filter(None, map(shutil.which, NAMES)), None)


class Browser:
    """A browser with one page. It reads messages from its file 3 and writes to its file 4, each
    ended by a zero byte."""

    def __init__(self, program, width=1100, height=900):
        self.folder = tempfile.TemporaryDirectory()
        theirs, self.write_end = os.pipe()
        self.read_end, their_end = os.pipe()
        words = [
            program,
            "--headless",
            "--no-sandbox",
            "--disable-gpu",
            "--disable-dev-shm-usage",
            "--hide-scrollbars",
            "--no-first-run",
            "--remote-debugging-pipe",
            f"--user-data-dir={self.folder.name}",
            f"--window-size={width},{height}",
            "about:blank",
        ]

        def put_pipes():
            """Puts the pipes where the browser looks for them, by numbers that are free."""
            high = [fcntl.fcntl(it, fcntl.F_DUPFD, 64) for it in (theirs, their_end)]
            for number, it in enumerate(high, start=3):
                os.dup2(it, number)
                os.close(it)

        self.child = subprocess.Popen(
            words,
            close_fds=False,
            preexec_fn=put_pipes,
            stdout=subprocess.DEVNULL,
            stderr=subprocess.DEVNULL,
            start_new_session=True,
        )
        os.close(theirs)
        os.close(their_end)
        self.unread = b""
        self.numbers = itertools.count(1)
        self.requests = []
        self.session = None
        page = self.call("Target.createTarget", url="about:blank")["targetId"]
        attached = self.call("Target.attachToTarget", targetId=page, flatten=True)
        self.session = attached["sessionId"]
        for domain in "Page", "Runtime", "Network":
            self.call(f"{domain}.enable")

    def __enter__(self):
        return self

    def __exit__(self, *_):
        self.session = None
        with contextlib.suppress(OSError):
            self.call("Browser.close")
        os.close(self.write_end)
        os.close(self.read_end)
        try:
            self.child.wait(5)
        except subprocess.TimeoutExpired:
            os.killpg(self.child.pid, 9)
            self.child.wait()
        self.folder.cleanup()

    def message(self):
        end = time.monotonic() + SECONDS
        while b"\0" not in self.unread:
            left = end - time.monotonic()
            if left <= 0 or not select.select([self.read_end], [], [], left)[0]:
                raise Stalled("the browser is silent")
            read = os.read(self.read_end, 1 << 20)
            if not read:
                raise OSError("the browser has ended")
            self.unread += read
        line, _, self.unread = self.unread.partition(b"\0")
        return json.loads(line)

    def call(self, method, **words):
        """What a method of the protocol gives."""
        number = next(self.numbers)
        asked = {"id": number, "method": method, "params": words}
        if self.session:
            asked["sessionId"] = self.session
        os.write(self.write_end, json.dumps(asked).encode() + b"\0")
        while True:
            told = self.message()
            if told.get("method") == "Network.requestWillBeSent":
                self.requests.append(told["params"]["request"])
            if told.get("id") == number:
                if "error" in told:
                    raise OSError(f"{method}: {told['error']}")
                return told["result"]

    def open(self, address):
        self.call("Page.navigate", url=address)

    def value(self, text):
        """What a text of JavaScript gives in the page."""
        told = self.call("Runtime.evaluate", expression=text, returnByValue=True)
        if "exceptionDetails" in told:
            raise OSError(f"{text}: {told['exceptionDetails']}")
        return told["result"].get("value")

    def wait_for(self, text):
        """Waits until a text of JavaScript gives a value that counts as true."""
        end = time.monotonic() + SECONDS
        while not (value := self.value(text)):
            if time.monotonic() > end:
                raise Stalled(f"the page never has {text}")
            time.sleep(0.05)
        return value

    def picture(self):
        """The page as a PNG, down to where its content ends."""
        high = self.value("document.querySelector('main').getBoundingClientRect().bottom")
        wide = self.value("innerWidth")
        clip = {"x": 0, "y": 0, "width": wide, "height": high, "scale": 1}
        told = self.call("Page.captureScreenshot", format="png", clip=clip)
        return base64.b64decode(told["data"])
