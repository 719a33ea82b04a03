"""Follows a page as its reader does: each block of fenced text from the top down, on one server, each line as it
stands but for the port. What a page types has to be told how here or by its check; a line of which nothing is
told is a fault, so that no new one goes unrun.
"""
import collections
import contextlib
import fcntl
import itertools
import json
import os
import pathlib
import pty
import re
import select
import signal
import struct
import subprocess
import sys
import tempfile
import termios

from clients import environment, ending, lines_of, shown_until
from served import SECONDS, Server, difference

TOP = pathlib.Path(__file__).resolve().parent.parent
RUNNER = TOP / "crates/cqlrun/out/cqlrun"

# A block of fenced text: its language, and its lines.
Fence = collections.namedtuple("Fence", "language text")
# A line of a shell in the running text, of which a name and a word are the least.
PROGRAMS = r"make|pip|python3|rt|cd|sudo|apt-get|systemctl|curl|docker|(?:crates|examples|tools|tests)/[\w/.]+"
COMMAND = re.compile(rf"`((?:\w+=\S+ )*(?:{PROGRAMS}) [^`]+)`")
WIDE = struct.pack("4H", 50, 400, 0, 0)


def fences(path):
    found = re.findall(r"^```(\w*)\n(.*?)^```$", path.read_text(), re.DOTALL | re.MULTILINE)
    return [Fence(*it) for it in found]


def commands_between(path):
    """The lines of a shell that stand in the running text."""
    told = re.sub(r"^```.*?^```$", "", path.read_text(), flags=re.DOTALL | re.MULTILINE)
    return list(dict.fromkeys(COMMAND.findall(told)))


def typed(fence):
    """The lines that a block types at a shell."""
    return re.findall(r"^\$ (.*)$", fence.text, re.MULTILINE)


def shown(fence):
    """What a block shows of what its lines print."""
    return re.sub(r"^\$ .*\n", "", fence.text, flags=re.MULTILINE)


def stand_ins(folder, program):
    """A path of programs in which `python3` is the one that runs this, and `rt try` runs a built cqlrun, which
    takes no minutes."""
    for name, line in (
        ("python3", f'exec {sys.executable} "$@"'),
        ("rt", f'test "$*" = try && exec {RUNNER}'),
        ("cqld", f'exec {program} "$@"'),
    ):
        path = pathlib.Path(folder) / name
        path.write_text(f"#!/bin/sh\n{line}\n")
        path.chmod(0o755)
    return f"{folder}:{os.environ['PATH']}"


def taking_the_terminal():
    """A child's standard input becomes the terminal at which it is asked for a key, and interrupted."""
    signal.signal(signal.SIGINT, signal.SIG_DFL)
    fcntl.ioctl(0, termios.TIOCSCTTY, 0)


@contextlib.contextmanager
def at_a_terminal(script, folder, path, kind):
    """The near end of a terminal at which a shell runs lines, up to a Ctrl-C where they go on."""
    near, far = pty.openpty()
    fcntl.ioctl(far, termios.TIOCSWINSZ, WIDE)
    around = {**environment(None), "PATH": path, "TERM": kind, "HOME": path.partition(":")[0]}
    del around["PYTHONPATH"]
    child = subprocess.Popen(
        ["sh", "-ec", script],
        cwd=folder,
        env=around,
        stdin=far,
        stdout=far,
        stderr=far,
        start_new_session=True,
        preexec_fn=taking_the_terminal,
    )
    os.close(far)
    with ending(child):
        try:
            yield near
        finally:
            os.write(near, b"\x03\x04")
            with contextlib.suppress(subprocess.TimeoutExpired):
                child.wait(5)
            os.close(near)


class Reader:
    """Who follows a page, from its folder on: where the server is, and the terminal that asks for lines."""

    def __init__(self, page, folder, program, stack):
        self.page, self.folder = page, folder
        self.program = os.path.abspath(program)
        self.stack = stack
        self.port, self.terminal = None, None
        self.examples = []
        self.path = stand_ins(stack.enter_context(tempfile.TemporaryDirectory()), self.program)

    def here(self, text):
        """A text of the page with this server's port."""
        return text.replace("7000", str(self.port))

    def starts(self, lines, kind="dumb"):
        """Lines at a terminal of their own, which is one that draws nothing where no other kind is said."""
        return at_a_terminal(self.here("\n".join(lines)), self.folder, self.path, kind)

    def opens(self, lines):
        """The same, which goes on until the page is followed."""
        return self.stack.enter_context(self.starts(lines))


def unlike(found, wanted):
    """The first line that isn't as the page shows it, or None."""
    lines = itertools.zip_longest(found.splitlines(), wanted.splitlines())
    return next((difference(*pair) for pair in lines if pair[0] != pair[1]), None)


ASKED = "key of a:\n"


def given_key(near, text):
    """Types the key where the page shows that it is asked for, and gives what the page shows behind it."""
    if text.startswith(ASKED):
        shown_until(near, b"key of a: ")
        os.write(near, b"ka\n")
    return text[len(ASKED) :] if text.startswith(ASKED) else text


def as_shown(text):
    return text.replace("\r\n", "\n")


def begins(near, text):
    """As many lines of what a terminal shows as the page does, of lines that go on; the end of a key isn't one. What
    came with the last of them, such as a word on what isn't installed, is passed over."""
    seen = ""
    while seen.lstrip("\n").count("\n") < text.count("\n"):
        seen += as_shown(shown_until(near, b"\n"))
    return "".join(seen.lstrip("\n").splitlines(keepends=True)[: text.count("\n")])


def all_of(near):
    """What a terminal shows up to the end of what was started at it, without a bar that is drawn in place."""
    seen = b""
    with contextlib.suppress(OSError):
        while select.select([near], [], [], SECONDS)[0]:
            seen += os.read(near, 1 << 16)
    return re.sub(r"\r[^\n]*\n", "", as_shown(seen.decode()))


def prints(reader, fence):
    """Lines that print what the page shows, and come to their end."""
    wanted = reader.here(shown(fence))
    with reader.starts(typed(fence)) as near:
        yield typed(fence)[-1], unlike(all_of(near), wanted)


def said_at(near, text):
    """What a terminal shows while the lines of a page are typed at it, each behind the prompt."""
    seen = ""
    for line in re.findall("^a> (.*\n)", text, re.MULTILINE):
        os.write(near, line.encode())
        seen += "a> " + as_shown(shown_until(near, b"\na> "))[: -len("a> ")]
    return seen


def talks(reader, fence):
    """The terminal that asks for a key and then for lines; it stays for the page's later ones."""
    reader.terminal = near = reader.opens(typed(fence))
    wanted = given_key(near, shown(fence))
    shown_until(near, b"a> ")
    yield typed(fence)[-1], unlike(said_at(near, wanted), wanted)


def goes_on(reader, fence):
    """Further lines at the terminal that stands open."""
    found = said_at(reader.terminal, fence.text)
    yield f"lines that go on, {fence.text.splitlines()[0]}", unlike(found, fence.text)


def watches(reader, fence):
    """A table that is drawn in place, for as long as it takes to be drawn."""
    with reader.starts(typed(fence), "xterm") as near:
        wanted = given_key(near, shown(fence))
        seen = as_shown(shown_until(near, b"Ctrl-C ends\r\n").rpartition("\x1b[J")[2])
    yield typed(fence)[-1], unlike(seen, wanted)


# ---- Python.


def told_in(code):
    """What an example says that it prints, in order, each behind a `#` in the line that prints it."""
    return re.findall(r"^ *print\(.*\) *# (.*)$", code, re.MULTILINE)


def is_told(line, wanted):
    """Whether a line is what the page says; what it says behind `, and` is left to the reader."""
    return line == wanted.partition(", and ")[0]


def python_follows(reader):
    """The page's examples in one Python, one behind the other, and last those that go on without an end, as the page
    has it; it is interrupted once all has been printed that the page shows."""
    examples, reader.examples = sorted(reader.examples, key=lambda it: ".follow(" in it), []
    code = reader.here("".join(examples))
    wanted = told_in(code)
    child = subprocess.Popen(
        [sys.executable, "-u", "-c", code],
        cwd=TOP / "clients/python",
        env=environment(),
        stdout=subprocess.PIPE,
        stderr=subprocess.PIPE,
    )
    with ending(child):
        found = lines_of(child.stdout, len(wanted)).decode().splitlines()[: len(wanted)]
        said = b"" if len(found) == len(wanted) else child.communicate(timeout=SECONDS)[1]
    right = len(found) == len(wanted) and all(map(is_told, found, wanted))
    fault = None if right else f"it prints {found} and not {wanted}: {said.decode()[-300:]}"
    yield f"{len(examples)} examples in Python of {reader.page.name}", fault


# ---- Lines of scripts.


def answered(program, script):
    """A script's lines, and the replies that a server with its tenants gives to them."""
    table = script.read_bytes().partition(b"\n")[0] + b"\n"
    with Server(program, table) as server:
        ran = subprocess.run(
            [sys.executable, "-m", "romburik", "--port", str(server.port), "--script", script],
            env=environment(None),
            capture_output=True,
            text=True,
            timeout=SECONDS,
            check=False,
        )
    if ran.returncode > 1:
        raise OSError(f"{script.name}: {ran.stderr}")
    return [table.decode().strip(), *re.findall("^[<>] (.*)$", ran.stdout, re.MULTILINE)]


def scripts_of(path):
    """The scripts that a page names."""
    names = re.findall(r"`((?:examples/\w+\.jsonl)|(?:crates/worked/data/\w+\.in))`", path.read_text())
    return [TOP / it for it in dict.fromkeys(names)]


def is_query(line):
    return re.match(r"Select |[DIR]stream\(", line) is not None


def is_of_scripts(fence):
    """Whether a block is of lines of JSON, or of queries alone."""
    lines = fence.text.splitlines()
    return not fence.language and (all(it.startswith("{") for it in lines) or all(map(is_query, lines)))


def lines_are_answered(reader):
    """Each line of JSON is one of a script that the page names, or what a server replies to one; each query is
    registered by one."""
    blocks = filter(is_of_scripts, fences(reader.page))
    lines = [line for it in blocks for line in it.text.splitlines()]
    if not lines:
        return
    there = {line for it in scripts_of(reader.page) for line in answered(reader.program, it)}
    texts = {json.loads(it).get("text") for it in there}
    strange = [it for it in lines if it not in (texts if is_query(it) else there)]
    yield f"{len(lines)} lines of scripts of {reader.page.name}", f"no script has {strange[0]}" if strange else None


# ---- A page.


def way_of(fence, how):
    """How a block is followed: a function, a reason for leaving it out, or None where nothing is told of it."""
    if fence.text.startswith("a> "):
        return goes_on
    lines = typed(fence)
    if not fence.text.startswith("$ ") or any(it not in how for it in lines[:-1]):
        return None
    return how.get(lines[-1])


def block_follows(reader, fence, how):
    way, first = way_of(fence, how), fence.text.partition("\n")[0]
    if way is None or not callable(way) and shown(fence):
        yield first, "it is neither run nor said why it isn't"
    if callable(way):
        try:
            yield from way(reader, fence)
        except OSError as error:
            raise OSError(f"{first}: {error}") from error


def blocks_of(page):
    """A page's blocks from the top down, and each command of its running text that no block has as one more."""
    blocks = [it for it in fences(page) if not is_of_scripts(it)]
    there = {line for it in blocks for line in typed(it)}
    return blocks + [Fence("", f"$ {it}\n") for it in commands_between(page) if it not in there]


def page_follows(reader, how):
    """All blocks of a page, by what is told of their lines; examples in Python together, where the last of them
    stands. A block of comma-separated values is the file of that name."""
    blocks = blocks_of(reader.page)
    for fence in blocks:
        if fence.language == "python":
            reader.examples.append(fence.text)
            continue
        if fence.language == "csv":
            (reader.folder / "rows.csv").write_text(fence.text)
            continue
        if reader.examples:
            yield from python_follows(reader)
        yield from block_follows(reader, fence, how)
    if reader.examples:
        yield from python_follows(reader)
    yield from lines_are_answered(reader)
    marks = re.findall(r"^\s*(?:```|~~~)", reader.page.read_text(), re.MULTILINE)
    yield f"blocks of {reader.page.name}", difference(2 * len(fences(reader.page)), len(marks))
    there = {line for it in blocks for line in typed(it)}
    yield f"lines that {reader.page.name} no longer has", difference(sorted(set(how) - there), [])
