"""What tests/server checks of what the pages say to type: they are followed line by line. Each check gives
pairs of a name and of what is wrong, or None.
"""
import contextlib
import json
import pathlib
import re
import subprocess
import sys
import tempfile
import urllib.request

from clients import (
    LOAD,
    MODULE,
    TENANTS,
    TOP,
    ending,
    environment,
    free_port,
    lines_of,
    session,
    started,
    terminal,
    wait_for,
)
from followed import (
    RUNNER,
    Fence,
    Reader,
    begins,
    given_key,
    page_follows,
    prints,
    shown,
    talks,
    typed,
    unlike,
    watches,
)
from served import SECONDS, Server, difference

import romburik


def sessions_on(path):
    """For each session that a page shows: the lines that are typed, and what the terminal prints
    where they come by a pipe."""
    for shown in re.findall("^```\\w*\n(.*?)^```$", path.read_text(), re.DOTALL | re.MULTILINE):
        lines = shown.partition("key of a:\n")[2] or shown
        if lines.startswith("a> "):
            given = "".join(re.findall("^a> (.*\n)", lines, re.MULTILINE))
            replies = re.sub("^{", "< {", lines, flags=re.MULTILINE)
            yield given.encode(), re.sub("^a> ", "> ", replies, flags=re.MULTILINE).encode()


TUTORIAL, COOKBOOK, README = TOP / "docs/TUTORIAL.md", TOP / "docs/COOKBOOK.md", MODULE / "README.md"


def serves(reader, fence):
    """`make serve`, where in the place of the server that it would build for some minutes stands the one that is
    checked, on a port of its own."""
    reader.port = free_port()
    program = reader.program
    near = reader.opens([f"make serve --no-print-directory -o {program} UNPROVED={program} PORT={reader.port}"])
    wanted = reader.here(shown(fence))
    yield "make serve", unlike(begins(near, wanted), wanted)


def runs_a_script(reader, fence):
    """By cqlrun, where it is built."""
    if not RUNNER.exists():
        print(f"not run: {typed(fence)[-1]}: make build", flush=True)
        return
    yield from prints(reader, fence)


def watches_and_pipes(reader, fence):
    """At a terminal, and then by a pipe."""
    yield from watches(reader, fence)
    with ending(started(reader.port, "watch", "warm")) as child:
        told = [json.loads(line)["rows"] for line in lines_of(child.stdout, 3).splitlines()]
    rows = [["hall", 18, 1]], [["attic", 25, 1], ["hall", 18, 1]], [["attic", 25, 1], ["hall", 21, 2]]
    yield "what is watched by a pipe", difference(told, [*rows])


def shows_a_page(reader, fence):
    """The address is one of this machine, with another port and other letters at each start; it has the page."""
    *before, line = typed(fence)
    with reader.starts([*before, f"{line} --listen 0"]) as near:
        wanted = given_key(near, shown(fence))
        found = begins(near, wanted)
        parts = re.split(r"8000/\w{32}", wanted)
        address = re.fullmatch(r"\d+/[\w-]{32}".join(map(re.escape, parts)), found)
        yield line, None if address else f"it says {found!r}"
        with urllib.request.urlopen(found.split()[-1], timeout=SECONDS) as reply:
            yield "the page", difference(reply.status, 200)


def puts_rows(reader, fence):
    """They come, a row a second, and are acknowledged."""
    with reader.starts(typed(fence)), romburik.Session(port=reader.port, tenant="a", key="ka") as it:
        wait_for(lambda: "busy" in [one.name for one in it.list().queries])
        wait_for(lambda: len(it.fetch("busy").blocks) >= 2)
    yield typed(fence)[-1], difference(shown(fence), "")


def serves_by_the_program(reader, fence):
    """The line by which the built server is run, with the one that is checked."""
    before, reader.port = reader.port, free_port()
    with reader.starts([typed(fence)[-1].replace("crates/cqld/out/cqld", "cqld")]) as near:
        wanted = reader.here("listening on 127.0.0.1:7000\n")
        yield typed(fence)[-1], unlike(begins(near, wanted), wanted)
    reader.port = before


# How each line is run that a page types at a shell, in a block or in its running text, or why it isn't.
TUTORIAL_LINES = {
    "make serve": serves,
    "cd clients/python": "the lines behind it are run there",
    "python3 -m romburik --port 7000 --tenant a": talks,
    "python3 -m romburik watch warm --port 7000 --tenant a": watches_and_pipes,
    "python3 -m romburik page --port 7000 --tenant a": shows_a_page,
    "CQL_KEY=ka examples/load.py --port 7000 --tenant a": puts_rows,
    "make run": runs_a_script,
    "crates/cqlrun/out/cqlrun < examples/first.jsonl": runs_a_script,
    "python3 -m romburik --port 7000 --script ../../examples/first.jsonl": prints,
    "make build": "it proves the programs, for an hour",
    "crates/cqld/out/cqld --port 7000 < examples/first.jsonl": serves_by_the_program,
}
INSTALLS = "it installs, by what the system or the network has to build it"
README_LINES = {
    "python3 -m romburik --port 7000 --tenant a": talks,
    "python3 -m romburik watch w --port 7000 --tenant a": watches,
    "python3 -m romburik": "the beginning of the lines above",
    "tests/page --pictures docs": "a test of its own",
    "pip install ./clients/python": INSTALLS,
    "pip install --no-build-isolation ./clients/python": INSTALLS,
}


def runs_a_recipe(reader, fence):
    """A script, by cqlrun, with the replies of the file beside it."""
    script = reader.folder / typed(fence)[-1].split()[-1]
    told = script.with_suffix(".out").read_text()
    yield from runs_a_script(reader, Fence("", fence.text + told))


def puts_a_file(reader, fence):
    """The rows of the file that the page shows, into a stream of its columns."""
    with romburik.Session(port=reader.port, tenant="a", key="ka") as it:
        it.stream("reading", {"room": "text", "degrees": "int"})
        yield from prints(reader, fence)
        yield "how far a stream is", difference([one.open for one in it.list().streams], [36])


def stages(reader, fence):
    """What its query tells comes into its stream."""
    text = "Select Istream(room, Sum(degrees) As total) From reading [Range 60] Group By room"
    with romburik.Session(port=reader.port, tenant="a", key="ka") as it:
        it.query("totals", text)
        it.stream("sums", {"room": "text", "total": "int"})
        it.query("high", "Select Istream(*) From sums [Now] Where total > 20")
        it.put_many("reading", [(40, ["hall", 18]), (41, ["hall", 5])])
        it.beat("reading", 50)
        with reader.starts(typed(fence)):
            wait_for(lambda: it.fetch("high").blocks)
        rows = [one.rows for one in it.fetch("high").blocks]
    yield typed(fence)[-1], difference((rows, shown(fence)), ([(("hall", 23),)], ""))


BROKER = "tests/running_checks.py runs it, with a broker of its own"
COOKBOOK_LINES = {
    "crates/cqlrun/out/cqlrun < examples/last_value_of_each_key.jsonl": runs_a_recipe,
    "export PYTHONPATH=clients/python CQL_KEY=ka": "the lines behind it are run so",
    "python3 -m romburik put reading --csv rows.csv --at when --beat --port 7000 --tenant a": puts_a_file,
    "examples/bridge.py --topic 'home/+' --stream reading --log log.jsonl": BROKER,
    "examples/feed.py --port 7000 --tenant a --setup setup.jsonl --log log.jsonl --offsets offsets --scale 100": BROKER,
    "examples/consume.py --port 7000 --tenant a --query high --offsets offsets"
    " --exec 'mosquitto_pub -q 1 -t alerts -s'": BROKER,
    "examples/consume.py .. --form csv --out high.csv": "tests/feeder_checks.py runs it",
    "export CQL_KEY=ka": "the line behind it is run so",
    "examples/stage.py --port 7000 --tenant a --query totals --stream sums": stages,
}


def tutorial(program):
    """The tutorial from its first line to its last, on the server that it starts."""
    with contextlib.ExitStack() as stack:
        yield from page_follows(Reader(TUTORIAL, TOP, program, stack), TUTORIAL_LINES)


def cookbook(program):
    """The cookbook, in a folder that has the repository's ones, on a server of the tutorial's tenants."""
    with contextlib.ExitStack() as stack:
        folder = pathlib.Path(stack.enter_context(tempfile.TemporaryDirectory()))
        for name in "clients", "crates", "examples":
            (folder / name).symlink_to(TOP / name)
        reader = Reader(COOKBOOK, folder, program, stack)
        reader.port = stack.enter_context(Server(program, TENANTS)).port
        yield from page_follows(reader, COOKBOOK_LINES)


def readme(program):
    """The module's page, in its folder, on a server of the tutorial's tenants."""
    with contextlib.ExitStack() as stack:
        reader = Reader(README, MODULE, program, stack)
        reader.port = stack.enter_context(Server(program, TENANTS)).port
        yield from page_follows(reader, README_LINES)


def pages(program):
    """The sessions of the tutorial and of the module's page tell what these say; the rows that the tutorial puts
    are acknowledged."""
    with Server(program, TENANTS) as server:
        for number, (given, wanted) in enumerate(sessions_on(TUTORIAL), 1):
            ended = terminal(server.port, given=given)
            yield f"the tutorial's session {number}", difference(ended.written, wanted)
        words = ["--port", str(server.port), "--tenant", "a", "--seconds", "100", "--every", "0"]
        subprocess.run(
            [sys.executable, LOAD, *words], env=environment(), timeout=SECONDS, check=True
        )
        with session(server) as it:
            busy = it.list().queries[-1]
            found = busy.name, busy.next, it.fetch("busy").next
        yield "rows that are put to be watched", difference(found, ("busy", 39, 100))
    with Server(program, TENANTS) as server:
        # one goes on with what the one before it has made
        pairs = [*sessions_on(README)]
        ended = terminal(server.port, given=b"".join(given for given, _ in pairs))
        wanted = b"".join(wanted for _, wanted in pairs)
        yield "the sessions of the module's page", difference(ended.written, wanted)
        yield "how many they are", difference(len(pairs), 2)


CHECKS = tutorial, cookbook, readme, pages
