"""Counts the instructions of a built cqld by valgrind, for bench/joins and bench/hostile. The counts don't
move with the machine's load.
"""
import re
import shutil

from served import Caller, Server, line_of, login

VALGRIND = "valgrind", "--tool=callgrind", "--callgrind-out-file=/dev/null"
# So many lines are sent before their replies are read.
TOGETHER = 500
# For one reply, or the server's end.
SECONDS = 1_200


def can_count():
    return shutil.which("valgrind") is not None


def collected(ended):
    """How many instructions a server took that has ended, by what valgrind said."""
    return int(re.search(rb"Collected : (\d+)", ended.said).group(1))


def put(at, name, *row):
    """The line of a row of numbers."""
    values = b",".join(b"%d" % it for it in row)
    return b'{"at":%d,"do":"put","row":[%b],"stream":"%b"}\n' % (at, values, name.encode())


def beats(names, at):
    for name in names:
        yield line_of(at=at, do="beat", stream=name)


def instructions(program, table, tenant, lines, **words):
    """How many instructions a server of one session takes for it, and the last reply."""
    lines = list(lines)
    with Server(program, table, VALGRIND, sessions=1, workers=1, **words) as server:
        with Caller(server, seconds=SECONDS) as caller:
            reply = caller.ask(login(tenant))
            for start in range(0, len(lines), TOGETHER):
                some = lines[start : start + TOGETHER]
                caller.send(*some)
                for _ in some:
                    reply = caller.replies.readline()
            caller.rest()
        ended = server.end(SECONDS)
    return collected(ended), reply
