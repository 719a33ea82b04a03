"""What the checks of `cqld --journal` share: a journal's file as its records, as a script of cqlrun, and what
that tells; and a library by which the file's calls of the system fail.
"""
import collections
import contextlib
import hashlib
import json
import os
import pathlib
import re
import subprocess
import tempfile

from served import SECONDS, Ended

HEADING = b"0000000000000001\n"

# A record: whose call it is, and the line.
Record = collections.namedtuple("Record", "tenant line")


def chain_of(chain, records):
    """The commit line of a batch's lines behind a chain, without its line feed."""
    return hashlib.md5(chain + records).hexdigest()[:16].encode()


def batches_of(text):
    """The whole batches of a journal's text, each as the place behind it and its records; the place of the first
    line stands before them."""
    if not text.startswith(HEADING):
        return [(0, [])]
    chain, at, found = HEADING[:-1], len(HEADING), [(len(HEADING), [])]
    while True:
        records, end = [], at
        while (line := re.compile(rb"([^\n]*)\n").match(text, end)) and line[1].startswith(chain + b" "):
            tenant, _, said = line[1][len(chain) + 1 :].partition(b" ")
            records.append(Record(tenant.decode(), said))
            end = line.end()
        if line is None or line[1] != chain_of(chain, text[at:end]):
            return found
        chain, at = line[1], line.end()
        found.append((at, records))


def records_of(file):
    """The records of a journal's file."""
    return [it for _, records in batches_of(pathlib.Path(file).read_bytes()) for it in records]


def said_by(record, **more):
    """A record as a line of a script."""
    return json.dumps({"tenant": record.tenant, **more}, separators=(",", ":")).encode()[:-1] + b"," + record.line[1:] + b"\n"


def judged(judge, table, lines):
    """What cqlrun tells of the lines of a script, line by line."""
    done = subprocess.run([judge], input=b"".join([table, *lines]), stdout=subprocess.PIPE, timeout=SECONDS, check=False)
    return done.stdout.splitlines(keepends=True)


def ends_at_start(program, table, journal, **words):
    """How a server ends that doesn't come to listen."""
    spelled = [it for name, value in words.items() for it in ["--" + name] + [str(value)] * (value is not True)]
    done = subprocess.run(
        [program, "--journal", str(journal), *spelled], input=table, stdout=subprocess.PIPE, stderr=subprocess.PIPE,
        timeout=SECONDS, check=False,
    )
    return Ended(done.returncode, done.stderr, done.stdout)


@contextlib.contextmanager
def a_journal():
    """The path of a journal that isn't there yet."""
    with tempfile.TemporaryDirectory() as folder:
        yield pathlib.Path(folder, "journal")


# Of what a program writes to files that aren't sockets, pipes or terminals, and of its fdatasync: each from a
# number on fails, or each takes so many microseconds; a write takes at most so many bytes.
SOURCE = r"""
#define _GNU_SOURCE
#include <dlfcn.h>
#include <errno.h>
#include <stdatomic.h>
#include <stdlib.h>
#include <sys/stat.h>
#include <unistd.h>

static long number_of(const char *word) {
    char *said = getenv(word);
    return said ? atol(said) : 0;
}

static atomic_long writes;
static atomic_long syncs;

static int is_file(int file) {
    struct stat stat;
    return fstat(file, &stat) == 0 && S_ISREG(stat.st_mode);
}

ssize_t write(int file, const void *bytes, size_t count) {
    ssize_t (*real)(int, const void *, size_t) = dlsym(RTLD_NEXT, "write");
    if (is_file(file)) {
        long at = number_of("WRITE_FAILS_FROM"), most = number_of("WRITE_TAKES");
        if (at && atomic_fetch_add(&writes, 1) + 1 >= at) {
            errno = ENOSPC;
            return -1;
        }
        if (most && count > (size_t)most) {
            count = most;
        }
    }
    return real(file, bytes, count);
}

int fdatasync(int file) {
    int (*real)(int) = dlsym(RTLD_NEXT, "fdatasync");
    long at = number_of("SYNC_FAILS_FROM"), moment = number_of("SYNC_LASTS");
    if (moment) {
        usleep(moment);
    }
    if (at && atomic_fetch_add(&syncs, 1) + 1 >= at) {
        errno = EIO;
        return -1;
    }
    return real(file);
}
"""


@contextlib.contextmanager
def under_wrong_disk(**words):
    """The words that run a program over such a library."""
    with tempfile.TemporaryDirectory() as folder:
        source, library = pathlib.Path(folder, "disk.c"), pathlib.Path(folder, "disk.so")
        source.write_text(SOURCE, encoding="ascii")
        subprocess.run(["cc", "-shared", "-fPIC", "-O1", "-o", library, source, "-ldl"], check=True)
        yield ("env", f"LD_PRELOAD={library}", *(f"{name.upper()}={value}" for name, value in words.items()))


def killed(server):
    """Kills a server at once."""
    os.kill(server.child.pid, 9)
    server.child.wait()
