"""What tests/server checks of how a server is run: TLS by proxies, the exporter of its log, a bridge of
MQTT, and what `make install` puts. Each check gives pairs of a name and of what is wrong, or None.
"""
import contextlib
import json
import os
import pathlib
import re
import socket
import subprocess
import sys
import tempfile
import urllib.request

from clients import (
    EMPTY,
    LIST,
    LOG_IN,
    STREAM,
    TENANTS,
    TOP,
    WIDE,
    Peer,
    ending,
    environment,
    error_of,
    free_port,
    lines_of,
    session,
    terminal,
    wait_for,
)
from served import SECONDS, Ended, Server, difference, line_of, put, told
from wanted import are_wanting, path_of

import romburik
import romburik.lines

EXAMPLES = TOP / "examples"
FEED = EXAMPLES / "feed.py"
CONSUME = EXAMPLES / "consume.py"
OPERATING = TOP / "docs/OPERATING.md"


def recipe(kind, **changed):
    """A proxy's file as the page has it, with what is of this machine put in place."""
    text = re.search(f"```{kind}\n(.*?)```", OPERATING.read_text(), re.DOTALL)[1]
    for old, new in changed.items():
        old = {"listen": "7443", "server": "127.0.0.1:7000", "files": "/etc/cqld"}[old]
        if old not in text:
            raise OSError(f"the page's {kind} has no {old}")
        text = text.replace(old, new)
    return text


def certified(folder):
    """Makes an authority, and what it has vouched for: `localhost`, and a caller."""

    def openssl(*words):
        how = {"cwd": folder, "capture_output": True, "timeout": SECONDS, "check": True}
        subprocess.run(["openssl", *words], **how)

    key = "-newkey", "ec", "-pkeyopt", "ec_paramgen_curve:P-256", "-nodes"
    for name in "ca", "other":
        openssl(
            "req",
            "-x509",
            *key,
            "-keyout",
            f"{name}.key",
            "-out",
            f"{name}.pem",
            "-subj",
            f"/CN={name}",
        )
    for name in "localhost", "caller":
        alternative = f"subjectAltName=DNS:{name}"
        openssl(
            "req", *key, "-keyout", f"{name}.key", "-out", f"{name}.csr", "-subj", f"/CN={name}"
        )
        pathlib.Path(folder, "names").write_text(alternative)
        signed = "-CA", "ca.pem", "-CAkey", "ca.key", "-CAcreateserial", "-extfile", "names"
        openssl("x509", "-req", "-in", f"{name}.csr", *signed, "-out", f"{name}.pem")
    both = [pathlib.Path(folder, f"localhost.{it}").read_text() for it in ("pem", "key")]
    pathlib.Path(folder, "server.pem").write_text("".join(both))
    os.chmod(f"{folder}/server.pem", 0o600)


def is_listening(port):
    with contextlib.suppress(OSError), socket.create_connection(("127.0.0.1", port), 1):
        return True
    return False


def by_tls(program, folder, name, command, text):
    """Sessions through a proxy that runs by a command over its file."""
    port = free_port()
    with Server(program, WIDE) as server:
        path = pathlib.Path(folder, f"{name}.cfg")
        path.write_text(text(str(port), f"127.0.0.1:{server.port}"))
        with open(f"{folder}/{name}.log", "wb") as log:
            proxy = subprocess.Popen([*command, path], stdout=log, stderr=log)
        with ending(proxy):
            wait_for(lambda: proxy.poll() is not None or is_listening(port))
            words = ["--host", "localhost", "--tls", "--ca", f"{folder}/ca.pem"]
            given = STREAM + b"".join(put(at, at) for at in range(2000)) + LIST
            ended = terminal(port, *words, "--quiet", "--file", "-", given=given)
            wanted = b'{"queries":[],"readable":[],"streams":[{"name":"s","open":1999}]}\n'
            yield f"lines by {name}", difference(ended, Ended(0, b"", wanted))
            ended = terminal(port, "--tls-name", "localhost", *words[2:], given=LIST)
            yield f"a name of its own by {name}", difference((ended.status, ended.said), (0, b""))
            ended = terminal(port, *words[:3], "--ca", f"{folder}/other.pem", given=LIST)
            said = b"certificate verify failed" in ended.said
            yield f"a certificate of nobody by {name}", difference((ended.status, said), (4, True))
            ended = terminal(port, "--timeout", "5", given=LIST)
            yield f"no TLS by {name}", difference((ended.status, ended.written), (4, b""))
            tls = romburik.Tls(f"{folder}/ca.pem", f"{folder}/caller.pem", f"{folder}/caller.key")
            how = {"host": "localhost", "port": port, "tenant": "a", "key": "ka"}
            with romburik.Session(**how, tls=tls) as it:
                it.stream("t", {"v": "text"})
                it.query("q", "Select Rstream(*) From t [Unbounded]")
                it.put_many("t", ((at, ["x" * 60_000]) for at in range(60)))
                rows = it.fetch("q").blocks[-1].rows
                yield f"long lines by {name}", difference(len(rows), 59)


def proxies(program):
    """TLS by HAProxy and stunnel, as the page has them."""
    stunnel, haproxy = path_of("stunnel4", "stunnel"), path_of("haproxy")
    has_certificates = not are_wanting("TLS", "openssl")
    are_wanting("TLS by HAProxy", "haproxy")
    are_wanting("TLS by stunnel", "stunnel")
    with tempfile.TemporaryDirectory() as folder:
        if (haproxy or stunnel) and has_certificates:
            certified(folder)

        def text(kind):
            return lambda listen, server: recipe(kind, listen=listen, server=server, files=folder)

        if haproxy and has_certificates:
            yield from by_tls(program, folder, "haproxy", [haproxy, "-db", "-f"], text("haproxy"))
        if stunnel and has_certificates:
            yield from by_tls(program, folder, "stunnel", [stunnel], text("stunnel"))


def keys_stay_here(_):
    """Without TLS no key leaves this machine, unless that is asked for."""
    leaves_machine = romburik.lines.leaves_machine
    for own, peer, wanted in (
        ("127.0.0.1", "127.0.0.1", False),
        ("127.0.0.1", "127.8.0.1", False),
        ("::1", "::1", False),
        ("::ffff:127.0.0.1", "::ffff:127.0.0.2", False),
        ("192.168.0.7", "192.168.0.7", False),
        ("192.168.0.7", "192.168.0.8", True),
        ("fe80::1%eth0", "fe80::2%eth0", True),
    ):
        yield f"from {own} to {peer}", difference(leaves_machine(own, peer), wanted)
    with Peer([LOG_IN]) as peer:
        how = {"port": peer.port, "tenant": "a", "key": "ka"}
        romburik.lines.leaves_machine = lambda *_: True
        try:
            error = error_of(lambda: romburik.Session(**how))
            yield "a key in the clear", difference(type(error), romburik.InTheClear)
        finally:
            romburik.lines.leaves_machine = leaves_machine


# ---- Running it.


SERVICE = EXAMPLES / "service"
LOG = b"""\
{"login":"a"}
{"at":"2026-11-29T12:00:00.000Z","login":"a"}
{"refused_login":null}
{"ended":"a","why":"caller"}
{"sessions":2,"calls":10,"fetches":3,"fetching":1,"warm":2,"cold":1,"lock_us":93,"answer_us":20,"commands":{"put":7},"refused":{"41":2}}
{"owner":"a","held":{"s":12,"u":3},"bytes":{"s":1344,"u":333}}
{"tenant":"a","commands":{"put":7},"refused":{"41":2},"given_up":0}
{"tenant":"b","commands":{"fetch":3},"refused":{"70":1},"given_up":1,"lag":60}
no line of it
{"sessions":1,"calls":5,"fetches":0,"fetching":0,"warm":0,"cold":0,"lock_us":3,"answer_us":0,"commands":{"put":4},"refused":{}}
{"owner":"a","held":{"s":9},"bytes":{"s":1008}}
{"tenant":"b","commands":{"put":4},"refused":{},"given_up":1,"lag":58}
"""
EXPORTED = """\
cqld_calls_total 15
cqld_commands_total{command="put"} 11
cqld_held_bytes{tenant="a",stream="s"} 1008
cqld_held_rows{tenant="a",stream="s"} 9
cqld_lag_ticks{tenant="b"} 58
cqld_lines_passed_over_total 1
cqld_logins_total{tenant="a"} 2
cqld_refusals_total{number="41"} 2
cqld_sessions 1
cqld_sessions_ended_total{tenant="a",why="caller"} 1
cqld_tenant_answers_given_up_total{tenant="b"} 2
cqld_tenant_commands_total{tenant="a",command="put"} 7
cqld_tenant_commands_total{tenant="b",command="fetch"} 3
cqld_tenant_commands_total{tenant="b",command="put"} 4
cqld_tenant_refusals_total{tenant="a",number="41"} 2
"""


def exporter(program):
    """What a log tells as Prometheus reads it, of lines that are given and of a server's own."""
    command = [sys.executable, EXAMPLES / "exporter.py"]
    how = {"capture_output": True, "timeout": SECONDS, "check": False, "env": environment()}
    ran = subprocess.run([*command, "--once"], input=LOG, **how)
    lines = ran.stdout.decode().splitlines(True)
    missing = [line for line in EXPORTED.splitlines(True) if line not in lines]
    now = [line for line in lines if "held_rows{" in line or "lag_ticks{" in line]
    yield "what is exported", difference((ran.returncode, missing, len(now)), (0, [], 2))
    if not are_wanting("what promtool says of what is exported", "promtool"):
        checked = subprocess.run(["promtool", "check", "metrics"], input=ran.stdout, **how)
        yield "what promtool says", difference((checked.returncode, checked.stdout), (0, b""))
    with Server(program, TENANTS, log=1) as server:
        child = subprocess.Popen(
            [*command, "--listen", "0"],
            stdin=server.child.stderr,
            stdout=subprocess.PIPE,
            env=environment(),
        )
        with ending(child), session(server) as it:
            it.stream("s", {"v": "int"})
            address = lines_of(child.stdout, 1).decode().split()[-1]
            wanted = 'cqld_commands_total{command="stream"} 1\n'

            def is_told():
                with urllib.request.urlopen(f"http://{address}/metrics", timeout=SECONDS) as reply:
                    return wanted in reply.read().decode()

            wait_for(is_told)
            yield "what a server tells", None


def bridge(program):
    """Messages of a broker into a stream, and what a query tells back to it."""
    if are_wanting("the bridge of MQTT", "mosquitto", "mosquitto_sub", "mosquitto_pub"):
        return
    port = free_port()
    setup = (
        {"columns": [["topic", "text"], ["value", "int"]], "do": "stream", "name": "r"},
        {"do": "query", "name": "hot", "text": "Select Istream(*) From r [Now] Where value > 20"},
    )
    with tempfile.TemporaryDirectory() as folder, contextlib.ExitStack() as open_ones:
        offsets = pathlib.Path(folder, "offsets")
        offsets.mkdir()
        pathlib.Path(folder, "setup").write_bytes(b"".join(line_of(**it) for it in setup))
        log = pathlib.Path(folder, "log")
        log.touch()

        def start(*words, **how):
            child = subprocess.Popen(words, env=environment(), **how)
            return open_ones.enter_context(ending(child))

        silent = {"stdout": subprocess.DEVNULL, "stderr": subprocess.DEVNULL}
        start(path_of("mosquitto"), "-p", str(port), **silent)
        wait_for(lambda: is_listening(port))
        told = start(
            "mosquitto_sub", "-p", str(port), "-t", "alerts", "-C", "1", stdout=subprocess.PIPE
        )
        words = "--topic", "home/+", "--stream", "r", "--log", str(log), "--beat", "0.2"
        words = *words, "--broker-port", str(port)
        bridged = start(sys.executable, EXAMPLES / "bridge.py", *words, **silent)
        with Server(program, TENANTS) as server:
            where = "--port", str(server.port), "--tenant", "a", "--offsets", str(offsets)
            files = "--setup", f"{folder}/setup", "--log", str(log), "--scale", "100"
            start(sys.executable, FEED, *where, *files, "--poll", "0.05")
            publish = f"mosquitto_pub -p {port} -q 1 -t alerts -s"
            start(
                sys.executable,
                CONSUME,
                *where,
                "--query",
                "hot",
                "--poll",
                "0.05",
                "--exec",
                publish,
            )
            send = "mosquitto_pub", "-p", str(port), "-q", "1", "-t", "home/hall", "-m"
            # until the bridge has subscribed, what is sent goes to nobody
            while not log.read_bytes():
                subprocess.run([*send, "19"], check=True, timeout=SECONDS)
            for message in "warm", "21":
                subprocess.run([*send, message], check=True, timeout=SECONDS)
            alert = json.loads(lines_of(told.stdout, 1))
        yield "an alert by MQTT", difference(alert["rows"], [["home/hall", 21]])
        # it ends what it has started
        bridged.terminate()
        yield "a bridge's end", difference(bridged.wait(SECONDS), 0)


def made(program, *words):
    """Runs a target of the Makefile with the program that is checked in the place of the built one."""
    words = ["make", "--no-print-directory", *words, f"SERVER={os.path.abspath(program)}"]
    return subprocess.run(words, cwd=TOP, capture_output=True, timeout=SECONDS, check=False)


def run_from(prefix, server):
    """What is put below a prefix runs from there, and completes words."""
    bare = environment()
    bare.pop("PYTHONPATH")
    how = {"env": {**bare, "PATH": f"{prefix}/bin:{bare['PATH']}"}, "capture_output": True}
    words = ["romburik", "--port", str(server.port), "--tenant", "a"]
    ran = subprocess.run(words, input=LIST, timeout=SECONDS, check=False, **how)
    yield "a terminal that is installed", difference(ran.stdout, b"> " + LIST + b"< " + EMPTY)
    ran = subprocess.run(["cqld", "--check"], input=TENANTS, timeout=SECONDS, check=False, **how)
    yield "a server that is installed", difference(ran.returncode, 0)
    asked = f"source {prefix}/share/bash-completion/completions/romburik; COMP_WORDS=(romburik --tok)"
    shown = 'COMP_CWORD=1; _romburik romburik; echo "${COMPREPLY[@]}"'
    ran = subprocess.run(["bash", "-c", f"{asked}; {shown}"], timeout=SECONDS, check=False, **how)
    yield "a word that is completed", difference(ran.stdout, b"--token-file\n")


def installed(program):
    """What `make install` puts, which runs from there."""
    with tempfile.TemporaryDirectory() as folder, Server(program, TENANTS) as server:
        ran = made(program, "install", f"DESTDIR={folder}", "PREFIX=/opt/cql")
        yield "an installation", None if ran.returncode == 0 else ran.stderr.decode()
        yield from run_from(f"{folder}/opt/cql", server)
        for name in "cqld", "romburik":
            manual = pathlib.Path(folder, f"opt/cql/share/man/man1/{name}.1").read_text()
            yield f"a manual of {name}", None if "\\-\\-port" in manual else "it has no --port"


# What a package has beside the client's modules: who may do what with it, and where it is.
PACKED = """\
-rwxr-xr-x ./usr/bin/cqld
-rwxr-xr-x ./usr/bin/romburik
-rw-r--r-- ./usr/lib/systemd/system/cqld.service
-rw-r--r-- ./usr/lib/sysusers.d/cqld.conf
-rw-r--r-- ./usr/share/bash-completion/completions/cqld
-rw-r--r-- ./usr/share/doc/romburik/README.Debian
-rw-r--r-- ./usr/share/man/man1/cqld.1.gz
-rw-r--r-- ./usr/share/man/man1/romburik.1.gz
lrwxrwxrwx ./usr/share/bash-completion/completions/romburik
"""


def packed_in(package):
    """The files of a package but for the client's modules, and the users whose they are."""
    how = {"capture_output": True, "text": True, "timeout": SECONDS, "check": True}
    lines = [line.split() for line in subprocess.run(["dpkg-deb", "--contents", package], **how).stdout.splitlines()]
    files = [(it[0], it[5]) for it in lines if it[0][0] != "d" and "/romburik/romburik/" not in it[5]]
    return {f"{mode} {path}" for mode, path in files}, {it[1] for it in lines}


def packaged(program):
    """What `make package` makes: it is unpacked, and runs from there."""
    if are_wanting("the package", "dpkg-deb"):
        return
    with tempfile.TemporaryDirectory() as folder, Server(program, TENANTS) as server:
        ran = made(program, "package", f"PACKAGES={folder}")
        yield "a package is made", None if ran.returncode == 0 else ran.stderr.decode()
        (package,) = pathlib.Path(folder).glob("*.deb")
        how = {"capture_output": True, "text": True, "timeout": SECONDS, "check": True}
        version = subprocess.run([program, "--version"], **how).stdout.split()[1]
        told = subprocess.run(["dpkg-deb", "--field", package, "Package", "Version"], **how).stdout
        yield "its name and version", difference(told, f"Package: romburik\nVersion: {version}\n")
        wanted = set(PACKED.splitlines()), {"root/root"}
        yield "what is in it", difference(packed_in(package), wanted)
        there = pathlib.Path(folder, "there")
        subprocess.run(["dpkg-deb", "--raw-extract", package, there], **how)
        yield from run_from(there / "usr", server)
        unit = (there / "usr/lib/systemd/system/cqld.service").read_text()
        yield "what its service runs", None if "\nExecStart=/usr/bin/cqld --port 7000 " in unit else unit
        for name in "postinst", "prerm":
            ran = subprocess.run(["sh", "-n", there / "DEBIAN" / name], **{**how, "check": False})
            yield f"its {name}", difference((ran.returncode, ran.stderr), (0, ""))


def service_is_closed(_):
    """How far the service is open, of 10, by the system's own measure."""
    if are_wanting("how far the service is open", "systemd-analyze"):
        return
    words = ["systemd-analyze", "security", "--offline=true", "--no-pager", SERVICE / "cqld.service"]
    ran = subprocess.run(words, capture_output=True, text=True, timeout=SECONDS, check=False)
    exposed = re.search(r"Overall exposure level for cqld.service: ([0-9.]+)", ran.stdout)
    yield "how far a service is open", None if exposed and float(exposed[1]) <= 2 else ran.stdout


CHECKS = (
    proxies,
    keys_stay_here,
    exporter,
    bridge,
    installed,
    packaged,
    service_is_closed,
)
