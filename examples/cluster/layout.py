"""What a cluster's folder has: where each process listens, and what each is told at its start."""
import argparse
import json
import os
import pathlib
import shutil
import sys
import tempfile
from dataclasses import dataclass
from typing import Any, Callable, Dict, List, Optional, Sequence

HERE = pathlib.Path(__file__).resolve().parent
TOP = HERE.parent.parent
sys.path.append(str(TOP / "clients/python"))

import plan
from plan import CHECK, Group
from store import Store

MEMBERS = 3
"""How many members the log has: with one that is gone two still agree."""

DOMAIN = "cluster"
"""Behind each group's name: by `a.cluster` the proxy is asked for the group of a."""

HOME = pathlib.Path(tempfile.gettempdir(), f"romburik-cluster-{os.getuid()}")
"""Where a cluster's folder is, where nothing is said."""


def found(program: str) -> Optional[str]:
    """Where a program is, also one that not every user's path has."""
    return shutil.which(program) or shutil.which(program, path="/usr/sbin")


def add_folder(parser: argparse.ArgumentParser) -> None:
    parser.add_argument(
        "--folder", type=pathlib.Path, default=HOME, help=f"what the cluster has ({HOME})"
    )


def sayer(name: str) -> Callable[[str], None]:
    return lambda text: print(f"{name}: {text}", file=sys.stderr, flush=True)


@dataclass(frozen=True)
class Layout:
    """A cluster's folder, its first port, and its server's program."""

    folder: pathlib.Path
    port: int
    cqld: str
    scale: int
    ahead: int
    wire: int = 0
    """How far above each process's own port the others reach it: 0, unless something stands between."""

    @staticmethod
    def of(folder: pathlib.Path) -> "Layout":
        """That of a cluster that was started."""
        told = json.loads((folder / "cluster.json").read_text(encoding="utf-8"))
        return Layout(folder.resolve(), **told)

    def keep(self) -> None:
        told = {name: getattr(self, name) for name in ("port", "cqld", "scale", "ahead", "wire")}
        (self.folder / "cluster.json").write_text(json.dumps(told) + "\n", encoding="utf-8")

    # What the caller gave.

    @property
    def table(self) -> List[Dict[str, Any]]:
        told = json.loads((self.folder / "tenants.json").read_text(encoding="utf-8"))
        tenants: List[Dict[str, Any]] = told["tenants"]
        return tenants

    @property
    def keys(self) -> Dict[str, str]:
        return {it["name"]: it["key"] for it in self.table}

    @property
    def setup(self) -> List[Dict[str, Any]]:
        with open(self.folder / "setup.jsonl", encoding="utf-8") as lines:
            return [json.loads(line) for line in lines if line.strip()]

    @property
    def plan(self) -> plan.Plan:
        told: plan.Plan = json.loads((self.folder / "plan.json").read_text(encoding="utf-8"))
        return told

    @property
    def servers(self) -> List[str]:
        return [*self.plan]

    @property
    def groups(self) -> List[Group]:
        return plan.groups_of([it["name"] for it in self.table], self.setup)

    def setup_of(self, group: Group) -> List[Dict[str, Any]]:
        return [line for line in self.setup if line["tenant"] in group.tenants]

    # Where all is.

    def ports(self) -> Dict[str, List[int]]:
        """Where each process that others call listens: a member of the log for callers, and for the
        other members."""
        logs = range(MEMBERS)
        members = {f"log{it + 1}": [self.port + 11 + it, self.port + 21 + it] for it in logs}
        servers = {it: [self.port + 1 + number] for number, it in enumerate(self.servers)}
        return {**members, **servers, "proxy": [self.port]}

    def port_of(self, process: str) -> int:
        """The port at which a process is called."""
        return self.ports()[process][0] + self.wire

    @property
    def socket(self) -> str:
        """Where the supervisor is asked."""
        return f"{self.folder}/supervisor.sock"

    @property
    def proxy_socket(self) -> str:
        return f"{self.folder}/haproxy.sock"

    def group_of(self, tenant: str) -> Group:
        return next(it for it in self.groups if tenant in it.tenants)

    def caller(self, tenant: str) -> Dict[str, Any]:
        """What a caller's words would say: the proxy, by the name of the tenant's group."""
        return {
            "host": "127.0.0.1",
            "port": self.port_of("proxy"),
            "tls": True,
            "ca": f"{self.folder}/ca.pem",
            "tls_name": f"{self.group_of(tenant).name}.{DOMAIN}",
            "cert": None,
            "cert_key": None,
            "insecure": False,
        }

    def store(self, say: Callable[[str], None]) -> Store:
        return Store([self.port_of(f"log{it + 1}") for it in range(MEMBERS)], say)

    # What each is told.

    def member(self, name: str) -> str:
        """The words of a member of the log."""
        calls, peers = self.ports()[name]
        others = {it: its[1] + self.wire for it, its in self.ports().items() if its[1:]}
        where = {it: f"http://127.0.0.1:{port}" for it, port in others.items()}
        return (
            f"etcd --name {name} --data-dir {self.folder}/{name} "
            f"--listen-client-urls http://127.0.0.1:{calls} "
            f"--advertise-client-urls http://127.0.0.1:{self.port_of(name)} "
            f"--listen-peer-urls http://127.0.0.1:{peers} "
            f"--initial-advertise-peer-urls {where[name]} "
            f"--initial-cluster {','.join('='.join(it) for it in where.items())} "
            f"--initial-cluster-token {self.folder.name} "
            "--auto-compaction-mode revision --auto-compaction-retention 10000"
        )

    def programs(self) -> Dict[str, str]:
        """The words of each process by its name, in the order in which they are started."""
        words = {name: self.member(name) for name, its in self.ports().items() if its[1:]}
        for server in self.servers:
            port = self.ports()[server][0]
            serve = f"exec {self.cqld} --port {port} <{self.folder}/tenants.json"
            words[server] = f"/bin/sh -c '{serve}'"
        words["proxy"] = f"{found('haproxy')} -db -f {self.folder}/haproxy.cfg"
        python = f"{sys.executable} -B"
        for server in self.servers:
            where = f"--folder {self.folder} --ahead {self.ahead}"
            words[f"feed_{server}"] = f"{python} {HERE}/feed {where} {server}"
        words["put"] = f"{python} {HERE}/put --folder {self.folder} --follow log.jsonl"
        for tenant, query in self.queries():
            where = f"--folder {self.folder} --tenant {tenant} --query {query} --poll 0.1"
            out = f"{self.folder}/out/{tenant}.{query}"
            words[f"take_{tenant}_{query}"] = f"{python} {HERE}/consume {where} --out {out}"
        return words

    def queries(self) -> List[Sequence[str]]:
        return [(it["tenant"], it["name"]) for it in self.setup if it["do"] == "query"]

    def supervisor(self) -> str:
        """The configuration of supervisord."""
        parts = [
            f"[supervisord]\nlogfile={self.folder}/supervisor.log\n"
            f"pidfile={self.folder}/supervisor.pid\nchildlogdir={self.folder}\n"
            f"[unix_http_server]\nfile={self.socket}\nchmod=0700\n"
            f"[supervisorctl]\nserverurl=unix://{self.socket}\n"
            "[rpcinterface:supervisor]\n"
            "supervisor.rpcinterface_factory=supervisor.rpcinterface:make_main_rpcinterface\n"
        ]
        for name, words in self.programs().items():
            parts.append(
                f"[program:{name}]\ncommand={words}\nautorestart=true\nstartretries=1000000\n"
                f"stdout_logfile={self.folder}/{name}.log\nredirect_stderr=true\n"
                "stopasgroup=true\nkillasgroup=true\nstopwaitsecs=5\n"
            )
        return "\n".join(parts)

    def proxy(self) -> str:
        """The configuration of HAProxy: for each group the servers on which it is served first, and
        behind them all on which it is fed. Which these are each server says itself, by the list of
        the tenant `check`."""
        return "\n".join([_HEAD.format(folder=self.folder, port=self.port), *self._backends()])

    def _backends(self) -> List[str]:
        login = {"key": self.keys[CHECK], "tenant": CHECK}
        lines = [f"{json.dumps(it)}\n".encode().hex() for it in (login, {"do": "list"})]
        servers = "".join(f"    server {it} 127.0.0.1:{self.port_of(it)}\n" for it in self.servers)
        rules, backends = [], []
        for group in self.groups:
            asked = f"{{ ssl_fc_sni {group.name}.{DOMAIN} }}"
            first, fed = f"first_{group.name}", f"fed_{group.name}"
            rules.append(f"    use_backend {first} if {asked} {{ nbsrv({first}) gt 0 }}\n")
            rules.append(f"    use_backend {fed} if {asked}\n")
            for mark in first, fed:
                backends.append(_BACKEND.format(mark=mark, lines="".join(lines)) + servers)
        return ["".join(rules), *backends]


_HEAD = """\
global
    stats socket {folder}/haproxy.sock mode 600 level admin

defaults
    mode tcp
    timeout connect 2s
    # who can't be connected is told at once, and tries again himself
    retries 0
    timeout client 1h
    timeout server 1h
    timeout check 1s

frontend callers
    bind 127.0.0.1:{port} ssl crt {folder}/server.pem ssl-min-ver TLSv1.2"""

_BACKEND = """\
backend {mark}
    option tcp-check
    tcp-check connect
    tcp-check send-binary {lines}
    tcp-check expect rstring streams.:
    tcp-check expect min-recv 1 string '"{mark}"'
    default-server check inter 500ms fastinter 100ms downinter 500ms fall 1 rise 1
    default-server on-marked-down shutdown-sessions
"""
