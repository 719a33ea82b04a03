"""What a cluster is seen to do: by its supervisor, by its proxy and by its servers."""
import csv
import os
import pathlib
import socket
from typing import Dict, Optional, Set

from layout import DOMAIN, Layout
from plan import CHECK

import romburik


def is_running(folder: pathlib.Path) -> bool:
    """Whether a folder's supervisor runs."""
    try:
        os.kill(int((folder / "supervisor.pid").read_text()), 0)
    except (OSError, ValueError):
        return False
    return True


def asked(layout: Layout, command: str) -> str:
    """What the proxy says to a command of its own."""
    with socket.socket(socket.AF_UNIX) as near:
        near.settimeout(10)
        near.connect(layout.proxy_socket)
        near.sendall(command.encode() + b"\n")
        with near.makefile("r", encoding="utf-8") as said:
            return said.read()


def up(layout: Layout) -> Dict[str, Set[str]]:
    """By the proxy's checks: on which servers each group is served first, and fed."""
    marks: Dict[str, Set[str]] = {}
    for row in csv.DictReader(asked(layout, "show stat").lstrip("# ").splitlines()):
        if row["status"].startswith("UP"):
            marks.setdefault(row["pxname"], set()).add(row["svname"])
    return marks


def serving(layout: Layout) -> Dict[str, Optional[str]]:
    """The server that the proxy sends each group to, or None."""
    try:
        marks = up(layout)
    except OSError:
        marks = {}
    found: Dict[str, Optional[str]] = {}
    for group in layout.groups:
        # of several the proxy takes turns; there is one, but while a group moves
        on = marks.get(f"first_{group.name}") or marks.get(f"fed_{group.name}") or {"BACKEND"}
        found[group.name] = min(on - {"BACKEND"}, default=None)
    return found


def is_settled(layout: Layout) -> bool:
    """Whether each group is served by the server that is to, and another one stands by."""
    try:
        marks = up(layout)
    except OSError:
        return False
    enough = min(2, len(layout.servers))
    return all(
        f"first_{group.name}" in marks
        and len(marks.get(f"fed_{group.name}", set()) - {"BACKEND"}) >= enough
        for group in layout.groups
    )


def marks_of(layout: Layout, server: str) -> Set[str]:
    """What a server says of itself."""
    port, key = layout.port_of(server), layout.keys[CHECK]
    with romburik.Session(port=port, tenant=CHECK, key=key, timeout=10) as session:
        return {it.name for it in session.list().queries}


def show(layout: Layout) -> None:
    """Prints where each group is."""
    marks, serves = up(layout), serving(layout)
    for group in layout.groups:
        behind = marks.get(f"fed_{group.name}", set()) - {"BACKEND", serves[group.name] or ""}
        stands = f", {', '.join(sorted(behind))} stands by" if behind else ""
        print(
            f"{group.name}.{DOMAIN}: {', '.join(group.tenants)}; on {serves[group.name]}{stands}"
        )
