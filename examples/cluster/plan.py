"""Which tenants hang together, and which server each group of them is put on."""
from dataclasses import dataclass
from typing import Any, Dict, List, Mapping, Sequence, Tuple

Line = Mapping[str, Any]
Plan = Mapping[str, Sequence[str]]
"""The tenants of each server."""

CHECK = "check"
"""The tenant as whom the proxy looks at a server. It is in no group."""


class Split(Exception):
    """A plan puts on two servers what hangs together, or doesn't say where a tenant goes."""


@dataclass(frozen=True)
class Group:
    """Tenants that hang together by grants; its name is that of the first one in the table."""

    tenants: Tuple[str, ...]
    grants: Tuple[str, ...]

    @property
    def name(self) -> str:
        return self.tenants[0]


def told(grant: Line) -> str:
    return f"{grant['tenant']} grants {grant['stream']} to {grant['to']}"


def groups_of(names: Sequence[str], setup: Sequence[Line]) -> List[Group]:
    """The groups of the table's tenants, in its order."""
    grants = [line for line in setup if line["do"] == "grant"]
    first = {name: name for name in names if name != CHECK}
    for grant in grants:
        for name in (grant["tenant"], grant["to"]):
            if name not in first:
                raise Split(f"{told(grant)}: {name} is no tenant of the table")
        kept, gone = sorted((first[grant["tenant"]], first[grant["to"]]), key=names.index)
        first = {name: kept if it == gone else it for name, it in first.items()}
    groups = []
    for head in dict.fromkeys(first.values()):
        tenants = tuple(name for name in first if first[name] == head)
        groups.append(Group(tenants, tuple(told(it) for it in grants if it["tenant"] in tenants)))
    return groups


def _server_of(group: Group, plan: Plan) -> str:
    """The server of a group, which has all its tenants."""
    where = {name: [it for it in plan if name in plan[it]] for name in group.tenants}
    for name, servers in where.items():
        if len(servers) != 1:
            raise Split(f"the plan has {name} on {len(servers)} servers, and not on one")
    servers = {name: it[0] for name, it in where.items()}
    if len({*servers.values()}) > 1:
        places = ", ".join(f"{name} on {it}" for name, it in servers.items())
        raise Split(f"{'; '.join(group.grants)}: so they hang together, and the plan has {places}")
    return servers[group.name]


def places_of(groups: Sequence[Group], plan: Plan) -> Dict[str, Dict[str, str]]:
    """For each group by its name what each server is to it: `first`, and the one behind that in the
    plan's order `standby`."""
    servers = [*plan]
    places = {}
    for group in groups:
        first = _server_of(group, plan)
        behind = servers[(servers.index(first) + 1) % len(servers)]
        places[group.name] = {behind: "standby", first: "first"}
    return places
