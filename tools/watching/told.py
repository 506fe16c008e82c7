"""A line for each change of what is seen, and the metrics for Prometheus' text-file collector."""
from __future__ import annotations

import os
import time
from collections.abc import Iterator, Mapping

from texts.topology import Topology

from .audits import Verdict
from .moment import Moment

Facts = dict[str, str]  # what is said of each thing, by its name; what is well and of no interest isn't there


def link_name(ends: frozenset[str], topology: Topology) -> str:
    return " ".join(sorted(ends, key=topology.place.__getitem__))


def facts_of(moment: Moment, verdicts: Mapping[str, Verdict], topology: Topology) -> Facts:
    """All that may change: what is down, who doesn't answer, who is silent, the verdicts, and each router's route."""
    found = {f"router {name}": "is down" for name in moment.dead}
    found |= {f"router {name}": "doesn't answer" for name in moment.mute}
    found |= {f"session {link_name(ends, topology)}": "is down" for ends in moment.dead_links}
    for prefix, verdict in verdicts.items():
        found[prefix] = verdict.line
        found |= {f"{prefix} session {link_name(ends, topology)}": "is silent" for ends in moment.silent[prefix]}
        for line in verdict.report:
            kind, name, *rest = line.split(" ")
            if kind == "router":
                found[f"{prefix} router {name}"] = " ".join(rest)
    return found


WELL = {"router": "answers", "session": "is up", "network": "rests"}  # what is said of a thing of which nothing is to be said any more


def well(name: str) -> str:
    words = name.split(" ")
    if len(words) > 1 and "/" in words[0]:
        return "speaks" if words[1] == "session" else "isn't known"
    return WELL.get(words[0], "isn't known")


def is_route(name: str) -> bool:
    """Whether a fact is the route of a router. A verdict that isn't `stable` has no such beside it."""
    return name.split(" ")[1:2] == ["router"]


def kept(before: Facts, now: Facts) -> Facts:
    """What is remembered: what is seen now, and routes that were seen last before a verdict without any."""
    return {name: said for name, said in before.items() if is_route(name)} | now


def changes(before: Facts, now: Facts) -> Iterator[str]:
    """A line for each change: of the network, and then of each prefix its verdict and what goes with it."""
    names = [name for name in {**before, **now} if before.get(name) != now.get(name) and (name in now or not is_route(name))]
    for name in sorted(names, key=lambda name: ("/" in name, name)):
        said, was = now.get(name), before.get(name)
        yield f"{name}: {said or well(name)}" + (f", was {was}" if was and said and name in before else "")


def metrics(moment: Moment | None, verdicts: Mapping[str, Verdict], topology: Topology) -> str:
    """The text for the collector. Without a moment it says just that."""
    lines = [*head("propane_moment", "Whether two equal recordings were taken for one moment."), f"propane_moment {int(moment is not None)}",
             *head("propane_watched_timestamp_seconds", "When this was written."), f"propane_watched_timestamp_seconds {int(time.time())}"]
    if moment is None:
        return "\n".join(lines) + "\n"
    lines += head("propane_router_up", "Whether a router answers.")
    lines += [f'propane_router_up{{router="{site.name}"}} {int(site.name not in moment.dead and site.name not in moment.mute)}'
              for site in topology.routers]
    lines += head("propane_session_up", "Whether the session of a link is established.")
    lines += [f'propane_session_up{{one="{one}",two="{two}"}} {int(frozenset((one, two)) not in moment.dead_links and not moment.dead & {one, two})}'
              for one, two in topology.links]
    lines += head("propane_stable", "Whether propane audit calls the routes of a prefix stable.")
    lines += [f'propane_stable{{prefix="{prefix}"}} {int(verdict.is_stable)}' for prefix, verdict in verdicts.items()]
    lines += head("propane_rank", "The rank of a router's path.")
    lines += [f'propane_rank{{prefix="{prefix}",router="{line["router"]}"}} {line["rank"]}' for prefix, verdict in verdicts.items()
              for line in verdict.fields if line["kind"] == "router" and "rank" in line]
    return "\n".join(lines) + "\n"


def head(name: str, what: str) -> list[str]:
    return [f"# HELP {name} {what}", f"# TYPE {name} gauge"]


def put(path: str, text: str) -> None:
    """Writes a file in one step, so that nobody reads a part of it."""
    with open(f"{path}.new", "w", encoding="utf-8") as file:
        file.write(text)
    os.replace(f"{path}.new", path)
