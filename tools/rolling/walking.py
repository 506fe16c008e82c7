"""Whether a route is one that the maps of a stage make, from its origin on."""
from __future__ import annotations

from collections.abc import Sequence

from deploying.maps import Entry, Maps, Tag, permits


def tag_along(maps: Maps, prefix: str, path: Sequence[str]) -> Tag | None:
    """The tag that a route to a prefix has at the first place of a path, where each router on it has lines for it; the last place is an
    origin: a router, or a peer behind one."""
    back = list(reversed(path))
    if back[0] in maps.routers:
        tag = next((own.tag for own in maps.routers[back[0]].networks if own.prefix == prefix), None)
        place = 1
    else:
        tag = put_by(maps, prefix, maps.routers[back[1]].blocks[back[0]].takes, None)
        place = 2
    for one, two in zip(back[place - 1:], back[place:]):
        sends, takes = maps.routers[one].blocks[two].sends, maps.routers[two].blocks[one].takes
        is_sent = any(entry.match == tag and permits(maps.lists[entry.number], prefix) for entry in sends)
        tag = put_by(maps, prefix, takes, tag) if tag and is_sent else None
    return tag


def put_by(maps: Maps, prefix: str, takes: Sequence[Entry], tag: Tag | None) -> Tag | None:
    """The tag that the first entry for a route gives it."""
    return next((entry.put for entry in takes if entry.match == tag and permits(maps.lists[entry.number], prefix)), None)
