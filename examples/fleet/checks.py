"""What `run` checks of a fleet: what each node holds, by its log and by its store, and whether verdicts differ only where they may.

A node's log says which statements it delivered, so the newest in each slot is known without its store. Of two nodes that hold the same
newest in all slots of a path the verdicts have to be equal; where `x509check compare` names a certificate, that has to be the first of the
path of whose slots they hold different ones. It is imported by `run`.
"""

import collections
import itertools
import json
import os
import random
import re
import sqlite3
import subprocess
from typing import Dict, List, NamedTuple, Optional, Tuple

Slot = Tuple[str, str]
Held = Dict[Slot, int]
SCOPES = {0: "all", 1: "user", 2: "ca"}


LINE = re.compile(r"[0-9.]+ ([0-9a-f]{16}) 0 stored (\d+) kept (\d+) contradicted (\d+)")


class Log:
    """The log of a node, as it grows: the newest in each slot of what it delivered, and how that was counted."""

    def __init__(self, path: str) -> None:
        self.path, self.at, self.held = path, 0, {}
        self.deliveries = self.stored = self.kept = self.contradicted = self.refused = 0

    def read(self, said: Dict[str, Tuple[Slot, int]], end: int = -1) -> None:
        """Reads what came since the last call, up to an end if one is given. `said` tells what a statement with a digest is about."""
        if not os.path.exists(self.path):
            return
        with open(self.path, "rb") as file:
            file.seek(self.at)
            octets = file.read() if end < 0 else file.read(end - self.at)
        octets = octets[:octets.rfind(b"\n") + 1]
        self.at += len(octets)
        for line in filter(None, octets.decode().splitlines()):
            self.deliveries += 1
            told = LINE.fullmatch(line)
            if told is None:
                self.refused += 1
                continue
            slot, rank = said[told[1]]
            self.held[slot] = max(rank, self.held.get(slot, rank))
            self.stored, self.kept, self.contradicted = (
                now + int(it) for now, it in zip((self.stored, self.kept, self.contradicted), told.groups()[1:]))


def held_in(store: str, issuers: Dict[bytes, str]) -> Held:
    """What the tables of a store hold (docs/REFERENCE.md, "The tables of a store")."""
    connection = sqlite3.connect(store)
    try:
        lists = connection.execute("SELECT spki, scope, number FROM scoped_crls JOIN issuers ON issuer = id").fetchall()
        responses = connection.execute("SELECT spki, serial, this_update FROM ocsp JOIN issuers ON issuer = id").fetchall()
    finally:
        connection.close()
    held = {(issuers[spki], SCOPES[scope]): int.from_bytes(number, "big") for spki, scope, number in lists}
    held.update({(issuers[spki], str(int.from_bytes(serial, "big"))): at for spki, serial, at in responses})
    return held


class Seen(NamedTuple):
    """A node at a checkpoint: what it took, and its verdicts, path by path."""

    name: str
    held: Held
    verdicts: List[str]
    store: str


Paths = List[List[Tuple[str, List[Slot]]]]


def ranks(node: Seen, slots: List[Slot]) -> Tuple[Optional[int], ...]:
    return tuple(node.held.get(slot) for slot in slots)


def slots_of(path) -> List[Slot]:
    return [slot for _, slots in path for slot in slots]


def pairs(count: int) -> int:
    return count * (count - 1) // 2


class Pairs(NamedTuple):
    """Pairs of nodes, path by path: how many hold the same newest, in how many of these the verdicts differ, and the same of the others."""

    same: int
    same_differ: int
    other: int
    other_differ: int


def compare_all(nodes: List[Seen], paths: Paths) -> Pairs:
    """All pairs on all paths, by what the sessions answered."""
    same = same_differ = differ = 0
    for number, path in enumerate(paths):
        groups = collections.defaultdict(collections.Counter)
        for node in nodes:
            groups[ranks(node, slots_of(path))][node.verdicts[number]] += 1
        for group in groups.values():
            same += pairs(sum(group.values()))
            same_differ += pairs(sum(group.values())) - sum(map(pairs, group.values()))
        of_all = sum(groups.values(), collections.Counter())
        differ += pairs(len(nodes)) - sum(map(pairs, of_all.values()))
    return Pairs(same, same_differ, pairs(len(nodes)) * len(paths) - same, differ - same_differ)


def first_difference(one: Seen, other: Seen, path) -> Optional[int]:
    """The least certificate of which the two hold different statements, counted from 1."""
    places = (place for place, (_, slots) in enumerate(path, 1) if ranks(one, slots) != ranks(other, slots))
    return next(places, None)


class Comparer:
    """`x509check compare` on the stores of two nodes."""

    def __init__(self, program: str, authority: str, verdicts: str) -> None:
        self.program, self.authority, self.verdicts = program, authority, verdicts

    def compare(self, one: Seen, other: Seen, number: int, paths: Paths, moment: str) -> Optional[str]:
        """Why the answer is not the one that had to come, by the logs and by what the two sessions answered."""
        files = [os.path.join(self.authority, f"{title}.der") for title, _ in paths[number]]
        words = [self.program, "compare", "--store", one.store, "--other", other.store, "--verdicts", self.verdicts, "--at", moment,
                 "--anchor", os.path.join(self.authority, "root.der"), *files]
        done = subprocess.run(words, capture_output=True, text=True, check=False)
        answer = (done.stdout or done.stderr).strip()
        first, second = one.verdicts[number], other.verdicts[number]
        place = first_difference(one, other, paths[number])
        wanted = f"same {first}" if first == second else f"differ {place}: {first}; {second}"
        if answer != wanted or first != second and place is None:
            return f"{one.name} and {other.name} on {files[-1]}: `{answer}`, not `{wanted}`"
        return None

    def sample(self, rng: random.Random, nodes: List[Seen], paths: Paths, moment: str, count: int) -> List[Optional[str]]:
        """So many pairs on a path each, every second one such whose verdicts differ, if there is one. A store has one process at a time."""
        every, found = list(itertools.combinations(nodes, 2)), []
        for at in range(count if every else 0):
            one, other = rng.choice(every)
            differing = [number for number in range(len(paths)) if one.verdicts[number] != other.verdicts[number]]
            number = rng.choice(at % 2 == 0 and differing or range(len(paths)))
            found.append(self.compare(one, other, number, paths, moment))
        return found


def not_newest(node: Seen, issuers: Dict[bytes, str]) -> int:
    """In how many slots the store does not hold the newest of what the node delivered."""
    held = held_in(node.store, issuers)
    return sum(held.get(slot) != node.held.get(slot) for slot in {*held, *node.held})


def seen_at(folder: str, name: str, log: Log, said: Dict[str, Tuple[Slot, int]]) -> Seen:
    """What a node left at a checkpoint, and what its log said then."""
    with open(os.path.join(folder, f"{name}.json"), encoding="ascii") as file:
        left = json.load(file)
    log.read(said, left["log"])
    return Seen(name, dict(log.held), left["verdicts"], os.path.join(folder, f"{name}.store"))
