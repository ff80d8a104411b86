"""A node of a fleet: a subscriber of statements, the party of `x509check` that takes them, and a store of its own.

    python3 node.py FOLDER NAME [--last]

It reads FOLDER/fleet.json and keeps all it has in FOLDER/nodes/NAME. Of each statement it judges the signatures, says which are good, and
delivers it; what the party answered goes to its log before the broker is told that the statement came. A node that is started again
first delivers the statement at which it was ended. With --last it judges by another rule, which the checks of `run` have to notice: it
takes the list that was delivered last. `run` starts it, and says on its standard input, a line each: `checkpoint TITLE MOMENT`, to ask for
all verdicts and leave them with a copy of the store in FOLDER/checkpoints/TITLE, or `subscribe`, to be sent again what the broker retains.
Each line is answered by `done`. It ends at the end of its input, and needs the Debian packages python3-paho-mqtt and python3-cryptography.
"""

import contextlib
import hashlib
import json
import os
import select
import shutil
import sqlite3
import sys
import time
from typing import Dict

import paho.mqtt.client as mqtt

sys.dont_write_bytecode = True
sys.path.insert(0, os.path.join(os.path.dirname(os.path.realpath(__file__)), "..", "..", "bindings", "python"))

import signatures  # noqa: E402
from x509check import Party, Refused  # noqa: E402

TOPIC = "statements/#"
FORGET = 200    # statements after which the session forgets what it was told to believe
SCOPES = {"all": 0, "user": 1, "ca": 2}


def client_of(name: str, **words) -> mqtt.Client:
    """A client of MQTT, by version 1 or 2 of the package."""
    if hasattr(mqtt, "CallbackAPIVersion"):
        return mqtt.Client(mqtt.CallbackAPIVersion.VERSION1, client_id=name, **words)
    return mqtt.Client(client_id=name, **words)


class Node:
    def __init__(self, folder: str, name: str) -> None:
        self.folder, self.name = folder, name
        self.home = os.path.join(folder, "nodes", name)
        with open(os.path.join(folder, "fleet.json"), encoding="ascii") as file:
            fleet = json.load(file)
        self.port, self.paths = fleet["port"], fleet["paths"]
        self.certificates: Dict[str, bytes] = {}
        for title in {title for path in self.paths for title in path}:
            with open(os.path.join(folder, "authority", f"{title}.der"), "rb") as file:
                self.certificates[title] = file.read()
        with open(self.file("verdicts"), "w", encoding="ascii") as out:
            out.writelines(f"{it}\n" for path in self.paths for above, below in zip(path, path[1:])
                           for it in signatures.of_certificate(self.certificates[above], self.certificates[below]))
        self.program = fleet["program"]
        self.party = self.opened()
        self.log = open(self.file("log"), "ab", buffering=0)
        self.log.write(b"\n")     # (the line before may lack its end)
        self.taken = 0
        if os.path.exists(self.file("current")):
            with open(self.file("current"), "rb") as file:
                topic, _, octets = file.read().partition(b"\n")
            self.deliver(topic.decode(), octets)
        self.client = client_of(name, clean_session=False)
        self.client.on_connect = lambda client, *_: client.subscribe(TOPIC, 1)
        self.client.on_message = lambda _, __, message: self.take(message.topic, message.payload)

    def file(self, name: str) -> str:
        return os.path.join(self.home, name)

    def opened(self) -> Party:
        return Party(self.file("store"), self.file("verdicts"), program=self.program)

    # ---- statements

    def take(self, topic: str, octets: bytes) -> None:
        """Keeps the statement in a file, delivers it, and only then has the broker told."""
        with open(self.file("coming"), "wb") as out:
            out.write(topic.encode() + b"\n" + octets)
        os.replace(self.file("coming"), self.file("current"))
        self.deliver(topic, octets)

    def deliver(self, topic: str, octets: bytes) -> None:
        _, issuer, kind, slot = topic.split("/")
        answer = self.answer_to(issuer, kind, slot, octets)
        self.log.write(f"{time.time():.3f} {hashlib.sha256(octets).hexdigest()[:16]} {answer}\n".encode())
        self.taken += 1
        if self.taken % FORGET == 0:
            self.party.forget()

    def answer_to(self, issuer: str, kind: str, slot: str, octets: bytes) -> str:
        """The status and the line for a delivery, whose signatures the party judges."""
        try:
            return f"0 {self.party.deliver(self.certificates[issuer], octets)}"
        except Refused as refused:
            return f"{refused.answer.status} {refused}"

    # ---- what `run` says

    def checkpoint(self, title: str, moment: str) -> None:
        """Leaves the verdicts on all paths, the store that they are by, and how long the log is."""
        into = os.path.join(self.folder, "checkpoints", title, self.name + ".")
        answers = [self.party.ask(f"check {moment} {self.operands(path)}").text for path in self.paths]
        self.party.close()
        for name in ("store", "store-wal"):
            if os.path.exists(self.file(name)):
                shutil.copyfile(self.file(name), into + name)
        with open(into + "json", "w", encoding="ascii") as out:
            json.dump({"log": os.path.getsize(self.file("log")), "verdicts": answers}, out)
        self.party = self.opened()

    def operands(self, path) -> str:
        return " ".join(f"hex:{self.certificates[title].hex()}" for title in path)

    def obey(self, line: str) -> None:
        word, *rest = line.split()
        if word == "checkpoint":
            self.checkpoint(*rest)
        elif word == "subscribe":
            self.client.subscribe(TOPIC, 1)
        print("done", flush=True)

    # ---- both

    def connect(self) -> None:
        with contextlib.suppress(OSError):      # (who is not there now may be there in the next round)
            self.client.connect("127.0.0.1", self.port)

    def serve(self) -> None:
        """Takes statements and obeys until the input ends."""
        self.connect()
        while True:
            if self.client.loop(0.05) != mqtt.MQTT_ERR_SUCCESS:
                time.sleep(0.5)
                self.connect()
            while select.select([sys.stdin], [], [], 0)[0]:
                line = sys.stdin.readline()
                if not line:
                    return
                self.obey(line)


class TakesLast(Node):
    """A node by another rule: of lists it holds the one that came last, whatever its number."""

    def answer_to(self, issuer: str, kind: str, slot: str, octets: bytes) -> str:
        answer = super().answer_to(issuer, kind, slot, octets)
        if kind == "list" and answer.startswith("0 stored 0"):
            self.party.close()
            with sqlite3.connect(self.file("store")) as store:
                key = signatures.info_of(signatures.key_of(self.certificates[issuer]))
                for table in ("scoped_entries", "scoped_crls"):
                    store.execute(f"DELETE FROM {table} WHERE scope = ? AND issuer IN (SELECT id FROM issuers WHERE spki = ?)",
                                  (SCOPES[slot], key))
            store.close()
            self.party = self.opened()
            super().answer_to(issuer, kind, slot, octets)
        return answer


def main() -> None:
    folder, name, *rule = sys.argv[1:]
    node = (TakesLast if rule == ["--last"] else Node)(folder, name)
    try:
        node.serve()
    finally:
        node.party.close()


if __name__ == "__main__":
    main()
