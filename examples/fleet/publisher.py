"""The publisher of a fleet: each statement as it is, retained, under a topic of its slot, so that the broker keeps the newest of each.

It is imported by `run`, and needs the Debian package python3-paho-mqtt.
"""

import hashlib
import threading
import time
from typing import Dict, Iterator, Optional, Tuple

from authority import Slot, Statement
from node import client_of


class Publisher(threading.Thread):
    """Publishes statements, so many a second, at least once each. `said` tells of a statement's digest its slot and its rank there."""

    def __init__(self, port: int, statements: Iterator[Statement], rate: float) -> None:
        super().__init__(daemon=True)
        self.statements, self.rate = statements, rate
        self.said: Dict[str, Tuple[Slot, int]] = {}
        self.newest: Dict[Slot, Statement] = {}
        self.last: Optional[Statement] = None
        self.count = 0
        self.failed: Optional[Exception] = None
        self.client = client_of("publisher")
        self.client.reconnect_delay_set(1, 1)
        self.client.on_connect = lambda *_: self.again()
        self.client.connect("127.0.0.1", port)
        self.client.loop_start()

    def again(self) -> None:
        """A broker that was started again retains nothing: the newest of each slot is published once more."""
        for it in list(self.newest.values()):
            self.client.publish(it.topic, it.octets, qos=1, retain=True)

    def run(self) -> None:
        begun = time.monotonic()
        try:
            for it in self.statements:
                time.sleep(max(0.0, begun + self.count / self.rate - time.monotonic()))
                self.said[hashlib.sha256(it.octets).hexdigest()[:16]] = (it.slot, it.rank)
                self.newest[it.slot] = self.last = it
                self.client.publish(it.topic, it.octets, qos=1, retain=True)
                self.count += 1
        except Exception as failed:     # told by whoever waits for the thread
            self.failed = failed

    def end(self) -> None:
        self.client.disconnect()
        self.client.loop_stop()
