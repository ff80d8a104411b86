"""A relay between a broker of MQTT and the nodes of a fleet, which loses, repeats and delays statements, and so reorders them.

    python3 relay.py BROKER_PORT SEED

It prints the port on which it serves. What becomes of a message to a node depends on the seed, the node and how many it was sent before:
it is lost (and the broker told that it came), sent twice, delayed by up to three seconds so that later ones overtake it, or sent at once.
All other packets pass as they are. `run` starts it and says on its standard input, a line each: `cut NAME..`, to cut these nodes off;
`heal`, to let them connect again; `quiet`, to lose and delay nothing from then on. At the end of its input it prints what it did, as JSON,
and ends. It needs Python 3.9 alone.
"""

import asyncio
import collections
import json
import random
import sys

LOST, TWICE, LATE = 0.05, 0.10, 0.40   # a message is lost below the first, twice below the second, late below the third
LONGEST = 3.0                          # seconds
CONNECT, PUBLISH, PUBACK = 0x10, 0x30, 0x40


async def packet_of(reader: asyncio.StreamReader) -> bytes:
    """The next packet (MQTT 3.1.1, 2.2): an octet, the length of the rest in octets of 7 bits, and the rest."""
    packet, length, shift = await reader.readexactly(1), 0, 0
    while True:
        octet = await reader.readexactly(1)
        packet += octet
        length |= (octet[0] & 0x7F) << shift
        shift += 7
        if octet[0] < 0x80:
            return packet + await reader.readexactly(length)


def body(packet: bytes) -> bytes:
    at = 1
    while packet[at] >= 0x80:
        at += 1
    return packet[at + 1:]


def text_at(octets: bytes, at: int) -> bytes:
    return octets[at + 2:at + 2 + int.from_bytes(octets[at:at + 2], "big")]


class Relay:
    def __init__(self, port: int, seed: str) -> None:
        self.port, self.seed = port, seed
        self.cut, self.is_quiet = set(), False
        self.sent = collections.Counter()      # messages, by node
        self.counts = collections.Counter()    # messages, by what became of them
        self.open = {}                         # by node, the writer to it

    async def serve(self, from_node: asyncio.StreamReader, to_node: asyncio.StreamWriter) -> None:
        """One connection of a node."""
        to_broker = None
        try:
            first = await packet_of(from_node)
            name = text_at(body(first), 10).decode()
            if first[0] == CONNECT and name not in self.cut:
                from_broker, to_broker = await asyncio.open_connection("127.0.0.1", self.port)
                to_broker.write(first)
                self.open[name] = to_node
                await self.both(self.up(from_node, to_broker), self.down(name, from_broker, to_broker, to_node))
        except (OSError, asyncio.IncompleteReadError):
            pass               # an end that is not there any more; the node connects again
        finally:
            for writer in filter(None, (to_node, to_broker)):
                writer.close()

    @staticmethod
    async def both(*ways) -> None:
        """Until one of the two ends."""
        tasks = [asyncio.ensure_future(way) for way in ways]
        await asyncio.wait(tasks, return_when=asyncio.FIRST_COMPLETED)
        for task in tasks:
            task.cancel()
        await asyncio.gather(*tasks, return_exceptions=True)

    @staticmethod
    async def up(from_node: asyncio.StreamReader, to_broker: asyncio.StreamWriter) -> None:
        while octets := await from_node.read(65536):
            to_broker.write(octets)
            await to_broker.drain()

    async def down(self, name: str, from_broker, to_broker, to_node) -> None:
        while True:
            packet = await packet_of(from_broker)
            if packet[0] & 0xF0 == PUBLISH and not self.is_quiet:
                self.pass_on(name, packet, to_broker, to_node)
            else:
                to_node.write(packet)
            await to_node.drain()

    def pass_on(self, name: str, packet: bytes, to_broker, to_node) -> None:
        self.sent[name] += 1
        rng = random.Random(f"{self.seed} {name} {self.sent[name]}")
        fate, delay = rng.random(), rng.uniform(0, LONGEST)
        kind = "lost" if fate < LOST else "twice" if fate < TWICE else "late" if fate < LATE else "at once"
        self.counts[kind] += 1
        if kind == "lost":
            at = 2 + len(text_at(body(packet), 0))
            to_broker.write(bytes([PUBACK, 2]) + body(packet)[at:at + 2])
        if kind in ("twice", "late"):
            asyncio.get_running_loop().call_later(delay, self.write, to_node, packet)
        if kind in ("twice", "at once"):
            to_node.write(packet)

    @staticmethod
    def write(writer: asyncio.StreamWriter, packet: bytes) -> None:
        if not writer.is_closing():
            writer.write(packet)

    def obey(self, words) -> None:
        if words[0] == "cut":
            self.cut = set(words[1:])
            for name in self.cut & set(self.open):
                self.open[name].close()
        elif words[0] == "heal":
            self.cut = set()
        elif words[0] == "quiet":
            self.is_quiet = True


async def main() -> None:
    port, seed = sys.argv[1:]
    relay = Relay(int(port), seed)
    server = await asyncio.start_server(relay.serve, "127.0.0.1", 0)
    print(server.sockets[0].getsockname()[1], flush=True)
    said = asyncio.StreamReader()
    await asyncio.get_running_loop().connect_read_pipe(lambda: asyncio.StreamReaderProtocol(said), sys.stdin)
    while line := await said.readline():
        relay.obey(line.decode().split())
    print(json.dumps(relay.counts), flush=True)
    server.close()


if __name__ == "__main__":
    asyncio.run(main())
