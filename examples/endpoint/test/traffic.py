"""What a host says and hears in a mixture of traffic: numbered datagrams to each other host and to all, and a stream to the next one.

    traffic.py ADDRESS SECONDS RATE SEED STREAM PEER..    prints `ready`, waits for a line, and prints at last a line of JSON

Each datagram is of a random size and told by its sender, its number and whether it is to all; its other octets follow from these. STREAM is
the address to which a stream goes, or `-`. No checksum is wanted of UDP, since a virtual wire leaves it unfinished.
"""
import collections
import hashlib
import json
import random
import select
import socket
import struct
import sys
import time

PORT, STREAM_PORT = 7077, 7078
SO_NO_CHECK, SO_RCVBUFFORCE, ROOM = 11, 33, 8 << 20
HEAD = struct.Struct("!BQ")
TO_ALL = 1
LINGER = 3.0


def datagram(kind, number, source, size):
    head = HEAD.pack(kind, number)
    return head + hashlib.shake_128(head + source.encode()).digest(max(0, size - len(head)))


class Host:
    def __init__(self, address, seed, peers):
        self.address, self.peers, self.random = address, peers, random.Random(seed)
        self.all = address.rpartition(".")[0] + ".255"
        self.socket = socket.socket(socket.AF_INET, socket.SOCK_DGRAM)
        for option, value in (socket.SO_BROADCAST, 1), (SO_NO_CHECK, 1), (SO_RCVBUFFORCE, ROOM):
            self.socket.setsockopt(socket.SOL_SOCKET, option, value)
        self.socket.bind(("", PORT))
        self.socket.setblocking(False)
        self.server = socket.create_server(("", STREAM_PORT))
        self.streams, self.client = [], None
        self.sent = collections.Counter()
        self.came = collections.defaultdict(collections.Counter)
        self.spoiled, self.octets, self.taken = 0, 0, 0

    def say(self, turn):
        """Sends the next datagram, each 50th one to all."""
        to = self.all if turn % 50 == 0 else self.peers[turn % len(self.peers)]
        number = self.sent[to]
        self.sent[to] += 1
        self.socket.sendto(datagram(TO_ALL if to == self.all else 0, number, self.address, self.random.randrange(9, 1440)), (to, PORT))

    def hear(self, seconds):
        """Takes what comes within a time. Returns whether something came."""
        files = [self.socket, self.server, *self.streams]
        found = select.select(files, [], [], max(0.0, seconds))[0]
        for file in found:
            if file is self.server:
                self.streams.append(self.server.accept()[0])
            elif file is self.socket:
                octets, (source, _) = self.socket.recvfrom(2000)
                kind, number = HEAD.unpack_from(octets)
                self.spoiled += octets != datagram(kind, number, source, len(octets))
                self.came[source, kind][number] += 1
            else:
                more = file.recv(1 << 16)
                self.taken += len(more)
                self.spoiled += more.count(b"s") != len(more)
                if not more:
                    self.streams.remove(file)
        return bool(found)

    def speak(self, seconds, rate, stream):
        begun, turn = time.monotonic(), 0
        if stream != "-":
            self.client = socket.create_connection((stream, STREAM_PORT), 60)
            self.client.setblocking(False)
        while (now := time.monotonic() - begun) < seconds:
            if now < turn / rate:
                self.hear(turn / rate - now)
                continue
            self.say(turn)
            if self.client and turn % 10 == 0:
                try:
                    self.octets += self.client.send(b"s" * 4000)
                except BlockingIOError:
                    pass
            turn += 1

    def listen(self):
        """Takes what still comes, until nothing does for a while."""
        if self.client:
            self.client.close()
        while self.hear(LINGER):
            pass

    def figures(self):
        """How many datagrams went to each address, how many different ones came from each, and how often one came again."""
        came = {kind: {source: len(numbers) for (source, of), numbers in self.came.items() if of == kind} for kind in (0, TO_ALL)}
        again = sum(count - 1 for numbers in self.came.values() for count in numbers.values())
        return {
            "sent": self.sent, "came": came[0], "came_to_all": came[TO_ALL], "again": again, "spoiled": self.spoiled,
            "octets": self.octets, "taken": self.taken,
        }


def main(address, seconds, rate, seed, stream, *peers):
    host = Host(address, int(seed), peers)
    print("ready", flush=True)
    sys.stdin.readline()
    host.speak(float(seconds), float(rate), stream)
    host.listen()
    print(json.dumps(host.figures()))


if __name__ == "__main__":
    main(*sys.argv[1:])
