"""Datagrams as fast as one process can: `send SECONDS ADDRESS SIZE` prints how many it sent, `receive SECONDS` prints `ready` and then how many came
until a second after the last."""
import socket
import sys
import time

PORT = 7079


def send(seconds, address, size):
    plug = socket.socket(socket.AF_INET, socket.SOCK_DGRAM)
    plug.connect((address, PORT))
    octets, count, end = bytes(int(size)), 0, time.monotonic() + float(seconds)
    while time.monotonic() < end:
        for _ in range(100):
            try:
                count += plug.send(octets) > 0
            except OSError:  # A queue of the kernel is full.
                continue
    return count


def receive(seconds):
    plug = socket.socket(socket.AF_INET, socket.SOCK_DGRAM)
    plug.setsockopt(socket.SOL_SOCKET, socket.SO_RCVBUF, 1 << 20)
    plug.bind(("", PORT))
    plug.settimeout(10 + float(seconds))
    print("ready", flush=True)
    count, octets = 0, bytearray(2000)
    try:
        while plug.recv_into(octets):
            count += 1
            if count == 1:
                plug.settimeout(1)
    except TimeoutError:
        return count


if __name__ == "__main__":
    print({"send": send, "receive": receive}[sys.argv[1]](*sys.argv[2:]))
