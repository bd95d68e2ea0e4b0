"""Frames with a VLAN tag at an interface: `send DEVICE SOURCE TARGET` sends eight and prints them, `receive DEVICE` prints `ready` and then eight
that come in. The kernel takes the tag out of what comes in, and tells of it beside the octets."""
import socket
import struct
import sys

TYPE, COUNT, TCI = 0x88B5, 8, 0x6123
SOL_PACKET, PACKET_AUXDATA, VLAN_VALID = 263, 8, 0x10
AUXILIARY = struct.Struct("IIIHHHH")


def octets_of(mac):
    return bytes.fromhex(mac.replace(":", ""))


def frames(source, target):
    for at in range(COUNT):
        head = octets_of(target) + octets_of(source) + struct.pack("!HHH", 0x8100, TCI, TYPE)
        yield head + bytes((at + place) % 256 for place in range(60 + 200 * at))


def received(plug):
    octets, about, _, _ = plug.recvmsg(2000, 200)
    for level, kind, told in about:
        if (level, kind) == (SOL_PACKET, PACKET_AUXDATA):
            status, _, _, _, _, tci, tpid = AUXILIARY.unpack(told[: AUXILIARY.size])
            if status & VLAN_VALID:
                octets = octets[:12] + struct.pack("!HH", tpid, tci) + octets[12:]
    return octets


def main(verb, device, *addresses):
    plug = socket.socket(socket.AF_PACKET, socket.SOCK_RAW, socket.htons(3))
    plug.setsockopt(SOL_PACKET, PACKET_AUXDATA, 1)
    plug.bind((device, 3))
    plug.settimeout(10)
    if verb == "send":
        for frame in frames(*addresses):
            plug.send(frame)
            print(frame.hex())
        return
    print("ready", flush=True)
    found = []
    while len(found) < COUNT:
        octets = received(plug)
        if struct.pack("!H", TYPE) in octets[12:18]:
            found.append(octets)
    print("\n".join(it.hex() for it in found))


if __name__ == "__main__":
    main(*sys.argv[1:])
