#!/usr/bin/env python3
"""Writes what a fuzzer begins with: the scripts, the traffic and the captures of examples/, as the entries of sr_fuzz take them.

    fuzz/corpus.py FOLDER [SCRIPT..]     further scripts go in too

FOLDER/node, script, network, capture, audit, merge and snapshot get a file for each, named by its checksum.
"""
import hashlib
import re
import sys
from pathlib import Path

TOP = Path(__file__).resolve().parent.parent
ROLES = 6
# The kinds of events at a node, and those by which all that waits is taken out.
KINDS = {"A": 0, "B": 2, "C": 3, "send": 4, "tick": 5}
TAKES = bytes([6, 0, 0, 0, 7, 0, 0, 0])
# How many nodes of a script's first octets are tried: the roles, and one of each with the other mode and width.
NODES = [role | more for more in (0, 0xC0) for role in range(5)]
# The first octets of networks: each kind, two joins, and one of each with the other mode and width; and their sizes.
NETWORKS = [kind | more for more in (0, 4, 0xC0) for kind in range(4)]
SIZES = (0x11, 0x33, 0x1F)
# What a line says that only a network has.
OF_NETWORK = re.compile(rb"^(flow|(carry|drop|repeat|cut|mend) \d|send \d+ (all|\d+) )", re.MULTILINE)
# What is told of an audit, and how a merge is written: networks, mirror ports, each list, each format; spellings and scopes.
AUDITS = (0, 1, 2, 4, 8, 0x10, 0x20, 0x3C, 0x40, 0x60)
MERGES = (0, 1, 2, 4, 6)


def keep(folder, octets):
    """Writes a file of these octets."""
    folder.mkdir(parents=True, exist_ok=True)
    (folder / hashlib.sha256(octets).hexdigest()[:16]).write_bytes(octets)


def events_of(script):
    """The events of a script of a node."""
    now, events = 0, b""
    for line in script.decode("latin-1").splitlines():
        found = re.fullmatch(r"(?:in ([ABC])|(send)|(tick)) (\d{1,18})(?: ((?:[0-9a-fA-F]{2})*))?", line)
        if not found:
            continue
        octets = bytes.fromhex(found[5] or "")[:1599]
        step, shift = max(0, int(found[4]) - now), 0
        while step >> shift > 255 and shift < 7:
            shift += 1
        step = min(step >> shift, 255)
        now += step << shift
        events += bytes([KINDS[found[1] or found[2] or found[3]] | shift << 5, step]) + len(octets).to_bytes(2, "little") + octets + TAKES
    return events


def source(place, width):
    """A source of a snapshot: its address, its time, its greatest number, and six lanes on two of which that one is noted."""
    lane = bytes([1]) + bytes(width // 8 - 1)
    none = bytes(width // 8)
    return bytes([2, 0, 0, 0, 0, place]) + (1000).to_bytes(8, "big") + (5).to_bytes(2, "big") + lane + none * 3 + lane + none


def snapshots():
    """Snapshots of both versions with up to three sources."""
    for version, width in ((1, 1024), (2, 2048)):
        for count in range(4):
            text = b"SRDW" + bytes([version]) + count.to_bytes(2, "big")
            yield text + b"".join(source(place + 2, width) for place in range(count))


def keep_script(folder, script):
    """A script of a network, or of a node."""
    if OF_NETWORK.search(script):
        for network in NETWORKS:
            for size in SIZES:
                keep(folder / "network", bytes([network, size]) + script)
        return
    # A short part of a long one is changed faster.
    for part in {script, script[: script[:3000].rfind(b"\n") + 1]}:
        for node in NODES:
            keep(folder / "node", bytes([node]) + events_of(part))
        for choice in [role | told for told in (0, 0x10, 0x20) for role in range(ROLES)]:
            keep(folder / "script", bytes([choice]) + part)


def keep_captures(folder, captures):
    """Captures alone, and each beside the next one."""
    for capture in captures:
        for choice in (0, 2, 4, 36, 8, 16):
            keep(folder / "capture", bytes([choice]) + capture)
        for kind in AUDITS:
            keep(folder / "audit", bytes([0, kind]) + capture)
        for kind in MERGES:
            keep(folder / "merge", bytes([0, kind]) + capture)
    for one, other in zip(captures, captures[1:]):
        both = len(one).to_bytes(2, "little") + one + other
        keep(folder / "capture", bytes([1]) + both)
        for kind in AUDITS:
            keep(folder / "audit", bytes([1, kind]) + both)
        for kind in MERGES:
            keep(folder / "merge", bytes([1, kind]) + both)


def main(folder, further):
    for path in [*sorted(TOP.glob("examples/*.script")), *sorted(TOP.glob("examples/cases/*/stdin")), *map(Path, further)]:
        keep_script(folder, path.read_bytes())
    captures = [path.read_bytes() for pattern in ("examples/*.pcap*", "examples/captures/*", "examples/cases/*/*.pcap*")
                for path in sorted(TOP.glob(pattern))]
    keep_captures(folder, captures)
    for text in snapshots():
        for choice in (0, 1):
            keep(folder / "snapshot", bytes([choice]) + text)


if __name__ == "__main__":
    if len(sys.argv) < 2 or sys.argv[1].startswith("-"):
        sys.exit(__doc__)
    main(Path(sys.argv[1]), sys.argv[2:])
