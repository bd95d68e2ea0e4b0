#!/usr/bin/env python3
"""Random networks whose captures `seamless watch` reads as they grow, against what `seamless audit --whole` says of them once they are whole.

    gate/watches.py [--program PATH] [FIRST COUNT]     20 networks from seed 1 on; ./seamless by default

The networks are those of networks.py whose recorders run all the time by one clock. Both captures come by pipes: the first part of each, a
rest of more than a second, in which a report is made, and then the others, cut at any octet. The counts of all reports of a source, added
up, are to be those of the audit, which networks.py compares with what happened; nothing is to come behind, or to wait at the end. Then
both are read as one capture of a mirror port. A line tells each network of which the watch says something else. The last line is
`N passed, M failed`.
"""
import argparse
import json
import os
import random
import subprocess
import sys
import tempfile
import threading
import time
from concurrent.futures import ThreadPoolExecutor

from networks import END, TOP, UNJUDGED, RedBox, network_of, write

# How long the writers rest, in seconds: reports are a second apart.
REST = 1.5
# How many networks are watched at a time.
LANES = 8
COUNTED = ["rx_a", "rx_b", "both", "lost_a", "lost_b", "late_a", "late_b", "neither", "repeat_a", "repeat_b", "order_a", "order_b", "jumps", "restarts"]


def is_fit(network):
    """Whether both recorders run all the time, by one clock, and see the network."""
    return network.runs == [(0, END)] * 2 and not network.clock and not UNJUDGED & set(network.faults) and not network.has_nothing()


def fit_networks(first, count):
    """So many networks that are fit, from a seed on."""
    found, seed = [], first
    while len(found) < count:
        network = network_of(seed)
        if is_fit(network):
            found.append(network)
        seed += 1
    return found


def feed(path, pieces):
    """Writes pieces to a pipe, with a rest between two."""
    with open(path, "wb") as pipe:
        for at, piece in enumerate(pieces):
            if at:
                time.sleep(REST)
            pipe.write(piece)
            pipe.flush()


def pieces_of(path, rng):
    """The octets of a capture in two pieces. The first one is a part of it that both captures have."""
    with open(path, "rb") as file:
        octets = file.read()
    at = rng.randrange(len(octets))
    return [octets[:at], octets[at:]]


def named(paths):
    """The options that name captures: those of both LANs, or that of a mirror port."""
    return ["--a", paths[0], "--b", paths[1]] if len(paths) == 2 else ["--mirror", paths[0]]


def watched(program, network, paths, rng):
    """The lines of a watch to which these captures are written."""
    pipes = [f"{path}.pipe" for path in paths]
    for pipe in pipes:
        os.mkfifo(pipe)
    writers = [threading.Thread(target=feed, args=(pipe, pieces_of(path, rng)), daemon=True) for path, pipe in zip(paths, pipes)]
    for writer in writers:
        writer.start()
    words = [program, "watch", *named(pipes), "--network", network.protocol, "--every", "1", "--slack", "60000", "--format", "json"]
    run = subprocess.run(words, capture_output=True, text=True, timeout=60, check=False)
    for writer in writers:
        writer.join(timeout=10)
    return run, [json.loads(line) for line in run.stdout.splitlines()]


def audited(program, network, paths):
    """What an audit has of each source, by the names of a watch; of a network with a RedBox without what it judges by its counter."""
    words = [program, "audit", *named(paths), "--network", network.protocol, "--whole", "--format", "json"]
    run = subprocess.run(words, capture_output=True, text=True, timeout=60, check=False)
    lines = [json.loads(line) for line in run.stdout.splitlines()]
    found = {}
    for line in lines:
        if line["line"] == "source":
            own = {name: line[name] for name in ("rx_a", "rx_b", "pairs", "neither", "repeat_a", "repeat_b", "order_a", "order_b", "jumps", "restarts")}
            own["alone_a"] = line["only_a"] + line["edge_a"]
            own["alone_b"] = line["only_b"] + line["edge_b"]
            found[line["source"]] = own
        elif line["line"] == "single":
            found[line["source"]]["alone_a"] += line["single_a"]
            found[line["source"]]["alone_b"] += line["single_b"]
        elif line["line"] == "unseen":
            found[line["source"]]["neither"] += line["numbers"]
    # An audit has a line too for a node that supervision alone names, of which no copy came.
    found = {mac: own for mac, own in found.items() if own["rx_a"] or own["rx_b"]}
    if any(isinstance(source, RedBox) for source in network.sources):
        for own in found.values():
            for name in ("neither", "jumps", "restarts"):
                del own[name]
    return found


def summed(lines):
    """The counts of all reports of each source, by the names of an audit."""
    sums = {}
    for line in lines:
        if line["line"] == "source":
            own = sums.setdefault(line["source"], dict.fromkeys(COUNTED, 0))
            for name in COUNTED:
                own[name] += line[name]
    for own in sums.values():
        own["pairs"] = own["both"] + own["late_a"] + own["late_b"]
        own["alone_a"], own["alone_b"] = own["lost_b"] - own["late_b"], own["lost_a"] - own["late_a"]
    return sums


def differences(run, lines, wanted):
    """Where what a watch says is not what an audit says."""
    found = [f"it ends with status {run.returncode} and {run.stderr!r}"] if run.returncode or run.stderr else []
    reports = [line for line in lines if line["line"] == "report"]
    if len(reports) < 2:
        found.append(f"there are {len(reports)} reports")
    if reports and (reports[-1]["waiting"] or reports[-1]["held"]):
        found.append(f"at the end something waits: {reports[-1]}")
    put_off = [line for line in lines if line["line"] == "capture" and (line["behind"] or line["unwatched"])]
    found += [f"copies are put off or left out: {put_off[-1]}"] if put_off else []
    sums = summed(lines)
    if sums.keys() != wanted.keys():
        return [*found, f"it has the sources {sorted(sums)}, and not {sorted(wanted)}"]
    return found + [f"{mac} {name} {sums[mac][name]}, and not {count}" for mac, own in wanted.items() for name, count in own.items()
                    if sums[mac][name] != count]


def judge(program, network, room):
    """What differs in a network."""
    folder = f"{room}/{network.seed}"
    os.mkdir(folder)
    paths = [f"{folder}/a.pcap", f"{folder}/b.pcap"]
    both = network.captures()
    for path, packets in zip(paths, both):
        write(path, packets)
    mirror = f"{folder}/mirror.pcap"
    write(mirror, sorted(both[0] + both[1], key=lambda packet: packet[0]))
    found = []
    for own in (paths, [mirror]):
        run, lines = watched(program, network, own, random.Random(network.seed))
        found += [f"{named(own)[0]}: {it}" for it in differences(run, lines, audited(program, network, own))]
    return [f"{type(network).__name__.lower()} {network.seed} ({', '.join(network.faults) or 'sound'}): {it}" for it in found]


def main():
    parser = argparse.ArgumentParser(description=__doc__, formatter_class=argparse.RawDescriptionHelpFormatter)
    parser.add_argument("--program", default=f"{TOP}/seamless")
    parser.add_argument("first", type=int, nargs="?", default=1)
    parser.add_argument("count", type=int, nargs="?", default=20)
    task = parser.parse_args()
    failed = 0
    with tempfile.TemporaryDirectory(prefix="watches-") as room, ThreadPoolExecutor(LANES) as pool:
        for found in pool.map(lambda network: judge(task.program, network, room), fit_networks(task.first, task.count)):
            failed += bool(found)
            for line in found:
                print(line)
    print(f"{task.count - failed} passed, {failed} failed")
    return 1 if failed or task.count == 0 else 0


if __name__ == "__main__":
    sys.exit(main())
