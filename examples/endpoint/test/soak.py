"""Mixed traffic in a network of all five roles, for minutes, while a path at random is cut: what is said to a host is heard there, once."""
import json
import random
import subprocess
import sys
import time

from lab import HERE, Cuts, expect
from networks import all_roles, wants_no_faults

# Datagrams a second of each host.
RATE = 200


def say_and_hear(hosts, seconds, seed, rate=RATE, streams=0):
    """Starts the traffic of each host. So many of the first have a stream to the next of these."""
    running = []
    for at, host in enumerate(hosts):
        peers = [other.address for other in hosts if other is not host]
        stream = hosts[(at + 1) % streams].address if at < streams else "-"
        words = [host.address, seconds, rate, seed + at, stream, *peers]
        running.append(host.execute(sys.executable, f"{HERE}/traffic.py", *map(str, words), stdin=subprocess.PIPE, stdout=subprocess.PIPE))
    for process in running:
        expect(process.stdout.readline() == "ready\n", "the traffic of a host does not start")
    for process in running:
        process.stdin.write("\n")
        process.stdin.flush()
    return running


def compare(hosts, heard):
    """Compares what each host said with what the others heard. Returns for each host how many datagrams were for it, how many of them it did
    not hear, and how many it heard twice."""
    found = {}
    for host, figures in zip(hosts, heard):
        expect(not figures["spoiled"], f"{host.name} heard {figures['spoiled']} spoiled ones")
        sent = came = 0
        for other, said in zip(hosts, heard):
            if other is not host:
                sent += said["sent"].get(host.address, 0) + said["sent"].get("10.77.0.255", 0)
                came += figures["came"].get(other.address, 0) + figures["came_to_all"].get(other.address, 0)
        found[host] = sent, sent - came, figures["again"]
    return found


def wants_all_heard(found, hosts):
    """That these hosts heard all, once. Returns how many datagrams that were."""
    for host in hosts:
        sent, lost, again = found[host]
        expect((lost, again) == (0, 0), f"{host.name} did not hear {lost} of {sent} datagrams, and heard {again} twice")
    return sum(found[host][0] for host in hosts)


def soak(lab, minutes, seed):
    hosts, paths = all_roles(lab)
    for host in hosts:
        for other in hosts:
            if other is not host:
                host.ping(other, 1).ends()
    begun = time.monotonic()
    # The last one has no redundancy, and leaves the checksums of streams to its wire.
    running = say_and_hear(hosts, 60 * minutes, seed, streams=len(hosts) - 1)
    cuts = Cuts(paths, 2.0, random.Random(seed))
    pings = [source.ping(target, round(60 * minutes / 0.02), "-i", "0.02", "-s", "1400") for source, target in zip(hosts, hosts[1:])]
    lost = [ping.ends(60 * minutes + 300) for ping in pings]
    cuts.stop()
    heard = [json.loads(process.communicate(timeout=300)[0]) for process in running]
    for source, (sent, gone, doubled, _) in zip(hosts, lost):
        expect((gone, doubled) == (0, 0), f"of {sent} pings of {source.name} {gone} were lost and {doubled} came twice")
    datagrams = wants_all_heard(compare(hosts, heard), hosts)
    octets, taken = sum(it["octets"] for it in heard), sum(it["taken"] for it in heard)
    expect(octets == taken, f"of {octets} octets in streams {taken} came")
    wants_no_faults(lab.stop())
    sent = sum(it[0] for it in lost)
    return (
        f"{time.monotonic() - begun:.0f} s, {cuts.count} cuts, {datagrams} datagrams, {sent} pings, {octets / 1e6:.1f} MB of streams: "
        f"0 lost, 0 doubled"
    )
