"""Nodes of seamless-endpoint and of Linux net/hsr in one network; and frames that are delayed and jumbled by netem."""
import json
import os
import subprocess
import time

from lab import Cuts, expect, flood
from networks import danhs, danps, hosts_of, wants_no_faults, wants_none_lost
from soak import compare, say_and_hear, wants_all_heard

DEBUG = "/sys/kernel/debug"
# A node tells of another at both ports within two intervals of supervision.
RECENT_MS = 4500


def jumbled(build, *words):
    """All that goes out at each node is delayed, each frame by a time of its own, so that later ones overtake it."""

    def test(lab, size):
        hosts, paths = build(lab, *words)
        for host in hosts:
            for at, port in enumerate(("pa", "pb")):
                delay = f"{8 + 12 * at}ms"
                subprocess.run(["tc", "-n", host.space, "qdisc", "add", "dev", port, "root", "netem", "limit", "10000", "delay", delay, "6ms"], check=True)
        told = wants_none_lost([(hosts[0], hosts[1]), (hosts[1], hosts[0])], paths, size)
        wants_no_faults(lab.stop())
        return told

    return test


def kernels_table(host):
    """The node table of a kernel's node: a row of words for each address."""
    if not os.path.isdir(f"{DEBUG}/hsr"):
        subprocess.run(["mount", "-t", "debugfs", "debugfs", DEBUG], check=True)
    with open(f"{DEBUG}/hsr/{host.device}/node_table") as table:
        rows = [line.replace(",", " ").split() for line in table.read().splitlines() if line.strip()]
    # The first two are headings.
    return {row[0]: row for row in rows[2:]}


def lacks_in_tables(ours, kernels):
    """What is missing in the node tables, or nothing: each kernel's node lists each of ours as doubly attached, and ours list the kernel's as
    heard at both ports."""
    for kernel in kernels:
        table = kernels_table(kernel)
        for host in ours:
            if table.get(host.mac, [None])[-1] != "1":
                return f"{kernel.name}, the kernel's, does not list {host.name} as doubly attached: {table}"
    for host in ours:
        nodes = {node["mac"]: node for node in host.latest()["nodes"]}
        for kernel in kernels:
            ages = [nodes.get(kernel.mac, {}).get(age) for age in ("age_a", "age_b")]
            if None in ages or max(ages) > RECENT_MS:
                return f"{host.name} heard {kernel.name}, the kernel's, {ages} ms ago at A and B"
    return None


def wants_tables(ours, kernels):
    end = time.monotonic() + 30
    while (lack := lacks_in_tables(ours, kernels)) and time.monotonic() < end:
        time.sleep(1)
    expect(not lack, lack)


def datagrams(hosts, ours, paths, size):
    """All say numbered datagrams to each other while one path after the other is cut: ours hear each once. Returns what is told of all."""
    running = say_and_hear(hosts, max(10, 4 * len(paths) * size.seconds), 1, rate=50)
    cuts = Cuts(paths, size.seconds)
    heard = [json.loads(process.communicate(timeout=600)[0]) for process in running]
    cuts.stop()
    found = compare(hosts, heard)
    wants_all_heard(found, ours)
    return ", ".join(f"{host.name} lacks {lost} of {sent}, {again} twice" for host, (sent, lost, again) in found.items())


def mixed(build, sure, told):
    """Some of a network's nodes are ours, and some the kernel's, and one path after the other is cut. Pings between pairs that are sure lose
    nothing, and ours hear each datagram once. Of the other pairs, and of the kernel's nodes, is told what they lose and double."""

    def test(lab, size):
        ours, kernels, paths = build(lab)
        hosts = {host.number: host for host in ours + kernels}
        said = [wants_none_lost([(hosts[one], hosts[other]) for one, other in sure], paths, size)]
        for one, other in told:
            sent, lost, doubled, _, _ = flood([(hosts[one], hosts[other])], paths, size.pings, size.seconds)
            said.append(f"n{one} to n{other} {lost} of {sent} lost, {doubled} doubled")
        said.append(f"datagrams: {datagrams(list(hosts.values()), ours, paths, size)}")
        wants_tables(ours, kernels)
        wants_no_faults(lab.stop())
        return "; ".join(said)

    return test


def prp_with_kernels(lab):
    one, two, three, four = hosts_of(lab, range(1, 5))
    paths = [lab.lan(letter, [(host, f"p{letter}") for host in (one, two, three, four)])[0] for letter in "ab"]
    for host in one, three:
        host.start("--role", "danp")
    for host in two, four:
        host.use_kernel("proto", "1")
    lab.has_started()
    return [one, three], [two, four], paths


def ring_with_kernels(lab):
    one, two, three, four = hosts_of(lab, range(1, 5))
    paths = lab.ring([one, two, three, four])
    for host in one, three:
        host.start("--role", "danh")
    for host in two, four:
        host.use_kernel("version", "1")
    lab.has_started()
    return [one, three], [two, four], paths


TESTS = {
    "sch_netem": {
        "jumbled frames over PRP": jumbled(danps, 2),
        "jumbled frames round a ring": jumbled(danhs, 3),
    },
    "hsr": {
        "PRP with the kernel's nodes": mixed(prp_with_kernels, [(1, 2), (2, 3), (1, 3)], [(2, 4)]),
        "HSR with the kernel's nodes": mixed(ring_with_kernels, [(1, 3)], [(1, 2), (4, 3), (2, 4)]),
    },
}
