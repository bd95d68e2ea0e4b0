"""Networks in network namespaces: nodes of seamless-endpoint, of Linux net/hsr, and hosts without redundancy, joined by virtual wires and bridges."""
import json
import os
import re
import signal
import subprocess
import tempfile
import threading
import time

HERE = os.path.dirname(os.path.realpath(__file__))
# Room for a tag or a trailer, and a VLAN tag, around what a host with an MTU of 1500 sends.
WIRE_MTU = 1510
SUMMARY = re.compile(r"(\d+) packets transmitted, (\d+) received(?:, \+(\d+) duplicates)?")
ROUND_TRIP = re.compile(r"= ([\d.]+)/([\d.]+)/([\d.]+)/")


class Failed(Exception):
    """What a test wants does not hold."""


def expect(holds, told):
    if not holds:
        raise Failed(told)


def ip(*words):
    """Runs ip, and returns what it prints."""
    ran = subprocess.run(["ip", *words], capture_output=True, text=True, check=False)
    expect(ran.returncode == 0, f"ip {' '.join(words)}: {ran.stderr.strip()}")
    return ran.stdout


def wait_until(holds, seconds, told):
    end = time.monotonic() + seconds
    while not holds():
        expect(time.monotonic() < end, told)
        time.sleep(0.02)


class Host:
    """A host in a namespace of its own: its node is ours, the kernel's, or there is none."""

    def __init__(self, lab, name, number):
        self.lab, self.name, self.number = lab, name, number
        self.space = lab.space(name)
        self.mac = f"02:00:00:00:00:{number:02x}"
        self.address = f"10.77.0.{number}"
        self.device = f"red{number}"
        self.process = self.words = None

    def execute(self, *words, **how):
        return subprocess.Popen(["ip", "netns", "exec", self.space, *words], text=True, **how)

    def give_address(self):
        ip("-n", self.space, "link", "set", self.device, "up")
        ip("-n", self.space, "addr", "add", f"{self.address}/24", "broadcast", "+", "dev", self.device)

    def start(self, *words):
        """Starts seamless-endpoint, of such a role. has_started waits for it."""
        self.words = words or self.words
        self.lines = [f"{self.lab.folder}/{self.name}.{kind}" for kind in ("stats", "err")]
        with open(self.lines[0], "w") as stats, open(self.lines[1], "w") as err:
            # Before other processes, as a service of systemd: pings without pause number 1024 frames while a node is held up for 100 ms.
            self.process = self.execute(
                "chrt", "--rr", "10", self.lab.program, *self.words, "--mac", self.mac, "--host", self.device, "--a", "pa", "--b", "pb", "--stats", "1", stdout=stats, stderr=err
            )

    def has_started(self):
        wait_until(lambda: self.said().endswith("runs\n") or self.process.poll() is not None, 20, f"{self.name} does not start")
        expect(self.process.poll() is None, f"{self.name} ended: {self.said()}")
        self.give_address()

    def said(self):
        with open(self.lines[1]) as err:
            return err.read()

    def latest(self):
        """The latest figures that it wrote while it runs."""
        wait_until(lambda: os.path.getsize(self.lines[0]), 5, f"{self.name} writes no figures")
        with open(self.lines[0]) as stats:
            return json.loads(stats.read().rpartition("\n")[0].rpartition("\n")[2])

    def stop(self):
        """Ends it by a signal, and returns its figures."""
        self.process.send_signal(signal.SIGTERM)
        status = self.process.wait(30)
        expect(status == 0, f"{self.name} ended with status {status}: {self.said()}")
        self.process = None
        return json.loads(self.said().splitlines()[-1])

    def kill(self):
        self.process.kill()
        self.process.wait()

    def use_kernel(self, *kind):
        """Makes a node of Linux net/hsr. It sends from each port under that port's address, so both have the node's."""
        for port in "pa", "pb":
            ip("-n", self.space, "link", "set", port, "address", self.mac)
        ip("-n", self.space, "link", "add", "name", self.device, "type", "hsr", "slave1", "pa", "slave2", "pb", *kind)
        self.give_address()

    def use_plain(self):
        """Makes it a host without redundancy, at the port pa."""
        ip("-n", self.space, "link", "set", "pa", "down")
        ip("-n", self.space, "link", "set", "pa", "address", self.mac, "mtu", "1500", "name", self.device)
        self.give_address()

    def ping(self, other, count, *words):
        return Ping(self, other, count, *words)


class Ping:
    """Some pings from one host to another."""

    def __init__(self, source, target, count, *words):
        self.source, self.target = source, target
        self.process = source.execute("ping", "-q", "-c", str(count), "-W", "3", *words, target.address, stdout=subprocess.PIPE, stderr=subprocess.STDOUT)

    def ends(self, seconds=600):
        """Returns how many were sent, lost and doubled, and the round trips in milliseconds (least, mean, greatest)."""
        told = self.process.communicate(timeout=seconds)[0]
        found, times = SUMMARY.search(told), ROUND_TRIP.search(told)
        expect(found, f"ping from {self.source.name} to {self.target.name}: {told}")
        sent, came, doubled = (int(it or 0) for it in found.groups())
        return sent, sent - came, doubled, [float(it) for it in times.groups()] if times else []


class Path:
    """What can be cut of a network: an interface that is taken down, or a bridge."""

    def __init__(self, name, space, device, ends):
        self.name, self.space, self.device, self.ends = name, space, device, ends

    def set(self, state):
        ip("-n", self.space, "link", "set", self.device, state)

    def is_up(self):
        return all(json.loads(ip("-n", space, "-j", "link", "show", device))[0]["operstate"] == "UP" for space, device in self.ends)

    def cut(self, seconds):
        self.set("down")
        time.sleep(seconds)
        self.set("up")
        wait_until(self.is_up, 10, f"{self.name} does not come up")
        # The kernel lets frames out a moment after it says so.
        time.sleep(0.3)


class Cuts(threading.Thread):
    """Cuts one path at a time, for so many seconds, until it is told to stop: each in turn, and at least once. With a source of chance any
    path, for a time up to that."""

    def __init__(self, paths, seconds, chance=None):
        super().__init__()
        self.paths, self.seconds, self.chance = paths, seconds, chance
        self.count, self.fault, self.is_told = 0, None, threading.Event()
        self.start()

    def run(self):
        try:
            while not self.is_done() or not self.is_told.is_set():
                if self.chance:
                    self.chance.choice(self.paths).cut(self.chance.uniform(0.02, self.seconds))
                else:
                    self.paths[self.count % len(self.paths)].cut(self.seconds)
                self.count += 1
        except Failed as fault:
            self.fault = fault

    def is_done(self):
        """Whether there were as many cuts as there are paths, or there are none any more."""
        return self.count >= len(self.paths) or self.fault is not None

    def stop(self):
        self.is_told.set()
        self.join()
        if self.fault:
            raise self.fault


class Lab:
    """Makes namespaces, and removes them with all that runs there."""

    def __init__(self, program):
        self.program, self.spaces, self.hosts, self.wires = program, [], {}, 0
        self.made = tempfile.TemporaryDirectory(prefix="seamless-endpoint-")
        self.folder = self.made.name

    def __enter__(self):
        return self

    def __exit__(self, *_):
        for host in self.hosts.values():
            if host.process and host.process.poll() is None:
                host.kill()
        for space in self.spaces:
            pids = subprocess.run(["ip", "netns", "pids", space], capture_output=True, text=True, check=False).stdout.split()
            for pid in pids:
                os.kill(int(pid), signal.SIGKILL)
            subprocess.run(["ip", "netns", "del", space], check=False)
        self.made.cleanup()

    def space(self, name):
        space = f"seamless-{os.getpid()}-{name}"
        ip("netns", "add", space)
        self.spaces.append(space)
        ip("-n", space, "link", "set", "lo", "up")
        # No frames but those of the test.
        self.set(space, "ipv6/conf/default/disable_ipv6", "1")
        # Each ping takes the answers to itself alone. A socket that is handed those to all overflows where its ping has to wait.
        self.set(space, "ipv4/ping_group_range", "0 0")
        return space

    def set(self, space, setting, word):
        """Puts a word into a setting of the kernel, where it has the setting at all."""
        script = f"echo {word} >/proc/sys/net/{setting}"
        subprocess.run(["ip", "netns", "exec", space, "sh", "-c", script], stderr=subprocess.DEVNULL, check=False)

    def host(self, number):
        name = f"n{number}"
        self.hosts[name] = Host(self, name, number)
        return self.hosts[name]

    def wire(self, one, one_device, other, other_device):
        """Joins two namespaces by a virtual wire, and returns it as a path."""
        ends = [(one, one_device), (other, other_device)]
        ip("link", "add", "name", one_device, "mtu", str(WIRE_MTU), "netns", one, "type", "veth", "peer", "name", other_device, "mtu", str(WIRE_MTU), "netns", other)
        for space, device in ends:
            ip("-n", space, "link", "set", device, "up")
        return Path(f"the wire of {one_device} in {one}", one, one_device, ends)

    def plug(self, host, device, lan):
        """Joins an interface of a host to the bridge of a LAN, and returns the wire as a path."""
        wire = self.wire(host.space, device, lan.space, host.name)
        ip("-n", lan.space, "link", "set", host.name, "master", lan.device)
        return wire

    def lan(self, letter, ports):
        """Joins ports (a host and its interface) by a bridge, and returns the bridge and the wires as paths."""
        space, bridge = self.space(f"lan-{letter}"), f"lan{letter}"
        # br_netfilter cuts off what stands behind an IP packet, and the trailer with it.
        self.set(space, "bridge/bridge-nf-call-iptables", "0")
        ip("-n", space, "link", "add", "name", bridge, "mtu", str(WIRE_MTU), "type", "bridge", "stp_state", "0", "forward_delay", "0", "mcast_snooping", "0")
        ip("-n", space, "link", "set", bridge, "up")
        lan = Path(f"LAN {letter.upper()}", space, bridge, [(space, bridge)])
        return [lan, *(self.plug(host, device, lan) for host, device in ports)]

    def ring(self, hosts):
        """Joins port B of each host to port A of the next, and returns the wires as paths."""
        return [self.wire(host.space, "pb", hosts[(at + 1) % len(hosts)].space, "pa") for at, host in enumerate(hosts)]

    def has_started(self):
        """Waits for all nodes that were started, and until all paths carry frames."""
        for host in self.hosts.values():
            if host.process:
                host.has_started()
        time.sleep(0.5)

    def stop(self):
        """Ends all nodes, and returns the figures of each."""
        return {host.name: host.stop() for host in self.hosts.values() if host.process}


def flood(pairs, paths, count, seconds):
    """Pings between each pair without pause, at least so many, until each path was cut for so many seconds. Returns what was sent, lost and
    doubled, how often a path was cut, and the round trips in milliseconds."""
    for source, target in pairs:
        sent, lost, doubled, _ = source.ping(target, 3, "-i", "0.2").ends()
        expect((lost, doubled) == (0, 0), f"{source.name} to {target.name} at rest: {lost} of {sent} lost, {doubled} doubled")
    totals, trips = [0, 0, 0], []
    cuts = Cuts(paths, seconds) if paths else None
    try:
        while not totals[0] or (cuts and not cuts.is_done()):
            pings = [source.ping(target, count, "-f") for source, target in pairs]
            for ping in pings:
                sent, lost, doubled, times = ping.ends()
                totals = [totals[0] + sent, totals[1] + lost, totals[2] + doubled]
                trips.append(times)
    finally:
        if cuts:
            cuts.stop()
    means = [times[1] for times in trips if times]
    return *totals, cuts.count if cuts else 0, sum(means) / len(means) if means else 0.0
