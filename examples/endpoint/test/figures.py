"""What two hosts get out of a PRP network or a ring of two nodes, beside a plain bridge: round trips, datagrams a second, processor time."""
import subprocess
import sys

from lab import HERE, expect
from networks import danhs, danps

SECONDS = 4


def bridged(lab):
    """Two hosts without redundancy at one bridge."""
    hosts = [lab.host(number) for number in (1, 2)]
    lab.lan("a", [(host, "pa") for host in hosts])
    for host in hosts:
        host.use_plain()
    lab.has_started()
    return hosts


def datagrams(one, two, size):
    """Sends datagrams of this size as fast as one process can. Returns how many a second were sent, and came."""
    words = [sys.executable, f"{HERE}/flow.py"]
    hears = two.execute(*words, "receive", str(SECONDS), stdout=subprocess.PIPE)
    expect(hears.stdout.readline() == "ready\n", "the receiver does not start")
    says = one.execute(*words, "send", str(SECONDS), two.address, str(size), stdout=subprocess.PIPE)
    sent, came = (int(it.communicate(timeout=60)[0]) for it in (says, hears))
    return sent / SECONDS, came / SECONDS


def spent(figures):
    """The processor's microseconds that a node took, and the frames that went in or out at its ports."""
    return figures["user_us"], figures["system_us"], sum(port["received"] + port["sent"] for port in figures["ports"])


def measure(lab_of):
    """Prints a line for each network."""
    print("| Network | Round trip, ms | Datagrams of 18 octets a second: sent, came | of 1400 octets | Node, us a frame: program, kernel |")
    print("|---|---|---|---|---|")
    builds = {
        "a plain bridge": bridged, "PRP, two LANs": lambda lab: danps(lab, 2)[0], "HSR, a ring of two": lambda lab: danhs(lab, 2)[0],
        "HSR, a ring of four, opposite": lambda lab: danhs(lab, 4)[0][::2],
    }
    for name, build in builds.items():
        with lab_of() as lab:
            one, two = build(lab)
            one.ping(two, 3, "-i", "0.2").ends()
            trip = one.ping(two, 5000, "-f").ends()[3]
            rates = [datagrams(one, two, size) for size in (18, 1400)]
            node = "-"
            if one.process:
                user, system, frames = spent(lab.stop()[one.name])
                node = f"{user / frames:.2f}, {system / frames:.2f}"
            columns = [f"{trip[0]:.3f} least, {trip[1]:.3f} mean", *(f"{sent:.0f}, {came:.0f}" for sent, came in rates), node]
            print(f"| {name} | {' | '.join(columns)} |", flush=True)
