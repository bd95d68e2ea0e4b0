"""The networks that the tests run on, and what is wanted of each."""
import subprocess
import sys
import time

from lab import HERE, expect, flood, ip

# A frame that a node refuses for one of these was lost or strange.
FAULTS = "missed", "wrong_lan", "unread", "untagged", "table_full", "outbox_full", "no_memory"


def hosts_of(lab, numbers):
    return [lab.host(number) for number in numbers]


def danps(lab, count):
    """DANPs at two LANs."""
    hosts = hosts_of(lab, range(1, count + 1))
    lan_a, *wires_a = lab.lan("a", [(host, "pa") for host in hosts])
    lan_b, *wires_b = lab.lan("b", [(host, "pb") for host in hosts])
    for host in hosts:
        host.start("--role", "danp")
    lab.has_started()
    return hosts, [lan_a, lan_b, wires_a[0], wires_b[0]]


def danhs(lab, count, mixed=False):
    """A ring of DANHs. Of a mixed one each second is in mode X, and each third has the window of 2048."""
    hosts = hosts_of(lab, range(1, count + 1))
    wires = lab.ring(hosts)
    for at, host in enumerate(hosts):
        words = ["--mode", "x"] * (mixed and at % 2) + ["--window", "2048"] * (mixed and at % 3 == 0)
        host.start("--role", "danh", *words)
    lab.has_started()
    return hosts, wires


def san_box(lab):
    """A ring of three, of which the third is a RedBox with a host behind it that knows no redundancy."""
    one, two, box, san = hosts_of(lab, range(1, 5))
    wires = lab.ring([one, two, box])
    lab.wire(box.space, "pc", san.space, "pa")
    san.use_plain()
    for host in one, two:
        host.start("--role", "danh")
    box.start("--role", "san", "--c", "pc")
    lab.has_started()
    return [one, two, box, san], wires


def prp_boxes(lab):
    """A ring of four, of which two are RedBoxes of LAN A and LAN B, and two DANPs at these."""
    one, two, box_a, box_b, three, four = hosts_of(lab, range(1, 7))
    wires = lab.ring([one, box_a, two, box_b])
    lan_a = lab.lan("a", [(three, "pa"), (four, "pa"), (box_a, "pc")])[0]
    lan_b = lab.lan("b", [(three, "pb"), (four, "pb"), (box_b, "pc")])[0]
    for host in one, two:
        host.start("--role", "danh")
    for box, lan in (box_a, "a"), (box_b, "b"):
        box.start("--role", "prp", "--lan", lan, "--net", "1", "--c", "pc")
    for host in three, four:
        host.start("--role", "danp")
    lab.has_started()
    return [one, two, three, four, box_a, box_b], [*wires, lan_a, lan_b]


def hsr_boxes(lab):
    """Two rings of three, joined by two pairs of RedBoxes."""
    one, left_1, left_2, two, right_1, right_2 = hosts_of(lab, range(1, 7))
    wires = [*lab.ring([one, left_1, left_2]), *lab.ring([two, right_1, right_2])]
    joins = [lab.wire(left.space, "pc", right.space, "pc") for left, right in ((left_1, right_1), (left_2, right_2))]
    for host in one, two:
        host.start("--role", "danh")
    for box in left_1, left_2, right_1, right_2:
        box.start("--role", "hsr", "--c", "pc")
    lab.has_started()
    return [one, two, left_1, right_2], [*wires, *joins]


def all_roles(lab):
    """A ring of six: a DANH, a RedBox for a host without redundancy, two of LAN A and LAN B, at which are two DANPs, and two that join a second
    ring of three."""
    one, box, box_a, box_b, left_1, left_2, three, four, two, right_1, right_2, san = hosts_of(lab, range(1, 13))
    wires = [*lab.ring([one, box_a, left_1, box, box_b, left_2]), *lab.ring([two, right_1, right_2])]
    lan_a = lab.lan("a", [(three, "pa"), (four, "pa"), (box_a, "pc")])[0]
    lan_b = lab.lan("b", [(three, "pb"), (four, "pb"), (box_b, "pc")])[0]
    joins = [lab.wire(left.space, "pc", right.space, "pc") for left, right in ((left_1, right_1), (left_2, right_2))]
    lab.wire(box.space, "pc", san.space, "pa")
    san.use_plain()
    box.start("--role", "san", "--c", "pc")
    for prp, lan in (box_a, "a"), (box_b, "b"):
        prp.start("--role", "prp", "--lan", lan, "--net", "1", "--c", "pc")
    for hsr in left_1, left_2, right_1, right_2:
        hsr.start("--role", "hsr", "--c", "pc")
    for host in one, two:
        host.start("--role", "danh")
    for host in three, four:
        host.start("--role", "danp")
    lab.has_started()
    return [one, two, three, four, san], [*wires, *joins, lan_a, lan_b]


def wants_no_faults(figures):
    """That no node refused a frame."""
    for name, told in figures.items():
        for port in told["ports"]:
            for fault in FAULTS:
                expect(not port[fault], f"{name}: port {port['port']} counts {port[fault]} {fault}")


def wants_both_sides(figures):
    """That each node took frames at A and at B."""
    for name, told in figures.items():
        for port in told["ports"]:
            expect(port["port"] not in "AB" or port["received"], f"{name}: nothing came in at {port['port']}")


def wants_none_lost(pairs, paths, size):
    """Pings without pause while one path after the other is cut: none lost, none doubled. Returns what is told of them."""
    sent, lost, doubled, cuts, mean = flood(pairs, paths, size.pings // len(pairs), size.seconds)
    expect((lost, doubled) == (0, 0), f"of {sent} pings {lost} were lost and {doubled} came twice, with {cuts} cuts")
    return f"{sent} pings, {cuts} cuts, 0 lost, 0 doubled, {mean:.2f} ms"


def network(build, *words, choose=((0, 1),)):
    """A test of pings between these hosts of a network."""

    def test(lab, size):
        hosts, paths = build(lab, *words)
        told = wants_none_lost([(hosts[one], hosts[other]) for one, other in choose], paths, size)
        figures = lab.stop()
        wants_no_faults(figures)
        wants_both_sides(figures)
        return told

    return test


def comes_back(lab, size):
    """In a ring of four one node is killed and comes back: no frame of the others is lost, and afterwards none of its own."""
    (one, two, three, _), _ = danhs(lab, 4)
    pings = one.ping(three, 500, "-i", "0.01")
    time.sleep(1)
    two.kill()
    time.sleep(1)
    two.start()
    two.has_started()
    sent, lost, doubled, _ = pings.ends()
    expect((lost, doubled) == (0, 0), f"past a node that is killed {lost} of {sent} pings are lost and {doubled} come twice")
    told = wants_none_lost([(one, two), (two, three)], [], size)
    wants_no_faults(lab.stop())
    return f"{sent} past it, 0 lost; then {told}"


def is_made_again(lab, size):
    """An interface of a node is removed and made again: the other LAN carries all meanwhile, and later this one alone does."""
    (one, two), paths = danps(lab, 2)
    pings = one.ping(two, 400, "-i", "0.01")
    time.sleep(1)
    ip("-n", one.space, "link", "del", "pa")
    time.sleep(0.5)
    lab.plug(one, "pa", paths[0])
    sent, lost, doubled, _ = pings.ends()
    expect((lost, doubled) == (0, 0), f"{lost} of {sent} pings are lost and {doubled} come twice")
    paths[1].set("down")
    told = wants_none_lost([(one, two)], [], size)
    lab.stop()
    return told


def keeps_vlan_tags(build):
    """Frames with a VLAN tag go up as they were sent."""

    def test(lab, _):
        (one, two, *_), _ = build(lab, 3)
        hears = two.execute(sys.executable, f"{HERE}/vlan.py", "receive", two.device, stdout=subprocess.PIPE)
        expect(hears.stdout.readline() == "ready\n", "the receiver does not start")
        says = one.execute(sys.executable, f"{HERE}/vlan.py", "send", one.device, one.mac, two.mac, stdout=subprocess.PIPE)
        wanted, came = says.communicate(timeout=20)[0], hears.communicate(timeout=20)[0]
        expect(wanted and wanted == came, f"sent {wanted!r}, and {came!r} came")
        wants_no_faults(lab.stop())
        return f"{len(wanted.split())} frames"

    return test


TESTS = {
    "two DANPs": network(danps, 2),
    "four DANPs": network(danps, 4, choose=((0, 1), (1, 2), (3, 0))),
    "a ring of three": network(danhs, 3, choose=((0, 1), (0, 2))),
    "a ring of six, of both modes and windows": network(danhs, 6, True, choose=((0, 3), (1, 5))),
    "a RedBox of a host without redundancy": network(san_box, choose=((0, 3), (3, 1), (2, 3), (0, 2))),
    "RedBoxes between a ring and two LANs": network(prp_boxes, choose=((0, 2), (3, 1), (0, 4), (5, 2))),
    "RedBoxes between two rings": network(hsr_boxes, choose=((0, 1), (1, 2), (0, 3))),
    "all five roles in one network": network(all_roles, choose=((0, 2), (4, 1), (3, 4), (1, 2))),
    "a node that is killed and comes back": comes_back,
    "an interface that is removed and made again": is_made_again,
    "VLAN tags over PRP": keeps_vlan_tags(danps),
    "VLAN tags over HSR": keeps_vlan_tags(danhs),
}
