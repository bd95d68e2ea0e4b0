#!/usr/bin/env python3
"""What more lines and packets of a kind cost the program: allocations, memory, reads and writes, and of some the processor's time.

    gate/costs.py [PROGRAM [TESTS]]     crates/sr_cli/out/sr_cli by default, and the tests where gate/allocations.py builds them

No clause speaks of these. A row runs the program twice, the second time with more of the same, and compares what both asked of
the machine (gate/c/counting.c is loaded in front of it): what has been met before is to take no allocation and no octet more.
What is new takes memory up to a bound, which half as much again would break: a bound that it would not is a failure too.
The last row is the most memory that some tests take. It takes a C compiler. The last line is `N passed, M failed`.
"""
import os
import resource
import struct
import subprocess
import sys
import tempfile

TOP = os.path.dirname(os.path.dirname(os.path.realpath(__file__)))
OWN = "020000000001"
CAPTURE = f"{TOP}/examples/linux-prp-lan-a.pcap"
OTHER = f"{TOP}/examples/linux-prp-lan-b.pcap"
# The octets of the header of a pcap file.
HEADER = 24
# Rounds of a script after which all that is used again is there, what waits to be printed among it.
WARM = 1500


class Run:
    """What a run asked of the machine."""

    def __init__(self, text, seconds):
        self.allocations, self.octets, self.reads, self.writes = map(int, text.split())
        self.seconds = seconds


# The most octets that a test holds: half as many again as it needs.
TESTS = {
    # Tables of one source, and what is written and read of them.
    ("sr_tests_table", "snapshots::restored"): 12_500,
    # Tables of 1024 sources in both widths.
    ("sr_tests_table", "snapshots::there_and_back"): 3_800_000,
    # Rings of a few nodes, whose hosts are handed some ten frames.
    ("sr_tests_network", "plants::traffic::rings"): 580_000,
}


class Costs:
    """The runs of one program."""

    def __init__(self, program, tests, room):
        self.program, self.tests, self.room = program, tests, room
        self.library = f"{room}/counting.so"
        subprocess.run([os.environ.get("CC", "cc"), "-O2", "-Wall", "-Werror", "-shared", "-fPIC", "-o", self.library,
                        f"{TOP}/gate/c/counting.c", "-ldl"], check=True)

    def run_test(self, crate, test):
        program = f"{self.tests}/{crate}.prog" if self.tests else f"{TOP}/crates/{crate}/out/{crate}_tests"
        return self.run([test], program=program)

    def least_seconds(self, args, script=b""):
        """The processor's time where nothing else has it: the least of three runs."""
        return min(self.run(args, script).seconds for _ in range(3))

    def on_threads(self, args, script=b"", pick=max):
        """The most that any of four runs takes, or the least, all threads of which have one processor: on several it varies twofold."""
        runs = [self.run(args, script, on_one=True) for _ in range(4)]
        picked = runs[0]
        picked.allocations = pick(run.allocations for run in runs)
        picked.octets = pick(run.octets for run in runs)
        return picked

    def run(self, args, script=b"", program=None, on_one=False):
        program = program or self.program
        to = f"{self.room}/counts"
        env = {"LD_PRELOAD": self.library, "COUNT_TO": to}
        with open(f"{self.room}/script", "wb") as file:
            file.write(script)
        began = resource.getrusage(resource.RUSAGE_CHILDREN)
        with open(f"{self.room}/script", "rb") as stdin, open(f"{self.room}/out", "wb") as stdout:
            ran = subprocess.run([program, *args], env=env, stdin=stdin, stdout=stdout, stderr=subprocess.DEVNULL, timeout=60,
                                 preexec_fn=take_one_processor if on_one else None)
        ended = resource.getrusage(resource.RUSAGE_CHILDREN)
        if ran.returncode:
            raise ValueError(f"{' '.join(args)} ends with status {ran.returncode}")
        with open(to, encoding="ascii") as file:
            return Run(file.read(), ended.ru_utime - began.ru_utime)


def take_one_processor():
    os.sched_setaffinity(0, {min(os.sched_getaffinity(0))})


def node(role):
    return ["replay", "--role", role, "--mac", OWN]


def trailed(source, number, time=0):
    """Both copies of a frame to the node by two LANs."""
    return "".join(f"in {lan} {time} {OWN}{source:012x}0800{0:092d}{number % 65536:04x}{lan.lower()}03488fb\n" for lan in "AB")


def tagged(source, number, time=0):
    """Both copies of a frame to all in a ring."""
    return "".join(f"in {port} {time} ffffffffffff{source:012x}892f{path}034{number % 65536:04x}0800{0:092d}\n"
                   for port, path in (("A", 0), ("B", 1)))


def plain(count):
    """Frames without a number, which are handed up and not noted."""
    return f"in A 0 {OWN}0200000000fe0800{0:092d}\n" * count


def rounds(of, sources, begin, end):
    """One frame of each source under each of these numbers."""
    return "".join(of(0x020000000100 + source, number) for number in range(begin, end) for source in range(sources)).encode()


def same(name, one, other, failed, allowed=0, octets=0):
    """The second run took so many allocations more than the first one at the most, and held no more octets but for so many."""
    more = other.allocations - one.allocations
    held = other.octets - one.octets
    if more > allowed or held > octets:
        failed.append(f"{name}: {more} allocations and {held} octets more")


def within(name, octets, most, failed):
    """So many octets are no more than the bound, and half as many again would be."""
    if octets > most:
        failed.append(f"{name}: {octets} octets, and {most} are enough")
    elif 3 * octets <= 2 * most:
        failed.append(f"{name}: {octets} octets, which half as many again would not show: {most} is too wide a bound")


def known_sources(costs, failed):
    """Frames of sources that are known take nothing, whatever their number: at some of these a table is just full."""
    warm = plain(2 * WARM).encode()
    for sources in range(1, 41):
        one = warm + rounds(trailed, sources, 0, 1)
        # Copies once more, frames under new numbers, and copies of these.
        other = one + rounds(trailed, sources, 0, 4) + rounds(trailed, sources, 2, 4)
        same(f"{sources} known sources", costs.run(node("danp"), one), costs.run(node("danp"), other), failed)


def one_more_source(costs, failed):
    """A source takes what its record and its entries take, and no room for others."""
    warm = plain(2 * WARM).encode()
    for name, args, counts, most in (
            # The first one brings what all further ones use again.
            ("the first source", node("danp"), (0, 1), 2500),
            ("the second source", node("danp"), (1, 2), 1200),
            # 768 of these are its record's, the others its places in the tables and the allocator's own.
            ("a source of hundreds", node("danp"), (200, 400), 1300),
            # 1536 are its record's there.
            ("a source of twice the window", [*node("danp"), "--window", "2048"], (200, 400), 2300),
            # With what is printed of it.
            ("a source in a status", ["status", *node("danp")[1:]], (200, 400), 1500)):
        few, many = (costs.run(args, warm + rounds(trailed, count, 0, 3)) for count in counts)
        within(name, (many.octets - few.octets) // (counts[1] - counts[0]), most, failed)


def alone(costs, failed):
    """A node that hears nothing holds its outboxes and the places of its tables, which are taken once"""
    # What is read and what is printed wait in 82,000 of them.
    within("a node", costs.run(node("danp")).octets, 240_000, failed)
    for kind in ("ring", "lan"):
        few, many = (costs.run([kind, "--nodes", str(count)]).octets for count in (4, 16))
        # Four outboxes of 256 places take 41,000 of them.
        within(f"a node of a {kind}", (many - few) // 12, 120_000, failed)


def forwarded(costs, failed):
    """Frames that a ring node or a box passes on, and those that nobody wants."""
    for role in ("danh", "san"):
        one = rounds(tagged, 16, 0, 300)
        same(f"forwarded by {role}", costs.run(node(role), one), costs.run(node(role), one + rounds(tagged, 16, 290, 330)), failed)
    nobody = "".join(f"in A 0 0200000000ee020000000102{0x800:04x}{0:092d}{number:04x}a03488fb\n" for number in range(4000)).encode()
    same("frames to nobody", costs.run(node("danp"), nobody), costs.run(node("danp"), nobody + nobody[:100_000].rpartition(b"\n")[0]),
         failed)


def host(costs, failed):
    """Frames of the host, and ticks with life checks."""
    send = f"send 0 {OWN[:-1]}2{OWN}0800{0:092d}\n".encode()
    same("frames of the host", costs.run(node("danp"), send * 2000), costs.run(node("danp"), send * 2500), failed)
    ticks = ["".join(f"tick {2000 * count}\n" for count in range(end)).encode() for end in (2000, 2500)]
    # Each is written into a list of its own.
    same("life checks", *[costs.run(node("danp"), it) for it in ticks], failed, allowed=500)


def learned(sources, begin=0, time=0):
    """Frames of so many hosts behind a box, three of each."""
    return "".join(f"in C {time} ffffffffffff{0x020000000100 + begin + source:012x}0800{0:092d}\n" for _ in range(3)
                   for source in range(sources)).encode()


def hosts_of_a_box(costs, failed):
    """Hosts behind a box: one that is known takes nothing, a further one its places, and a full table of them is all"""
    known = plain(2 * WARM).encode() + learned(200)
    one, more, other = (costs.run(node("san"), known + it) for it in (b"", learned(200, time=1000), learned(200, 200)))
    same("known hosts", one, more, failed)
    within("a host", (other.octets - one.octets) // 200, 1200, failed)
    # Two a host, and no third.
    come = [known + b"".join(learned(200, 200 * at, 70_000 * at) for at in range(1, end)) for end in (8, 16)]
    same("hosts that come and go", *[costs.run(node("san"), it) for it in come], failed, allowed=2 * 200 * 8)


def floods(costs, failed):
    """Sources that a full table refuses, and sources that come and go: the memory of a full table is all."""
    many = "".join(trailed(0x020000100000 + source, 5) for source in range(3000)).encode()
    more = many + "".join(trailed(0x020000200000 + source, 5) for source in range(2000)).encode()
    same("refused sources", costs.run(node("danp"), many), costs.run(node("danp"), more), failed)
    come = ["".join(trailed(0x020000100000 + source, 5, source) for source in range(end)).encode() for end in (4000, 9000)]
    same("sources that come and go", *[costs.run(node("danp"), it) for it in come], failed, allowed=5000)


def periodic(sources, lines):
    """So many lines: each source is heard once in 410 ms, a little more seldom than it is forgotten, with a tick each 10 ms."""
    made, last, frame = [], 0, 0
    while len(made) < lines:
        time = frame * 410 // sources
        if time // 10 > last:
            last = time // 10
            made.append(f"tick {time}\n")
        number = frame // sources % 65536
        made.append(f"in A {time} {OWN}{0x020000000100 + frame % sources:012x}0800{0:092d}{number:04x}a03488fb\n")
        frame += 1
    return "".join(made).encode()


def sources_that_return(costs, failed):
    """Sources that come back: one costs the same among many as among few, and where all fall silent none takes an allocation."""
    few, many = (costs.least_seconds(node("danp"), periodic(sources, 200_000)) for sources in (100, 1000))
    if many > 2 * max(few, 0.02):
        failed.append(f"{few:.2f} s with 100 sources, {many:.2f} s with 1000")
    once, again = (b"".join(f"tick {1000 * at}\n".encode() + "".join(
        trailed(0x020000000100 + source, at, 1000 * at) for source in range(400)).encode() for at in range(end)) for end in (8, 16))
    # Each life check is written into a list of its own.
    same("sources that were all silent", costs.run(node("danp"), once), costs.run(node("danp"), again), failed, allowed=20)


def drawn_keys(costs, failed):
    """Addresses that meet in a table under the keys that anyone can know take no longer than others: the program drew the keys of each"""
    finder = f"{costs.room}/meeting"
    subprocess.run([os.environ.get("CC", "cc"), "-O2", "-Wall", "-Werror", "-o", finder, f"{TOP}/gate/c/meeting.c"], check=True)
    meeting = [int(it, 16) for it in subprocess.run([finder, "1000"], stdout=subprocess.PIPE, text=True, check=True).stdout.split()]
    others = range(0x020000100000, 0x020000100000 + len(meeting))

    def script(addresses):
        return "".join(trailed(it, number) for number in range(100) for it in addresses).encode()

    def hosts(addresses):
        return "".join(f"in C 0 ffffffffffff{it:012x}0800{0:092d}\n" for _ in range(100) for it in addresses).encode()

    def files(addresses):
        frames = [(it - 0x020000000100, number) for number in range(100) for it in addresses]
        return [word for lan in "ab" for word in (f"--{lan}", write_capture(costs, f"keys-{addresses[0]}-{lan}", frames, 10_000, lan))]

    captured = [files(it) for it in (others, meeting)]
    for name, runs in (
            ("sources and nodes", [(node("danp"), script(it)) for it in (others, meeting)]),
            ("hosts of a box", [(node("san"), hosts(it)) for it in (others, meeting)]),
            ("audit", [(["audit", *it],) for it in captured]),
            ("merge", [(["merge", "-w", "-", *it],) for it in captured]),
            ("watch", [(["watch", *it],) for it in captured])):
        one, other = (costs.least_seconds(*it) for it in runs)
        if other > 1.3 * max(one, 0.05):
            failed.append(f"{name}: {one:.2f} s of 1000 addresses, {other:.2f} s of as many that meet")


def networks(costs, failed):
    """Frames that have gone round a network leave nothing; a copy in flight takes little more than its octets."""
    ring = ["ring", "--nodes", "3"]
    turn = b"send 0 1 01\n" + b"carry 0\n" * 4
    # What is in flight and what is handed up are lists of their own: nine a frame, and no tenth.
    same("frames round a ring", costs.run(ring, turn * 1500), costs.run(ring, turn * 1900), failed, allowed=9 * 400)
    wave = b"send 0 1 01\n" * 1000 + b"carry 0\n" * 4000
    same("frames in flight together", costs.run(ring, wave * 2), costs.run(ring, wave * 4), failed, allowed=9 * 2000)
    flow = b"send 2 all 01\nflow\n"
    # Twelve carries hand it to five nodes, and eighteen to seven. What each puts in flight is a list of its own.
    for args, lists in ((["ring-lan", "--ring", "4", "--lan", "2"], 29), (["two-rings", "--left", "4", "--right", "4", "--joins", "2"], 45)):
        same(f"frames through boxes of {args[0]}", costs.run(args, flow * 500), costs.run(args, flow * 900), failed, allowed=lists * 400)
    # Both copies of a frame stand in a ring, and 30 in LANs of 16 nodes, where those of one LAN share the octets.
    for kind, payload, copies, most in (("ring", 1, 2, 190), ("lan", 1, 30, 95), ("lan", 1000, 30, 180)):
        few, many = (costs.run([kind, "--nodes", "16"], "".join(
            f"send {place % 16} all {'01' * payload}\n" for place in range(end)).encode()) for end in (250, 500))
        within(f"a copy of {payload} octets in flight in a {kind}", (many.octets - few.octets) // (250 * copies), most, failed)


def threads(costs, failed):
    """Nodes on threads: a turn takes what the journal and the log keep of it, and a frame the lists that are kept of it"""
    frame = b"send 0 1 01\n"
    for kind in ("ring", "lan"):
        def turns(count):
            return costs.on_threads([kind, "--nodes", "3", "--turns", str(count)])

        # From 1366 turns to 2048 journals with room for 8192 events do, and logs with room for 2048. Which thread ends first moves a
        # few allocations, and what is held at the end.
        same(f"turns of a {kind}", turns(1500), turns(1900), failed, allowed=8, octets=300_000)
        # Three journals have room for 4096 events each then, and nine logs for 1024.
        within(f"an event of a {kind}", (turns(1000).octets - turns(1).octets) // (9 * 1000), 350, failed)
        # Ten lists a frame are kept or handed on, and no eleventh. Frames that wait for a thread have to have more, and the run in
        # which the fewest do shows whether lists are used again.
        few, many = (costs.on_threads([kind, "--nodes", "2", "--turns", "1000"], frame * count, min) for count in (100, 200))
        same(f"frames on threads of a {kind}", few, many, failed, allowed=10 * 100 + 8, octets=300_000)


def captures(costs, failed):
    """Captures are read as they go: one that is eight times as long takes no more memory."""
    with open(CAPTURE, "rb") as file:
        octets = file.read()
    names = []
    for times in (20, 160):
        names.append(f"{costs.room}/{times}.pcap")
        with open(names[-1], "wb") as file:
            file.write(octets[:HEADER] + octets[HEADER:] * times)
    for name, args in (("script", ["script", "--a"]), ("audit", ["audit", "--b", OTHER, "--a"])):
        same(f"{name} of a long capture", *[costs.run([*args, it]) for it in names], failed)


def write_capture(costs, name, frames, step, lan="a"):
    """A pcap file of a LAN with these frames, each a source and a number, so many nanoseconds apart."""
    path = f"{costs.room}/{name}.pcap"
    with open(path, "wb") as file:
        file.write(struct.pack("<IHHiIII", 0xA1B23C4D, 2, 4, 0, 0, 65535, 1))
        for place, frame in enumerate(frames):
            # One that this LAN lost.
            if frame:
                octets = trailed_octets(*frame, lan)
                file.write(struct.pack("<IIII", *divmod(place * step, 10**9), len(octets), len(octets)) + octets)
    return path


def trailed_octets(source, number, lan):
    return bytes.fromhex(f"{OWN}{0x020000000100 + source:012x}0800{0:092d}{number % 65536:04x}{lan}03488fb")


def lans(costs, sources, packets, step):
    """The captures of two LANs, of which A lost each seventh frame and B each eleventh."""
    options = []
    for lan, lost in (("a", 7), ("b", 11)):
        frames = [(place % sources, place // sources) if place % lost else None for place in range(packets)]
        options += [f"--{lan}", write_capture(costs, f"{sources}-{packets}-{lan}", frames, step, lan)]
    return options


def judged(costs, failed):
    """Captures of 16 sources that are judged: one that is twice as long takes no more memory, nor do lists and a picture of it"""
    # By then each source sent more than the 1024 numbers of which its pairs are kept.
    few, many = (lans(costs, 16, packets, 1_000_000) for packets in (20_000, 40_000))
    for name, args in (("audit", ["audit"]), ("lists", ["audit", "--list", "lost,wrong,pairs"]), ("picture", ["audit", "--format", "svg"]),
                       ("merge", ["merge", "-w", "-"]), ("lost frames of a merge", ["merge", "--only", "lost", "-w", "-"])):
        # The merge's table has its places by drawn keys, which moves a few.
        one, other = (max((costs.run([*args, *it]) for _ in range(2)), key=lambda run: run.octets) for it in (few, many))
        same(f"{name} of a capture twice as long", one, other, failed, *((8, 10_000) if args[0] == "merge" else ()))


def listed(costs, failed):
    """An audit of 512 sources that are listed, and of all 1024: they are listed 512 at a time"""
    few, many = (lans(costs, sources, 8 * sources, 100_000) for sources in (512, 1024))
    lists = ["audit", "--list", "lost,wrong,pairs"]
    for name, args, most in (
            # 18,500 a source, of which its figures are half.
            ("512 sources", [*lists, *few], 12_000_000),
            # 20,000 a source: each lacks numbers, so two audits are held.
            ("1024 sources", [*lists, *many], 23_000_000),
            ("a picture of 1024 sources", ["audit", "--format", "svg", *many], 23_000_000),
            ("figures of 1024 sources", ["audit", *many], 23_000_000),
            # With the packets that wait.
            ("a merge of 1024 sources", ["merge", "-w", "-", *many], 2_200_000)):
        within(name, costs.run(args).octets, most, failed)


def block(kind, body):
    """A block of a pcapng file."""
    size = 12 + len(body) + -len(body) % 4
    return struct.pack("<II", kind, size) + body + bytes(-len(body) % 4) + struct.pack("<I", size)


def write_blocks(costs, name, packets, other=0):
    """A pcapng file of so many packets of LAN A a millisecond apart, with a block of so many octets that nobody knows ahead of them."""
    path = f"{costs.room}/{name}.pcapng"
    with open(path, "wb") as file:
        file.write(block(0x0A0D0D0A, struct.pack("<IHHq", 0x1A2B3C4D, 1, 0, -1)) + block(1, struct.pack("<HHI", 1, 0, 0)))
        if other:
            file.write(block(0xBAD, bytes(other)))
        for number in range(packets):
            octets = trailed_octets(0, number, "a")
            file.write(block(6, struct.pack("<IIIII", 0, 0, 1000 * number, len(octets), len(octets)) + octets))
    return path


def blocks(costs, failed):
    """Blocks of pcapng are read into one list, which is as long as the longest of them"""
    short, long = (["script", "--a", write_blocks(costs, packets, packets)] for packets in (140, 14_000))
    # The command line takes all of these, and is let go before a block is read into 23,000 and its own octets.
    within("a script of 14 KB", costs.run(short).octets, 125_000, failed)
    same("a script of 1.4 MB", costs.run(short), costs.run(long), failed)
    few, many = (costs.run(["script", "--a", write_blocks(costs, f"other-{size}", 1, size)]).octets for size in (120_000, 240_000))
    # The list is as long as the block, and a few octets.
    within("100 octets of a block", 100 * (many - few) // 120_000, 150, failed)


def not_gone_over(costs, failed):
    """Packets that wait for a copy are not gone over for another: eight times as many take some eight times as long, and not 64 times."""
    # All within 400 ms, by one LAN alone, each frame twice: where a copy is sought, all that came before it wait.
    few, many = (write_capture(costs, count, [(0, place // 2) for place in range(count)], 2000) for count in (20_000, 160_000))
    for name, args in (("merge", ["merge", "-w", "-"]), ("audit", ["audit"])):
        one, other = (costs.least_seconds([*args, "--b", OTHER, "--a", it]) for it in (few, many))
        if other > 24 * max(one, 0.02):
            failed.append(f"{name}: {one:.2f} s of 20,000 packets, {other:.2f} s of 160,000")


def waiting(costs, failed):
    """Packets that wait in a merge take little more than their octets, and as many that wait later use their lists again"""
    few, many = (costs.run(["merge", "-w", "-", "--b", OTHER, "--a", write_capture(
        costs, f"wait-{count}", [(0, place) for place in range(count)], 2000)]).octets for count in (20_000, 40_000))
    # A packet has 66 octets.
    within("a packet that waits", (many - few) // 20_000, 300, failed)
    # 4000 within 400 ms wait together, and 4096 lists are kept for those that come later.
    once, again = (costs.run(["merge", "-w", "-", "--b", OTHER, "--a", write_capture(
        costs, f"later-{count}", [(0, place) for place in range(count)], 100_000)]) for count in (10_000, 40_000))
    same("packets that wait later", once, again, failed, allowed=8, octets=10_000)


def together(costs, failed):
    """What is at hand is read at once, and what is printed for it written at once."""
    for name, line in (("lines that are answered", b"in A 0 00\n"), ("empty lines", b"\n")):
        run = costs.run(node("danp"), line * 20_000)
        # 200,000 octets are read and some 480,000 printed: either goes by what is at hand, and not by the line.
        if run.reads > 16 or run.writes > 32:
            failed.append(f"{name}: {run.reads} reads and {run.writes} writes")


def most_of_tests(costs, failed):
    """What tests of snapshots and of networks hold at the most"""
    for (crate, test), most in TESTS.items():
        octets = costs.run_test(crate, test).octets
        if octets > most:
            failed.append(f"{crate}::{test} holds {octets} octets, and {most} are enough")


ROWS = (known_sources, one_more_source, alone, forwarded, host, hosts_of_a_box, floods, sources_that_return, drawn_keys, networks,
        threads, captures, judged, listed, blocks, not_gone_over, waiting, together, most_of_tests)


def main(program, tests=None):
    passed = failed = 0
    with tempfile.TemporaryDirectory(prefix="costs-") as room:
        costs = Costs(program, tests, room)
        for row in ROWS:
            found = []
            try:
                row(costs, found)
            except (OSError, ValueError, subprocess.TimeoutExpired) as fault:
                found.append(str(fault))
            print(f"costs: {row.__doc__.split(':')[0].rstrip('.')} ... {'; '.join(found[:5]) or 'ok'}", flush=True)
            passed += not found
            failed += bool(found)
    print(f"{passed} passed, {failed} failed")
    return bool(failed)


if __name__ == "__main__":
    sys.exit(main(*(sys.argv[1:] or [f"{TOP}/crates/sr_cli/out/sr_cli"])))
