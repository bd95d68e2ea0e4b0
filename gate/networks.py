#!/usr/bin/env python3
"""Random networks whose truth is known, against what `seamless audit --check` says of captures of both LANs, and `seamless merge` makes.

    gate/networks.py [--program PATH] [--kinds] [FIRST COUNT]     20 networks from seed 1 on; ./seamless by default

Each network has 2 to 6 sources, from 1000 frames a second to one in two seconds, and mirror ports at both LANs. Of each frame it is written
down which LANs lost it, and the figures of each source are counted of that: no rule of the program is used. The faults are frames that one
LAN lost, or both, alone or in a row behind which a slow source goes on; a source that restarts with other numbers; a LAN that died, files
that are swapped, recorders that don't overlap. Half of the networks are sound. In half of them the clock of B is up to 10 s off and drifts
by up to 50 ppm, and in some it is set while it records, so that two offsets fit. In a third of them the recorders begin and end at other
moments, and have the frames of that time. In every fourth network a RedBox numbers the frames of two devices by one counter, and every
third one is an HSR ring of 3 to 8 nodes, whose two ways are recorded at a link: half of its frames go to one node, and pass the link on one
way. A ring loses frames of a way, or both, or it is cut, for good or for a while. Of each twelve networks one has access ports in place of mirrors, at one LAN or
both, which see frames to single addresses only where a switch floods them; in one sources talk to each other past two mirrors; in one a
RedBox numbers the frames of two devices by one counter and never tells of them; in one the recorders of a ring's node see what it sends on
too, where there is nothing to judge; and in one a recorder drops packets, and says so in the statistics of its interface. A merge of a
network that can be judged has each frame that a recorder has once, at the time of a copy by the clock of A. The verdicts that stand first
are compared with what happened: what each LAN lost, which sources came by one LAN alone at last and since when, numbers that both lost, and
restarts; and what frames themselves tell of sources: two senders under one address, a burst of frames, a source without redundancy at one
LAN, one that loses it, one whose port at one LAN dies, and one whose cables are crossed, up to four faults in a network, each by its
source, LAN and time. A line tells each network of which the audit says something else, or the merge has. With --kinds a table tells of each
kind of fault and notice how often it was named rightly, by its source or LAN and its time to a second, missed, made up, and hidden from the
recorders. The last line is `N passed, M failed`.
"""
import argparse
import json
import os
import random
import struct
import subprocess
import sys
import tempfile

TOP = os.path.dirname(os.path.dirname(os.path.realpath(__file__)))
SECOND = 10**9
PERIODS = [SECOND // 1000, SECOND // 100, SECOND // 10, SECOND // 2, SECOND, 2 * SECOND]
RING_FAULTS = ["loss", "both", "cut", "restart", "two_senders", "babbling"]
# How long a frame takes from one node of a ring to the next one, in nanoseconds.
HOP = 20_000
FAULTS = ["loss", "both", "row", "restart", "two_senders", "babbling", "san", "lost_redundancy", "crossed", "port", "dead", "swapped", "apart", "set"]
# The order in which faults are put into a network: what moves or adds frames comes before what loses them.
FIRST = ["restart", "babbling", "lost_redundancy"]
# What is told of sources by their frames, and which of it is a fault.
STRANGE = {"two_senders": "fault", "lost_redundancy": "fault", "babbling": "notice", "san": "notice"}
# How many frames a burst has, in about a second.
BURST = 1200
# The faults behind which captures say nothing of the network.
UNJUDGED = {"dead", "swapped", "apart", "set"}
# The time of the first packet: a clock that is behind does not fall below 0.
BEGIN = 100 * SECOND
# How far off the offset of a clock is told at most: copies come up to 0.4 ms apart, by which the drift of 5 s is told 80 ppm off, and
# the middle of the recordings is 15 s away.
OFFSET_LEFT = 5_000_000
# How far behind the beginning of the recordings the first frame is sent, so that each recorder has each copy.
QUIET = SECOND // 100
# How long both recorders run before a frame is lost, and behind it: what is lost nearer to their edges can't be told from them.
INNER = SECOND // 10
# How wide the edge of a recording is at least.
EDGE = SECOND // 1000
# When the last recorder ends that waits for all frames.
END = 40 * SECOND
# A restart is told from a gap where its number lies further ahead.
NEAR = 1024
# How many frames at the end by one LAN alone are told as a port that is dead, or a ring that is cut; and in a row before, of so many sources
# at once, as a ring that was cut for a while.
LEAST_ROW = 3
LEAST_AT_ONCE = 2
# How far off the time is told at most from which on that is so.
SINCE_LEFT = 2 * OFFSET_LEFT


class Source:
    """A source: its address, and when it sends which number."""

    # Whether numbers of its network go past no recorder.
    hides = False
    # Whether both recorders see its flows to single addresses, but for one that a switch floods now and then.
    shows_flows = True

    def __init__(self, rng, index, seconds):
        self.mac = bytes([2, 0, 0, 0, 1, index])
        self.period = rng.choice(PERIODS)
        self.delays = [rng.randrange(10_000, 400_000) for _ in "AB"]
        number = rng.randrange(65536)
        self.frames = []
        time = QUIET + rng.randrange(self.period)
        while time < seconds * SECOND:
            # Which LANs bring it.
            self.frames.append({"time": time, "number": number, "lans": {0, 1}, "ways": {0, 1}})
            number = (number + 1) % 65536
            time += self.period - rng.randrange(self.period // 10)
        self.restarted = None

    def restart(self, rng):
        """From some frame on, behind a second of silence, numbers are others."""
        at = rng.randrange(1, len(self.frames))
        last = self.frames[at - 1]["number"]
        number = rng.choice([(last + NEAR + rng.randrange(60_000)) % 65536, (last - rng.randrange(NEAR)) % 65536])
        for frame in self.frames[at:]:
            frame["time"] += SECOND
            frame["number"] = number
            number = (number + 1) % 65536
        self.restarted = at

    def is_judged(self, frame):
        """Whether a frame tells of losses where one recorder alone has it."""
        return frame["ways"] == {0, 1} and (self.shows_flows or "to" not in frame)

    def figures(self):
        """What an audit is to say of it."""
        seen = [frame for frame in self.frames if frame["seen"]]
        names = ["rx_a", "rx_b", "pairs", "only_a", "only_b", "edge_a", "edge_b", "neither", "unseen", "restarts", "jumps"]
        wanted = dict.fromkeys(names, 0)
        wanted["rx_a"] = sum(0 in frame["seen"] for frame in seen)
        wanted["rx_b"] = sum(1 in frame["seen"] for frame in seen)
        wanted["pairs"] = sum(len(frame["seen"]) == 2 for frame in seen)
        both = [frame for frame in seen if self.is_judged(frame)]
        wanted["only_a"] = sum(frame["seen"] == {0} and 1 not in frame["lans"] for frame in both)
        wanted["only_b"] = sum(frame["seen"] == {1} and 0 not in frame["lans"] for frame in both)
        wanted["edge_a"] = sum(frame["seen"] == {0} and 1 in frame["lans"] for frame in both)
        wanted["edge_b"] = sum(frame["seen"] == {1} and 0 in frame["lans"] for frame in both)
        wanted["single_a"] = sum(frame["seen"] == {0} and not self.is_judged(frame) for frame in seen)
        wanted["single_b"] = sum(frame["seen"] == {1} and not self.is_judged(frame) for frame in seen)
        cut = len(self.frames) if self.restarted is None else self.restarted
        missing = "unseen" if self.hides else "neither"
        wanted[missing] = sum(self.missing(run) for run in (self.frames[:cut], self.frames[cut:]))
        wanted["restarts"] = int(self.restarted is not None and any(f["seen"] for f in self.frames[:cut])
                                 and any(f["seen"] for f in self.frames[cut:]))
        return wanted

    def missing(self, run):
        """How many frames no recorder has, between the first and the last one that one has."""
        heard = [index for index, frame in enumerate(run) if frame["seen"]]
        return sum(not frame["seen"] for frame in run[heard[0]:heard[-1]]) if heard else 0

    def reports(self):
        """What an audit is to say of its addresses."""
        return [(self.mac, self.figures())]

    def runs(self):
        """The frames of its addresses, of each those behind its last restart."""
        return [(self.mac, self.frames[self.restarted or 0:])]


class RedBox(Source):
    """A RedBox with two devices, whose frames it numbers by one counter. It tells of both each 2 s at most, unless it is silent."""

    is_silent = False

    def __init__(self, rng, index, seconds):
        super().__init__(rng, index, seconds)
        self.devices = [bytes([2, 0, 0, 0, 2 + device, index]) for device in range(2)]
        told = -2 * SECOND
        for at, frame in enumerate(self.frames):
            frame["mac"] = rng.choice(self.devices)
            if frame["time"] - told >= 2 * SECOND and not self.is_silent:
                told = frame["time"]
                for device, other in zip(self.devices, self.frames[at:]):
                    other["tells"] = device
        for frame in self.frames:
            if "tells" in frame:
                frame["mac"] = self.mac

    def reports(self):
        found = []
        for mac in [self.mac, *self.devices]:
            own = Source.__new__(Source)
            own.frames = [frame for frame in self.frames if frame["mac"] == mac]
            own.restarted = None
            wanted = own.figures()
            if self.is_silent:
                # Of numbers that its devices share an audit knows nothing.
                del wanted["neither"], wanted["unseen"]
            else:
                wanted["neither"] = self.figures()["neither"] if mac == self.mac else 0
            # Numbers of one address jump where others have those between.
            del wanted["jumps"], wanted["restarts"]
            if wanted["rx_a"] or wanted["rx_b"]:
                found.append((mac, wanted))
        return found

    def runs(self):
        return [(mac, [frame for frame in self.frames if frame["mac"] == mac]) for mac in [self.mac, *self.devices]]


class Network:
    """A network of one seed, with its faults."""

    def __init__(self, seed):
        rng = random.Random(seed)
        self.seed = seed
        seconds = rng.randrange(5, 13)
        self.sources = self.make_sources(rng, seconds)
        self.runs = [(0, END)] * 2
        if rng.random() < 1 / 3:
            third = seconds * SECOND // 3
            self.runs = [(rng.randrange(third), rng.randrange(2 * third, 3 * third)) for _ in "AB"]
        self.seconds = seconds
        self.faults = self.choose(rng) if rng.random() < self.share_of_faults else []
        # What frames tell of sources: the kind, the address, the LAN and the time, where these are told.
        self.strange = []
        # The LAN whose recorder dropped packets, and how many.
        self.dropped = None
        # Further senders under the address of a source, and packets without a number: when they came, the LAN, and the octets.
        self.twins, self.bare = [], []
        self.crossed = None
        for fault in sorted(self.faults, key=lambda one: FIRST.index(one) if one in FIRST else len(FIRST)):
            self.put(rng, fault)
        self.put_last(random.Random(f"{seed} at last"))
        # How far the clock of B is ahead when the recordings begin, in nanoseconds, and how fast it drifts, in ppb.
        self.clock = (rng.randrange(-10 * SECOND, 10 * SECOND), rng.randrange(-50_000, 50_000)) if rng.random() < 0.5 else None
        for source in self.sources + self.twins:
            for frame in source.frames:
                # Which recorders have it.
                frame["seen"] = {lan for lan in frame["lans"] if self.runs_at(lan, frame["time"] + source.delays[lan])}

    def choose(self, rng):
        """One to four faults, or one behind which captures say nothing of the network."""
        alone = [kind for kind in self.kinds if kind in UNJUDGED]
        if alone and rng.random() < 0.2:
            return [rng.choice(alone)]
        judged = [kind for kind in self.kinds if kind not in UNJUDGED]
        return rng.sample(judged, rng.randrange(1, min(4, len(judged)) + 1))

    # How many such networks have faults, the faults that one may have, and how its frames have their numbers.
    share_of_faults = 0.5
    kinds = FAULTS
    protocol = "prp"

    def make_sources(self, rng, seconds):
        sources = [Source(rng, index, seconds) for index in range(rng.randrange(2, 7))]
        if rng.random() < 0.25:
            sources.append(RedBox(rng, len(sources), seconds))
        return sources

    def put_last(self, rng):
        """What else happens, by numbers of its own: the network of a seed is otherwise the same with it."""

    def octets_of(self, source, frame, lan):
        return octets(source, frame, lan)

    def runs_at(self, lan, time):
        begin, end = self.runs[lan]
        return begin <= time <= end

    def is_inner(self, time):
        """Both recorders ran for a while, and go on."""
        return all(self.runs_at(lan, at) for lan in range(2) for at in (time - INNER, time + INNER)) or self.runs == [(0, END)] * 2

    def can_lose(self, frame):
        """Whether the captures show it where this frame is lost."""
        return True

    def rows(self):
        """The frames at the end of an address's frames that one LAN alone brought: the address, that LAN, how many, and when the first came."""
        found = []
        for source in self.sources:
            for mac, frames in source.runs() if source.mac not in self.doubled() else []:
                row = []
                for frame in reversed([one for one in frames if one["seen"] and one["ways"] == {0, 1} and self.can_lose(one)]):
                    if len(frame["seen"]) == 2 or row and frame["lans"] != row[0]["lans"] and len(frame["lans"]) == 1:
                        break
                    if len(frame["lans"]) == 1:
                        row.append(frame)
                if len(row) >= LEAST_ROW:
                    lan = min(row[0]["lans"])
                    found.append((mac.hex(":"), lan, len(row), row[-1]["time"] + source.delays[lan]))
        return found

    def spells(self):
        """The most frames in a row that one LAN alone brought of an address, before both did again or the other one alone: the address, that
        LAN, how many, and when the first and the last one came."""
        found = []
        for source in self.sources:
            for mac, frames in source.runs() if source.mac not in self.doubled() else []:
                most, row = [], []
                for frame in [one for one in frames if one["seen"] and one["ways"] == {0, 1} and self.can_lose(one)]:
                    if len(frame["seen"]) == 2 or len(frame["lans"]) == 1 and row and frame["lans"] != row[0]["lans"]:
                        most, row = max(most, row, key=len), []
                    if len(frame["lans"]) == 1:
                        row.append(frame)
                if len(most) >= LEAST_ROW:
                    lan = min(most[0]["lans"])
                    found.append((mac.hex(":"), lan, len(most), most[0]["time"] + source.delays[lan], most[-1]["time"] + source.delays[lan]))
        return found

    def mended(self):
        """Those of sources that a ring was cut for at once, where it was mended: of the most at one time, if they are half of all."""
        spells = self.spells() if self.protocol == "hsr" else []
        at_once = [[one for one in spells if one[3] <= other[3] <= one[4]] for other in spells]
        most = max(at_once, key=len, default=[])
        return most if len(most) >= LEAST_AT_ONCE and 2 * len(most) >= len(spells) else []

    def rowed(self, lan):
        """How many frames that a LAN lost are told by a port that is dead or by the cut of a ring, of each address."""
        found = {}
        for mac, side, frames, *_ in self.rows() + self.mended():
            if side != lan:
                found[mac] = found.get(mac, 0) + frames
        return found

    def put(self, rng, fault):
        """Has a fault happen, where there is room for it: each source keeps its first and its last frame."""
        source = rng.choice(self.sources)
        inner = [index for index in range(1, len(source.frames) - 1)
                 if index != source.restarted and self.is_inner(source.frames[index]["time"]) and self.can_lose(source.frames[index])]
        if fault == "loss" and inner:
            for index in rng.sample(inner, min(len(inner), rng.randrange(1, 9))):
                source.frames[index]["lans"].discard(rng.randrange(2))
        elif fault == "both" and inner:
            source.frames[rng.choice(inner)]["lans"].clear()
        elif fault == "row" and inner:
            slow = max(self.sources, key=lambda one: one.period)
            first = rng.randrange(1, max(2, len(slow.frames) - 2))
            for frame in slow.frames[first:min(first + rng.randrange(1, 7), len(slow.frames) - 1)]:
                if self.is_inner(frame["time"]):
                    frame["lans"].clear()
        elif fault == "restart" and len(source.frames) > 3 and source.restarted is None:
            source.restart(rng)
        elif fault == "port":
            self.kill_port(rng)
        elif fault in STRANGE or fault == "crossed":
            self.put_strange(rng, fault)

    def kill_port(self, rng):
        """From a time on a source reaches one LAN alone. Both recorders have the whole of it."""
        fit = [source for source in self.sources if source.mac not in [mac for _, mac, _, _ in self.strange] and source is not self.crossed]
        if not fit:
            return
        self.runs = [(0, END)] * 2
        source, lan = rng.choice(fit), rng.randrange(2)
        for frame in source.frames[rng.randrange(1, len(source.frames)):]:
            frame["lans"].discard(lan)

    def put_strange(self, rng, fault):
        """Has a source send as it ought not to, where one is fit for it. Both recorders have the whole of it."""
        fit = [source for source in self.sources if not isinstance(source, RedBox) and source.restarted is None and source is not self.crossed
               and source.mac not in [mac for _, mac, _, _ in self.strange]]
        rng.shuffle(fit)
        slow = [source for source in fit if source.period >= SECOND // 10]
        many = [source for source in fit if source.period <= SECOND // 10 and len(source.frames) > 40]
        if fault == "two_senders" and many:
            self.add_twin(rng, many[0])
        elif fault == "babbling" and slow:
            self.add_burst(rng, slow[0])
        elif fault == "san":
            self.add_plain(rng, bytes([2, 0, 0, 0, 9, len(self.bare) % 256]), rng.choice(PERIODS[2:4]))
        elif fault == "lost_redundancy" and [source for source in fit if len(source.frames) > 8]:
            self.lose_redundancy(rng, [source for source in fit if len(source.frames) > 8][0])
        elif fault == "crossed" and [source for source in slow if self.is_small(source)]:
            self.crossed = [source for source in slow if self.is_small(source)][0]
        else:
            return
        self.runs = [(0, END)] * 2

    def is_small(self, source):
        """Whether it has five frames or more, and few of all of them."""
        return 5 <= len(source.frames) <= sum(len(other.frames) for other in self.sources) // 20

    def add_twin(self, rng, source):
        """A second sender under the address of a source, whose numbers are far from its own."""
        twin = Source.__new__(type(source))
        twin.__dict__.update(source.__dict__)
        apart = rng.randrange(3000, 60_000)
        twin.frames = [{"time": frame["time"] + source.period // 2, "number": (frame["number"] + apart) % 65536, "lans": {0, 1}, "ways": {0, 1}}
                       for frame in source.frames]
        self.twins.append(twin)
        self.strange.append(("two_senders", source.mac, None, twin.frames[0]["time"]))

    def add_burst(self, rng, source):
        """So many frames of a source within a second, between its others."""
        begin = rng.randrange(2, self.seconds - 2) * SECOND + rng.randrange(SECOND // 2)
        at = sum(frame["time"] < begin for frame in source.frames)
        number = source.frames[at - 1]["number"] + 1 if at else source.frames[0]["number"]
        times = [begin + index * (SECOND // BURST) for index in range(BURST)]
        rest = [frame for frame in source.frames[at:] if frame["time"] > times[-1]]
        times += [frame["time"] for frame in rest]
        behind = [dict(frame) for frame in rest]
        new = [{"lans": {0, 1}, "ways": {0, 1}} for _ in range(BURST)] + behind
        for index, (time, frame) in enumerate(zip(times, new)):
            frame.update(time=time, number=(number + index) % 65536)
        source.frames = source.frames[:at] + new
        self.strange.append(("babbling", source.mac, None, begin))

    def add_plain(self, rng, mac, period):
        """A source at one LAN whose frames have no number."""
        lan, time = rng.randrange(2), QUIET + rng.randrange(period)
        first = len(self.bare)
        while time < self.seconds * SECOND:
            self.bare.append((time, lan, unnumbered(mac)))
            time += period
        if len(self.bare) - first >= LEAST_ROW:
            self.strange.append(("san", mac, lan, None))

    def lose_redundancy(self, rng, source):
        """From some frame on a source sends by one LAN alone, and without numbers."""
        at, lan = rng.randrange(4, len(source.frames) - LEAST_ROW), rng.randrange(2)
        gone, source.frames = source.frames[at:], source.frames[:at]
        times = [frame["time"] + source.delays[lan] for frame in gone]
        self.bare += [(time, lan, unnumbered(source.mac)) for time in times]
        self.strange.append(("lost_redundancy", source.mac, lan, times[0]))

    def doubled(self):
        """The addresses that have two senders: of them it is not told what was lost."""
        return {mac for kind, mac, _, _ in self.strange if kind == "two_senders"}

    def captures(self):
        """The packets of both recorders, each with its time."""
        both = []
        for lan in range(2):
            # Each records a frame without number when it begins, and when it ends.
            packets = [(time, plain()) for time in self.runs[lan]]
            for source in self.sources + self.twins:
                own = 1 - lan if source is self.crossed else lan
                packets += [(frame["time"] + source.delays[lan], self.octets_of(source, frame, own))
                            for frame in source.frames if lan in frame["seen"]]
            packets += [(time, packet) for time, at, packet in self.bare if at == lan]
            both.append(sorted(packets, key=lambda packet: packet[0]))
        if "dead" in self.faults:
            both[0] = [packet for packet in both[0] if packet[1][-2:] != b"\x88\xfb"]
        if "apart" in self.faults:
            # B recorded another hour: of the same sources, with other numbers.
            both[1] = [(time + 4000 * SECOND, renumbered(packet, 20_000)) for time, packet in both[1]]
        if "set" in self.faults:
            # 48 frames of one source, and the clock of B is set back by 9 s in the middle.
            both = [[(number * SECOND, octets(self.sources[0], {"number": number}, lan)) for number in range(48)] for lan in range(2)]
            both[1] = [(time + (24 - time // SECOND // 24 * 9) * SECOND, packet) for time, packet in both[1]]
            both[1].sort(key=lambda packet: packet[0])
        for lan in range(2):
            both[lan] = [(BEGIN + time, packet) for time, packet in both[lan]]
        if self.clock:
            ahead, drift = self.clock
            both[1] = [(time + ahead + (time - BEGIN) * drift // SECOND, packet) for time, packet in both[1]]
        return both[::-1] if "swapped" in self.faults else both

    def hides_loss(self, lan):
        """Whether what a LAN lost is not told, since its recorder may have dropped it."""
        return False

    def has_nothing(self):
        """Whether the captures say nothing of the network."""
        return bool(UNJUDGED & set(self.faults))

    def has_pairs(self):
        return any(source.figures()["pairs"] for source in self.sources)

    def status(self):
        """How a check is to end."""
        if self.has_nothing() or not self.has_pairs():
            return 4
        lost = any(source.figures()[name] for source in self.sources if source.mac not in self.doubled()
                   for name in ("only_a", "only_b", "neither"))
        told = any(STRANGE[kind] == "fault" for kind, _, _, _ in self.strange)
        return 3 if lost or told or self.crossed else 0


def plain():
    return bytes.fromhex("ffffffffffff020000000200") + b"\x08\x06" + bytes(46)


def unnumbered(mac):
    """A frame of a source without a number."""
    return bytes.fromhex("ffffffffffff") + mac + b"\x08\x06" + bytes(46)


def renumbered(packet, more):
    """A frame with a number that is so much greater."""
    if packet[-2:] != b"\x88\xfb":
        return packet
    number = (struct.unpack(">H", packet[-6:-4])[0] + more) % 65536
    return packet[:-6] + struct.pack(">H", number) + packet[-4:]


def octets(source, frame, lan):
    """A frame of 46 octets with its trailer: its number, the LAN's id and the length of what stands behind the type."""
    front = frame.get("to", bytes.fromhex("010ccd010001")) + frame.get("mac", source.mac) + b"\x88\xb8" + bytes(46)
    if "tells" in frame:
        # A supervision frame: path 0, version 1, a number, the device and its RedBox.
        says = struct.pack(">HHBB", 1, 0, 20, 6) + frame["tells"] + b"\x1e\x06" + source.mac + bytes(2)
        front = bytes.fromhex("01154e000100") + source.mac + b"\x88\xfb" + says.ljust(46, b"\0")
    return front + struct.pack(">HHH", frame["number"], (0xA + lan) << 12 | 52, 0x88FB)


def tagged(source, frame, lan):
    """A frame of 46 octets with its HSR tag: its way, the length of what stands behind the type, and its number."""
    front = frame.get("to", bytes.fromhex("010ccd010001")) + source.mac + b"\x89\x2f"
    return front + struct.pack(">HHH", lan << 12 | 52, frame["number"], 0x88B8) + bytes(46)


def fast(rng, kind, index, seconds):
    """A source that sends 100 frames a second or more."""
    while True:
        source = kind(rng, index, seconds)
        if source.period <= SECOND // 100:
            return source


class Talking(Network):
    """A PRP network with mirror ports, where three sources send each second frame to the next one of them, and others to any."""

    kinds = ["loss", "both", "row", "dead", "swapped", "apart"]

    def make_sources(self, rng, seconds):
        sources = [fast(rng, Source, index, seconds) for index in range(3)]
        while len(sources) < 6:
            source = Source(rng, len(sources), seconds)
            if source.period > SECOND // 100:
                sources.append(source)
        for index, source in enumerate(sources):
            for frame in source.frames[1:-1]:
                if rng.random() < 0.5:
                    to = (index + 1) % 3 if index < 3 else rng.choice([other for other in range(6) if other != index])
                    frame["to"] = sources[to].mac
        return sources


class Access(Network):
    """A PRP network with an access port at one LAN or both, which sees frames to groups, and of others what a switch floods."""

    kinds = ["loss", "dead", "swapped", "apart"]

    def make_sources(self, rng, seconds):
        sources = [fast(rng, Source, 0, seconds)] + [Source(rng, index, seconds) for index in range(1, rng.randrange(2, 7))]
        mirrors = rng.choice([set(), {0}, {1}])
        flood = rng.choice([0, 0, 0.01])
        for index, source in enumerate(sources):
            # A mirror too has but a part, where it does not run and the access port does.
            source.hides, source.shows_flows = True, False
            for frame in source.frames[1:-1]:
                if rng.random() < 0.5:
                    frame["to"] = sources[rng.choice([other for other in range(len(sources)) if other != index])].mac
                    frame["ways"] = {lan for lan in range(2) if lan in mirrors or rng.random() < flood}
                    frame["lans"] = set(frame["ways"])
        return sources

    def can_lose(self, frame):
        return "to" not in frame


class SilentBox(RedBox):
    """A RedBox that never tells of its devices."""

    is_silent = True


class Untold(Network):
    """A PRP network with mirror ports, where a RedBox never tells of its devices."""

    kinds = ["loss", "dead", "swapped", "apart"]

    def make_sources(self, rng, seconds):
        sources = [Source(rng, index, seconds) for index in range(rng.randrange(1, 6))]
        return sources + [fast(rng, SilentBox, len(sources), seconds)]


class Dropping(Network):
    """A PRP network, of which a recorder drops packets and says how many. The network lost none of these."""

    share_of_faults = 1
    kinds = ["loss", "restart", "san", "crossed", "babbling"]

    def choose(self, rng):
        # What a recorder drops is chosen last, of what the network brought.
        return rng.sample(self.kinds, rng.randrange(3)) + ["dropped"]

    def put(self, rng, fault):
        if fault != "dropped":
            super().put(rng, fault)
            return
        lan = rng.randrange(2)
        brought = [frame for source in self.sources for index, frame in enumerate(source.frames[1:-1], 1)
                   if index != source.restarted and frame["lans"] == {0, 1} and self.is_inner(frame["time"])]
        gone = rng.sample(brought, min(len(brought), rng.randrange(1, 9)))
        for frame in gone:
            frame["lans"].discard(lan)
        self.dropped = (lan, len(gone)) if gone else None

    def hides_loss(self, lan):
        """Whether the recorder of a LAN may have dropped all that this LAN lost."""
        return self.dropped is not None and lan == self.dropped[0] and losses(self)[lan][0] <= self.dropped[1]

    def status(self):
        if not self.dropped:
            return super().status()
        told = any(frames and not self.hides_loss(lan) for lan, (frames, _) in enumerate(losses(self)))
        if told or self.crossed:
            return 3
        return 4 if losses(self)[self.dropped[0]][0] else 0


class Ring(Network):
    """A ring, whose two ways are recorded at the link from its last node to its first one."""

    kinds = RING_FAULTS
    protocol = "hsr"

    def make_sources(self, rng, seconds):
        sources = [RingNode(rng, index, seconds) for index in range(rng.randrange(3, 9))]
        for index, source in enumerate(sources):
            # By the one way a frame goes up to the last node, by the other one down to the first.
            source.delays = [(len(sources) - index) * HOP, (index + 1) * HOP]
            source.network = self
            for frame in source.frames[1:-1]:
                if rng.random() < 0.5:
                    to = rng.choice([other for other in range(len(sources)) if other != index])
                    frame["to"] = sources[to].mac
                    frame["ways"] = {0} if to < index else {1}
                    frame["lans"] = set(frame["ways"])
        return sources

    def put(self, rng, fault):
        if fault != "cut":
            super().put(rng, fault)
            return
        # From a time on no frame passes the link behind a node. Both recorders see the whole of it.
        self.runs = [(0, END)] * 2
        link, time = rng.randrange(len(self.sources) - 1), rng.randrange(2, 5) * SECOND
        self.link = link
        for index, source in enumerate(self.sources):
            for frame in source.frames:
                if frame["time"] >= time:
                    frame["lans"].discard(0 if index <= link else 1)

    def put_last(self, rng):
        """In a third of the rings a link is cut for a while. Both recorders see the whole of it."""
        if {"cut", "restart"} & set(self.faults) or rng.random() >= 1 / 3:
            return
        self.runs = [(0, END)] * 2
        self.faults = [*self.faults, "mended"]
        self.link, begin = rng.randrange(len(self.sources) - 1), rng.randrange(SECOND, 2 * SECOND)
        end = begin + rng.randrange(SECOND // 2, (self.seconds - 3) * SECOND)
        for index, source in enumerate(self.sources):
            for frame in source.frames:
                if begin <= frame["time"] < end:
                    frame["lans"].discard(0 if index <= self.link else 1)

    def octets_of(self, source, frame, lan):
        return tagged(source, frame, lan)


class InAndOut(Ring):
    """A ring, at a node of which each frame is recorded as it comes in by one port, and as it goes out by the other one."""

    # Of a ring that is cut such captures have each frame once by both ports, so that they read as sound.
    kinds = ["loss", "both", "restart"]

    def put_last(self, rng):
        pass

    def captures(self):
        # Both ports are recorded by one clock.
        self.clock = None
        both = super().captures()
        return [sorted(own + [(time + HOP, packet) for time, packet in other if packet != plain()], key=lambda packet: packet[0])
                for own, other in (both, both[::-1])]

    def status(self):
        return 4

    def has_nothing(self):
        return True


class RingNode(Source):
    """A node of a ring. What no recorder has is told of the time in which both ran."""

    def missing(self, run):
        begin = max(begin for begin, _ in self.network.runs) + EDGE
        end = min(end for _, end in self.network.runs) - EDGE
        heard = [index for index, frame in enumerate(run)
                 if any(begin <= frame["time"] + self.delays[lan] <= end for lan in frame["seen"])]
        return sum(not frame["seen"] for frame in run[heard[0]:heard[-1]]) if heard else 0


def network_of(seed):
    """The network of a seed: every third one is a ring."""
    kinds = {1: Access, 5: Talking, 7: Untold, 9: InAndOut, 11: Dropping}
    return kinds.get(seed % 12, Ring if seed % 3 == 0 else Network)(seed)


def write(path, packets):
    with open(path, "wb") as file:
        file.write(struct.pack("<IHHiIII", 0xA1B23C4D, 2, 4, 0, 0, 65535, 1))
        for time, packet in packets:
            file.write(struct.pack("<IIII", time // SECOND, time % SECOND, len(packet), len(packet)) + packet)


def block(kind, octets):
    """A block of a pcapng file, the least octet first."""
    octets += bytes(-len(octets) % 4)
    size = len(octets) + 12
    return struct.pack("<II", kind, size) + octets + struct.pack("<I", size)


def statistics(time, dropped):
    """How many packets of an interface were received, and dropped by it and by the system."""
    options = b"".join(struct.pack("<HHQ", code, 8, count) for code, count in zip((4, 5, 7), (1000, *dropped)))
    return block(5, struct.pack("<III", 0, time >> 32, time & 0xFFFFFFFF) + options + bytes(4))


def write_with_statistics(path, packets, dropped):
    """A pcapng file in nanoseconds, whose statistics count what was dropped, once in its middle and at its end."""
    part = dropped // 3
    with open(path, "wb") as file:
        file.write(block(0x0A0D0D0A, struct.pack("<IHHq", 0x1A2B3C4D, 1, 0, -1)))
        file.write(block(1, struct.pack("<HHIHHIHH", 1, 0, 65535, 9, 1, 9, 0, 0)))
        for index, (time, packet) in enumerate(packets):
            file.write(block(6, struct.pack("<IIIII", 0, time >> 32, time & 0xFFFFFFFF, len(packet), len(packet)) + packet))
            if index == len(packets) // 2:
                file.write(statistics(time, (0, part)))
        file.write(statistics(packets[-1][0], (part, dropped - part)))


def differences(network, status, lines):
    """Where what an audit says is not what happened."""
    found = [] if status == network.status() else [f"status {status}, and not {network.status()}"]
    found += [f"the clock of B is told as {told}" for told in clock_differences(network, lines)]
    if network.has_nothing():
        return found
    said = {line["source"]: dict(line, single_a=0, single_b=0, unseen=0) for line in lines if line["line"] == "source"}
    for line in lines:
        if line["line"] == "single":
            said[line["source"]].update(line)
        if line["line"] == "unseen":
            said[line["source"]]["unseen"] = line["numbers"]
    for mac, figures in (report for source in network.sources for report in source.reports()):
        if mac in network.doubled():
            continue
        mac = mac.hex(":")
        if {"cut", "mended"} & set(network.faults) and mac in said:
            # What no recorder has of a ring that is cut may have come where it was sent to.
            said[mac].update(neither=said[mac]["neither"] + said[mac]["unseen"], unseen=0)
        for name, wanted in figures.items():
            if said.get(mac, {}).get(name) != wanted:
                found.append(f"{mac} {name} {said.get(mac, {}).get(name)}, and not {wanted}")
    return found


def verdict_differences(network, status, lines):
    """Where the block of faults and notices, which stands first, is not what happened."""
    words = ["verdict", "unjudged", "fault", "notice"]
    names = [line for line in lines if line["line"] == "at"]
    lines = [line for line in lines if line["line"] != "at"]
    block = [line for line in lines if line["line"] in words]
    by_word = [[line for line in block if line["line"] == word] for word in words]
    whole = {"line": "verdict", "verdict": {0: "sound", 3: "faulty", 4: "unjudged"}[status],
             "faults": len(by_word[2]), "notices": len(by_word[3])}
    if block != lines[:len(block)] or block != sum(by_word, []) or by_word[0] != [whole]:
        return [f"the verdicts are {block}, and not first, or not in order"]
    if status == 4 and network.dropped:
        said = [(line["kind"], line.get("lan"), line.get("packets")) for line in by_word[1]]
        wanted = [("dropped_packets", "AB"[network.dropped[0]], network.dropped[1])]
        if said != wanted:
            return [f"that nothing can be judged is told as {said}, and not {wanted}"]
    elif status == 4:
        return [] if len(by_word[1]) == 1 and len(block) == 2 else [f"the verdicts are {block}, where nothing can be judged"]
    told = by_word[2] + by_word[3]
    return (dropped_differences(network, told) + loss_differences(network, told) + row_differences(network, told) + source_differences(network, told)
            + strange_differences(network, told) + name_differences(network, names))


def dropped_differences(network, told):
    """Where the packets that recorders are told to have dropped are not those."""
    said = [(line["lan"], line["packets"]) for line in told if line["kind"] == "recorder_dropped"]
    wanted = [("AB"[network.dropped[0]], network.dropped[1])] if network.dropped else []
    return [] if said == wanted else [f"recorders are told to have dropped {said}, and not {wanted}"]


def strange_differences(network, told):
    """Where what is told of sources by their frames is not what they sent."""
    found = []
    said = {(line["kind"], line["source"]): line for line in told if line["kind"] in STRANGE}
    wanted = {(kind, mac.hex(":")): (lan, time) for kind, mac, lan, time in network.strange}
    if said.keys() != wanted.keys():
        found.append(f"of sources it is told {sorted(said)}, and not {sorted(wanted)}")
    for key in said.keys() & wanted.keys():
        (lan, time), line = wanted[key], said[key]
        if line["line"] != STRANGE[key[0]] or lan is not None and line["lan"] != "AB"[lan]:
            found.append(f"of sources it is told {line}, and not LAN {lan}")
        if time is not None and abs(line["since_ms"] * 1_000_000 - time) > SECOND + SINCE_LEFT:
            found.append(f"{key} is told since {line['since_ms']} ms, and not {time} ns")
    crossed = [line for line in told if line["kind"] in ("crossed", "wrong_lan")]
    if len(crossed) != int(network.crossed is not None) or crossed and crossed[0]["kind"] != "crossed":
        found.append(f"of crossed cables it is told {crossed}")
    return found


def losing(network, lan):
    """The sources of which a LAN lost frames, besides those of rows that are told as such."""
    rows = network.rowed(lan)
    return {mac.hex(":") for source in network.sources if source.mac not in network.doubled()
            for mac, figures in source.reports() if figures[("only_b", "only_a")[lan]] > rows.get(mac.hex(":"), 0)}


def name_differences(network, names):
    """Where the sources that are named are not those that share a loss, or whose cables are crossed."""
    found = []
    for lan in range(2):
        wanted = set() if network.hides_loss(lan) else losing(network, lan)
        said = [line for line in names if line["kind"] == "loss" and line["lan"] == "AB"[lan]]
        macs = [line["source"] for line in said if "source" in line]
        more = sum(line.get("more", 0) for line in said)
        if not set(macs) <= wanted or len(macs) != min(3, len(wanted)) or len(macs) + more != len(wanted):
            found.append(f"the losses of {'AB'[lan]} are of {macs} and {more} more, and not of {sorted(wanted)}")
    macs = [line["source"] for line in names if line["kind"] == "crossed"]
    if macs != ([network.crossed.mac.hex(":")] if network.crossed else []):
        found.append(f"the cables of {macs} are told to be crossed")
    return found


def losses(network):
    """How many frames each LAN lost, besides those of rows that are told as such, and of how many sources."""
    found = []
    for lan, name in enumerate(("only_b", "only_a")):
        rows = network.rowed(lan)
        lost = [figures[name] - rows.get(mac.hex(":"), 0) for source in network.sources if source.mac not in network.doubled()
                for mac, figures in source.reports()]
        found.append((sum(lost), sum(one > 0 for one in lost)))
    return found


def loss_differences(network, told):
    """Where what each LAN is told to have lost is not what it lost."""
    wanted = losses(network)
    said = {line["lan"]: (line["frames"], line["sources"], line["other_lan"]) for line in told if line["kind"] == "loss"}
    found = []
    for lan, letter in enumerate("AB"):
        own = (*wanted[lan], wanted[1 - lan][0]) if wanted[lan][0] and not network.hides_loss(lan) else None
        if said.get(letter) != own:
            found.append(f"the loss of {letter} is {said.get(letter)}, and not {own}")
    return found


def place_of(network, rows):
    """Between which two sources a ring is cut by rows: the nearest to the cut that one way alone brings, of those that both ways brought."""
    order = {source.mac.hex(":"): at for at, source in enumerate(network.sources) if source.figures()["pairs"]}
    sided = [[mac for mac, side, *_ in rows if side == way and mac in order] for way in range(2)]
    return min(sided[0], key=order.get, default="recorder"), max(sided[1], key=order.get, default="recorder")


def cut_by(network, rows):
    """The cut of a ring that rows tell of: how many are on each side of it, how many frames, its place, and since when and until when."""
    sides = [side for _, side, *_ in rows]
    until = [max(row[4] for row in rows)] if len(rows[0]) > 4 else []
    return (sides.count(0), sides.count(1), sum(row[2] for row in rows), *place_of(network, rows)), [min(row[3] for row in rows), *until]


def cuts(network):
    """The cuts of a ring: the one at last, and the one that was mended."""
    return [cut_by(network, rows) for rows in (network.rows(), network.mended()) if rows and network.protocol == "hsr"]


def place_in(line):
    """Between which two sources a line tells that a ring is cut."""
    return line.get("next_a", "recorder"), line.get("next_b", "recorder")


def row_differences(network, told):
    """Where the ports that are told to be dead, or the cuts of a ring with their places, are not those."""
    rows, begin = network.rows(), min(begin for begin, _ in network.runs)
    if network.protocol == "hsr":
        lines = [line for line in told if line["kind"] == "cut_ring"]
        said = [(line["sided_a"], line["sided_b"], line["frames"], *place_in(line), "until_ms" in line) for line in lines]
        wanted = [(*own, len(times) == 2) for own, times in cuts(network)]
        since = [pair for line, (_, times) in zip(lines, cuts(network)) for pair in zip((line["since_ms"], line.get("until_ms")), times)]
    else:
        ports = {line["source"]: line for line in told if line["kind"] == "dead_port"}
        said = sorted((mac, line["lan"], line["frames"]) for mac, line in ports.items())
        wanted = sorted((mac, "BA"[side], frames) for mac, side, frames, _ in rows)
        since = [(ports[mac]["since_ms"], time) for mac, _, _, time in rows if mac in ports]
    if said != wanted:
        return [f"rows are told as {said}, and not {wanted}"]
    return [f"a row is told since or until {told_ms} ms, and not {time - begin} ns" for told_ms, time in since
            if abs(told_ms * 1_000_000 - (time - begin)) > SINCE_LEFT]


def source_differences(network, told):
    """Where the numbers that are told to be lost by both LANs, and those that may be, or restarts, are not those of the sources."""
    found = []
    wanted = {mac.hex(":"): figures for source in network.sources if source.mac not in network.doubled() for mac, figures in source.reports()}
    said = {kind: {line["source"]: line for line in told if line["kind"] == kind} for kind in ("both_lost", "unseen", "restart")}
    for mac, figures in wanted.items():
        lost, unseen = (said[kind].get(mac, {}).get("numbers", 0) for kind in ("both_lost", "unseen"))
        if {"cut", "mended"} & set(network.faults):
            lost, unseen = lost + unseen, 0
        if "neither" in figures and (lost, unseen) != (figures["neither"], figures["unseen"]):
            found.append(f"{mac} has {lost} numbers lost by both and {unseen} unseen, and not {figures['neither']} and {figures['unseen']}")
        times = said["restart"].get(mac, {}).get("times", 0)
        if "restarts" in figures and not said["unseen"] and times != figures["restarts"]:
            found.append(f"{mac} began anew {times} times, and not {figures['restarts']}")
    return found


def happened(network):
    """What is to be told of a network: its kind, and the source, LAN or place of it, each with the time from which on it is so, if that is told."""
    if network.status() == 4 and not network.dropped:
        return {("unjudged", None): None}
    begin = min(begin for begin, _ in network.runs)
    found = {(kind, mac.hex(":")): time for kind, mac, _, time in network.strange}
    if network.status() == 4:
        found["unjudged", None] = None
    if network.dropped:
        found["recorder_dropped", "AB"[network.dropped[0]]] = None
    if network.crossed:
        found["crossed", network.crossed.mac.hex(":")] = None
    for lan, (frames, _) in enumerate(losses(network)):
        if frames and not network.hides_loss(lan):
            found["loss", "AB"[lan]] = None
    for (*_, next_a, next_b), times in cuts(network):
        found["cut_ring", (next_a, next_b, len(times) == 2)] = tuple(time - begin for time in times)
    if network.protocol != "hsr":
        found |= {("dead_port", (mac, "BA"[side])): time - begin for mac, side, _, time in network.rows()}
    for source in network.sources:
        reports = source.reports() if source.mac not in network.doubled() else []
        found |= {("both_lost", mac.hex(":")): None for mac, figures in reports if figures.get("neither", 0) + figures.get("unseen", 0)}
        # A RedBox counts for its devices: that it began anew is told of it.
        if reports and source.figures()["restarts"]:
            found["restart", source.mac.hex(":")] = None
    return found


def told_of(lines):
    """The same of what an audit tells. Numbers that may be lost are told as those that are, where a recorder can't know."""
    found = {}
    for line in lines:
        kind = line.get("kind")
        if line["line"] == "unjudged":
            found["unjudged", None] = None
        elif line["line"] == "at" and kind == "crossed":
            found[kind, line["source"]] = None
        elif line["line"] in ("fault", "notice") and kind not in ("clock", "crossed", "wrong_lan"):
            who = {"loss": line.get("lan"), "recorder_dropped": line.get("lan"), "cut_ring": (*place_in(line), "until_ms" in line),
                   "dead_port": (line.get("source"), line.get("lan"))}.get(kind, line.get("source"))
            times = tuple(line[name] * 1_000_000 for name in ("since_ms", "until_ms") if name in line)
            found["both_lost" if kind == "unseen" else kind, who] = times if kind == "cut_ring" else times[0] if times else None
    return found


def are_near(wanted, said):
    """Whether times are told to a second as they happened, where both are known."""
    pairs = zip(wanted, said) if isinstance(wanted, tuple) else [(wanted, said)]
    return all(None in pair or abs(pair[0] - pair[1]) <= SECOND + SINCE_LEFT for pair in pairs)


def count_kinds(table, network, lines):
    """Counts in a table what is named rightly, missed and made up, by kind."""
    wanted, said = happened(network), told_of(lines)
    # Of numbers that a silent RedBox's devices share an audit knows nothing.
    # Where numbers may have gone past no recorder, those that begin anew look the same.
    is_hidden = any(line.get("kind") == "unseen" for line in lines)
    silent = {mac.hex(":") for source in network.sources if isinstance(source, SilentBox) for mac, _ in source.reports()}
    for key in wanted.keys() | {one for one in said if one[0] not in ("both_lost", "restart") or one[1] not in silent}:
        is_right = key in wanted and key in said and are_near(wanted[key], said[key])
        is_missed = key in wanted and not is_right
        row = table.setdefault(key[0], [0, 0, 0, 0])
        row[0] += is_right
        row[1] += is_missed and not (key[0] == "restart" and is_hidden)
        row[2] += key in said and not is_right
        row[3] += is_missed and key[0] == "restart" and is_hidden


def print_kinds(table):
    print(f"{'kind':<16} right missed made_up hidden")
    for kind, row in sorted(table.items()):
        print(f"{kind:<16} {row[0]:>5} {row[1]:>6} {row[2]:>7} {row[3]:>6}")


def clock_differences(network, lines):
    """How far the clock of B is told to be ahead, where that is not so."""
    told = [line for line in lines if line["line"] == "clocks"]
    if network.has_nothing() or not network.clock:
        return [line for line in told if abs(line["b_ahead_us"]) > 1000] if not network.clock and not network.faults else []
    if not told:
        return ["nothing"] if network.has_pairs() else []
    ahead, drift = network.clock
    wanted = ahead + sum(network.runs[1]) // 2 * drift // SECOND
    line = told[0]
    return [] if abs(line["b_ahead_us"] * 1000 - wanted) <= OFFSET_LEFT else [f"{line}, and not {wanted} ns"]


def packets_of(octets):
    """The packets of a pcapng file of the least octet first, in nanoseconds: interface, time, and what was recorded."""
    found, at = [], 0
    while at < len(octets):
        kind, size = struct.unpack_from("<II", octets, at)
        if kind == 6:
            lane, high, low, held = struct.unpack_from("<IIII", octets, at + 8)
            found.append((lane, high << 32 | low, octets[at + 28:at + 28 + held]))
        at += size
    return found


def merge_differences(network, packets):
    """Where a merge that keeps trailers and tags is not each frame once, and each packet without number each time, in order of time."""
    frames = {}
    for source in network.sources:
        for frame in source.frames:
            for lan in frame["seen"]:
                own = 1 - lan if source is network.crossed else lan
                frames.setdefault((lan, network.octets_of(source, frame, own)), []).append((frame, source.delays[lan]))
    bare = {plain()} | {packet for _, _, packet in network.bare}
    merged, plains = set(), 0
    for lane, time, packet in packets:
        if packet in bare:
            plains += 1
            continue
        near = [(frame, delay) for frame, delay in frames.get((lane, packet), [])
                if abs(BEGIN + frame["time"] + delay - time) <= 2 * OFFSET_LEFT]
        if not near or id(near[0][0]) in merged:
            return [f"the merge has {packet.hex()} at {time} once more than it came, or at no time of it"]
        merged.add(id(near[0][0]))
    seen = sum(bool(frame["seen"]) for source in network.sources for frame in source.frames)
    found = [] if len(merged) == seen else [f"the merge has {len(merged)} frames, and not {seen}"]
    wanted = 4 + len(network.bare)
    found += [] if plains == wanted else [f"the merge has {plains} packets without number, and not {wanted}"]
    times = [time for _, time, _ in packets]
    return found + ([] if times == sorted(times) else ["the merge is not in order of time"])


def judge(program, seed, room, table):
    """What differs in the network of a seed. A table counts what is told by its kind."""
    network = network_of(seed)
    paths = [f"{room}/a.pcap", f"{room}/b.pcap"]
    for lan, packets in enumerate(network.captures()):
        if network.dropped and network.dropped[0] == lan:
            write_with_statistics(paths[lan], packets, network.dropped[1])
        else:
            write(paths[lan], packets)
    args = ["--a", paths[0], "--b", paths[1], "--network", network.protocol]
    args += ["--shift", "auto"] if network.clock else []
    run = subprocess.run([program, "audit", *args, "--format", "json", "--check"], capture_output=True, text=True, timeout=60, check=False)
    lines = [json.loads(line) for line in run.stdout.splitlines()]
    count_kinds(table, network, lines)
    found = differences(network, run.returncode, lines)
    found = found or verdict_differences(network, run.returncode, lines)
    # Of two senders under one address a merge can no more tell the frames apart than a node can.
    if not UNJUDGED & set(network.faults) and network.has_pairs() and not network.twins:
        run = subprocess.run([program, "merge", *args, "--keep", "-w", "-"], capture_output=True, timeout=60, check=False)
        found += merge_differences(network, packets_of(run.stdout)) if run.returncode == 0 else [f"a merge ends with status {run.returncode}"]
    return [f"{type(network).__name__.lower()} {seed} ({', '.join(network.faults) or 'sound'}): {it}" for it in found]


def main():
    parser = argparse.ArgumentParser(description=__doc__, formatter_class=argparse.RawDescriptionHelpFormatter)
    parser.add_argument("--program", default=f"{TOP}/seamless")
    parser.add_argument("--kinds", action="store_true")
    parser.add_argument("first", type=int, nargs="?", default=1)
    parser.add_argument("count", type=int, nargs="?", default=20)
    task = parser.parse_args()
    failed, table = 0, {}
    with tempfile.TemporaryDirectory(prefix="networks-") as room:
        for seed in range(task.first, task.first + task.count):
            found = judge(task.program, seed, room, table)
            failed += bool(found)
            for line in found:
                print(line)
    if task.kinds:
        print_kinds(table)
    print(f"{task.count - failed} passed, {failed} failed")
    return 1 if failed or task.count == 0 else 0


if __name__ == "__main__":
    sys.exit(main())
