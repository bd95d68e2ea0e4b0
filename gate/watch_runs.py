#!/usr/bin/env python3
"""Runs of `seamless watch` over pipes that stop, die, come late or go on for a day, each with what it has to say of that.

    gate/watch_runs.py [--program PATH] [--long] [NAME..]     all short runs; with --long those too that take a minute and more

A run is a function whose name begins with `run_`, or with `long_`; a NAME is a part of it. Writers give packets of frames to pipes in real
time, or a day's packets at full speed. A run that fails is tried once more: a busy machine may stand still for longer than a slack. The
last line is `N passed, M failed`.
"""
import argparse
import json
import os
import re
import shutil
import subprocess
import sys
import tempfile
import threading
import time
from concurrent.futures import ThreadPoolExecutor

from networks import BEGIN, SECOND, TOP, Source, block, octets, struct

FRONT = struct.pack("<IHHiIII", 0xA1B23C4D, 2, 4, 0, 0, 65535, 1)
# How many runs go on at a time.
LANES = 8


def source_at(index):
    source = Source.__new__(Source)
    source.mac = struct.pack(">Q", 0x020000000000 + index)[2:]
    return source


def packet(moment, number, lan, index=1):
    """A packet of a pcap file in nanoseconds: a frame of a source with this number, at a time in seconds behind the beginning."""
    at = BEGIN + round(moment * SECOND)
    frame = octets(source_at(index), {"number": number % 65536}, lan)
    return struct.pack("<IIII", at // SECOND, at % SECOND, len(frame), len(frame)) + frame


class Lan:
    """A pipe to which a writer gives what it has, each piece at its real time in seconds. One that `goes` takes the name of the pipe away at its end."""

    def __init__(self, path, pieces, stays=0.0):
        self.path, self.pieces, self.stays = path, pieces, stays
        self.goes = False
        os.mkfifo(path)

    def write(self):
        try:
            with open(self.path, "wb", buffering=0) as pipe:
                begun = time.monotonic()
                for moment, piece in self.pieces:
                    time.sleep(max(0.0, begun + moment - time.monotonic()))
                    pipe.write(piece)
                time.sleep(max(0.0, begun + self.stays - time.monotonic()))
                if self.goes:
                    os.unlink(self.path)
        except BrokenPipeError:
            pass


class Watch:
    """What a watch of two LANs said."""

    def __init__(self, program, folder, a, b, words, out=subprocess.PIPE, **how):
        self.lans = [Lan(f"{folder}/{name}", *lan) for name, lan in zip("ab", (a, b)) if lan is not None]
        paths = [f"{folder}/{name}" for name in "ab"]
        for path in paths:
            if not os.path.exists(path):
                os.mkfifo(path)
        for lan in self.lans:
            threading.Thread(target=lan.write, daemon=True).start()
        run = subprocess.run([program, "watch", "--a", paths[0], "--b", paths[1], "--format", "json", *words],
                             stdout=out, stderr=subprocess.PIPE, timeout=how.get("timeout", 60), check=False)
        self.status, self.err = run.returncode, run.stderr.decode()
        self.lines = [json.loads(line) for line in (run.stdout or b"").splitlines()]

    def of(self, word):
        return [line for line in self.lines if line["line"] == word]

    def alarms(self, word):
        """The states of an alarm, in their order, with the LAN."""
        return [(line["state"], line.get("lan")) for line in self.of("alarm") if line["alarm"] == word]

    def faults(self):
        """The faults on standard error, each with its capture and its word."""
        return [(it["capture"], it["fault"]) for it in map(json.loads, self.err.splitlines()) if it["line"] == "fault"]

    def summed(self, name):
        return sum(line[name] for line in self.of("source"))


def paced(lan, first, last, step=0.1, late=0.0, lost=(), front=True):
    """Packets from a moment to another, a step apart, each written when it is captured, or later."""
    pieces = [(0.0, FRONT)] if front else []
    count = round((last - first) / step)
    for at in range(count):
        moment = first + at * step
        if at not in lost:
            pieces.append((moment + late, packet(moment + 0.0001 * lan, round(moment / step), lan)))
    return pieces


def run_a_lan_that_stops(program, folder):
    """LAN A brings nothing behind the second second, though its recorder runs, and comes back in the eighth."""
    a = paced(0, 0, 2) + paced(0, 8, 10, front=False)
    watch = Watch(program, folder, (a, 10), (paced(1, 0, 10), 10), ["--every", "1", "--alone-for", "3"])
    raised = watch.alarms("lan_lost")
    assert raised == [("raised", "A"), ("cleared", "A")], raised
    assert watch.summed("lost_a") == 60 and watch.summed("lost_b") == 0, (watch.summed("lost_a"), watch.summed("lost_b"))
    assert watch.summed("both") == 40, watch.summed("both")
    assert len(watch.of("report")) >= 9 and watch.status == 0, (len(watch.of("report")), watch.err)


def run_both_lans_stop(program, folder):
    """Nothing comes for four seconds: reports go on, with nothing in them, and nothing waits."""
    watch = Watch(program, folder, (paced(0, 0, 2, lost=[19]), 7), (paced(1, 0, 2), 7), ["--every", "1", "--alone-for", "3"])
    reports = watch.of("report")
    assert len(reports) >= 6 and reports[-2]["waiting"] == 0 and reports[-2]["held"] == 0, reports
    assert watch.summed("lost_a") == 1 and watch.summed("both") == 19, watch.summed("lost_a")
    assert {lan for state, lan in watch.alarms("lan_silent") if state == "raised"} == {"A", "B"}, watch.alarms("lan_silent")


def run_a_lan_without_a_writer(program, folder):
    """No recorder opens LAN A: reports do not wait for it, and what B brings is counted as unwatched."""
    watch = Watch(program, folder, None, (paced(1, 0, 4), 4), ["--every", "1", "--for", "5"])
    captures = [line for line in watch.of("capture") if line["capture"] == "B"]
    assert captures[-1]["unwatched"] == 40 and not watch.summed("lost_a"), captures
    assert len(watch.of("report")) >= 4 and watch.status == 0, watch.err


def run_a_lan_without_an_octet(program, folder):
    """A recorder opens LAN A and writes nothing: the same."""
    watch = Watch(program, folder, ([], 5), (paced(1, 0, 4), 4), ["--every", "1", "--for", "5"])
    captures = [line for line in watch.of("capture") if line["capture"] == "B"]
    assert captures[-1]["unwatched"] == 40 and watch.status == 0, (captures, watch.err)


def run_a_lan_that_comes_late(program, folder):
    """LAN B comes 0.6 s behind A, and the slack is a second: nothing is behind, and nothing is lost."""
    watch = Watch(program, folder, (paced(0, 0, 4), 5), (paced(1, 0, 4, late=0.6), 5), ["--every", "1", "--slack", "1000"])
    assert all(line["behind"] == 0 for line in watch.of("capture")), watch.of("capture")
    assert watch.summed("both") == 40 and watch.summed("lost_a") + watch.summed("lost_b") == 0, watch.lines


def run_a_lan_that_comes_too_late(program, folder):
    """LAN B pauses for two seconds and gives what it kept all at once: it is counted as behind, an alarm says so, and no copy is lost to it."""
    pieces = paced(1, 0, 6)
    held = [(4.0 if 2.0 <= moment < 4.0 else moment, piece) for moment, piece in pieces]
    watch = Watch(program, folder, (paced(0, 0, 6), 6), (held, 6), ["--every", "1", "--slack", "300"])
    behind = [line["behind"] for line in watch.of("capture") if line["capture"] == "B"]
    assert behind[-1] > 0 and behind == sorted(behind), behind
    assert ("raised", "B") in watch.alarms("behind"), watch.of("alarm")
    assert watch.summed("rx_a") == 60 and watch.summed("rx_b") == 60, (watch.summed("rx_a"), watch.summed("rx_b"))


def run_a_recorder_that_comes_back(program, folder):
    """The recorder of LAN A ends in the third second, and another one writes to the same pipe in the fifth, which takes its name away at its end:
    the other LAN goes on, packets count on, no frame is lost by either, and that nothing more can come of A is told."""
    lan = Lan(f"{folder}/a", paced(0, 0, 3), 3)

    def write():
        lan.write()
        # The 400 ms behind the beginning end between two frames.
        time.sleep(1.95)
        lan.pieces = [(moment - 4.95, piece) for moment, piece in paced(0, 5, 8)]
        lan.goes = True
        lan.write()

    threading.Thread(target=write, daemon=True).start()
    watch = Watch(program, folder, None, (paced(1, 0, 9), 9), ["--every", "1", "--reopen", "--for", "11"])
    packets = {name: sum(line["packets"] for line in watch.of("capture") if line["capture"] == name) for name in "AB"}
    assert packets == {"A": 60, "B": 90}, packets
    assert watch.summed("lost_a") == watch.summed("lost_b") == 0, watch.lines
    assert 50 <= watch.summed("both") <= 58 and watch.summed("both") + watch.summed("neither") == 80, (watch.summed("both"), watch.summed("neither"))
    states = [state for state, lan in watch.alarms("capture_ended") if lan == "A"]
    assert states == ["raised", "cleared", "raised"], watch.of("alarm")
    assert watch.status == 0 and watch.faults() == [("A", "open")], watch.err


def run_files_that_are_read_once(program, folder):
    """A file has no second writer: with --reopen too a watch ends where its files do."""
    for name, lan in (("a", 0), ("b", 1)):
        with open(f"{folder}/{name}", "wb") as file:
            file.write(b"".join(piece for _, piece in paced(lan, 0, 2)))
    watch = Watch(program, folder, None, None, ["--every", "1", "--reopen"])
    assert watch.status == 0 and watch.summed("rx_a") == 20, (watch.status, watch.lines)


# The front of a pcapng file in nanoseconds: a section and an interface.
SECTION = [block(0x0A0D0D0A, struct.pack("<IHHq", 0x1A2B3C4D, 1, 0, -1)), block(1, struct.pack("<HHIHHIHH", 1, 0, 65535, 9, 1, 9, 0, 0))]


def as_block(one):
    """A packet of a pcap file as a block of a pcapng file."""
    seconds, rest, held, size = struct.unpack_from("<IIII", one)
    at = seconds * SECOND + rest
    return block(6, struct.pack("<IIIII", 0, at >> 32, at & 0xFFFFFFFF, held, size) + one[16:])


def ends_of(parts):
    """Where each of these parts of a file ends."""
    return [sum(map(len, parts[:n])) for n in range(1, len(parts) + 1)]


def cut_at(program, folder, front, parts, at):
    """The watch of a LAN A that ends behind so many octets. Copies of B come first, so that none is on its way where A ends."""
    whole = b"".join(front + parts)
    room = f"{folder}/{at}"
    os.mkdir(room)
    b = FRONT + b"".join(packet(0.1 * n - 0.0001, n, 1) for n in range(9))
    watch = Watch(program, room, ([(0, whole[:at])], 0.0), ([(0, b)], 0.2), ["--every", "1"])
    ends = ends_of(front + parts)
    came = sum(end <= at for end in ends[len(front):])
    counts = [line["packets"] for line in watch.of("capture") if line["capture"] == "A"]
    assert sum(counts) == came, (at, counts)
    assert bool(watch.err) != (at in ends), (at, watch.err)
    assert ("raised", "A") in watch.alarms("capture_ended"), (at, watch.lines)
    assert watch.summed("both") == came, (at, watch.lines)


def cut_at_each(program, folder, step):
    """A recorder dies within a packet of a pcap file or of a pcapng file: those before it count, an alarm and standard error say so, and the
    other LAN goes on."""
    packets = [packet(0.1 * at, at, 0) for at in range(3)]
    with ThreadPoolExecutor(LANES) as pool:
        for name, front, parts in (("pcap", [FRONT], packets), ("pcapng", SECTION, [as_block(one) for one in packets])):
            os.mkdir(f"{folder}/{name}")
            ends = ends_of(front + parts)
            cuts = sorted({*range(0, ends[-1] + 1, step), *ends})
            list(pool.map(lambda at: cut_at(program, f"{folder}/{name}", front, parts, at), cuts))


def run_a_capture_that_is_cut(program, folder):
    cut_at_each(program, folder, 29)


def long_a_capture_that_is_cut_at_each_octet(program, folder):
    cut_at_each(program, folder, 1)


# Captures that both lie in examples/, by the LAN.
RECORDED = [("linux-prp-lan-a.pcap", "linux-prp-lan-b.pcap"), ("captures/lan-a.pcap", "captures/lan-b.pcap"), ("captures/lan-a.pcap", "captures/lan-b-silent.pcapng"),
            ("captures/lan-a-snap64.pcap", "captures/lan-b.pcap"), ("captures/lan-a-joined.pcapng", "captures/lan-b.pcap")]


def said_of_recorded(program, folder, pair, run):
    """What a watch says of two captures that come by pipes."""
    room = f"{folder}/{run}"
    os.mkdir(room)
    lans = []
    for name in pair:
        with open(f"{TOP}/examples/{name}", "rb") as file:
            lans.append(([(0, file.read())], 0.0))
    watch = Watch(program, room, *lans, ["--every", "60", "--slack", "60000"])
    return watch.status, watch.err, watch.lines


def recorded(program, folder, runs):
    """Captures that were recorded, at full speed by pipes: whatever the schedule, each run says the same, and nothing comes behind."""
    with ThreadPoolExecutor(LANES) as pool:
        for pair in RECORDED:
            said = list(pool.map(lambda run, pair=pair: said_of_recorded(program, folder, pair, f"{RECORDED.index(pair)}-{run}"), range(runs)))
            assert all(one == said[0] for one in said), (pair, [one for one in said if one != said[0]][:1], said[0])
            assert all(line["behind"] == 0 for line in said[0][2] if line["line"] == "capture"), (pair, said[0])


def run_recorded_captures(program, folder):
    recorded(program, folder, 4)


def long_recorded_captures(program, folder):
    recorded(program, folder, 50)


def run_a_writer_that_stops_within_a_packet(program, folder):
    """20 octets of a packet, two seconds of silence, and the rest: nothing hangs, and nothing is lost."""
    one = packet(0.0, 0, 0)
    a = [(0.0, FRONT + one[:20]), (2.0, one[20:] + packet(2.0, 20, 0))]
    b = [(0.0, FRONT + packet(0.0001, 0, 1)), (2.0, packet(2.0001, 20, 1))]
    watch = Watch(program, folder, (a, 3), (b, 3), ["--every", "1", "--slack", "3000"])
    assert watch.summed("both") == 2 and watch.summed("lost_a") == 0, watch.lines


def run_a_restart_of_an_alarm(program, folder):
    """More than one frame in ten is lost in an interval, and none in the next: the alarm is raised once, and cleared."""
    lost = [*range(10, 20)]
    watch = Watch(program, folder, (paced(0, 0, 6), 6), (paced(1, 0, 6, lost=lost), 6), ["--every", "1", "--lost-over", "10", "--check"])
    states = [state for state, _ in watch.alarms("lost")]
    assert states == ["raised", "cleared"], watch.of("alarm")
    assert watch.status == 3 and watch.summed("lost_b") == 10, (watch.status, watch.summed("lost_b"))


def run_an_output_that_nobody_reads(program, folder):
    """Who reads three lines and goes ends the watch, silently."""
    command = f"{program} watch --a {folder}/a --b {folder}/b --every 1 2>{folder}/err | head -3 >{folder}/out; echo ${{PIPESTATUS[0]}}"
    for name, lan in (("a", 0), ("b", 1)):
        threading.Thread(target=Lan(f"{folder}/{name}", paced(lan, 0, 6), 6).write, daemon=True).start()
    run = subprocess.run(["bash", "-c", command], capture_output=True, text=True, timeout=30, check=False)
    with open(f"{folder}/err", encoding="utf-8") as err, open(f"{folder}/out", encoding="utf-8") as out:
        assert run.stdout.strip() == "1" and err.read() == "" and len(out.readlines()) == 3, run.stdout


def run_a_full_disk(program, folder):
    """What can't be written is told, with status 1."""
    with open("/dev/full", "wb") as full:
        watch = Watch(program, folder, ([(0, FRONT)], 3), ([(0, FRONT)], 3), ["--every", "1"], out=full)
    assert watch.status == 1 and watch.faults() == [(None, "write")] and watch.err.count("\n") == 1, watch.err


def run_metrics_without_a_folder(program, folder):
    """A folder of metrics that is not there is told, with status 1."""
    watch = Watch(program, folder, ([(0, FRONT)], 3), ([(0, FRONT)], 3), ["--every", "1", "--metrics", f"{folder}/none/seamless.prom"])
    assert watch.status == 1 and watch.faults() == [(None, "write")] and "none/seamless.prom" in watch.err, watch.err


def run_metrics(program, folder):
    """The metrics at the end have the counts since the start, one type for each family, and no line without one. Where promtool is, Debian's
    package prometheus has it, it finds nothing to say."""
    path = f"{folder}/seamless.prom"
    watch = Watch(program, folder, (paced(0, 0, 3, lost=[5, 6]), 3), (paced(1, 0, 3), 3), ["--every", "1", "--metrics", path])
    with open(path, encoding="utf-8") as file:
        text = file.read()
    lost = re.search(r'^seamless_frames_lost_total\{source="02:00:00:00:00:01",lan="a"\} (\d+)$', text, re.M)
    assert lost and int(lost[1]) == watch.summed("lost_a") == 2, text
    types = re.findall(r"^# TYPE (\S+) ", text, re.M)
    names = {re.sub(r"_(bucket|sum|count)$", "", name) if f"{name}" not in types else name for name in re.findall(r"^(seamless_\w+)", text, re.M)}
    assert len(types) == len(set(types)) and names <= set(types), (names - set(types), types)
    assert not os.path.exists(path + ".new")
    if shutil.which("promtool"):
        checked = subprocess.run(["promtool", "check", "metrics"], input=text, capture_output=True, text=True, timeout=60, check=False)
        assert checked.returncode == 0 and not checked.stderr, checked.stderr


def day(lan, repeats, sources_each, until):
    """The packets of a day at full speed: ten seconds with a frame each 0.1 s, so many times, and a new source in each of them."""
    yield FRONT
    for turn in range(repeats):
        base = turn * 10.0
        parts = [packet(base + 0.1 * at + 0.0001 * lan, turn * 100 + at, lan) for at in range(100)]
        if turn < until:
            parts += [packet(base + 9.95 + 0.0001 * lan, at, lan, 1000 + turn * sources_each + at) for at in range(sources_each)]
        yield b"".join(parts)


def resident(pid):
    with open(f"/proc/{pid}/status", encoding="ascii") as file:
        return int(re.search(r"VmRSS:\s+(\d+)", file.read())[1])


def long_a_day(program, folder):
    """24 hours of two LANs at full speed, with a source more in each second: memory at the end is what it was behind the 1024th source, the
    sums are those of the frames, and sources that are silent are forgotten."""
    repeats, sources_each = 8640, 10
    paths = [f"{folder}/{name}" for name in "ab"]
    for path in paths:
        os.mkfifo(path)

    def feed(lan):
        with open(paths[lan], "wb") as pipe:
            for piece in day(lan, repeats, sources_each, repeats):
                pipe.write(piece)

    for lan in range(2):
        threading.Thread(target=feed, args=(lan,), daemon=True).start()
    with open(f"{folder}/out", "w", encoding="utf-8") as out:
        run = subprocess.Popen([program, "watch", "--a", paths[0], "--b", paths[1], "--every", "1", "--slack", "60000", "--format", "json"], stdout=out, stderr=subprocess.PIPE)
        held = []
        while run.poll() is None:
            time.sleep(0.2)
            if run.poll() is None:
                try:
                    held.append(resident(run.pid))
                except (OSError, TypeError):
                    pass
    with open(f"{folder}/out", encoding="utf-8") as out:
        lines = [json.loads(line) for line in out]
    sums = {name: sum(line[name] for line in lines if line["line"] == "source" and line["source"] == "02:00:00:00:00:01") for name in ("rx_a", "both", "lost_a", "lost_b")}
    assert run.returncode == 0 and sums == {"rx_a": repeats * 100, "both": repeats * 100, "lost_a": 0, "lost_b": 0}, sums
    reports = [line for line in lines if line["line"] == "report"]
    assert max(line["sources"] for line in reports) <= 1024
    quarter = len(held) // 4
    assert max(held) < 32 * 1024 and max(held[3 * quarter:]) <= max(held[quarter:2 * quarter]) + 2048, held
    print(f"    a day: {len(held) * 0.2:.0f} s, {max(held)} KB at most, forgotten {reports[-1].get('forgotten')}")


def main():
    parser = argparse.ArgumentParser(description=__doc__, formatter_class=argparse.RawDescriptionHelpFormatter)
    parser.add_argument("--program", default=f"{TOP}/seamless")
    parser.add_argument("--long", action="store_true")
    parser.add_argument("names", metavar="NAME", nargs="*")
    task = parser.parse_args()
    known = {name: run for name, run in globals().items() if name.startswith("run_") or task.long and name.startswith("long_")}
    runs = {name: run for name, run in known.items() if not task.names or any(one in name for one in task.names)}

    def tried(name):
        with tempfile.TemporaryDirectory(prefix="watch-runs-") as folder:
            try:
                runs[name](task.program, folder)
            except (AssertionError, subprocess.TimeoutExpired, json.JSONDecodeError, KeyError, IndexError, OSError) as why:
                return f"{name}: {type(why).__name__} {str(why)[:600]}"
        return None

    def judge(name):
        return tried(name) and tried(name)

    failed = 0
    with ThreadPoolExecutor(LANES) as pool:
        for found in pool.map(judge, runs):
            failed += found is not None
            if found:
                print(found)
    print(f"{len(runs) - failed} passed, {failed} failed")
    return 1 if failed or not runs else 0


if __name__ == "__main__":
    sys.exit(main())
