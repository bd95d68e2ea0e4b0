#!/usr/bin/env python3
"""What an audit says wrongly of a network is found, and what it says rightly is passed."""
import functools
import random
import sys
import unittest
from pathlib import Path

sys.dont_write_bytecode = True
sys.path.insert(0, str(Path(__file__).resolve().parent.parent))
import networks  # noqa: E402


@functools.cache
def network_of(seed):
    return networks.network_of(seed)


def network_with(*faults):
    """The first network that has just these faults."""
    return next(one for one in map(network_of, range(1, 1000)) if sorted(one.faults) == sorted(faults) and one.has_pairs())


def network_where(is_wanted):
    return next(one for one in map(network_of, range(1, 1000)) if is_wanted(one))


def clocks_of(network):
    """The line that tells of the clock of B, as it is."""
    ahead, drift = network.clock
    return {"line": "clocks", "b_ahead_us": (ahead + sum(network.runs[1]) // 2 * drift // 10**9) / 1000, "drift_ppm": drift / 1000, "pairs": 20}


def said_of(network):
    lines = [clocks_of(network)] if network.clock else []
    for mac, figures in (report for source in network.sources for report in source.reports()):
        lines.append({"line": "source", "source": mac.hex(":"), **figures})
        if figures["single_a"] or figures["single_b"]:
            lines.append({"line": "single", "source": mac.hex(":"), "single_a": figures["single_a"], "single_b": figures["single_b"]})
        if figures.get("unseen"):
            lines.append({"line": "unseen", "source": mac.hex(":"), "numbers": figures["unseen"]})
    return lines


def verdicts_of(network):
    """The verdicts on a network that can be judged, as they are."""
    faults, notices = [], []
    for mac, figures in (report for source in network.sources for report in source.reports()):
        for kind, name, number, where in (("both_lost", "neither", "numbers", faults), ("restart", "restarts", "times", notices),
                                          ("unseen", "unseen", "numbers", notices)):
            if figures.get(name):
                where.append({"line": "notice", "kind": kind, "source": mac.hex(":"), number: figures[name]})
    for mac, side, frames, time in network.rows():
        faults.append({"kind": "dead_port", "source": mac, "lan": "BA"[side], "frames": frames, "since_ms": time / 10**6})
    for lan, (frames, sources) in enumerate(networks.losses(network)):
        if frames:
            faults.append({"kind": "loss", "lan": "AB"[lan], "frames": frames, "sources": sources, "other_lan": networks.losses(network)[1 - lan][0]})
    whole = {"line": "verdict", "verdict": "faulty" if faults else "sound", "faults": len(faults), "notices": len(notices)}
    named = []
    for lan in range(2):
        macs = sorted(networks.losing(network, lan))
        named += [{"line": "at", "kind": "loss", "lan": "AB"[lan], "source": mac} for mac in macs[:3]]
        named += [{"line": "at", "kind": "loss", "lan": "AB"[lan], "more": len(macs) - 3}] if len(macs) > 3 else []
    return [whole, *({**fault, "line": "fault"} for fault in faults), *notices, *named]


class NetworksTest(unittest.TestCase):
    def test_true_verdicts_pass_and_each_that_is_wrong_is_found(self):
        for faults in [(), ("loss",), ("row",), ("both",), ("restart",), ("loss", "restart")]:
            network = network_where(lambda one: type(one) is networks.Network and sorted(one.faults) == sorted(faults) and one.has_pairs())
            lines = verdicts_of(network)
            self.assertEqual(networks.verdict_differences(network, network.status(), lines), [], faults)
            for at, line in enumerate(lines):
                self.assertTrue(networks.verdict_differences(network, network.status(), lines[:at] + lines[at + 1:]), line)
                for name in {"faults", "frames", "sources", "other_lan", "numbers", "times"} & set(line):
                    wrong = lines[:at] + [{**line, name: line[name] + 1}] + lines[at + 1:]
                    self.assertTrue(networks.verdict_differences(network, network.status(), wrong), (line, name))

    def test_a_row_at_the_end_is_told_with_its_time(self):
        network = network_where(lambda one: type(one) is networks.Network and not one.faults and not one.clock and len(one.sources[0].frames) > 20
                                and one.runs == [(0, networks.END)] * 2 and one.sources[0].period < 10**9)
        for frame in network.sources[0].frames[-5:]:
            frame["lans"].discard(1)
            frame["seen"].discard(1)
        network_of.cache_clear()
        row = network.rows()
        self.assertEqual([(side, frames) for _, side, frames, _ in row], [(0, 5)])
        lines = verdicts_of(network)
        self.assertEqual(networks.verdict_differences(network, 3, lines), [])
        lines[1]["since_ms"] += 20
        self.assertTrue(networks.verdict_differences(network, 3, lines))

    def test_a_cut_is_told_between_the_two_sources_next_to_it(self):
        network = network_where(lambda one: type(one) is networks.Ring and "cut" in one.faults
                                and "recorder" not in networks.place_of(one, one.rows()))
        rows, (next_a, next_b) = network.rows(), networks.place_of(network, network.rows())
        order = [source.mac.hex(":") for source in network.sources]
        self.assertTrue(order.index(next_b) <= network.link < order.index(next_a))
        sides = [side for _, side, _, _ in rows]
        cut = {"line": "fault", "kind": "cut_ring", "sided_a": sides.count(0), "sided_b": sides.count(1), "frames": sum(row[2] for row in rows),
               "since_ms": (min(row[3] for row in rows) - min(begin for begin, _ in network.runs)) / 10**6, "next_a": next_a, "next_b": next_b}
        self.assertEqual(networks.row_differences(network, [cut]), [])
        self.assertTrue(networks.row_differences(network, [{**cut, "next_a": next_b}]))
        self.assertTrue(networks.row_differences(network, [{**cut, "next_b": "recorder"}]))

    def test_a_cut_that_was_mended_is_told_with_its_two_times(self):
        network = network_where(lambda one: type(one) is networks.Ring and one.faults == ["mended"] and not one.rows() and one.mended()
                                and "recorder" not in networks.place_of(one, one.mended()))
        [((at_a, at_b, frames, next_a, next_b), (since, until))] = networks.cuts(network)
        order = [source.mac.hex(":") for source in network.sources]
        self.assertTrue(order.index(next_b) <= network.link < order.index(next_a) and since < until)
        begin = min(begin for begin, _ in network.runs)
        cut = {"line": "fault", "kind": "cut_ring", "sided_a": at_a, "sided_b": at_b, "frames": frames, "since_ms": (since - begin) / 10**6,
               "until_ms": (until - begin) / 10**6, "next_a": next_a, "next_b": next_b}
        self.assertEqual(networks.row_differences(network, [cut]), [])
        for wrong in ({"until_ms": cut["until_ms"] + 20}, {"since_ms": cut["since_ms"] + 20}, {"frames": frames - 1}, {"next_a": next_b}):
            self.assertTrue(networks.row_differences(network, [{**cut, **wrong}]), wrong)
        open_cut = {name: value for name, value in cut.items() if name != "until_ms"}
        self.assertTrue(networks.row_differences(network, [open_cut]))
        table = {}
        networks.count_kinds(table, network, [{**cut, "until_ms": cut["until_ms"] + 2000}])
        self.assertEqual(table["cut_ring"], [0, 1, 1, 0])
        table = {}
        networks.count_kinds(table, network, [cut])
        self.assertEqual(table["cut_ring"], [1, 0, 0, 0])

    def test_frames_in_a_row_of_one_source_are_no_cut(self):
        network = network_where(lambda one: type(one) is networks.Ring and one.faults == ["mended"] and one.mended())
        mac, _, frames, *_ = network.mended()[0]
        spells = network.spells()
        network.spells = lambda: [one for one in spells if one[0] == mac]
        self.assertEqual((network.mended(), networks.cuts(network)), ([], []))
        self.assertEqual(sum(network.rowed(lan).get(mac, 0) for lan in range(2)), 0)
        network_of.cache_clear()

    def test_kinds_are_counted_as_right_missed_or_made_up(self):
        network = network_where(lambda one: type(one) is networks.Network and "loss" in one.faults and one.status() == 3
                                and not {*one.faults} - {"loss", "both", "row", "restart"})
        lines, table = verdicts_of(network), {}
        networks.count_kinds(table, network, lines)
        self.assertTrue(table["loss"][0] > 0 and all(row[1:] == [0, 0, 0] for row in table.values()), table)
        babbling = {"line": "notice", "kind": "babbling", "source": "02:00:00:00:01:00", "since_ms": 0}
        wrong = {}
        networks.count_kinds(wrong, network, [line for line in lines if line.get("kind") != "loss"] + [babbling])
        self.assertEqual((wrong["loss"], wrong["babbling"]), ([0, table["loss"][0], 0, 0], [0, 0, 1, 0]))
        network = network_where(lambda one: type(one) is networks.Network and one.doubled())
        mac, time = next((mac, time) for kind, mac, _, time in network.strange if kind == "two_senders")
        for late, row in ((0.9, [1, 0, 0, 0]), (2, [0, 1, 1, 0])):
            table, line = {}, {"line": "fault", "kind": "two_senders", "source": mac.hex(":"), "since_ms": time / 10**6 + late * 1000}
            networks.count_kinds(table, network, [line])
            self.assertEqual(table["two_senders"], row)

    def test_where_nothing_can_be_judged_that_alone_is_told(self):
        network = network_with("dead")
        lines = [{"line": "verdict", "verdict": "unjudged", "faults": 0, "notices": 0}, {"line": "unjudged", "kind": "unnumbered"}]
        self.assertEqual(networks.verdict_differences(network, 4, lines), [])
        self.assertTrue(networks.verdict_differences(network, 4, lines[:1]))
        self.assertTrue(networks.verdict_differences(network, 4, lines + [{"line": "notice", "kind": "clock"}]))

    def test_what_captures_have_of_each_kind_of_network(self):
        for kind in (networks.Access, networks.Talking, networks.Untold, networks.InAndOut):
            network = network_where(lambda one: type(one) is kind and not one.faults and one.has_pairs())
            status = 4 if kind is networks.InAndOut else 0
            self.assertEqual((network.status(), networks.differences(network, status, said_of(network))), (status, []), kind)
        network = network_where(lambda one: isinstance(one, networks.Access) and "loss" in one.faults and not one.has_nothing() and one.has_pairs())
        self.assertEqual(network.status(), 3)

    def test_truth_passes(self):
        for faults in [()], [("loss",)], [("row",)], [("restart",)]:
            network = network_with(*faults[0])
            self.assertEqual(networks.differences(network, network.status(), said_of(network)), [])

    def test_each_figure_that_is_wrong_is_found(self):
        network = network_with("row")
        for name in network.sources[0].figures():
            lines = said_of(network)
            if name.startswith("single"):
                lines.append({"line": "single", "source": network.sources[0].mac.hex(":"), name: 1})
            elif name == "unseen":
                lines.append({"line": "unseen", "source": network.sources[0].mac.hex(":"), "numbers": 1})
            else:
                next(line for line in lines if line["line"] == "source")[name] += 1
            self.assertEqual(len(networks.differences(network, network.status(), lines)), 1, name)

    def test_a_frame_of_a_ring_that_is_not_told_is_found(self):
        network = network_where(lambda one: isinstance(one, networks.Ring) and not one.faults and one.has_pairs())
        self.assertEqual((network.status(), networks.differences(network, 0, said_of(network))), (0, []))
        lines = [line for line in said_of(network) if line["line"] != "single"]
        self.assertTrue(networks.differences(network, 0, lines))

    def test_a_number_of_a_redbox_is_told_of_it_alone(self):
        network = network_where(lambda one: isinstance(one.sources[-1], networks.RedBox) and not one.faults and one.has_pairs())
        box = network.sources[-1]
        box.frames[len(box.frames) // 2]["seen"].clear()
        told = {mac: figures["neither"] for mac, figures in box.reports()}
        self.assertEqual((told.pop(box.mac), set(told.values())), (1, {0}))
        network_of.cache_clear()

    def test_a_source_that_is_left_out_is_found(self):
        network = network_with()
        lines = said_of(network)
        lines.remove(next(line for line in lines if line["line"] == "source"))
        self.assertTrue(networks.differences(network, 0, lines))

    def test_a_clock_that_is_told_wrongly_is_found(self):
        network = network_where(lambda one: one.clock and not one.faults)
        lines = said_of(network)
        self.assertEqual(networks.differences(network, 0, lines), [])
        self.assertTrue(networks.differences(network, 0, lines[1:]))
        lines[0]["b_ahead_us"] += 6000
        self.assertTrue(networks.differences(network, 0, lines))

    def test_a_clock_that_is_put_right_and_was_right_is_found(self):
        network = network_where(lambda one: not one.clock and not one.faults)
        line = {"line": "clocks", "b_ahead_us": 5000.0, "drift_ppm": 0.0, "pairs": 20}
        self.assertTrue(networks.differences(network, 0, [line] + said_of(network)))

    def test_each_wrong_status_is_found(self):
        for faults, status in ((), 0), (("row",), 3), (("dead",), 4), (("swapped",), 4), (("apart",), 4), (("set",), 4):
            network = network_where(lambda one: sorted(one.faults) == sorted(faults) and one.has_pairs() and one.status() == status)
            for other in {0, 1, 3, 4} - {status}:
                self.assertTrue(networks.differences(network, other, said_of(network)))

    def test_a_row_on_both_lans_is_counted_between_what_was_heard(self):
        source = networks.Source(random.Random(1), 0, 10)
        for frame in source.frames:
            frame["seen"] = set(frame["lans"])
        for frame in source.frames[:2] + source.frames[3:5]:
            frame["seen"].clear()
        self.assertEqual(source.figures()["neither"], 2)

    def test_what_one_recorder_has_while_the_other_one_does_not_run_is_no_loss(self):
        network = network_where(lambda one: one.runs[0] != one.runs[1] and one.has_pairs() and not one.faults)
        self.assertEqual(network.status(), 0)
        self.assertTrue(any(source.figures()[name] for source in network.sources for name in ("edge_a", "edge_b")))

    def test_what_a_merge_lacks_or_has_too_much_is_found(self):
        network = network_with("loss")
        merged = [(min(frame["seen"]), networks.BEGIN + frame["time"] + source.delays[min(frame["seen"])],
                   network.octets_of(source, frame, min(frame["seen"])))
                  for source in network.sources for frame in source.frames if frame["seen"]]
        merged += [(lan, networks.BEGIN + time, networks.plain()) for lan in range(2) for time in network.runs[lan]]
        merged.sort(key=lambda packet: packet[1])
        self.assertEqual(networks.merge_differences(network, merged), [])
        self.assertTrue(networks.merge_differences(network, merged[1:]))
        self.assertTrue(networks.merge_differences(network, merged[:-1] + [merged[-2], merged[-1]]))
        self.assertTrue(networks.merge_differences(network, merged[::-1]))
        moved = [(lane, time + 10**9, packet) for lane, time, packet in merged]
        self.assertTrue(networks.merge_differences(network, moved))

    def test_a_frame_has_its_number_and_its_lan(self):
        source = networks.Source(random.Random(1), 0, 10)
        packet = networks.octets(source, {"number": 0x1234}, 1)
        self.assertEqual((packet[6:12], packet[-6:].hex(), len(packet)), (source.mac, "1234b03488fb", 66))
        packet = networks.tagged(source, {"number": 0x1234}, 1)
        self.assertEqual((packet[6:12], packet[12:20].hex(), len(packet)), (source.mac, "892f1034123488b8", 66))


if __name__ == "__main__":
    unittest.main()
