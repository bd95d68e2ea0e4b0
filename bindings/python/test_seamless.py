"""Worked frames by the Python binding: python3 -m unittest, with SEAMLESS_LIBRARY."""
import re
import unittest
from pathlib import Path

from seamless import OWN, Alarm, AlarmsSince, Code, Fault, Node, Port, Proxied, Role, version

HEADER = Path(__file__).resolve().parents[2] / "clib" / "include" / "seamless.h"
M1, M2 = bytes.fromhex("020000000001"), bytes.fromhex("020000000002")
PLAIN = M1 + M2 + bytes.fromhex("0800") + bytes(46)


def copy(number: int, lan: str) -> bytes:
    return PLAIN + number.to_bytes(2, "big") + bytes.fromhex(f"{lan}03488fb")


class Nodes(unittest.TestCase):
    def expect(self, code: Code, call, *words) -> None:
        with self.assertRaises(Fault) as raised:
            call(*words)
        self.assertEqual(raised.exception.code, code)

    def test_the_first_copy_goes_up_and_the_second_goes_nowhere(self) -> None:
        with Node(Role.DANP, M1) as node:
            self.assertEqual(node.receive(Port.A, copy(0, "a"), 5), [Port.H])
            self.assertEqual(node.receive(Port.B, copy(0, "b"), 5), [])
            self.assertEqual((node.waiting(Port.H), node.time()), (1, 5))
            self.assertEqual((node.take(Port.H), node.take(Port.H)), (PLAIN, None))
            self.assertEqual(node.counters(Port.A)["received"], 1)

    def test_a_frame_goes_round_a_ring(self) -> None:
        sent = bytes.fromhex("ffffffffffff") + M1 + bytes.fromhex("0800") + bytes(46)
        with Node(Role.DANH, M1, fixed_key=True) as one, Node(Role.DANH, M2, mode_x=True, wide=True) as two:
            one.send(sent, 0)
            on_a, on_b = one.take(Port.A), one.take(Port.B)
            self.assertEqual(on_a, sent[:12] + bytes.fromhex("892f0034fbff") + sent[12:])
            self.assertEqual(on_b, sent[:12] + bytes.fromhex("892f1034fbff") + sent[12:])
            self.assertEqual(two.receive(Port.A, on_a, 0), [Port.H, Port.B])
            self.assertEqual(two.take(Port.H), sent)
            self.assertIs(one.receive(Port.B, two.take(Port.B), 0), OWN)

    def test_faults(self) -> None:
        node = Node(Role.DANH, M1)
        self.expect(Code.UNREAD, node.receive, Port.A, b"", 0)
        self.expect(Code.UNTAGGED, node.receive, Port.A, PLAIN, 0)
        self.expect(Code.UNREAD, node.send, PLAIN, 0)
        node.close()
        node.close()
        self.expect(Code.CLOSED, node.tick, 0)
        self.expect(Code.CLOSED, list, node.nodes())
        self.assertIsNone(node.take(Port.A))
        self.expect(Code.ARGUMENT, lambda: Node(Role.REDBOX_PRP, M1, net=7))
        self.expect(Code.ARGUMENT, lambda: Node(Role.DANP, M1, key=bytes(32)))
        with self.assertRaises(ValueError):
            Node(Role.DANP, b"", fixed_key=True)

    def test_other_nodes_and_alarms(self) -> None:
        with Node(Role.DANP, M1) as node:
            node.receive(Port.A, copy(5, "a"), 0)
            node.receive(Port.B, copy(7, "b"), 3001)
            node.tick(3001)
            [status] = node.nodes()
            self.assertEqual((status.mac, status.age_a, status.age_b, status.seq_b, status.redbox), (M2, 3001, 0, 7, None))
            self.assertEqual((node.status(M2), node.status(M1)), (status, None))
            self.assertEqual(list(node.alarms()), [Alarm(M2, Port.A, 3001)])
            self.assertEqual(node.alarms_since(0), AlarmsSince([Alarm(M2, Port.A, 3001)], 0, 1))
            self.assertEqual(node.alarms_since(1), AlarmsSince([], 0, 1))

    def test_a_redbox_tells_whom_it_stands_for(self) -> None:
        with Node(Role.REDBOX_SAN, M1) as node:
            node.receive(Port.C, PLAIN, 5)
            self.assertEqual(list(node.proxied()), [Proxied(M2, 5)])

    def test_a_record_goes_from_node_to_node(self) -> None:
        with Node(Role.DANP, M1) as one, Node(Role.DANP, M1) as standby:
            one.receive(Port.A, copy(5, "a"), 100)
            snapshot = one.snapshot()
            self.assertEqual((len(snapshot), snapshot[:7]), (7 + 784, b"SRDW\x01\x00\x01"))
            standby.absorb(snapshot)
            with Node(Role.DANP, M1, wide=True, snapshot=snapshot) as resumed:
                self.assertEqual(resumed.time(), 100)
                for node in (standby, resumed):
                    self.assertEqual(node.receive(Port.B, copy(5, "b"), 100), [])
                    self.assertEqual(node.receive(Port.B, copy(6, "b"), 100), [Port.H])
            self.expect(Code.SNAPSHOT, standby.absorb, b"")
            self.expect(Code.SNAPSHOT, lambda: Node(Role.DANP, M1, snapshot=snapshot[1:]))

    def test_the_version(self) -> None:
        told = re.findall(r'SEAMLESS_VERSION_TEXT "(.*)"', HEADER.read_text())
        self.assertEqual(told, [".".join(map(str, version()))])


if __name__ == "__main__":
    unittest.main()
