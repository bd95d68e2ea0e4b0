"""One PRP or HSR node (IEC 62439-3): octets come in at its ports, and octets go out at them. It opens no interface and reads no clock.

By ctypes over the shared library: SEAMLESS_LIBRARY names it, or it is found as `seamless`. Times are in milliseconds of any steady clock."""
import ctypes
import ctypes.util
import enum
import os
from dataclasses import dataclass
from typing import Iterator, Optional, Union

ABI = 2
MAX_FRAME = 1524
MAX_NODES, MAX_ALARMS, MAX_PROXIED = 1024, 64, 256


class Role(enum.IntEnum):
    """What a node is (IEC 62439-3 clauses 4 and 5)."""

    DANP = 0
    DANH = 1
    REDBOX_SAN = 2
    REDBOX_PRP = 3
    REDBOX_HSR = 4


class Port(enum.IntEnum):
    """A port of a node: the host's, A, B, and the interlink of a RedBox."""

    H = 0
    A = 1
    B = 2
    C = 3


class Code(enum.IntEnum):
    """Why a call does nothing."""

    UNREAD = 257
    UNTAGGED = 258
    TABLE_FULL = 259
    OUTBOX_FULL = 260
    NO_MEMORY = 261
    ARGUMENT = 262
    CLOSED = 263
    OPEN = 264
    SNAPSHOT = 265
    APART = 267
    PROCESSOR = 268


class Fault(Exception):
    """A call did nothing, and changed nothing."""

    def __init__(self, code: Code) -> None:
        super().__init__(code.name.lower().replace("_", " "))
        self.code = code


class Own(enum.Enum):
    """The frame was sent by this node, and goes nowhere."""

    OWN = 16


OWN = Own.OWN


@dataclass(frozen=True)
class Status:
    """What is told of another node. An age is in milliseconds, None where it was never heard at that port."""

    mac: bytes
    redbox: Optional[bytes]
    age_a: Optional[int]
    age_b: Optional[int]
    seq_a: int
    seq_b: int


@dataclass(frozen=True)
class Alarm:
    """A node is heard, but not at this port; or, where there is none, it was silent for 60000 ms."""

    mac: bytes
    port: Optional[Port]
    at: int


@dataclass(frozen=True)
class AlarmsSince:
    """Alarms since an earlier call, how many more were raised and are not kept any more, and the number with which to ask the next time."""

    alarms: list[Alarm]
    missed: int
    next: int


@dataclass(frozen=True)
class Proxied:
    """An address that a RedBox stands for, and when it was last heard at the interlink."""

    mac: bytes
    at: int


class _Setup(ctypes.Structure):
    _fields_ = [("mac", ctypes.c_uint8 * 6)] + [
        (name, ctypes.c_uint8) for name in ("role", "mode", "width", "lan", "net", "fixed_key")
    ] + [("key", ctypes.c_uint8 * 32)]


class _Handle(ctypes.Structure):
    _fields_ = [("at", ctypes.c_void_p)]


class _NodeEntry(ctypes.Structure):
    _fields_ = [("mac", ctypes.c_uint8 * 6), ("redbox", ctypes.c_uint8 * 6), ("has_redbox", ctypes.c_uint8),
                ("age_a", ctypes.c_uint32), ("age_b", ctypes.c_uint32), ("seq_a", ctypes.c_uint16), ("seq_b", ctypes.c_uint16)]


class _AlarmEntry(ctypes.Structure):
    _fields_ = [("mac", ctypes.c_uint8 * 6), ("kind", ctypes.c_uint8), ("port", ctypes.c_uint8), ("at", ctypes.c_uint64)]


class _ProxiedEntry(ctypes.Structure):
    _fields_ = [("mac", ctypes.c_uint8 * 6), ("at", ctypes.c_uint64)]


class _Cursor(ctypes.Structure):
    _fields_ = [("number", ctypes.c_uint64), ("missed", ctypes.c_uint64), ("count", ctypes.c_uint64)]


COUNTED = ("received", "sent", "wrong_lan", "unread", "untagged", "table_full", "outbox_full", "no_memory", "own")
NEVER = 2147483647


class _Counters(ctypes.Structure):
    _fields_ = [(name, ctypes.c_uint64) for name in COUNTED]


def _load() -> ctypes.CDLL:
    library = ctypes.CDLL(os.environ.get("SEAMLESS_LIBRARY") or ctypes.util.find_library("seamless") or "libseamless.so.2")
    node, size, number, time = ctypes.POINTER(_Handle), ctypes.c_size_t, ctypes.c_uint32, ctypes.c_uint64
    octets, count = ctypes.c_char_p, ctypes.POINTER(ctypes.c_size_t)
    calls = {
        "seamless_abi": (number, []),
        "seamless_version": (number, []),
        "seamless_open": (number, [ctypes.POINTER(_Setup), node]),
        "seamless_resume": (number, [ctypes.POINTER(_Setup), octets, size, node]),
        "seamless_close": (number, [node]),
        "seamless_receive": (number, [node, number, octets, size, time]),
        "seamless_send": (number, [node, octets, size, time]),
        "seamless_tick": (number, [node, time]),
        "seamless_take": (size, [node, number, octets, size]),
        "seamless_waiting": (size, [node, number]),
        "seamless_time": (time, [node]),
        "seamless_counters": (number, [node, number, ctypes.POINTER(_Counters)]),
        "seamless_node_at": (number, [node, size, ctypes.POINTER(_NodeEntry)]),
        "seamless_node_of": (number, [node, octets, ctypes.POINTER(_NodeEntry)]),
        "seamless_nodes": (number, [node, ctypes.POINTER(_NodeEntry), size, count]),
        "seamless_alarm_at": (number, [node, size, ctypes.POINTER(_AlarmEntry)]),
        "seamless_alarms": (number, [node, ctypes.POINTER(_AlarmEntry), size, count]),
        "seamless_alarms_since": (number, [node, ctypes.POINTER(_Cursor), ctypes.POINTER(_AlarmEntry), size]),
        "seamless_proxied": (number, [node, ctypes.POINTER(_ProxiedEntry), size, count]),
        "seamless_proxied_at": (number, [node, size, ctypes.POINTER(_ProxiedEntry)]),
        "seamless_snapshot": (number, [node, octets, size, count]),
        "seamless_absorb": (number, [node, octets, size]),
    }
    for name, (result, arguments) in calls.items():
        call = getattr(library, name)
        call.restype, call.argtypes = result, arguments
    if library.seamless_abi() != ABI:
        raise ImportError(f"libseamless has interface {library.seamless_abi()}, and this module was written for {ABI}")
    return library


_library = _load()


def _taken(answer: int) -> int:
    if answer > 256:
        raise Fault(Code(answer))
    return answer


def version() -> tuple[int, int, int]:
    """The version of the library that is loaded: its three numbers."""
    number = _library.seamless_version()
    return number // 10000, number // 100 % 100, number % 100


def _address(mac: bytes) -> bytes:
    if len(mac) != 6:
        raise ValueError("an address has 6 octets")
    return mac


def _status(entry: _NodeEntry) -> Status:
    ages = [None if age == NEVER else age for age in (entry.age_a, entry.age_b)]
    redbox = bytes(entry.redbox) if entry.has_redbox else None
    return Status(bytes(entry.mac), redbox, ages[0], ages[1], entry.seq_a, entry.seq_b)


def _alarm(entry: _AlarmEntry) -> Alarm:
    return Alarm(bytes(entry.mac), Port(entry.port) if entry.kind == 1 else None, entry.at)


class Node:
    """A node. It belongs to one thread at a time. After `close`, each call raises CLOSED or tells of nothing."""

    def __init__(self, role: Role, mac: bytes, *, key: Optional[bytes] = None, fixed_key: bool = False, mode_x: bool = False,
                 wide: bool = False, lan_b: bool = False, net: int = 0, snapshot: Optional[bytes] = None) -> None:
        """`key`: 32 octets that place addresses in tables, of the system's random source where none is given. `fixed_key`: one that anyone
        can know. `mode_x`: mode X in place of H. `wide`: 2048 numbers of each source in place of 1024. `lan_b`, `net`: the LAN and the
        number of the network at the interlink of a REDBOX_PRP. `snapshot`: one of a node whose record of duplicates this one goes on with."""
        self._handle = _Handle()
        self._buffer = ctypes.create_string_buffer(MAX_FRAME)
        octets = bytes(32) if fixed_key else os.urandom(32) if key is None else key
        if len(octets) != 32:
            raise ValueError("a key has 32 octets")
        setup = _Setup((ctypes.c_uint8 * 6)(*_address(mac)), role, mode_x, wide, lan_b, net, fixed_key, (ctypes.c_uint8 * 32)(*octets))
        if snapshot is None:
            _taken(_library.seamless_open(setup, self._handle))
        else:
            _taken(_library.seamless_resume(setup, snapshot, len(snapshot), self._handle))

    def close(self) -> None:
        """Frees the node. A second call does nothing."""
        _library.seamless_close(self._handle)

    def __enter__(self) -> "Node":
        return self

    def __exit__(self, *_: object) -> None:
        self.close()

    def __del__(self) -> None:
        if getattr(self, "_handle", None) is not None and _library is not None:
            self.close()

    def receive(self, port: Port, octets: bytes, now: int) -> Union[Own, list[Port]]:
        """Octets come in at port A, B or C: which outlets got the frame (none: it is a second copy), or OWN."""
        outlets = _taken(_library.seamless_receive(self._handle, port, octets, len(octets), now))
        return OWN if outlets == OWN.value else [outlet for outlet in Port if outlets >> outlet & 1]

    def send(self, octets: bytes, now: int) -> None:
        """The host sends a frame."""
        _taken(_library.seamless_send(self._handle, octets, len(octets), now))

    def tick(self, now: int) -> None:
        """Time passes. Call it at least twice a second."""
        _taken(_library.seamless_tick(self._handle, now))

    def take(self, port: Port) -> Optional[bytes]:
        """The first frame that waits at a port, taken out; None where nothing waits."""
        count = _library.seamless_take(self._handle, port, self._buffer, MAX_FRAME)
        return self._buffer.raw[:count] if count else None

    def waiting(self, port: Port) -> int:
        """How many frames wait at a port."""
        return _library.seamless_waiting(self._handle, port)

    def time(self) -> int:
        """The greatest time that the node was handed."""
        return _library.seamless_time(self._handle)

    def counters(self, port: Port) -> dict[str, int]:
        """What was counted at a port, by the names of COUNTED."""
        entry = _Counters()
        _taken(_library.seamless_counters(self._handle, port, entry))
        return {name: getattr(entry, name) for name in COUNTED}

    def status(self, mac: bytes) -> Optional[Status]:
        """What is told of the node with this address; None where it was not heard for 60000 ms."""
        entry = _NodeEntry()
        answer = _library.seamless_node_of(self._handle, _address(mac), entry)
        if answer == Code.ARGUMENT:
            return None
        _taken(answer)
        return _status(entry)

    def nodes(self) -> Iterator[Status]:
        """What is told of the other nodes, in the order of first hearing."""
        entries, count = (_NodeEntry * MAX_NODES)(), ctypes.c_size_t()
        _taken(_library.seamless_nodes(self._handle, entries, MAX_NODES, count))
        yield from map(_status, entries[:count.value])

    def alarms(self) -> Iterator[Alarm]:
        """The alarms that are kept, the oldest first."""
        entries, count = (_AlarmEntry * MAX_ALARMS)(), ctypes.c_size_t()
        _taken(_library.seamless_alarms(self._handle, entries, MAX_ALARMS, count))
        yield from map(_alarm, entries[:count.value])

    def alarms_since(self, number: int) -> AlarmsSince:
        """The alarms from a number on: they are numbered from 0, in the order in which they were raised. Begin with 0, and go on with
        `next`: then each alarm is told once."""
        entries, cursor = (_AlarmEntry * MAX_ALARMS)(), _Cursor(number)
        _taken(_library.seamless_alarms_since(self._handle, cursor, entries, MAX_ALARMS))
        return AlarmsSince(list(map(_alarm, entries[:cursor.count])), cursor.missed, cursor.number)

    def proxied(self) -> Iterator[Proxied]:
        """The addresses that a RedBox for SANs stands for, in the order of first hearing."""
        entries, count = (_ProxiedEntry * MAX_PROXIED)(), ctypes.c_size_t()
        _taken(_library.seamless_proxied(self._handle, entries, MAX_PROXIED, count))
        yield from (Proxied(bytes(entry.mac), entry.at) for entry in entries[:count.value])

    def snapshot(self) -> bytes:
        """What the node has noted of each source, as octets: the same on every machine."""
        count = ctypes.c_size_t()
        _taken(_library.seamless_snapshot(self._handle, b"", 0, count))
        octets = ctypes.create_string_buffer(count.value)
        _taken(_library.seamless_snapshot(self._handle, octets, count, count))
        return octets.raw

    def absorb(self, snapshot: bytes) -> None:
        """Takes over what the snapshot of another node says, as a standby does: what both have noted of each source is joined, at the later
        of both times."""
        _taken(_library.seamless_absorb(self._handle, snapshot, len(snapshot)))
