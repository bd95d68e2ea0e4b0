//! One PRP or HSR node (IEC 62439-3): octets come in at its ports, and octets go out at them. It opens no interface and reads no clock. Times are
//! a `Duration` since any start; one that is less than an earlier one counts as that one.
//!
//! A [`Node`] goes from thread to thread (`Send`), and belongs to one at a time (not `Sync`).
#![warn(missing_docs)]

mod fault;

pub use fault::Fault;
pub use seamless_sys::Counters;

use seamless_sys as sys;
use std::time::Duration;

/// The most octets of a frame that goes out.
pub const MAX_FRAME: usize = 1524;

/// How many other nodes are known, how many alarms are kept, and how many addresses a RedBox stands for, at most.
const MAX_NODES: usize = 1024;
const MAX_ALARMS: usize = 64;
const MAX_PROXIED: usize = 256;

/// An address.
pub type Mac = [u8; 6];

/// A port of a node.
#[derive(Clone, Copy, Debug, PartialEq, Eq)]
pub enum Port {
    /// The host.
    H = 0,
    /// Port A.
    A = 1,
    /// Port B.
    B = 2,
    /// The interlink of a RedBox.
    C = 3,
}

impl Port {
    /// All of them.
    pub const ALL: [Port; 4] = [Port::H, Port::A, Port::B, Port::C];
}

/// A LAN of a PRP network.
#[derive(Clone, Copy, Debug, PartialEq, Eq)]
pub enum Lan {
    /// LAN A.
    A = 0,
    /// LAN B.
    B = 1,
}

/// What a node is (IEC 62439-3 clauses 4 and 5).
#[derive(Clone, Copy, Debug, PartialEq, Eq)]
pub enum Role {
    /// A doubly attached node of a PRP network.
    Danp,
    /// A doubly attached node of an HSR ring.
    Danh,
    /// A RedBox between a ring and nodes that know no redundancy.
    RedBoxSan,
    /// A RedBox between a ring and one LAN of a PRP network.
    RedBoxPrp {
        /// The LAN at the interlink.
        lan: Lan,
        /// The number of the network, 1 to 6.
        net: u8,
    },
    /// A RedBox between two rings.
    RedBoxHsr,
}

/// Whether a frame goes on to a ring port at which a copy of it came in.
#[derive(Clone, Copy, Debug, Default, PartialEq, Eq)]
pub enum Mode {
    /// It does.
    #[default]
    H = 0,
    /// It does not.
    X = 1,
}

/// How many numbers of each source a node remembers.
#[derive(Clone, Copy, Debug, Default, PartialEq, Eq)]
pub enum Window {
    /// 1024.
    #[default]
    Narrow = 0,
    /// 2048.
    Wide = 1,
}

/// What places addresses in a node's tables. No answer depends on it.
#[derive(Clone, Copy)]
pub enum Key {
    /// 32 octets of the system's random source, which nobody who chooses addresses knows.
    Octets([u8; 32]),
    /// One that anyone can know: for tests, and where nobody chooses addresses.
    Fixed,
}

/// What a new node is told.
#[derive(Clone, Copy)]
pub struct Setup {
    /// Its role.
    pub role: Role,
    /// Its address.
    pub mac: Mac,
    /// Its mode.
    pub mode: Mode,
    /// How many numbers of each source it remembers.
    pub window: Window,
    /// The key of its tables.
    pub key: Key,
}

impl Setup {
    /// In mode H, with 1024 numbers of each source.
    pub fn new(role: Role, mac: Mac, key: Key) -> Setup {
        Setup { role, mac, mode: Mode::H, window: Window::Narrow, key }
    }

    fn entry(&self) -> sys::Setup {
        let (role, lan, net) = match self.role {
            Role::Danp => (0, Lan::A, 0),
            Role::Danh => (1, Lan::A, 0),
            Role::RedBoxSan => (2, Lan::A, 0),
            Role::RedBoxPrp { lan, net } => (3, lan, net),
            Role::RedBoxHsr => (4, Lan::A, 0),
        };
        let (fixed_key, key) = match self.key {
            Key::Octets(octets) => (0, octets),
            Key::Fixed => (1, [0; 32]),
        };
        sys::Setup { mac: self.mac, role, mode: self.mode as u8, width: self.window as u8, lan: lan as u8, net, fixed_key, key }
    }
}

/// What became of a frame that came in.
#[derive(Clone, Copy, Debug, PartialEq, Eq)]
pub enum Received {
    /// It was sent by this node, and goes nowhere.
    Own,
    /// Which outlets got it: none, where it is a second copy.
    Passed(Outlets),
}

/// Outlets of a node.
#[derive(Clone, Copy, Debug, PartialEq, Eq)]
pub struct Outlets(u8);

impl Outlets {
    /// Whether this port is one of them.
    pub fn has(self, port: Port) -> bool {
        self.0 >> port as u8 & 1 == 1
    }

    /// They, in the order H, A, B, C.
    pub fn iter(self) -> impl Iterator<Item = Port> {
        Port::ALL.into_iter().filter(move |port| self.has(*port))
    }
}

/// What is told of another node.
#[derive(Clone, Copy, Debug, PartialEq, Eq)]
pub struct Status {
    /// Its address.
    pub mac: Mac,
    /// The RedBox that it stands behind.
    pub redbox: Option<Mac>,
    /// How long ago it was heard at port A; `None`: never.
    pub age_a: Option<Duration>,
    /// How long ago it was heard at port B; `None`: never.
    pub age_b: Option<Duration>,
    /// The number of its last numbered frame at port A; 0: there was none.
    pub seq_a: u16,
    /// The number of its last numbered frame at port B; 0: there was none.
    pub seq_b: u16,
}

/// The age of what was never heard.
const NEVER: u32 = 2147483647;

impl Status {
    fn of(entry: sys::NodeEntry) -> Status {
        let age = |age: u32| (age != NEVER).then(|| Duration::from_millis(age.into()));
        Status {
            mac: entry.mac,
            redbox: (entry.has_redbox == 1).then_some(entry.redbox),
            age_a: age(entry.age_a),
            age_b: age(entry.age_b),
            seq_a: entry.seq_a,
            seq_b: entry.seq_b,
        }
    }
}

/// What went wrong with another node, and when.
#[derive(Clone, Copy, Debug, PartialEq, Eq)]
pub enum Alarm {
    /// It is heard, but not at this port.
    NotHeardAt(Port, Mac, Duration),
    /// It was silent for 60 seconds and is forgotten.
    Silent(Mac, Duration),
}

impl Alarm {
    fn of(entry: sys::AlarmEntry) -> Alarm {
        let at = Duration::from_millis(entry.at);
        match (entry.kind, entry.port) {
            (1, 1) => Alarm::NotHeardAt(Port::A, entry.mac, at),
            (1, _) => Alarm::NotHeardAt(Port::B, entry.mac, at),
            _ => Alarm::Silent(entry.mac, at),
        }
    }
}

/// An address that a RedBox stands for.
#[derive(Clone, Copy, Debug, PartialEq, Eq)]
pub struct Proxied {
    /// The address.
    pub mac: Mac,
    /// When it was last heard at the interlink.
    pub at: Duration,
}

/// Alarms since an earlier call.
#[derive(Clone, Debug, Default, PartialEq, Eq)]
pub struct AlarmsSince {
    /// They, the oldest first.
    pub alarms: Vec<Alarm>,
    /// How many more were raised, and are not kept any more.
    pub missed: u64,
    /// The number with which to ask the next time.
    pub next: u64,
}

/// The version of the library that is linked: its three numbers.
pub fn version() -> (u32, u32, u32) {
    let version = unsafe { sys::seamless_version() };
    (version / 10000, version / 100 % 100, version % 100)
}

fn milliseconds(now: Duration) -> u64 {
    u64::try_from(now.as_millis()).unwrap_or(u64::MAX)
}

/// A node.
#[derive(Debug)]
pub struct Node(sys::Handle);

// The library's handle is proved to go from thread to thread, and a node has nothing in common with another.
unsafe impl Send for Node {}

impl Node {
    /// A new node. `Argument`: there is no such network, or the key is all 0. `Interface`: the library is another than this crate was written for.
    pub fn new(setup: &Setup) -> Result<Node, Fault> {
        Node::opened(|handle| unsafe { sys::seamless_open(&setup.entry(), handle) })
    }

    /// A new node that goes on with the record of duplicates of a snapshot: after a restart it hands up no second copy of what was handed up
    /// before. Its time is the greatest at which a source of the snapshot was heard. A snapshot of a node of the other window is read at the
    /// setup's. `Snapshot`: the octets are none. The rest: as `new`.
    pub fn resumed(setup: &Setup, snapshot: &[u8]) -> Result<Node, Fault> {
        Node::opened(|handle| unsafe { sys::seamless_resume(&setup.entry(), snapshot.as_ptr(), snapshot.len(), handle) })
    }

    fn opened(open: impl FnOnce(&mut sys::Handle) -> u32) -> Result<Node, Fault> {
        if unsafe { sys::seamless_abi() } != sys::ABI {
            return Err(Fault::Interface);
        }
        let mut handle = sys::Handle { at: std::ptr::null_mut() };
        fault::taken(open(&mut handle))?;
        Ok(Node(handle))
    }

    /// What the node has noted of each source, as octets. They are the same on every machine.
    pub fn snapshot(&mut self) -> Result<Vec<u8>, Fault> {
        let mut octets = Vec::new();
        loop {
            let mut count = 0;
            fault::taken(unsafe { sys::seamless_snapshot(&mut self.0, octets.as_mut_ptr(), octets.len(), &mut count) })?;
            if count <= octets.len() {
                octets.truncate(count);
                return Ok(octets);
            }
            octets.resize(count, 0);
        }
    }

    /// Takes over what the snapshot of another node says, as a standby does: what both have noted of each source is joined, at the later of
    /// both times. `Snapshot`: the octets are none. `TableFull`: both together have over 1024 sources. `Apart`: so are two of their records.
    pub fn absorb(&mut self, snapshot: &[u8]) -> Result<(), Fault> {
        fault::taken(unsafe { sys::seamless_absorb(&mut self.0, snapshot.as_ptr(), snapshot.len()) })?;
        Ok(())
    }

    /// Octets come in at port A, B or C.
    pub fn receive(&mut self, port: Port, octets: &[u8], now: Duration) -> Result<Received, Fault> {
        let answer = unsafe { sys::seamless_receive(&mut self.0, port as u32, octets.as_ptr(), octets.len(), milliseconds(now)) };
        Ok(match fault::taken(answer)? {
            16 => Received::Own,
            outlets => Received::Passed(Outlets(outlets as u8)),
        })
    }

    /// The host sends a frame.
    pub fn send(&mut self, octets: &[u8], now: Duration) -> Result<(), Fault> {
        fault::taken(unsafe { sys::seamless_send(&mut self.0, octets.as_ptr(), octets.len(), milliseconds(now)) })?;
        Ok(())
    }

    /// Time passes. Call it at least twice a second.
    pub fn tick(&mut self, now: Duration) -> Result<(), Fault> {
        fault::taken(unsafe { sys::seamless_tick(&mut self.0, milliseconds(now)) })?;
        Ok(())
    }

    /// The first frame that waits at a port, put into the buffer, and taken out.
    pub fn take<'a>(&mut self, port: Port, buffer: &'a mut [u8; MAX_FRAME]) -> Option<&'a [u8]> {
        let count = unsafe { sys::seamless_take(&mut self.0, port as u32, buffer.as_mut_ptr(), buffer.len()) };
        (count > 0).then(|| &buffer[..count])
    }

    /// How many frames wait at a port.
    pub fn waiting(&mut self, port: Port) -> usize {
        unsafe { sys::seamless_waiting(&mut self.0, port as u32) }
    }

    /// The greatest time that the node was handed.
    pub fn time(&mut self) -> Duration {
        Duration::from_millis(unsafe { sys::seamless_time(&mut self.0) })
    }

    /// What was counted at a port.
    pub fn counters(&mut self, port: Port) -> Counters {
        let mut entry = Counters::default();
        unsafe { sys::seamless_counters(&mut self.0, port as u32, &mut entry) };
        entry
    }

    /// What is told of the node with this address; `None` where it was not heard for 60 seconds.
    pub fn status(&mut self, mac: Mac) -> Option<Status> {
        let mut entry = sys::NodeEntry::default();
        (unsafe { sys::seamless_node_of(&mut self.0, &mac, &mut entry) } == 0).then(|| Status::of(entry))
    }

    /// What is told of the other nodes, in the order of first hearing, at this moment. None where an allocation failed.
    pub fn nodes(&mut self) -> impl Iterator<Item = Status> {
        let (mut entries, mut count) = (vec![sys::NodeEntry::default(); MAX_NODES], 0);
        unsafe { sys::seamless_nodes(&mut self.0, entries.as_mut_ptr(), MAX_NODES, &mut count) };
        entries.into_iter().take(count).map(Status::of)
    }

    /// The alarms that are kept, the oldest first, at this moment. None where an allocation failed.
    pub fn alarms(&mut self) -> impl Iterator<Item = Alarm> {
        let (mut entries, mut count) = ([sys::AlarmEntry::default(); MAX_ALARMS], 0);
        unsafe { sys::seamless_alarms(&mut self.0, entries.as_mut_ptr(), MAX_ALARMS, &mut count) };
        entries.into_iter().take(count).map(Alarm::of)
    }

    /// The alarms from a number on: they are numbered from 0, in the order in which they were raised. Begin with 0, and go on with `next`:
    /// then each alarm is told once.
    pub fn alarms_since(&mut self, number: u64) -> Result<AlarmsSince, Fault> {
        let mut cursor = sys::Cursor { number, ..sys::Cursor::default() };
        let mut entries = [sys::AlarmEntry::default(); MAX_ALARMS];
        fault::taken(unsafe { sys::seamless_alarms_since(&mut self.0, &mut cursor, entries.as_mut_ptr(), MAX_ALARMS) })?;
        let alarms = entries.into_iter().take(cursor.count as usize).map(Alarm::of).collect();
        Ok(AlarmsSince { alarms, missed: cursor.missed, next: cursor.number })
    }

    /// The addresses that a RedBox for SANs stands for, in the order of first hearing, at this moment. None where an allocation failed.
    pub fn proxied(&mut self) -> impl Iterator<Item = Proxied> {
        let (mut entries, mut count) = ([sys::ProxiedEntry::default(); MAX_PROXIED], 0);
        unsafe { sys::seamless_proxied(&mut self.0, entries.as_mut_ptr(), MAX_PROXIED, &mut count) };
        entries.into_iter().take(count).map(|it| Proxied { mac: it.mac, at: Duration::from_millis(it.at) })
    }
}

impl Drop for Node {
    fn drop(&mut self) {
        unsafe { sys::seamless_close(&mut self.0) };
    }
}

#[cfg(test)]
mod tests;
