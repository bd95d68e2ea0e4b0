//! The C interface of libseamless as it is: `clib/include/seamless.h` tells what each call does. The crate `seamless` is the one to use.
#![no_std]

use core::ffi::c_void;

/// The interface that this crate was written for.
pub const ABI: u32 = 2;

/// A handle: null where it is closed.
#[repr(C)]
#[derive(Debug)]
pub struct Handle {
    /// What the library keeps there.
    pub at: *mut c_void,
}

/// What a new node is told.
#[repr(C)]
#[derive(Clone, Copy)]
pub struct Setup {
    /// Its address.
    pub mac: [u8; 6],
    /// Its role, 0 to 4.
    pub role: u8,
    /// 0 for mode H, 1 for mode X.
    pub mode: u8,
    /// 0 for 1024 numbers of each source, 1 for 2048.
    pub width: u8,
    /// The LAN at the interlink, 0 for A and 1 for B.
    pub lan: u8,
    /// The number of the PRP network at the interlink, 1 to 6.
    pub net: u8,
    /// 1 for a key that anyone can know.
    pub fixed_key: u8,
    /// 32 octets of the system's random source.
    pub key: [u8; 32],
}

/// What is told of another node.
#[repr(C)]
#[derive(Clone, Copy, Debug, Default, PartialEq, Eq)]
pub struct NodeEntry {
    /// Its address.
    pub mac: [u8; 6],
    /// The RedBox that it stands behind.
    pub redbox: [u8; 6],
    /// 1 where it stands behind one.
    pub has_redbox: u8,
    /// Milliseconds since it was heard at port A.
    pub age_a: u32,
    /// Milliseconds since it was heard at port B.
    pub age_b: u32,
    /// The number of its last numbered frame at port A.
    pub seq_a: u16,
    /// The number of its last numbered frame at port B.
    pub seq_b: u16,
}

/// An alarm.
#[repr(C)]
#[derive(Clone, Copy, Debug, Default, PartialEq, Eq)]
pub struct AlarmEntry {
    /// The node that it is of.
    pub mac: [u8; 6],
    /// 1: it is not heard at a port. 2: it is not heard.
    pub kind: u8,
    /// The port, where the kind is 1.
    pub port: u8,
    /// When, in milliseconds.
    pub at: u64,
}

/// An address that a RedBox stands for.
#[repr(C)]
#[derive(Clone, Copy, Debug, Default, PartialEq, Eq)]
pub struct ProxiedEntry {
    /// The address.
    pub mac: [u8; 6],
    /// When it was last heard at the interlink, in milliseconds.
    pub at: u64,
}

/// Where a program stands that asks for alarms again and again.
#[repr(C)]
#[derive(Clone, Copy, Debug, Default, PartialEq, Eq)]
pub struct Cursor {
    /// The number of the next alarm that it wants.
    pub number: u64,
    /// How many of those that it wanted are not kept any more.
    pub missed: u64,
    /// How many it was told.
    pub count: u64,
}

/// What was counted at a port.
#[repr(C)]
#[derive(Clone, Copy, Debug, Default, PartialEq, Eq)]
pub struct Counters {
    /// Frames that came in, those that were refused too.
    pub received: u64,
    /// Frames that were taken out.
    pub sent: u64,
    /// Frames that came in with the other LAN's trailer.
    pub wrong_lan: u64,
    /// Refused: octets that are no frame for this port.
    pub unread: u64,
    /// Refused: a frame without the tag that the port asks for.
    pub untagged: u64,
    /// Refused: the table of sources was full.
    pub table_full: u64,
    /// Refused: an outbox was full.
    pub outbox_full: u64,
    /// Refused: an allocation failed.
    pub no_memory: u64,
    /// Frames that came in with the node's address as their source.
    pub own: u64,
}

extern "C" {
    pub fn seamless_abi() -> u32;
    pub fn seamless_version() -> u32;
    pub fn seamless_open(setup: *const Setup, node: *mut Handle) -> u32;
    pub fn seamless_resume(setup: *const Setup, octets: *const u8, count: usize, node: *mut Handle) -> u32;
    pub fn seamless_close(node: *mut Handle) -> u32;
    pub fn seamless_receive(node: *mut Handle, port: u32, octets: *const u8, count: usize, now: u64) -> u32;
    pub fn seamless_send(node: *mut Handle, octets: *const u8, count: usize, now: u64) -> u32;
    pub fn seamless_tick(node: *mut Handle, now: u64) -> u32;
    pub fn seamless_take(node: *mut Handle, port: u32, buffer: *mut u8, capacity: usize) -> usize;
    pub fn seamless_waiting(node: *mut Handle, port: u32) -> usize;
    pub fn seamless_time(node: *mut Handle) -> u64;
    pub fn seamless_counters(node: *mut Handle, port: u32, entry: *mut Counters) -> u32;
    pub fn seamless_node_at(node: *mut Handle, index: usize, entry: *mut NodeEntry) -> u32;
    pub fn seamless_node_of(node: *mut Handle, mac: *const [u8; 6], entry: *mut NodeEntry) -> u32;
    pub fn seamless_nodes(node: *mut Handle, entries: *mut NodeEntry, capacity: usize, count: *mut usize) -> u32;
    pub fn seamless_alarm_at(node: *mut Handle, index: usize, entry: *mut AlarmEntry) -> u32;
    pub fn seamless_alarms(node: *mut Handle, entries: *mut AlarmEntry, capacity: usize, count: *mut usize) -> u32;
    pub fn seamless_alarms_since(node: *mut Handle, cursor: *mut Cursor, entries: *mut AlarmEntry, capacity: usize) -> u32;
    pub fn seamless_proxied(node: *mut Handle, entries: *mut ProxiedEntry, capacity: usize, count: *mut usize) -> u32;
    pub fn seamless_proxied_at(node: *mut Handle, index: usize, entry: *mut ProxiedEntry) -> u32;
    pub fn seamless_snapshot(node: *mut Handle, octets: *mut u8, capacity: usize, count: *mut usize) -> u32;
    pub fn seamless_absorb(node: *mut Handle, octets: *const u8, count: usize) -> u32;
}
