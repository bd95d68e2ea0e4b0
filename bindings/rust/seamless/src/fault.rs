//! Why a call does nothing.
use std::error::Error;
use std::fmt;

/// Why a call does nothing. No call changes the node where it answers one.
#[derive(Clone, Copy, Debug, PartialEq, Eq)]
pub enum Fault {
    /// The octets are no frame that the port takes, or that the host may send.
    Unread,
    /// The frame has no tag, and the port asks for one.
    Untagged,
    /// 1024 other sources were heard within 400 ms.
    TableFull,
    /// 256 frames wait at a port that would get this one.
    OutboxFull,
    /// An allocation failed.
    NoMemory,
    /// A network or a key that there is not.
    Argument,
    /// The octets are no snapshot.
    Snapshot,
    /// What two nodes have noted of a source is 32768 numbers apart.
    Apart,
    /// The processor is older than x86-64-v2.
    Processor,
    /// The library has another interface than this crate was written for.
    Interface,
}

impl fmt::Display for Fault {
    fn fmt(&self, f: &mut fmt::Formatter<'_>) -> fmt::Result {
        f.write_str(match self {
            Fault::Unread => "the frame is not read",
            Fault::Untagged => "the frame has no tag",
            Fault::TableFull => "the table of sources is full",
            Fault::OutboxFull => "an outbox is full",
            Fault::NoMemory => "out of memory",
            Fault::Argument => "there is no such network or key",
            Fault::Snapshot => "the octets are no snapshot",
            Fault::Apart => "two records of a source are 32768 apart",
            Fault::Processor => "the processor is older than x86-64-v2",
            Fault::Interface => "the library has another interface",
        })
    }
}

impl Error for Fault {}

/// The answer of a call, or the fault that it stands for.
pub(crate) fn taken(answer: u32) -> Result<u32, Fault> {
    match answer {
        0..=256 => Ok(answer),
        257 => Err(Fault::Unread),
        258 => Err(Fault::Untagged),
        259 => Err(Fault::TableFull),
        260 => Err(Fault::OutboxFull),
        261 => Err(Fault::NoMemory),
        262 => Err(Fault::Argument),
        265 => Err(Fault::Snapshot),
        267 => Err(Fault::Apart),
        268 => Err(Fault::Processor),
        _ => Err(Fault::Interface),
    }
}
