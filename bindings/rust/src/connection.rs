//! What a queue pair is made with, and what its connection agrees on.

use crate::ffi;
use crate::names::{CompletionQueue, QueuePair};
use std::net::SocketAddrV4;

/// Bytes of payload of a packet.
#[derive(Clone, Copy, Debug, Default, PartialEq, Eq, PartialOrd, Ord, Hash)]
pub enum Mtu {
    /// 256 bytes.
    Bytes256 = 256,
    /// 512 bytes.
    Bytes512 = 512,
    /// 1,024 bytes.
    #[default]
    Bytes1024 = 1024,
    /// 2,048 bytes.
    Bytes2048 = 2048,
    /// 4,096 bytes.
    Bytes4096 = 4096,
}

/// The completion queues and the depths of a new queue pair.
#[derive(Clone, Copy, Debug, PartialEq, Eq)]
pub struct QueuePairOptions {
    /// Where requests complete.
    pub send_cq: CompletionQueue,
    /// Where receives complete.
    pub recv_cq: CompletionQueue,
    /// Unfinished requests at most, from 1 to [`MAX_DEPTH`](crate::MAX_DEPTH).
    pub send_depth: u32,
    /// Unused receives at most, from 1 to [`MAX_DEPTH`](crate::MAX_DEPTH).
    pub recv_depth: u32,
}

impl QueuePairOptions {
    /// One completion queue for both, and depths of 64.
    pub fn new(cq: CompletionQueue) -> QueuePairOptions {
        QueuePairOptions { send_cq: cq, recv_cq: cq, send_depth: 64, recv_depth: 64 }
    }
}

/// The other end of a connection: its queue pair's number, and where its device gets its datagrams.
#[derive(Clone, Copy, Debug, PartialEq, Eq, Hash)]
pub struct Partner {
    /// The number of its queue pair.
    pub number: u32,
    /// The address of its device.
    pub address: SocketAddrV4,
}

impl Partner {
    /// A queue pair at an address.
    pub fn new(qp: QueuePair, address: SocketAddrV4) -> Partner {
        Partner { number: qp.number(), address }
    }
}

/// What both ends of a connection agree on.
///
/// ```
/// use jichurpa::{Mtu, Terms};
///
/// let terms = Terms { mtu: Mtu::Bytes256, own_start: 100, peer_start: 200, ..Terms::default() };
/// let partners = terms.exchanged();
/// assert_eq!((partners.own_start, partners.peer_start), (200, 100));
/// ```
#[derive(Clone, Copy, Debug, PartialEq, Eq)]
pub struct Terms {
    /// Bytes of payload of a packet.
    pub mtu: Mtu,
    /// The packet sequence number of this end's first packet, at most [`MAX_PSN`](crate::MAX_PSN).
    pub own_start: u32,
    /// That of the partner's.
    pub peer_start: u32,
    /// Expiries in a row that are allowed, 0 to 7.
    pub retry: u8,
    /// Waits for a receive in a row that are allowed, 0 to 7; 7 is without limit.
    pub rnr: u8,
    /// READs and atomics in flight, 1 to 16.
    pub reads: u8,
}

impl Default for Terms {
    /// Packets of 1,024 bytes, both starts 0, seven expiries, waits without limit, 16 READs and atomics.
    fn default() -> Terms {
        Terms { mtu: Mtu::default(), own_start: 0, peer_start: 0, retry: 7, rnr: 7, reads: 16 }
    }
}

impl Terms {
    /// The terms of the partner: the same with the two starts exchanged.
    pub fn exchanged(self) -> Terms {
        Terms { own_start: self.peer_start, peer_start: self.own_start, ..self }
    }

    pub(crate) fn to_ffi(self) -> ffi::Terms {
        ffi::Terms {
            mtu: self.mtu as u32,
            own_start: self.own_start,
            peer_start: self.peer_start,
            retry: self.retry,
            rnr: self.rnr,
            reads: self.reads,
            reserved: 0,
        }
    }
}
