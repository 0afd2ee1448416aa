//! A software RDMA device (RoCEv2, reliable connections) whose contexts can be stopped, carried as bytes and restored on
//! another device, also in the middle of a transfer. This crate has safe types over the C library `jichurpa`.
//!
//! A [`Device`] has no socket, no clock and no thread. Its owner hands it what happens: what applications ask, datagrams that
//! arrive, and timers that expire. It answers, and gives the datagrams that are to be sent. With the feature `udp` there is a
//! driver that does so over a UDP socket.
//!
//! What an application owns is a *context*: protection domains, memory regions, completion queues and queue pairs. They are
//! named by small values ([`Context`], [`Region`], [`QueuePair`] ..), which stay right when the context moves.
//!
//! # A WRITE
//!
//! Context `a` on one device writes eight bytes to the memory of context `b` on another one:
//!
//! ```
//! use jichurpa::*;
//!
//! /// A context with a region of 64 bytes at 4096, a completion queue and a queue pair.
//! fn application(device: &mut Device, name: &str) -> Result<(Region, CompletionQueue, QueuePair), Error> {
//!     let context = device.make_context(name)?;
//!     let domain = device.make_domain(context, "d")?;
//!     let region = device.make_region(domain, "r", 4096, 64, Rights::ALL)?;
//!     let cq = device.make_completion_queue(context, "c", 16)?;
//!     let qp = device.make_queue_pair(domain, "q", QueuePairOptions::new(cq))?;
//!     Ok((region, cq, qp))
//! }
//!
//! /// Hands on the datagrams of the last step of one device to another one.
//! fn carry(from: &mut Device, to: &mut Device) -> Result<(), Error> {
//!     let source = from.address();
//!     for datagram in from.sent() {
//!         let _ = to.arrive(source, &datagram.bytes)?;
//!     }
//!     Ok(())
//! }
//!
//! let mut one = Device::new(1, "10.0.0.1:4791".parse()?)?;
//! let mut two = Device::new(2, "10.0.0.2:4791".parse()?)?;
//! let (from, cq, a) = application(&mut one, "a")?;
//! let (to, _, b) = application(&mut two, "b")?;
//! let terms = Terms { own_start: 100, peer_start: 200, ..Terms::default() };
//! one.connect(a, Partner::new(b, two.address()), terms)?;
//! two.connect(b, Partner::new(a, one.address()), terms.exchanged())?;
//!
//! one.store(from, 4096, b"contents")?;
//! one.post_send(a, &WorkRequest::write(7, from.range(4096, 8), to.remote(4100)))?;
//! assert_eq!(one.transmit(a)?, Transmitted::Sent);
//! carry(&mut one, &mut two)?; // the packet
//! carry(&mut two, &mut one)?; // its acknowledgement
//!
//! let done = one.poll(cq, 1)?;
//! assert_eq!((done[0].id, done[0].status), (7, CompletionStatus::Success));
//! assert_eq!(two.load(to, 4100, 8)?, b"contents");
//! # Ok::<(), Box<dyn std::error::Error>>(())
//! ```
//!
//! # A move
//!
//! [`Device::stop`] takes a context off its device as an [`Image`], which is read as bytes and decoded where it is needed, and
//! [`Device::restore`] puts it on another device. Its queue pairs tell their partners, and transfers go on where they stood.
//!
//! # Building
//!
//! The build script links the library in the folder that `JICHURPA_LIB_DIR` names, or else the one that pkg-config finds.

mod answers;
mod connection;
mod device;
mod error;
mod ffi;
mod image;
mod names;
mod readers;
mod requests;
#[cfg(feature = "udp")]
mod timers;
#[cfg(feature = "udp")]
pub mod udp;
mod words;

pub use answers::{Arrival, ArrivalEffect, Datagram, Expiry, SentInto, Transmitted};
pub use connection::{Mtu, Partner, QueuePairOptions, Terms};
pub use device::{Device, Sent};
pub use error::{DumpFault, Error, RestoreError};
pub use image::{DumpReader, Image};
pub use names::{
    CompletionQueue, Context, Domain, Keys, LocalRange, NameError, QueuePair, Region, RemoteAddress,
};
pub use readers::{Contexts, Marks, QueuePairInfo, QueuePairs};
pub use requests::{Completion, Operation, Receive, Rights, WorkRequest};
pub use words::{
    CompletionKind, CompletionStatus, DropReason, FaultReason, NotCounted, Refusal, RefusalReason, State,
};

/// Bytes of a datagram that a device sends, at most.
pub const MAX_DATAGRAM: usize = ffi::MAX_DATAGRAM;
/// The first address of a region, at most.
pub const MAX_BASE: u64 = 1 << 63;
/// Bytes of a region, at most.
pub const MAX_REGION: u32 = 16_777_216;
/// Entries of a completion queue, at most.
pub const MAX_CAPACITY: u32 = ffi::MAX_CAPACITY as u32;
/// Requests of a queue of a queue pair, at most.
pub const MAX_DEPTH: u32 = 256;
/// Bytes of a message, at most.
pub const MAX_MESSAGE: u32 = 1_048_576;
/// The number of a queue pair, at most.
pub const MAX_QP_NUMBER: u32 = 0xff_ffff;
/// A packet sequence number, at most.
pub const MAX_PSN: u32 = 0xff_ffff;
/// The UDP port of RoCEv2.
pub const PORT: u16 = 4791;
