//! Work requests and completions.

use crate::error::{Error, known};
use crate::ffi;
use crate::names::{LocalRange, RemoteAddress};
use crate::words::{CompletionKind, CompletionStatus};
use std::ops::{BitOr, BitOrAssign};

const SIGNALED: u32 = 1;
const FENCE: u32 = 2;
const HAS_IMM: u32 = 4;

/// What may be done with a memory region.
///
/// ```
/// use jichurpa::Rights;
///
/// let rights = Rights::LOCAL_WRITE | Rights::REMOTE_WRITE;
/// assert!(rights.contains(Rights::REMOTE_WRITE));
/// assert!(!rights.contains(Rights::REMOTE_READ));
/// ```
#[derive(Clone, Copy, Debug, Default, PartialEq, Eq, Hash)]
pub struct Rights(u32);

impl Rights {
    /// Nothing, but that its owner may read it by work requests.
    pub const NONE: Rights = Rights(0);
    /// Work requests of its owner may write to it: receives, READs and atomics.
    pub const LOCAL_WRITE: Rights = Rights(1);
    /// A partner may write to it.
    pub const REMOTE_WRITE: Rights = Rights(2);
    /// A partner may read it.
    pub const REMOTE_READ: Rights = Rights(4);
    /// A partner may do atomics on it.
    pub const REMOTE_ATOMIC: Rights = Rights(8);
    /// All of them.
    pub const ALL: Rights = Rights(15);

    /// Whether all of `other` are among them.
    pub fn contains(self, other: Rights) -> bool {
        self.0 & other.0 == other.0
    }

    pub(crate) fn bits(self) -> u32 {
        self.0
    }
}

impl BitOr for Rights {
    type Output = Rights;

    fn bitor(self, other: Rights) -> Rights {
        Rights(self.0 | other.0)
    }
}

impl BitOrAssign for Rights {
    fn bitor_assign(&mut self, other: Rights) {
        self.0 |= other.0;
    }
}

/// What a work request of the send queue does. An atomic is over the eight bytes at an aligned address, which are a number in
/// big-endian order. Its old value lands in `local`, whose length is 8.
#[derive(Clone, Copy, Debug, PartialEq, Eq)]
#[non_exhaustive]
pub enum Operation {
    /// Writes own bytes to the partner's memory.
    Write {
        /// The own bytes.
        local: LocalRange,
        /// Where they go.
        remote: RemoteAddress,
        /// With an immediate, the WRITE completes a receive of the partner's.
        imm: Option<u32>,
    },
    /// Sends own bytes to a receive of the partner's.
    Send {
        /// The own bytes.
        local: LocalRange,
        /// An immediate for the completion of the receive.
        imm: Option<u32>,
    },
    /// Reads the partner's memory.
    Read {
        /// Where the bytes land.
        local: LocalRange,
        /// Where they come from.
        remote: RemoteAddress,
    },
    /// Replaces the word at the partner's where it has a value.
    CompareSwap {
        /// Where the old value lands.
        local: LocalRange,
        /// The word.
        remote: RemoteAddress,
        /// The value that is looked for.
        compare: u64,
        /// The new value.
        swap: u64,
    },
    /// Adds to the word at the partner's.
    FetchAdd {
        /// Where the old value lands.
        local: LocalRange,
        /// The word.
        remote: RemoteAddress,
        /// What is added.
        add: u64,
    },
}

/// A work request of the send queue. It is signaled unless [`unsignaled`](WorkRequest::unsignaled) says otherwise.
///
/// ```
/// use jichurpa::{LocalRange, RemoteAddress, WorkRequest};
///
/// let local = LocalRange { key: 0x01000002, address: 4096, length: 600 };
/// let remote = RemoteAddress { key: 0x02000003, address: 8192 };
/// let request = WorkRequest::write(1, local, remote).fenced();
/// assert_eq!(request.id, 1);
/// assert!(request.fence && request.signaled);
/// ```
#[derive(Clone, Copy, Debug, PartialEq, Eq)]
pub struct WorkRequest {
    /// Handed back in the completion.
    pub id: u64,
    /// What it does.
    pub operation: Operation,
    /// Whether a success gives a completion. An error always does.
    pub signaled: bool,
    /// Whether it waits for all earlier READs and atomics of its queue.
    pub fence: bool,
}

impl WorkRequest {
    /// A signaled request without a fence.
    pub fn new(id: u64, operation: Operation) -> WorkRequest {
        WorkRequest { id, operation, signaled: true, fence: false }
    }

    /// A WRITE.
    pub fn write(id: u64, local: LocalRange, remote: RemoteAddress) -> WorkRequest {
        WorkRequest::new(id, Operation::Write { local, remote, imm: None })
    }

    /// A WRITE with an immediate.
    pub fn write_imm(id: u64, local: LocalRange, remote: RemoteAddress, imm: u32) -> WorkRequest {
        WorkRequest::new(id, Operation::Write { local, remote, imm: Some(imm) })
    }

    /// A SEND.
    pub fn send(id: u64, local: LocalRange) -> WorkRequest {
        WorkRequest::new(id, Operation::Send { local, imm: None })
    }

    /// A SEND with an immediate.
    pub fn send_imm(id: u64, local: LocalRange, imm: u32) -> WorkRequest {
        WorkRequest::new(id, Operation::Send { local, imm: Some(imm) })
    }

    /// A READ.
    pub fn read(id: u64, local: LocalRange, remote: RemoteAddress) -> WorkRequest {
        WorkRequest::new(id, Operation::Read { local, remote })
    }

    /// A compare-and-swap.
    pub fn compare_swap(
        id: u64,
        local: LocalRange,
        remote: RemoteAddress,
        compare: u64,
        swap: u64,
    ) -> WorkRequest {
        WorkRequest::new(id, Operation::CompareSwap { local, remote, compare, swap })
    }

    /// A fetch-and-add.
    pub fn fetch_add(id: u64, local: LocalRange, remote: RemoteAddress, add: u64) -> WorkRequest {
        WorkRequest::new(id, Operation::FetchAdd { local, remote, add })
    }

    /// The same request, without a completion of its success.
    pub fn unsignaled(mut self) -> WorkRequest {
        self.signaled = false;
        self
    }

    /// The same request, which waits for all earlier READs and atomics of its queue.
    pub fn fenced(mut self) -> WorkRequest {
        self.fence = true;
        self
    }

    pub(crate) fn to_ffi(self) -> ffi::Request {
        let mut request = ffi::Request { id: self.id, ..ffi::Request::default() };
        request.flags = if self.signaled { SIGNALED } else { 0 } | if self.fence { FENCE } else { 0 };
        match self.operation {
            Operation::Write { local, remote, imm } => request.with(1, local).at(remote).carrying(imm),
            Operation::Send { local, imm } => request.with(2, local).carrying(imm),
            Operation::Read { local, remote } => request.with(3, local).at(remote),
            Operation::CompareSwap { local, remote, compare, swap } => {
                ffi::Request { compare, swap_add: swap, ..request.with(4, local).at(remote) }
            }
            Operation::FetchAdd { local, remote, add } => {
                ffi::Request { swap_add: add, ..request.with(5, local).at(remote) }
            }
        }
    }
}

impl ffi::Request {
    fn with(self, kind: u32, local: LocalRange) -> ffi::Request {
        ffi::Request { kind, local: local.address, local_key: local.key, length: local.length, ..self }
    }

    fn at(self, remote: RemoteAddress) -> ffi::Request {
        ffi::Request { remote: remote.address, remote_key: remote.key, ..self }
    }

    fn carrying(self, imm: Option<u32>) -> ffi::Request {
        match imm {
            Some(imm) => ffi::Request { imm, flags: self.flags | HAS_IMM, ..self },
            None => self,
        }
    }
}

/// A work request of the receive queue: where a message lands.
///
/// ```
/// use jichurpa::*;
///
/// // A context sends to another one of the same device, so that each datagram goes back to the device.
/// let mut device = Device::new(1, "10.0.0.1:4791".parse()?)?;
/// let mut ends = Vec::new();
/// for name in ["a", "b"] {
///     let context = device.make_context(name)?;
///     let domain = device.make_domain(context, "d")?;
///     let region = device.make_region(domain, "r", 4096, 64, Rights::LOCAL_WRITE)?;
///     let cq = device.make_completion_queue(context, "c", 16)?;
///     ends.push((region, cq, device.make_queue_pair(domain, "q", QueuePairOptions::new(cq))?));
/// }
/// let [(from, _, a), (to, cq, b)] = ends[..] else { unreachable!("there are two") };
/// device.connect(a, Partner::new(b, device.address()), Terms::default())?;
/// device.connect(b, Partner::new(a, device.address()), Terms::default())?;
///
/// device.post_recv(b, &Receive { id: 9, local: to.range(4096, 64) })?;
/// device.store(from, 4096, b"hello")?;
/// device.post_send(a, &WorkRequest::send_imm(1, from.range(4096, 5), 42))?;
/// device.transmit(a)?;
/// while let Some(datagram) = device.sent().next() {
///     let _ = device.arrive(device.address(), &datagram.bytes)?;
/// }
/// let told = device.poll(cq, 1)?[0];
/// assert_eq!((told.id, told.kind, told.length, told.imm), (9, CompletionKind::Recv, 5, Some(42)));
/// assert_eq!(device.load(to, 4096, 5)?, b"hello");
/// # Ok::<(), Box<dyn std::error::Error>>(())
/// ```
#[derive(Clone, Copy, Debug, PartialEq, Eq)]
pub struct Receive {
    /// Handed back in the completion.
    pub id: u64,
    /// The place.
    pub local: LocalRange,
}

impl Receive {
    pub(crate) fn to_ffi(self) -> ffi::Receive {
        let LocalRange { key, address, length } = self.local;
        ffi::Receive { id: self.id, local: address, local_key: key, length }
    }
}

/// A work completion.
#[derive(Clone, Copy, Debug, PartialEq, Eq)]
pub struct Completion {
    /// That of the request or receive.
    pub id: u64,
    /// The number of the queue pair.
    pub qp: u32,
    /// What is finished.
    pub kind: CompletionKind,
    /// How it ended.
    pub status: CompletionStatus,
    /// The bytes of the message after a success, and else 0.
    pub length: u32,
    /// The immediate that the message brought.
    pub imm: Option<u32>,
}

impl Completion {
    pub(crate) fn of(completion: &ffi::Completion) -> Result<Completion, Error> {
        Ok(Completion {
            id: completion.id,
            qp: completion.qp,
            kind: known("the kind of a completion", completion.kind, CompletionKind::of)?,
            status: known("the status of a completion", completion.status, CompletionStatus::of)?,
            length: completion.length,
            imm: (completion.flags & HAS_IMM != 0).then_some(completion.imm),
        })
    }
}

#[cfg(test)]
mod tests {
    use super::*;

    const LOCAL: LocalRange = LocalRange { key: 0x0100_0002, address: 4096, length: 600 };
    const REMOTE: RemoteAddress = RemoteAddress { key: 0x0200_0003, address: 8192 };

    /// What all requests over these two places have.
    fn placed(kind: u32, flags: u32) -> ffi::Request {
        ffi::Request {
            id: 7,
            local: 4096,
            remote: 8192,
            kind,
            length: 600,
            local_key: 0x0100_0002,
            remote_key: 0x0200_0003,
            flags,
            ..ffi::Request::default()
        }
    }

    #[test]
    fn requests_fill_the_fields_of_their_kind() {
        assert_eq!(WorkRequest::write(7, LOCAL, REMOTE).to_ffi(), placed(1, 1));
        assert_eq!(WorkRequest::read(7, LOCAL, REMOTE).unsignaled().fenced().to_ffi(), placed(3, 2));
        let swap = WorkRequest::compare_swap(7, LOCAL, REMOTE, 5, 6).to_ffi();
        assert_eq!(swap, ffi::Request { compare: 5, swap_add: 6, ..placed(4, 1) });
        let add = WorkRequest::fetch_add(7, LOCAL, REMOTE, 9).to_ffi();
        assert_eq!(add, ffi::Request { swap_add: 9, ..placed(5, 1) });
    }

    #[test]
    fn a_send_has_no_remote_place() {
        let sent = WorkRequest::send(7, LOCAL).to_ffi();
        assert_eq!(sent, ffi::Request { remote: 0, remote_key: 0, ..placed(2, 1) });
    }

    #[test]
    fn an_immediate_has_a_flag() {
        let write = WorkRequest::write_imm(7, LOCAL, REMOTE, 42).to_ffi();
        assert_eq!(write, ffi::Request { imm: 42, ..placed(1, 5) });
        let sent = WorkRequest::send_imm(7, LOCAL, 0).unsignaled().to_ffi();
        assert_eq!((sent.imm, sent.flags), (0, 4));
    }

    #[test]
    fn completions_are_read_by_their_numbers() {
        let told = ffi::Completion { id: 9, qp: 0x02_0001, kind: 7, status: 0, length: 4, imm: 42, flags: 4 };
        let completion = Completion::of(&told).unwrap();
        assert_eq!(completion.kind, CompletionKind::RecvImm);
        assert_eq!(completion.status, CompletionStatus::Success);
        assert_eq!(completion.imm, Some(42));
        let flushed = ffi::Completion { kind: 2, status: 5, imm: 42, flags: 0, ..told };
        assert_eq!(Completion::of(&flushed).unwrap().imm, None);
        let unknown = ffi::Completion { status: 2, ..told };
        let error = Error::Unknown { what: "the status of a completion", number: 2 };
        assert_eq!(Completion::of(&unknown), Err(error));
    }
}
