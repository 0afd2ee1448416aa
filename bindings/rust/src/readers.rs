//! What a device and an image tell of their contexts and queue pairs.

use crate::device::Device;
use crate::ffi;
use crate::names::{Context, QueuePair};
use crate::words::State;

/// What is told of a queue pair. Of one in Init all numbers are 0 but its own.
#[derive(Clone, Copy, Debug, PartialEq, Eq)]
#[non_exhaustive]
pub struct QueuePairInfo {
    /// The queue pair.
    pub qp: QueuePair,
    /// Its state.
    pub state: State,
    /// The number of the partner's queue pair.
    pub peer: u32,
    /// The oldest unacknowledged packet number. Packets of a connection are counted from 0.
    pub una: u64,
    /// The next packet number to send. Packets are in flight where `una < next`.
    pub next: u64,
    /// The packet number behind the last posted request. Something is unsent where `next < last`.
    pub last: u64,
    /// Posted requests that are not finished for their owner.
    pub outstanding: u32,
    /// How often it moved.
    pub moves: u32,
    /// The `rnr` of its terms.
    pub rnr: u32,
    /// Whether it waits for the RNR timer.
    pub rnr_wait: bool,
    /// Whether [`Device::transmit`] may send now. The window, the READs in flight or a fence may still hold it.
    pub may_send: bool,
    /// Whether an expiry counts: it is Running, does not wait for the RNR timer, and packets are in flight.
    pub in_flight: bool,
}

impl QueuePairInfo {
    /// What the library tells, where it answers OK with a state that there is.
    pub(crate) fn of(code: ffi::Code, end: &ffi::End) -> Option<QueuePairInfo> {
        if code != ffi::OK {
            return None;
        }
        Some(QueuePairInfo {
            qp: QueuePair { object: end.name, number: end.number },
            state: State::of(end.state)?,
            peer: end.peer,
            una: end.una,
            next: end.next,
            last: end.last,
            outstanding: end.untold,
            moves: end.moves,
            rnr: end.rnr,
            rnr_wait: end.rnr_wait != 0,
            may_send: end.may_send != 0,
            in_flight: end.in_flight != 0,
        })
    }
}

/// Of a connected queue pair, by which a network that keeps datagrams tells which are too old: a request with packet number
/// n is too old where n + 4,194,304 < `expected`, a response where n + 4,194,304 < `top`.
#[derive(Clone, Copy, Debug, PartialEq, Eq)]
pub struct Marks {
    /// The packet number that it expects next of its partner.
    pub expected: u64,
    /// The packet number behind the highest that it sent.
    pub top: u64,
}

/// The live contexts of a device, in the order in which they came.
#[derive(Clone, Debug)]
pub struct Contexts<'a> {
    pub(crate) device: &'a Device,
    pub(crate) place: usize,
}

impl Iterator for Contexts<'_> {
    type Item = Context;

    fn next(&mut self) -> Option<Context> {
        let context = self.device.context_at(self.place)?;
        self.place += 1;
        Some(context)
    }
}

/// The queue pairs of a live context, in the order of making.
#[derive(Clone, Debug)]
pub struct QueuePairs<'a> {
    pub(crate) device: &'a Device,
    pub(crate) context: Context,
    pub(crate) place: usize,
}

impl Iterator for QueuePairs<'_> {
    type Item = QueuePairInfo;

    fn next(&mut self) -> Option<QueuePairInfo> {
        let info = self.device.queue_pair_at(self.context, self.place)?;
        self.place += 1;
        Some(info)
    }
}

#[cfg(test)]
mod tests {
    use super::*;

    #[test]
    fn what_is_told_needs_a_state() {
        let end =
            ffi::End { state: 4, number: 0x01_0001, untold: 2, may_send: 1, moves: 3, ..ffi::End::default() };
        let info = QueuePairInfo::of(ffi::OK, &end).unwrap();
        assert_eq!((info.state, info.qp.number(), info.outstanding), (State::Resuming, 0x01_0001, 2));
        assert!(info.may_send && !info.in_flight && !info.rnr_wait);
        assert_eq!(QueuePairInfo::of(ffi::NONE, &end), None);
        assert_eq!(QueuePairInfo::of(ffi::OK, &ffi::End { state: 6, ..end }), None);
    }
}
