//! What the steps of a device answer.

use crate::error::{Error, checked, known};
use crate::ffi::{self, answer};
use crate::words::{CompletionStatus, DropReason, NotCounted, Refusal, RefusalReason};
use std::net::SocketAddrV4;

/// What a transmission did.
#[derive(Clone, Copy, Debug, PartialEq, Eq, Hash)]
#[non_exhaustive]
pub enum Transmitted {
    /// A datagram is to be sent. It is the one that [`Device::next_sent`](crate::Device::next_sent) hands out.
    Sent,
    /// Every posted packet is sent.
    Idle,
    /// 64 request packets are unacknowledged.
    WindowFull,
    /// As many READs and atomics as the terms allow are in flight.
    ReadsFull,
    /// The next request waits for earlier READs and atomics.
    Fenced,
    /// The queue pair is Paused, in Error, or waits for the RNR timer.
    Waiting,
}

/// What an arriving datagram did.
#[derive(Clone, Copy, Debug, PartialEq, Eq, Hash)]
#[non_exhaustive]
pub enum ArrivalEffect {
    /// A request was executed, without an answer.
    Acted,
    /// A request was executed and acknowledged.
    Ack,
    /// A READ was answered with bytes, also a repeated one.
    Bytes,
    /// An atomic was answered with the old value, also a repeated one.
    Old,
    /// A request ahead of the expected one was answered by a sequence error NAK.
    SeqNak,
    /// No receive was posted, which was answered by an RNR NAK.
    NotReady,
    /// A repeated SEND or WRITE was acknowledged.
    DupAck,
    /// A request was refused by a NAK, and the queue pair is in Error.
    Refused(RefusalReason),
    /// An acknowledgement of earlier packets.
    Acked,
    /// Bytes or an old value landed.
    Landed,
    /// The queue pair goes back to the oldest unacknowledged packet.
    Rewound,
    /// The queue pair waits for the RNR timer.
    Waits,
    /// The queue pair is in Error, and its oldest request has this status.
    Ended(CompletionStatus),
    /// A husk answered that its context is stopped.
    Stopped,
    /// The partner moves, and the queue pair waits for it.
    Paused,
    /// The partner is heard from its new place.
    Resumed,
    /// A repeated RESUME was acknowledged again.
    ResumeAck,
    /// The partner knows the new place of this queue pair.
    Running,
    /// Nothing was done, and nothing sent.
    Silent(DropReason),
}

impl ArrivalEffect {
    /// The effect that the cause and the detail of an outcome name.
    fn of(cause: u32, detail: u32) -> Result<ArrivalEffect, Error> {
        Ok(match cause {
            1 => ArrivalEffect::Acted,
            2 => ArrivalEffect::Ack,
            3 => ArrivalEffect::Bytes,
            4 => ArrivalEffect::Old,
            5 => ArrivalEffect::SeqNak,
            6 => ArrivalEffect::NotReady,
            7 => ArrivalEffect::DupAck,
            8 => ArrivalEffect::Refused(known("why a request is refused", detail, RefusalReason::of)?),
            9 => ArrivalEffect::Acked,
            10 => ArrivalEffect::Landed,
            11 => ArrivalEffect::Rewound,
            12 => ArrivalEffect::Waits,
            13 => ArrivalEffect::Ended(known("a status", detail, CompletionStatus::of)?),
            14 => ArrivalEffect::Stopped,
            15 => ArrivalEffect::Paused,
            16 => ArrivalEffect::Resumed,
            17 => ArrivalEffect::ResumeAck,
            18 => ArrivalEffect::Running,
            19 => ArrivalEffect::Silent(known("why a datagram is dropped", detail, DropReason::of)?),
            number => return Err(Error::Unknown { what: "what an arrival did", number }),
        })
    }
}

/// An arrival: what it did, and how many datagrams answer it.
#[derive(Clone, Copy, Debug, PartialEq, Eq, Hash)]
#[must_use = "the datagrams that answer it are to be sent"]
pub struct Arrival {
    /// What it did.
    pub effect: ArrivalEffect,
    /// The datagrams that [`Device::next_sent`](crate::Device::next_sent) hands out now.
    pub sent: u64,
}

/// What an expiry of the retransmission timer did.
///
/// ```
/// use jichurpa::*;
///
/// let mut device = Device::new(1, "10.0.0.1:4791".parse()?)?;
/// let a = device.make_context("a")?;
/// let domain = device.make_domain(a, "d")?;
/// let region = device.make_region(domain, "r", 4096, 64, Rights::NONE)?;
/// let cq = device.make_completion_queue(a, "c", 16)?;
/// let qp = device.make_queue_pair(domain, "q", QueuePairOptions::new(cq))?;
/// let partner = Partner { number: 0x020001, address: "10.0.0.2:4791".parse()? };
/// device.connect(qp, partner, Terms { retry: 1, ..Terms::default() })?;
///
/// assert_eq!(device.expire(qp)?, Expiry::NotCounted(NotCounted::Nothing));
/// device.post_send(qp, &WorkRequest::send(1, region.range(4096, 4)))?;
/// device.transmit(qp)?;
/// assert_eq!(device.expire(qp)?, Expiry::Counted(1));
/// device.transmit(qp)?; // sends the same packet again
/// assert_eq!(device.expire(qp)?, Expiry::Spent);
/// assert_eq!(device.poll(cq, 1)?[0].status, CompletionStatus::RetryExceeded);
/// # Ok::<(), Box<dyn std::error::Error>>(())
/// ```
#[derive(Clone, Copy, Debug, PartialEq, Eq, Hash)]
#[non_exhaustive]
pub enum Expiry {
    /// It was counted, as the one of this number in a row. Transmissions send again what is unacknowledged.
    Counted(u64),
    /// The retries are spent, and the queue pair is in Error.
    Spent,
    /// It is not counted.
    NotCounted(NotCounted),
}

/// A datagram that is to be sent.
#[derive(Clone, Debug, PartialEq, Eq)]
pub struct Datagram {
    /// Where to.
    pub to: SocketAddrV4,
    /// Its packet number, where it has one: packets are counted from 0, and the packet sequence number of packet 0 is
    /// `own_start` of the terms.
    pub number: Option<u64>,
    /// Its bytes: the payload of a UDP datagram.
    pub bytes: Vec<u8>,
}

/// A datagram whose bytes were written to a buffer.
#[derive(Clone, Copy, Debug, PartialEq, Eq)]
pub struct SentInto {
    /// Where to.
    pub to: SocketAddrV4,
    /// Its packet number, where it has one: packets are counted from 0, and the packet sequence number of packet 0 is
    /// `own_start` of the terms.
    pub number: Option<u64>,
    /// Its bytes are the first ones of the buffer, so many.
    pub length: usize,
}

/// The outcome of a step, where the step was not refused.
pub(crate) fn answered(code: ffi::Code, outcome: ffi::Outcome) -> Result<ffi::Outcome, Error> {
    checked(code)?;
    if outcome.answer == answer::REFUSED {
        return Err(Error::Refused(known("a refusal", outcome.cause, Refusal::of)?));
    }
    Ok(outcome)
}

/// An answer that does not belong to its step.
fn unknown<T>(outcome: &ffi::Outcome) -> Result<T, Error> {
    Err(Error::Unknown { what: "the answer of a step", number: outcome.answer })
}

impl ffi::Outcome {
    /// The outcome, where it has the answer that belongs to the step.
    pub(crate) fn being(self, answer: u32) -> Result<ffi::Outcome, Error> {
        if self.answer == answer { Ok(self) } else { unknown(&self) }
    }

    pub(crate) fn transmitted(&self) -> Result<Transmitted, Error> {
        Ok(match self.answer {
            answer::SENT => Transmitted::Sent,
            answer::IDLE => Transmitted::Idle,
            answer::WINDOW_FULL => Transmitted::WindowFull,
            answer::READS_FULL => Transmitted::ReadsFull,
            answer::FENCED => Transmitted::Fenced,
            answer::WAITING => Transmitted::Waiting,
            _ => return unknown(self),
        })
    }

    pub(crate) fn arrival(&self) -> Result<Arrival, Error> {
        if self.answer != answer::TOOK {
            return unknown(self);
        }
        Ok(Arrival { effect: ArrivalEffect::of(self.cause, self.detail)?, sent: self.sent })
    }

    pub(crate) fn expiry(&self) -> Result<Expiry, Error> {
        Ok(match self.answer {
            answer::EXPIRED => Expiry::Counted(self.count),
            answer::SPENT => Expiry::Spent,
            answer::NOT_COUNTED => {
                Expiry::NotCounted(known("why an expiry is not counted", self.cause, NotCounted::of)?)
            }
            _ => return unknown(self),
        })
    }

    pub(crate) fn was_waiting(&self) -> Result<bool, Error> {
        match self.answer {
            answer::OVER => Ok(true),
            answer::NOT_WAITING => Ok(false),
            _ => unknown(self),
        }
    }
}

#[cfg(test)]
mod tests {
    use super::*;

    fn outcome(answer: u32, cause: u32, detail: u32, count: u64) -> ffi::Outcome {
        ffi::Outcome { answer, cause, detail, count, sent: count, ..ffi::Outcome::default() }
    }

    #[test]
    fn a_refusal_is_an_error() {
        let refused = answered(ffi::OK, outcome(answer::REFUSED, 12, 0, 0));
        assert_eq!(refused.unwrap_err(), Error::Refused(Refusal::PeerMoving));
        assert_eq!(answered(ffi::NO_MEMORY, outcome(1, 0, 0, 0)).unwrap_err(), Error::NoMemory);
        assert_eq!(answered(ffi::INVALID, outcome(1, 0, 0, 0)).unwrap_err(), Error::Invalid);
        let unknown = Error::Unknown { what: "a refusal", number: 15 };
        assert_eq!(answered(ffi::OK, outcome(answer::REFUSED, 15, 0, 0)).unwrap_err(), unknown);
    }

    #[test]
    fn arrivals_have_their_details() {
        let arrival = outcome(answer::TOOK, 8, 2, 1).arrival().unwrap();
        assert_eq!(arrival, Arrival { effect: ArrivalEffect::Refused(RefusalReason::Access), sent: 1 });
        let ended = outcome(answer::TOOK, 13, 10, 0).arrival().unwrap().effect;
        assert_eq!(ended, ArrivalEffect::Ended(CompletionStatus::RemoteAccess));
        let silent = outcome(answer::TOOK, 19, 1, 0).arrival().unwrap().effect;
        assert_eq!(silent, ArrivalEffect::Silent(DropReason::Malformed));
        assert!(outcome(answer::TOOK, 20, 0, 0).arrival().is_err());
        assert!(outcome(answer::DONE, 1, 0, 0).arrival().is_err());
    }

    #[test]
    fn timers_are_told_apart() {
        assert_eq!(outcome(answer::EXPIRED, 0, 0, 3).expiry(), Ok(Expiry::Counted(3)));
        assert_eq!(outcome(answer::SPENT, 0, 0, 0).expiry(), Ok(Expiry::Spent));
        let rnr = outcome(answer::NOT_COUNTED, 4, 0, 0).expiry();
        assert_eq!(rnr, Ok(Expiry::NotCounted(NotCounted::Rnr)));
        assert_eq!(outcome(answer::OVER, 0, 0, 0).was_waiting(), Ok(true));
        assert_eq!(outcome(answer::NOT_WAITING, 0, 0, 0).was_waiting(), Ok(false));
    }

    #[test]
    fn transmissions_say_why_nothing_is_sent() {
        assert_eq!(outcome(answer::SENT, 0, 0, 0).transmitted(), Ok(Transmitted::Sent));
        assert_eq!(outcome(answer::READS_FULL, 0, 0, 0).transmitted(), Ok(Transmitted::ReadsFull));
        assert!(outcome(answer::TOOK, 0, 0, 0).transmitted().is_err());
    }
}
