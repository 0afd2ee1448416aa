//! The timers of one queue pair. They are set and cleared by what is told of it, and by nothing else.

use crate::readers::QueuePairInfo;
use crate::udp::Timing;
use crate::words::State;
use std::time::Instant;

/// How often the time of the retransmission timer is doubled at most: up to 16 times its base.
const MOST_DOUBLINGS: u32 = 4;

/// What is to be done for a timer that is due.
#[derive(Clone, Copy, Debug, PartialEq, Eq)]
pub(crate) enum Due {
    /// The retransmission timer expired with packets in flight.
    Expire,
    /// It expired with a RESUME unanswered, which is sent again.
    Resume,
    /// The RNR timer expired.
    RnrOver,
}

/// The timers of one queue pair, and what was told of it when they were set.
#[derive(Clone, Debug)]
pub(crate) struct Timers {
    retransmission: Option<Instant>,
    doublings: u32,
    rnr: Option<Instant>,
    una: u64,
    state: State,
}

impl Timers {
    /// The timers of a queue pair for which nothing was sent yet.
    pub(crate) fn new(info: &QueuePairInfo) -> Timers {
        Timers { retransmission: None, doublings: 0, rnr: None, una: info.una, state: info.state }
    }

    /// Takes note of what is told of the queue pair now.
    ///
    /// The retransmission timer is set when something is in flight where nothing was, and set anew where the oldest
    /// unacknowledged number moved, which each acknowledgement and each response that is taken does. Where the state
    /// changed, it begins anew with its base.
    pub(crate) fn observe(&mut self, info: &QueuePairInfo, now: Instant, timing: &Timing) {
        if info.una > self.una || info.state != self.state {
            self.doublings = 0;
            self.retransmission = None;
        }
        self.una = info.una;
        self.state = info.state;
        if info.in_flight {
            self.set(now, timing);
        } else if info.state != State::Resuming {
            self.retransmission = None;
        }
        if info.rnr_wait {
            self.rnr.get_or_insert(now + timing.rnr_wait);
        } else {
            self.rnr = None;
        }
    }

    /// A RESUME was sent.
    pub(crate) fn resume_sent(&mut self, now: Instant, timing: &Timing) {
        self.set(now, timing);
    }

    /// Whether the queue pair may be asked to send: a Resuming one only where no RESUME is unanswered.
    pub(crate) fn may_send(&self, info: &QueuePairInfo) -> bool {
        info.may_send && (info.state != State::Resuming || self.retransmission.is_none())
    }

    /// When the next timer is due.
    pub(crate) fn next(&self) -> Option<Instant> {
        [self.retransmission, self.rnr].into_iter().flatten().min()
    }

    /// A timer that is due, which is cleared. The time of the next retransmission timer is doubled.
    pub(crate) fn take_due(&mut self, now: Instant) -> Option<Due> {
        if self.rnr.is_some_and(|at| at <= now) {
            self.rnr = None;
            return Some(Due::RnrOver);
        }
        if self.retransmission.is_none_or(|at| at > now) {
            return None;
        }
        self.retransmission = None;
        self.doublings = (self.doublings + 1).min(MOST_DOUBLINGS);
        Some(if self.state == State::Resuming { Due::Resume } else { Due::Expire })
    }

    fn set(&mut self, now: Instant, timing: &Timing) {
        self.retransmission.get_or_insert(now + timing.retransmission * (1 << self.doublings));
    }
}

#[cfg(test)]
mod tests {
    use super::*;
    use crate::ffi;
    use std::time::Duration;

    const TIMING: Timing =
        Timing { retransmission: Duration::from_millis(100), rnr_wait: Duration::from_millis(30) };

    /// What is told of a queue pair with numbers from `una` up to `next` in flight.
    fn told(state: State, una: u64, next: u64) -> QueuePairInfo {
        let running = state == State::Running;
        let end = ffi::End {
            state: state as u32,
            una,
            next,
            in_flight: u32::from(running && una < next),
            may_send: u32::from(running || state == State::Resuming),
            ..ffi::End::default()
        };
        QueuePairInfo::of(ffi::OK, &end).unwrap()
    }

    fn running(una: u64, next: u64) -> QueuePairInfo {
        told(State::Running, una, next)
    }

    /// Timers, and a clock in milliseconds from when they were made.
    struct Bench {
        begin: Instant,
        timers: Timers,
    }

    impl Bench {
        fn new(info: &QueuePairInfo) -> Bench {
            Bench { begin: Instant::now(), timers: Timers::new(info) }
        }

        fn at(&self, milliseconds: u64) -> Instant {
            self.begin + Duration::from_millis(milliseconds)
        }

        fn observe(&mut self, milliseconds: u64, info: &QueuePairInfo) {
            self.timers.observe(info, self.at(milliseconds), &TIMING);
        }

        fn next(&self) -> Option<u64> {
            self.timers.next().map(|at| (at - self.begin).as_millis() as u64)
        }

        fn due(&mut self, milliseconds: u64) -> Option<Due> {
            self.timers.take_due(self.at(milliseconds))
        }
    }

    #[test]
    fn it_is_set_when_something_is_sent_from_nothing_in_flight() {
        let mut bench = Bench::new(&running(5, 5));
        bench.observe(0, &running(5, 5));
        assert_eq!(bench.next(), None);
        bench.observe(10, &running(5, 6));
        assert_eq!(bench.next(), Some(110));
    }

    #[test]
    fn later_packets_and_what_is_heard_do_not_set_it_anew() {
        let mut bench = Bench::new(&running(5, 5));
        for milliseconds in [10, 20, 60, 109] {
            bench.observe(milliseconds, &running(5, 6 + milliseconds));
        }
        assert_eq!(bench.next(), Some(110));
        assert_eq!(bench.due(109), None);
        assert_eq!(bench.due(110), Some(Due::Expire));
    }

    #[test]
    fn an_acknowledgement_that_moves_the_oldest_number_sets_it_anew() {
        let mut bench = Bench::new(&running(5, 5));
        bench.observe(10, &running(5, 8));
        bench.observe(50, &running(6, 8));
        assert_eq!(bench.next(), Some(150));
        bench.observe(70, &running(8, 8));
        assert_eq!(bench.next(), None);
    }

    #[test]
    fn it_is_doubled_at_each_expiry_up_to_16_times() {
        let mut bench = Bench::new(&running(5, 5));
        let mut now = 0;
        for wanted in [100, 200, 400, 800, 1600, 1600] {
            bench.observe(now, &running(5, 6));
            assert_eq!(bench.next(), Some(now + wanted));
            now += wanted;
            assert_eq!(bench.due(now), Some(Due::Expire));
            bench.observe(now, &running(5, 5));
            assert_eq!(bench.next(), None);
        }
        bench.observe(now, &running(5, 6));
        bench.observe(now + 1, &running(6, 7));
        assert_eq!(bench.next(), Some(now + 101));
    }

    #[test]
    fn a_wait_for_a_receive_has_a_timer_of_its_own() {
        let mut bench = Bench::new(&running(5, 5));
        bench.observe(0, &running(5, 6));
        let waits = QueuePairInfo { rnr_wait: true, in_flight: false, may_send: false, ..running(5, 5) };
        bench.observe(10, &waits);
        bench.observe(20, &waits);
        assert_eq!(bench.next(), Some(40));
        assert_eq!(bench.due(39), None);
        assert_eq!(bench.due(40), Some(Due::RnrOver));
        bench.observe(40, &running(5, 6));
        assert_eq!(bench.next(), Some(140));
    }

    #[test]
    fn resume_is_sent_again_by_the_same_timer() {
        let resuming = told(State::Resuming, 5, 5);
        let mut bench = Bench::new(&resuming);
        bench.observe(0, &resuming);
        assert!(bench.timers.may_send(&resuming));
        bench.timers.resume_sent(bench.at(0), &TIMING);
        bench.observe(50, &resuming);
        assert!(!bench.timers.may_send(&resuming));
        assert_eq!(bench.due(100), Some(Due::Resume));
        assert!(bench.timers.may_send(&resuming));
        bench.timers.resume_sent(bench.at(100), &TIMING);
        assert_eq!(bench.next(), Some(300));
        bench.observe(150, &running(5, 5));
        assert_eq!(bench.next(), None);
        bench.observe(150, &running(5, 6));
        assert_eq!(bench.next(), Some(250));
    }

    #[test]
    fn nothing_expires_while_the_partner_moves() {
        let mut bench = Bench::new(&running(5, 5));
        bench.observe(0, &running(5, 6));
        bench.observe(10, &told(State::Paused, 5, 6));
        assert_eq!(bench.next(), None);
        assert_eq!(bench.due(1000), None);
    }
}
