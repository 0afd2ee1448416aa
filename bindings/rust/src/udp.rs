//! A device over a UDP socket, with its timers.
//!
//! ```
//! use jichurpa::udp::Driver;
//! use jichurpa::*;
//! use std::net::{SocketAddr, UdpSocket};
//! use std::time::Duration;
//!
//! /// A device on a free port of loopback, with a context that has a region, a completion queue and a queue pair.
//! fn node(id: u8, name: &str) -> Result<(Driver, Region, CompletionQueue, QueuePair), Box<dyn std::error::Error>> {
//!     let socket = UdpSocket::bind("127.0.0.1:0")?;
//!     let SocketAddr::V4(address) = socket.local_addr()? else { return Err("not over IPv4".into()) };
//!     let mut device = Device::new(id, address)?;
//!     let context = device.make_context(name)?;
//!     let domain = device.make_domain(context, "d")?;
//!     let region = device.make_region(domain, "r", 4096, 64, Rights::ALL)?;
//!     let cq = device.make_completion_queue(context, "c", 16)?;
//!     let qp = device.make_queue_pair(domain, "q", QueuePairOptions::new(cq))?;
//!     Ok((Driver::new(device, socket)?, region, cq, qp))
//! }
//!
//! // Here both are in one thread. In different processes, applications tell each other keys, numbers and addresses by
//! // other means.
//! let (mut one, from, cq, a) = node(1, "a")?;
//! let (mut two, to, _, b) = node(2, "b")?;
//! one.device_mut().connect(a, Partner::new(b, two.device().address()), Terms::default())?;
//! two.device_mut().connect(b, Partner::new(a, one.device().address()), Terms::default())?;
//!
//! one.device_mut().store(from, 4096, b"contents")?;
//! one.device_mut().post_send(a, &WorkRequest::write(1, from.range(4096, 8), to.remote(4096)))?;
//! while one.device().info(a).is_some_and(|info| info.outstanding > 0) {
//!     one.poll(Duration::from_millis(1))?;
//!     two.poll(Duration::from_millis(1))?;
//! }
//! assert_eq!(one.device_mut().poll(cq, 1)?[0].status, CompletionStatus::Success);
//! assert_eq!(two.device_mut().load(to, 4096, 8)?, b"contents");
//! # Ok::<(), Box<dyn std::error::Error>>(())
//! ```

use crate::MAX_DATAGRAM;
use crate::answers::Transmitted;
use crate::device::Device;
use crate::error::Error;
use crate::readers::QueuePairInfo;
use crate::timers::{Due, Timers};
use crate::words::State;
use std::collections::{BTreeMap, VecDeque};
use std::fmt;
use std::io::{self, ErrorKind};
use std::net::{SocketAddr, SocketAddrV4, UdpSocket};
use std::time::{Duration, Instant};

/// Datagrams that one call of [`Driver::poll`] takes at most, and packets that it has each queue pair send at most.
const BATCH: usize = 64;

/// Datagrams that are sent before the socket is asked again for some that came.
const BURST: usize = 32;

/// Datagrams that wait to be sent, at most, when others are taken that may be answered by many.
const MOST_WAITING: usize = 4096;

/// A datagram that is received into a buffer of more bytes than any has is cut off, and so is seen to be too long.
const ROOM: usize = MAX_DATAGRAM + 1;

/// The times of the timers.
///
/// ```
/// use jichurpa::udp::Timing;
/// use std::time::Duration;
///
/// let timing = Timing { retransmission: Duration::from_millis(20), ..Timing::default() };
/// assert_eq!(timing.rnr_wait, Duration::from_millis(100));
/// ```
#[derive(Clone, Copy, Debug, PartialEq, Eq)]
pub struct Timing {
    /// The base of the retransmission timer of a queue pair. It is doubled at each expiry, up to 16 times this.
    pub retransmission: Duration,
    /// How long a queue pair waits for a receive of its partner's before it sends again.
    pub rnr_wait: Duration,
}

impl Default for Timing {
    /// 100 milliseconds each.
    fn default() -> Timing {
        Timing { retransmission: Duration::from_millis(100), rnr_wait: Duration::from_millis(100) }
    }
}

/// What a call of [`Driver::poll`] did.
#[derive(Clone, Copy, Debug, Default, PartialEq, Eq)]
#[non_exhaustive]
pub struct Turn {
    /// Datagrams that arrived at the device.
    pub taken: usize,
    /// Datagrams that came and were dropped: longer than any, or not over IPv4.
    pub dropped: usize,
    /// Datagrams that were sent.
    pub sent: usize,
    /// Datagrams that the system did not send, for instance to an address that it does not reach. They are lost, and sent
    /// again by the timers like all that are lost.
    pub lost: usize,
    /// Timers that expired.
    pub expired: usize,
}

/// Why a driver stopped in the middle of a call. It may be called again.
#[derive(Debug)]
#[non_exhaustive]
pub enum DriverError {
    /// The device did not do a step. A datagram that arrived at it then is lost, and sent again by its partner.
    Device(Error),
    /// The socket cannot be read.
    Socket(io::Error),
}

impl fmt::Display for DriverError {
    fn fmt(&self, out: &mut fmt::Formatter<'_>) -> fmt::Result {
        match self {
            DriverError::Device(error) => write!(out, "the device: {error}"),
            DriverError::Socket(error) => write!(out, "the socket: {error}"),
        }
    }
}

impl std::error::Error for DriverError {
    fn source(&self) -> Option<&(dyn std::error::Error + 'static)> {
        match self {
            DriverError::Device(error) => Some(error),
            DriverError::Socket(error) => Some(error),
        }
    }
}

impl From<Error> for DriverError {
    fn from(error: Error) -> DriverError {
        DriverError::Device(error)
    }
}

impl From<io::Error> for DriverError {
    fn from(error: io::Error) -> DriverError {
        DriverError::Socket(error)
    }
}

/// A datagram that waits for its turn to be sent.
struct Waiting {
    to: SocketAddrV4,
    bytes: Vec<u8>,
}

/// Serves a device over a UDP socket: sends what its queue pairs may send, takes what comes, and keeps the timers.
///
/// Applications act on the device between two calls of [`poll`](Driver::poll), by [`device_mut`](Driver::device_mut).
/// Datagrams for the address of the device have to reach the socket, since partners are told that address after a move.
///
/// Each queue pair has a retransmission timer. It is set when something is sent and nothing was in flight, and set anew only
/// when an acknowledgement or a response moves the oldest unacknowledged number. RNR waits have a timer of their own. RESUME
/// is sent again by the retransmission timer.
///
/// ```
/// use jichurpa::Device;
/// use jichurpa::udp::Driver;
/// use std::net::{SocketAddr, UdpSocket};
/// use std::time::Duration;
///
/// let socket = UdpSocket::bind("127.0.0.1:0")?;
/// let SocketAddr::V4(address) = socket.local_addr()? else { unreachable!("it is bound over IPv4") };
/// let mut driver = Driver::new(Device::new(1, address)?, socket)?;
///
/// let stranger = UdpSocket::bind("127.0.0.1:0")?;
/// stranger.send_to(b"no datagram", address)?;
/// let turn = driver.poll(Duration::from_secs(5))?;
/// assert_eq!((turn.taken, turn.sent), (1, 0));
/// # Ok::<(), Box<dyn std::error::Error>>(())
/// ```
pub struct Driver {
    device: Device,
    socket: UdpSocket,
    timing: Timing,
    /// The timers of the queue pairs that live here, by their numbers.
    timers: BTreeMap<u32, Timers>,
    /// What is told of these queue pairs, in order of making.
    infos: Vec<QueuePairInfo>,
    /// Datagrams that wait, since many were to be sent at once.
    waiting: VecDeque<Waiting>,
    /// Datagrams that were sent since the socket was asked for some that came.
    burst: usize,
    buffer: Box<[u8; ROOM]>,
}

impl Driver {
    /// A driver with the default [`Timing`]. It sets the socket to not blocking.
    pub fn new(device: Device, socket: UdpSocket) -> io::Result<Driver> {
        Driver::with_timing(device, socket, Timing::default())
    }

    /// A driver with these times. It sets the socket to not blocking.
    pub fn with_timing(device: Device, socket: UdpSocket, timing: Timing) -> io::Result<Driver> {
        socket.set_nonblocking(true)?;
        Ok(Driver {
            device,
            socket,
            timing,
            timers: BTreeMap::new(),
            infos: Vec::new(),
            waiting: VecDeque::new(),
            burst: 0,
            buffer: Box::new([0; ROOM]),
        })
    }

    /// The device.
    pub fn device(&self) -> &Device {
        &self.device
    }

    /// The device, for what applications ask of it and for moves. What is posted is sent by the next
    /// [`poll`](Driver::poll), and so are datagrams of the last step that were not read.
    pub fn device_mut(&mut self) -> &mut Device {
        &mut self.device
    }

    /// The socket.
    pub fn socket(&self) -> &UdpSocket {
        &self.socket
    }

    /// The device and the socket. Datagrams that wait to be sent are lost.
    pub fn into_parts(self) -> (Device, UdpSocket) {
        (self.device, self.socket)
    }

    /// One turn: datagrams that came are taken, up to 64, timers that are due expire, and queue pairs send what they may. Where
    /// no datagram was there, it waits for some until the timeout or until a timer is due.
    ///
    /// It looks at each queue pair that lives here.
    pub fn poll(&mut self, timeout: Duration) -> Result<Turn, DriverError> {
        let mut turn = Turn::default();
        let end = Instant::now() + timeout.min(Duration::from_secs(86_400));
        self.receive(&mut turn)?;
        self.serve(&mut turn)?;
        if turn.taken + turn.dropped == 0 && self.waiting.is_empty() {
            self.wait(end, &mut turn)?;
            self.serve(&mut turn)?;
        }
        Ok(turn)
    }

    /// Lets timers that are due expire, and queue pairs send what they may.
    fn serve(&mut self, turn: &mut Turn) -> Result<(), Error> {
        self.flush(turn);
        self.send_all(turn)?;
        self.look();
        if self.expire(turn)? {
            self.look();
        }
        if self.transmit(turn)? {
            self.look();
        }
        Ok(())
    }

    /// Looks at all queue pairs, and has their timers take note.
    fn look(&mut self) {
        let now = Instant::now();
        self.infos.clear();
        for context in self.device.contexts() {
            self.infos.extend(self.device.queue_pairs(context));
        }
        for info in &self.infos {
            let timers = self.timers.entry(info.qp.number()).or_insert_with(|| Timers::new(info));
            timers.observe(info, now, &self.timing);
        }
        if self.timers.len() > self.infos.len() {
            let infos = &self.infos;
            self.timers.retain(|number, _| infos.iter().any(|info| info.qp.number() == *number));
        }
    }

    /// Lets the timers expire that are due. Answers whether there were any.
    fn expire(&mut self, turn: &mut Turn) -> Result<bool, Error> {
        let now = Instant::now();
        let before = turn.expired;
        for info in &self.infos {
            let due = self.timers.get_mut(&info.qp.number()).and_then(|timers| timers.take_due(now));
            match due {
                Some(Due::Expire) => _ = self.device.expire(info.qp)?,
                Some(Due::RnrOver) => _ = self.device.rnr_over(info.qp)?,
                Some(Due::Resume) => (),
                None => continue,
            }
            turn.expired += 1;
        }
        Ok(turn.expired > before)
    }

    /// Has the queue pairs that may send do so, one packet each in turn. Answers whether there were any.
    fn transmit(&mut self, turn: &mut Turn) -> Result<bool, Error> {
        let mut able: Vec<QueuePairInfo> = Vec::new();
        for info in &self.infos {
            if self.timers.get(&info.qp.number()).is_some_and(|timers| timers.may_send(info)) {
                able.push(*info);
            }
        }
        let any = !able.is_empty();
        for _ in 0..BATCH {
            if able.is_empty() || self.waiting.len() >= BATCH {
                break;
            }
            let mut failed = Ok(());
            able.retain(|info| {
                let again = self.transmit_one(info, turn);
                again.unwrap_or_else(|error| {
                    failed = Err(error);
                    false
                })
            });
            failed?;
        }
        Ok(any)
    }

    /// One packet of a queue pair. Answers whether it may be asked again.
    fn transmit_one(&mut self, info: &QueuePairInfo, turn: &mut Turn) -> Result<bool, Error> {
        let sent = self.device.transmit(info.qp)? == Transmitted::Sent;
        self.send_all(turn)?;
        if sent && info.state == State::Resuming {
            let timers = self.timers.entry(info.qp.number()).or_insert_with(|| Timers::new(info));
            timers.resume_sent(Instant::now(), &self.timing);
            return Ok(false);
        }
        Ok(sent)
    }

    /// Sends the datagrams of the last step, or lets them wait where many were sent already.
    fn send_all(&mut self, turn: &mut Turn) -> Result<(), Error> {
        while let Some(sent) = self.device.next_sent(self.buffer.as_mut_slice())? {
            let bytes = &self.buffer[..sent.length];
            let now = self.waiting.is_empty() && self.burst < BURST;
            if !(now && put(&self.socket, bytes, sent.to, turn)) {
                self.waiting.push_back(Waiting { to: sent.to, bytes: bytes.to_vec() });
            }
            self.burst += usize::from(now);
        }
        Ok(())
    }

    /// Sends datagrams that wait, as many as may be sent before the socket is asked again.
    fn flush(&mut self, turn: &mut Turn) {
        while self.burst < BURST {
            let Some(next) = self.waiting.front() else { return };
            if !put(&self.socket, &next.bytes, next.to, turn) {
                return;
            }
            self.burst += 1;
            self.waiting.pop_front();
        }
    }

    /// Takes datagrams that came.
    fn receive(&mut self, turn: &mut Turn) -> Result<(), DriverError> {
        self.burst = 0;
        if self.waiting.len() >= MOST_WAITING {
            return Ok(());
        }
        for _ in 0..BATCH {
            if self.burst >= BURST || !self.receive_one(turn)? {
                break;
            }
        }
        Ok(())
    }

    /// Waits for a datagram until `end` or until a timer is due, and takes it and others that came.
    fn wait(&mut self, end: Instant, turn: &mut Turn) -> Result<(), DriverError> {
        let due = self.timers.values().filter_map(Timers::next).min();
        let wait = due.map_or(end, |due| due.min(end)).saturating_duration_since(Instant::now());
        if wait.is_zero() {
            return Ok(());
        }
        self.socket.set_nonblocking(false)?;
        self.socket.set_read_timeout(Some(wait.max(Duration::from_micros(1))))?;
        let received = self.receive_one(turn);
        self.socket.set_nonblocking(true)?;
        if received? { self.receive(turn) } else { Ok(()) }
    }

    /// Takes a datagram where one is there.
    fn receive_one(&mut self, turn: &mut Turn) -> Result<bool, DriverError> {
        let (length, from) = match self.socket.recv_from(self.buffer.as_mut_slice()) {
            Ok(received) => received,
            Err(error) if is_nothing(error.kind()) => return Ok(false),
            Err(error) => return Err(error.into()),
        };
        match from {
            SocketAddr::V4(from) if length < ROOM => {
                turn.taken += 1;
                let arrival = self.device.arrive(from, &self.buffer[..length])?;
                if arrival.sent > 0 {
                    self.send_all(turn)?;
                }
            }
            _ => turn.dropped += 1,
        }
        Ok(true)
    }
}

impl fmt::Debug for Driver {
    fn fmt(&self, out: &mut fmt::Formatter<'_>) -> fmt::Result {
        let driver = (&self.device, &self.socket, &self.timing);
        out.debug_struct("Driver")
            .field("device", driver.0)
            .field("socket", driver.1)
            .field("timing", driver.2)
            .finish_non_exhaustive()
    }
}

/// Sends a datagram. Answers false where the system has no room for it now, so that it is to be sent later.
fn put(socket: &UdpSocket, bytes: &[u8], to: SocketAddrV4, turn: &mut Turn) -> bool {
    match socket.send_to(bytes, to) {
        Ok(_) => turn.sent += 1,
        Err(error) if error.kind() == ErrorKind::WouldBlock => return false,
        Err(_) => turn.lost += 1,
    }
    true
}

/// Whether a failed receive says only that nothing came, or that an earlier datagram was not delivered.
fn is_nothing(kind: ErrorKind) -> bool {
    matches!(
        kind,
        ErrorKind::WouldBlock
            | ErrorKind::TimedOut
            | ErrorKind::Interrupted
            | ErrorKind::ConnectionReset
            | ErrorKind::ConnectionRefused
    )
}

const _: fn() = || {
    fn sent<T: Send>() {}
    sent::<Driver>();
};
