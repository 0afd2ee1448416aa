//! Devices over UDP on loopback, with a driver each.

mod common;

use common::*;
use jichurpa::udp::{Driver, Timing, Turn};
use jichurpa::*;
use std::net::{SocketAddr, SocketAddrV4, UdpSocket};
use std::sync::mpsc::{Receiver, Sender, channel};
use std::thread;
use std::time::{Duration, Instant};

/// Times that make the tests short.
const TIMING: Timing =
    Timing { retransmission: Duration::from_millis(20), rnr_wait: Duration::from_millis(10) };

/// How long a test waits for what must come.
const PATIENCE: Duration = Duration::from_secs(60);

const STEP: Duration = Duration::from_millis(5);

/// A socket on loopback, and its address.
fn socket() -> (UdpSocket, SocketAddrV4) {
    let socket = UdpSocket::bind("127.0.0.1:0").unwrap();
    let SocketAddr::V4(address) = socket.local_addr().unwrap() else { panic!("it is bound over IPv4") };
    (socket, address)
}

/// A driver for a device of that id.
fn driver(id: u8) -> Driver {
    driver_with(id, TIMING)
}

fn driver_with(id: u8, timing: Timing) -> Driver {
    let (socket, address) = socket();
    Driver::with_timing(Device::new(id, address).unwrap(), socket, timing).unwrap()
}

/// Polls until something holds.
fn poll_until(driver: &mut Driver, mut holds: impl FnMut(&mut Driver) -> bool) -> Turn {
    let begin = Instant::now();
    let mut all = Turn::default();
    while !holds(driver) {
        assert!(begin.elapsed() < PATIENCE, "it does not come to hold: {driver:?}, {all:?}");
        let turn = driver.poll(STEP).unwrap();
        all.taken += turn.taken;
        all.sent += turn.sent;
        all.lost += turn.lost;
        all.expired += turn.expired;
    }
    all
}

/// Whether nothing is outstanding at a queue pair.
fn is_done(driver: &Driver, qp: QueuePair) -> bool {
    driver.device().info(qp).is_some_and(|info| info.outstanding == 0)
}

/// What an application tells its partner by other means.
#[derive(Clone, Copy)]
struct Told {
    partner: Partner,
    remote: RemoteAddress,
}

/// An application of 1 MiB at address 4096 on a new driver, which tells its partner and is told.
fn meet(
    id: u8,
    name: &str,
    terms: Terms,
    tell: &Sender<Told>,
    hear: &Receiver<Told>,
) -> (Driver, Application, Told) {
    let mut driver = driver(id);
    let device = driver.device_mut();
    let application = sized_application(device, name, 4096, 1 << 20);
    let partner = Partner::new(application.qp, device.address());
    tell.send(Told { partner, remote: application.region.remote(4096) }).unwrap();
    let told = hear.recv_timeout(PATIENCE).unwrap();
    device.connect(application.qp, told.partner, terms).unwrap();
    (driver, application, told)
}

/// Polls the passive side until its partner says that all is done.
fn serve(driver: &mut Driver, done: &Receiver<()>) {
    poll_until(driver, |_| done.try_recv().is_ok());
}

/// The ids and statuses of completions.
fn statuses(completions: &[Completion]) -> Vec<(u64, CompletionStatus)> {
    completions.iter().map(|completion| (completion.id, completion.status)).collect()
}

#[test]
fn two_threads_transfer_over_loopback() {
    let (tell_a, hear_a) = channel();
    let (tell_b, hear_b) = channel();
    let (end, ended) = channel();
    let terms = Terms { reads: 4, ..Terms::default() };
    let passive = thread::spawn(move || {
        let (mut driver, b, _) = meet(2, "b", terms, &tell_a, &hear_b);
        let receive = Receive { id: 9, local: b.region.range(4096 + 500_000, 100) };
        driver.device_mut().post_recv(b.qp, &receive).unwrap();
        serve(&mut driver, &ended);
        let device = driver.device_mut();
        (device.load(b.region, 4096, 500_100).unwrap(), device.poll(b.cq, 4).unwrap())
    });
    let (mut driver, a, told) = meet(1, "a", terms, &tell_b, &hear_a);
    let bytes = pattern(500_000);
    let device = driver.device_mut();
    device.store(a.region, 4096, &bytes).unwrap();
    let at = |offset: u64| RemoteAddress { address: told.remote.address + offset, ..told.remote };
    let range = |offset: u64, length| a.region.range(4096 + offset, length);
    device.post_send(a.qp, &WorkRequest::write(1, range(0, 500_000), at(0))).unwrap();
    device.post_send(a.qp, &WorkRequest::send(2, range(0, 100))).unwrap();
    device.post_send(a.qp, &WorkRequest::read(3, range(500_000, 400_000), at(50))).unwrap();
    device.post_send(a.qp, &WorkRequest::fetch_add(4, range(900_000, 8), at(600_000), 5)).unwrap();
    device.post_send(a.qp, &WorkRequest::fetch_add(5, range(900_000, 8), at(600_000), 6)).unwrap();
    poll_until(&mut driver, |driver| is_done(driver, a.qp));
    let done = driver.device_mut().poll(a.cq, 16).unwrap();
    assert_eq!(statuses(&done), [1, 2, 3, 4, 5].map(|id| (id, CompletionStatus::Success)));
    let read = driver.device_mut().load(a.region, 4096 + 500_000, 400_000).unwrap();
    assert!(read == bytes[50..400_050], "the bytes that were read are those that were written");
    // The second addition found the 5 of the first one, in the last of the eight bytes.
    assert_eq!(driver.device_mut().load(a.region, 4096 + 900_000, 8), Ok(vec![0, 0, 0, 0, 0, 0, 0, 5]));
    end.send(()).unwrap();
    let (written, received) = passive.join().unwrap();
    assert!(written[..500_000] == bytes, "all bytes are written");
    assert_eq!(written[500_000..], bytes[..100]);
    assert_eq!(statuses(&received), [(9, CompletionStatus::Success)]);
}

#[test]
fn a_context_moves_between_threads_under_a_transfer() {
    let (tell_a, hear_a) = channel();
    let (tell_b, hear_b) = channel();
    let (carry, carried) = channel::<(Image, Application)>();
    let (end, ended) = channel();
    let (end_old, ended_old) = channel();
    let old = thread::spawn(move || {
        let (mut driver, b, _) = meet(2, "b", Terms::default(), &tell_a, &hear_b);
        // It stops once the first ten packets have come.
        let number = b.qp.number();
        poll_until(&mut driver, |driver| driver.device().marks(number).unwrap().expected >= 10);
        carry.send((driver.device_mut().stop(b.context).unwrap(), b)).unwrap();
        serve(&mut driver, &ended_old);
        driver.device_mut().release(b.context).unwrap();
    });
    let new = thread::spawn(move || {
        let (mut image, b) = carried.recv_timeout(PATIENCE).unwrap();
        let image = Image::decode(&image.to_bytes().unwrap()).unwrap();
        let mut driver = driver(3);
        driver.device_mut().restore(image).unwrap();
        poll_until(&mut driver, |driver| driver.device().info(b.qp).unwrap().state == State::Running);
        end_old.send(()).unwrap();
        serve(&mut driver, &ended);
        driver.device_mut().load(b.region, 4096, 600_000).unwrap()
    });
    let (mut driver, a, told) = meet(1, "a", Terms::default(), &tell_b, &hear_a);
    let bytes = pattern(600_000);
    let device = driver.device_mut();
    device.store(a.region, 4096, &bytes).unwrap();
    let request = WorkRequest::write(1, a.region.range(4096, 600_000), told.remote);
    device.post_send(a.qp, &request).unwrap();
    poll_until(&mut driver, |driver| is_done(driver, a.qp));
    let done = driver.device_mut().poll(a.cq, 16).unwrap();
    assert_eq!(statuses(&done), [(1, CompletionStatus::Success)]);
    end.send(()).unwrap();
    old.join().unwrap();
    assert!(new.join().unwrap() == bytes, "all bytes are written");
}

#[test]
fn a_receive_comes_late_over_loopback() {
    let (tell_a, hear_a) = channel();
    let (tell_b, hear_b) = channel();
    let (end, ended) = channel();
    let passive = thread::spawn(move || {
        let (mut driver, b, _) = meet(2, "b", Terms::default(), &tell_a, &hear_b);
        let begin = Instant::now();
        poll_until(&mut driver, |_| begin.elapsed() > Duration::from_millis(100));
        let receive = Receive { id: 9, local: b.region.range(4096, 100) };
        driver.device_mut().post_recv(b.qp, &receive).unwrap();
        serve(&mut driver, &ended);
        driver.device_mut().poll(b.cq, 4).unwrap()
    });
    let (mut driver, a, _) = meet(1, "a", Terms::default(), &tell_b, &hear_a);
    driver.device_mut().post_send(a.qp, &WorkRequest::send(1, a.region.range(4096, 100))).unwrap();
    let turn = poll_until(&mut driver, |driver| is_done(driver, a.qp));
    assert!(turn.expired > 0, "it waited for the RNR timer");
    assert_eq!(driver.device_mut().poll(a.cq, 4).unwrap()[0].status, CompletionStatus::Success);
    end.send(()).unwrap();
    assert_eq!(statuses(&passive.join().unwrap()), [(9, CompletionStatus::Success)]);
}

/// Polls a driver, and notes when each datagram reaches a partner that answers nothing, counted from the beginning, until
/// something holds.
fn listen(
    driver: &mut Driver,
    partner: &UdpSocket,
    mut holds: impl FnMut(&Driver, usize) -> bool,
) -> Vec<Duration> {
    partner.set_nonblocking(true).unwrap();
    let begin = Instant::now();
    let mut heard = Vec::new();
    let mut buffer = [0; MAX_DATAGRAM];
    while !holds(driver, heard.len()) {
        assert!(begin.elapsed() < PATIENCE, "{} datagrams came", heard.len());
        driver.poll(STEP).unwrap();
        while partner.recv(&mut buffer).is_ok() {
            heard.push(begin.elapsed());
        }
    }
    heard
}

/// No datagram comes earlier than a timer of 20 milliseconds that is doubled up to 16 times allows. How much later they come
/// depends on what else the machine does.
fn assert_doubled(heard: &[Duration]) {
    let allowed = [0, 20, 60, 140, 300, 620, 940, 1260];
    for (time, least) in heard.iter().zip(allowed) {
        assert!(*time >= Duration::from_millis(least), "{heard:?}");
    }
}

#[test]
fn what_nobody_answers_is_sent_again_at_longer_and_longer_times() {
    let (partner, address) = socket();
    let (mut driver, a, _, _) = writing(driver(1), address, Terms::default());
    let heard = listen(&mut driver, &partner, |driver, _| is_done(driver, a.qp));
    // The first time, and after each of the seven expiries that are allowed.
    assert_eq!(heard.len(), 8);
    assert_doubled(&heard);
    let done = driver.device_mut().poll(a.cq, 4).unwrap();
    assert_eq!(statuses(&done), [(1, CompletionStatus::RetryExceeded)]);
}

#[test]
fn resume_is_sent_again_at_longer_and_longer_times() {
    let (partner, address) = socket();
    let mut old = device(2);
    let b = application(&mut old, "b", 8192);
    old.connect(b.qp, Partner { number: 0x01_0001, address }, Terms::default()).unwrap();
    let mut driver = driver(3);
    driver.device_mut().restore(old.stop(b.context).unwrap()).unwrap();
    let heard = listen(&mut driver, &partner, |_, count| count == 6);
    assert_doubled(&heard);
    assert_eq!(driver.device().info(b.qp).unwrap().state, State::Resuming);
}

/// A driver with application `a`, which is connected to `b` on another device and writes eight bytes to it.
fn writing(
    mut driver: Driver,
    address: SocketAddrV4,
    terms: Terms,
) -> (Driver, Application, Device, Application) {
    let own = driver.device().address();
    let a = application(driver.device_mut(), "a", 4096);
    let mut other = Device::new(2, address).unwrap();
    let b = application(&mut other, "b", 8192);
    driver.device_mut().connect(a.qp, Partner::new(b.qp, address), terms).unwrap();
    other.connect(b.qp, Partner::new(a.qp, own), terms).unwrap();
    driver.device_mut().store(a.region, 4096, b"contents").unwrap();
    let request = WorkRequest::write(1, a.region.range(4096, 8), b.region.remote(8192));
    driver.device_mut().post_send(a.qp, &request).unwrap();
    (driver, a, other, b)
}

#[test]
fn what_came_is_taken_before_timers_expire() {
    let (partner, address) = socket();
    let (mut driver, a, other, _) = writing(driver(1), address, Terms { retry: 0, ..Terms::default() });
    let mut passive = Driver::with_timing(other, partner, TIMING).unwrap();
    assert_eq!(driver.poll(Duration::ZERO).unwrap().sent, 1);
    poll_until(&mut passive, |passive| passive.device().marks(0x02_0001).unwrap().expected == 1);
    // Its acknowledgement waits in the socket, and the timer is due.
    thread::sleep(2 * TIMING.retransmission);
    let turn = driver.poll(Duration::ZERO).unwrap();
    assert_eq!((turn.taken, turn.expired), (1, 0));
    let done = driver.device_mut().poll(a.cq, 4).unwrap();
    assert_eq!(statuses(&done), [(1, CompletionStatus::Success)]);
}

#[test]
fn what_is_lost_is_sent_again() {
    let (partner, address) = socket();
    let (mut driver, a, other, b) = writing(driver(1), address, Terms::default());
    // The first packet and its first repeat are lost.
    listen(&mut driver, &partner, |_, count| count == 2);
    let mut passive = Driver::with_timing(other, partner, TIMING).unwrap();
    poll_until(&mut driver, |driver| {
        passive.poll(Duration::ZERO).unwrap();
        is_done(driver, a.qp)
    });
    let done = driver.device_mut().poll(a.cq, 4).unwrap();
    assert_eq!(statuses(&done), [(1, CompletionStatus::Success)]);
    assert_eq!(passive.device_mut().load(b.region, 8192, 8).unwrap(), b"contents");
}

/// The opcode of WRITE Only, the first byte of its datagram.
const WRITE_ONLY: u8 = 0x0a;

/// Sends what a queue pair may send now, to a driver.
fn talk(device: &mut Device, qp: QueuePair, socket: &UdpSocket) {
    while device.transmit(qp).unwrap() == Transmitted::Sent {
        for datagram in device.sent() {
            socket.send_to(&datagram.bytes, datagram.to).unwrap();
        }
    }
}

#[test]
fn a_partner_that_talks_and_never_acknowledges_does_not_stop_the_timer() {
    let (partner, address) = socket();
    let timing = Timing { retransmission: Duration::from_millis(100), ..TIMING };
    let (mut driver, a, mut other, b) = writing(driver_with(1, timing), address, Terms::default());
    let own = driver.device().address();

    // The partner writes as fast as it is acknowledged, and what `a` writes never reaches it.
    partner.set_nonblocking(true).unwrap();
    let (begin, mut buffer) = (Instant::now(), [0; MAX_DATAGRAM]);
    let (mut heard, mut written) = (0, 0);
    while heard < 4 || written < 100 {
        assert!(begin.elapsed() < PATIENCE, "{heard} packets came beside {written} WRITEs");
        let request = WorkRequest::write(2, b.region.range(8192, 4), a.region.remote(4100));
        other.post_send(b.qp, &request).unwrap();
        talk(&mut other, b.qp, &partner);
        driver.poll(STEP).unwrap();
        while let Ok(length) = partner.recv(&mut buffer) {
            if buffer[0] == WRITE_ONLY {
                heard += 1;
            } else {
                let _ = other.arrive(own, &buffer[..length]).unwrap();
            }
        }
        written += other.poll(b.cq, 256).unwrap().len();
    }
}

#[test]
fn what_does_not_belong_here_is_dropped_or_silent() {
    let mut driver = driver(1);
    let own = driver.device().address();
    let (stranger, _) = socket();
    for length in [0, 1, MAX_DATAGRAM, MAX_DATAGRAM + 1, 60_000] {
        stranger.send_to(&vec![0xff; length], own).unwrap();
    }
    let mut all = Turn::default();
    let begin = Instant::now();
    while all.taken + all.dropped < 5 {
        assert!(begin.elapsed() < PATIENCE, "{all:?}");
        let turn = driver.poll(STEP).unwrap();
        all.taken += turn.taken;
        all.dropped += turn.dropped;
        all.sent += turn.sent;
    }
    assert_eq!((all.taken, all.dropped, all.sent), (3, 2, 0));
}

#[test]
fn it_returns_after_its_time() {
    let mut driver = driver(1);
    let begin = Instant::now();
    assert_eq!(driver.poll(Duration::from_millis(30)).unwrap(), Turn::default());
    assert!(begin.elapsed() >= Duration::from_millis(30));
    assert_eq!(driver.poll(Duration::ZERO).unwrap(), Turn::default());
    let (device, socket) = driver.into_parts();
    assert_eq!(SocketAddr::V4(device.address()), socket.local_addr().unwrap());
}
