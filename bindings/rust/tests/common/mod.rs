//! Two applications as in the worked scripts: context `a` on device 1, and context `b` on device 2.

#![allow(dead_code, reason = "no test uses all of it")]

use jichurpa::*;
use std::net::SocketAddrV4;

/// What an application has.
#[derive(Clone, Copy)]
pub struct Application {
    pub context: Context,
    pub domain: Domain,
    pub region: Region,
    pub cq: CompletionQueue,
    pub qp: QueuePair,
}

/// The address of a device, 10.0.0.1 to 10.0.0.3.
pub fn address(id: u8) -> SocketAddrV4 {
    SocketAddrV4::new([10, 0, 0, id].into(), PORT)
}

pub fn device(id: u8) -> Device {
    Device::new(id, address(id)).unwrap()
}

/// A context with a region of 1,024 bytes from an address on, which may be used for everything.
pub fn application(device: &mut Device, name: &str, base: u64) -> Application {
    sized_application(device, name, base, 1024)
}

/// The same with a region of so many bytes.
pub fn sized_application(device: &mut Device, name: &str, base: u64, length: u32) -> Application {
    let context = device.make_context(name).unwrap();
    let domain = device.make_domain(context, "p").unwrap();
    let region = device.make_region(domain, "m", base, length, Rights::ALL).unwrap();
    let cq = device.make_completion_queue(context, "c", 256).unwrap();
    let options = QueuePairOptions { send_depth: 64, recv_depth: 64, ..QueuePairOptions::new(cq) };
    let qp = device.make_queue_pair(domain, "q", options).unwrap();
    Application { context, domain, region, cq, qp }
}

/// The terms of the worked scripts, as context `a` has them.
pub fn terms() -> Terms {
    Terms { mtu: Mtu::Bytes256, own_start: 100, peer_start: 200, retry: 7, rnr: 7, reads: 4 }
}

/// Devices 1 and 2 with their applications, connected. The region of `a` begins at 4096, that of `b` at 8192.
pub fn connected(terms: Terms) -> (Device, Application, Device, Application) {
    let (mut one, mut two) = (device(1), device(2));
    let a = application(&mut one, "a", 4096);
    let b = application(&mut two, "b", 8192);
    one.connect(a.qp, Partner::new(b.qp, two.address()), terms).unwrap();
    two.connect(b.qp, Partner::new(a.qp, one.address()), terms.exchanged()).unwrap();
    (one, a, two, b)
}

/// Bytes that differ from place to place.
pub fn pattern(count: usize) -> Vec<u8> {
    (0..count).map(|place| (place % 251) as u8 + 1).collect()
}

/// The queue pair sends its next packet.
pub fn go(device: &mut Device, qp: QueuePair) -> Datagram {
    assert_eq!(device.transmit(qp), Ok(Transmitted::Sent));
    let mut sent: Vec<_> = device.sent().collect();
    assert_eq!(sent.len(), 1);
    sent.remove(0)
}

/// A datagram arrives: its effect, and what answers it.
pub fn deliver(device: &mut Device, from: u8, datagram: &Datagram) -> (ArrivalEffect, Vec<Datagram>) {
    assert_eq!(datagram.to, device.address());
    let arrival = device.arrive(address(from), &datagram.bytes).unwrap();
    let answers: Vec<_> = device.sent().collect();
    assert_eq!(answers.len() as u64, arrival.sent);
    (arrival.effect, answers)
}

/// A datagram arrives that is answered by one.
pub fn deliver_answered(device: &mut Device, from: u8, datagram: &Datagram) -> (ArrivalEffect, Datagram) {
    let (effect, mut answers) = deliver(device, from, datagram);
    assert_eq!(answers.len(), 1);
    (effect, answers.remove(0))
}

/// A datagram arrives that is not answered.
pub fn deliver_silently(device: &mut Device, from: u8, datagram: &Datagram) -> ArrivalEffect {
    let (effect, answers) = deliver(device, from, datagram);
    assert_eq!(answers, []);
    effect
}
