//! The steps of devices, against worked scripts and datagrams of the repository.

mod common;

use common::*;
use jichurpa::*;

/// Bytes from hexadecimal digits with spaces.
fn hex(text: &str) -> Vec<u8> {
    let digits: Vec<_> = text.chars().filter(|digit| !digit.is_whitespace()).collect();
    let pairs = digits.chunks(2).map(|pair| pair.iter().collect::<String>());
    pairs.map(|pair| u8::from_str_radix(&pair, 16).unwrap()).collect()
}

/// A completion of `a` or `b` with status 0.
fn done(qp: QueuePair, id: u64, kind: CompletionKind, length: u32) -> Completion {
    Completion { id, qp: qp.number(), kind, status: CompletionStatus::Success, length, imm: None }
}

#[test]
fn keys_and_numbers_begin_with_the_id_of_the_device() {
    let (_, a, _, b) = connected(terms());
    assert_eq!(a.region.keys(), Keys { local: 0x0100_0002, remote: 0x0100_0003 });
    assert_eq!(b.region.keys(), Keys { local: 0x0200_0002, remote: 0x0200_0003 });
    assert_eq!((a.qp.number(), b.qp.number()), (0x01_0001, 0x02_0001));
    assert_eq!((a.qp.to_string(), b.region.name(), b.cq.context()), ("a.q".to_string(), "m", b.context));
}

#[test]
fn datagrams_are_those_of_the_wire() {
    let (mut one, a, mut two, b) = connected(terms());
    one.store(a.region, 4096, &hex("deadbeef")).unwrap();
    let request = WorkRequest::write(1, a.region.range(4096, 4), b.region.remote(8192));
    one.post_send(a.qp, &request).unwrap();
    let packet = go(&mut one, a.qp);
    let written = "0a 00 ffff 00 020001 80 000064 0000000000002000 02000003 00000004 deadbeef 00000000";
    assert_eq!(packet, Datagram { to: address(2), number: Some(0), bytes: hex(written) });
    let (effect, answer) = deliver_answered(&mut two, 1, &packet);
    assert_eq!(effect, ArrivalEffect::Ack);
    assert_eq!(answer.bytes, hex("11 00 ffff 00 010001 00 000064 1f000001 00000000"));
    assert_eq!(deliver_silently(&mut one, 2, &answer), ArrivalEffect::Acked);
    assert_eq!(two.load(b.region, 8192, 4), Ok(hex("deadbeef")));
    assert_eq!(one.poll(a.cq, 4), Ok(vec![done(a.qp, 1, CompletionKind::Write, 4)]));
    assert_eq!(one.poll(a.cq, 4), Ok(vec![]));
}

#[test]
fn eight_bytes_are_read_and_then_added_to() {
    let (mut one, a, mut two, b) = connected(terms());
    two.store(b.region, 8192, &hex("0000000000000025")).unwrap();
    one.post_send(a.qp, &WorkRequest::read(1, a.region.range(4096, 8), b.region.remote(8192))).unwrap();
    let (effect, answer) = deliver_answered(&mut two, 1, &go(&mut one, a.qp));
    assert_eq!(effect, ArrivalEffect::Bytes);
    assert_eq!(deliver_silently(&mut one, 2, &answer), ArrivalEffect::Landed);
    assert_eq!(one.load(a.region, 4096, 8), Ok(hex("0000000000000025")));

    let add = WorkRequest::fetch_add(2, a.region.range(4104, 8), b.region.remote(8192), 5);
    one.post_send(a.qp, &add.fenced()).unwrap();
    let (effect, answer) = deliver_answered(&mut two, 1, &go(&mut one, a.qp));
    assert_eq!(effect, ArrivalEffect::Old);
    assert_eq!(deliver_silently(&mut one, 2, &answer), ArrivalEffect::Landed);
    assert_eq!(one.load(a.region, 4104, 8), Ok(hex("0000000000000025")));
    assert_eq!(two.load(b.region, 8192, 8), Ok(hex("000000000000002a")));
    let done = [done(a.qp, 1, CompletionKind::Read, 8), done(a.qp, 2, CompletionKind::FetchAdd, 8)];
    assert_eq!(one.poll(a.cq, 1), Ok(vec![done[0]]));
    assert_eq!(one.poll(a.cq, usize::MAX), Ok(vec![done[1]]));
}

#[test]
fn a_compare_and_swap_finds_its_value() {
    let (mut one, a, mut two, b) = connected(terms());
    let local = a.region.range(4096, 8);
    for (id, compare, swap) in [(1, 0, u64::MAX), (2, 0, 3)] {
        let request = WorkRequest::compare_swap(id, local, b.region.remote(8192), compare, swap);
        one.post_send(a.qp, &request).unwrap();
        let (_, answer) = deliver_answered(&mut two, 1, &go(&mut one, a.qp));
        assert_eq!(deliver_silently(&mut one, 2, &answer), ArrivalEffect::Landed);
    }
    // The second one found all ones, and changed nothing.
    assert_eq!(one.load(a.region, 4096, 8), Ok(vec![0xff; 8]));
    assert_eq!(two.load(b.region, 8192, 8), Ok(vec![0xff; 8]));
    assert_eq!(one.poll(a.cq, 4).unwrap().len(), 2);
}

#[test]
fn a_receive_comes_late() {
    let (mut one, a, mut two, b) = connected(terms());
    one.post_send(a.qp, &WorkRequest::send_imm(1, a.region.range(4096, 4), 42)).unwrap();
    let (effect, answer) = deliver_answered(&mut two, 1, &go(&mut one, a.qp));
    assert_eq!(effect, ArrivalEffect::NotReady);
    assert_eq!(deliver_silently(&mut one, 2, &answer), ArrivalEffect::Waits);
    assert!(one.info(a.qp).unwrap().rnr_wait);
    assert_eq!(one.transmit(a.qp), Ok(Transmitted::Waiting));
    assert_eq!(one.expire(a.qp), Ok(Expiry::NotCounted(NotCounted::Rnr)));

    two.post_recv(b.qp, &Receive { id: 9, local: b.region.range(8192, 8) }).unwrap();
    assert_eq!(one.rnr_over(a.qp), Ok(true));
    assert_eq!(one.rnr_over(a.qp), Ok(false));
    let (effect, answer) = deliver_answered(&mut two, 1, &go(&mut one, a.qp));
    assert_eq!(effect, ArrivalEffect::Ack);
    assert_eq!(deliver_silently(&mut one, 2, &answer), ArrivalEffect::Acked);
    assert_eq!(one.poll(a.cq, 4), Ok(vec![done(a.qp, 1, CompletionKind::Send, 4)]));
    let received = Completion { imm: Some(42), ..done(b.qp, 9, CompletionKind::Recv, 4) };
    assert_eq!(two.poll(b.cq, 4), Ok(vec![received]));
}

#[test]
fn a_write_with_immediate_completes_a_receive() {
    let (mut one, a, mut two, b) = connected(terms());
    two.post_recv(b.qp, &Receive { id: 9, local: b.region.range(8192, 8) }).unwrap();
    let request = WorkRequest::write_imm(1, a.region.range(4096, 16), b.region.remote(8200), 7);
    one.post_send(a.qp, &request.unsignaled()).unwrap();
    let (effect, answer) = deliver_answered(&mut two, 1, &go(&mut one, a.qp));
    assert_eq!(effect, ArrivalEffect::Ack);
    assert_eq!(deliver_silently(&mut one, 2, &answer), ArrivalEffect::Acked);
    assert_eq!(one.poll(a.cq, 4), Ok(vec![]));
    let received = Completion { imm: Some(7), ..done(b.qp, 9, CompletionKind::RecvImm, 16) };
    assert_eq!(two.poll(b.cq, 4), Ok(vec![received]));
}

#[test]
fn a_write_that_is_not_granted_ends_both_queue_pairs() {
    let (mut one, a, mut two, b) = connected(terms());
    let local = a.region.range(4096, 4);
    let remote = RemoteAddress { key: b.region.keys().local, address: 8192 };
    one.post_send(a.qp, &WorkRequest::write(1, local, remote)).unwrap();
    one.post_send(a.qp, &WorkRequest::write(2, local, b.region.remote(8192))).unwrap();
    let (effect, answer) = deliver_answered(&mut two, 1, &go(&mut one, a.qp));
    assert_eq!(effect, ArrivalEffect::Refused(RefusalReason::Access));
    let effect = deliver_silently(&mut one, 2, &answer);
    assert_eq!(effect, ArrivalEffect::Ended(CompletionStatus::RemoteAccess));
    let told = one.poll(a.cq, 4).unwrap();
    let statuses: Vec<_> = told.iter().map(|completion| (completion.id, completion.status)).collect();
    assert_eq!(statuses, [(1, CompletionStatus::RemoteAccess), (2, CompletionStatus::Flush)]);
    assert_eq!(one.info(a.qp).unwrap().state, State::Error);
    assert_eq!(two.info(b.qp).unwrap().state, State::Error);
}

#[test]
fn retries_are_spent() {
    let (mut one, a, _two, b) = connected(Terms { retry: 1, ..terms() });
    assert_eq!(one.expire(a.qp), Ok(Expiry::NotCounted(NotCounted::Nothing)));
    let request = WorkRequest::write(1, a.region.range(4096, 4), b.region.remote(8192));
    one.post_send(a.qp, &request).unwrap();
    let first = go(&mut one, a.qp);
    let info = one.info(a.qp).unwrap();
    assert!(info.in_flight && !info.may_send);
    assert_eq!((info.una, info.next, info.last, info.outstanding), (0, 1, 1, 1));
    assert_eq!(one.expire(a.qp), Ok(Expiry::Counted(1)));
    assert_eq!(go(&mut one, a.qp), first);
    assert_eq!(one.expire(a.qp), Ok(Expiry::Spent));
    assert_eq!(one.expire(a.qp), Ok(Expiry::NotCounted(NotCounted::Ended)));
    assert_eq!(one.poll(a.cq, 4).unwrap()[0].status, CompletionStatus::RetryExceeded);
}

#[test]
fn the_window_and_fences_hold_requests_back() {
    let (mut one, a, mut two, b) = connected(terms());
    let local = a.region.range(4096, 8);
    one.post_send(a.qp, &WorkRequest::read(1, local, b.region.remote(8192))).unwrap();
    one.post_send(a.qp, &WorkRequest::write(2, local, b.region.remote(8192)).fenced()).unwrap();
    let read = go(&mut one, a.qp);
    assert_eq!(one.transmit(a.qp), Ok(Transmitted::Fenced));
    let (_, answer) = deliver_answered(&mut two, 1, &read);
    deliver_silently(&mut one, 2, &answer);
    assert_eq!(one.transmit(a.qp), Ok(Transmitted::Sent));

    let (mut one, a, _two, b) = connected(terms());
    for id in 0..5 {
        one.post_send(a.qp, &WorkRequest::read(id, local, b.region.remote(8192))).unwrap();
    }
    for _ in 0..4 {
        go(&mut one, a.qp);
    }
    assert_eq!(one.transmit(a.qp), Ok(Transmitted::ReadsFull));

    let (mut one, a, _two, b) = connected(terms());
    for id in 0..33 {
        let request = WorkRequest::write(id, a.region.range(4096, 512), b.region.remote(8192));
        one.post_send(a.qp, &request).unwrap();
    }
    for _ in 0..64 {
        go(&mut one, a.qp);
    }
    assert_eq!(one.transmit(a.qp), Ok(Transmitted::WindowFull));
}

#[test]
fn refusals_change_nothing() {
    let (mut one, a, _two, _) = connected(terms());
    let other = application(&mut one, "other", 4096);
    let refused = |refusal| Error::Refused(refusal);
    let stranger = Context::named("stranger").unwrap();
    assert_eq!(one.make_domain(stranger, "p"), Err(refused(Refusal::NoSuch)));
    // A completion queue or domain of another context is not found.
    let options = QueuePairOptions { recv_cq: other.cq, ..QueuePairOptions::new(a.cq) };
    assert_eq!(one.make_queue_pair(a.domain, "z", options), Err(refused(Refusal::NoSuch)));
    assert_eq!(one.transmit(other.qp), Err(refused(Refusal::BadState)));
    assert_eq!(one.load(a.region, 4096, 1025), Err(refused(Refusal::BadKey)));
    assert_eq!(one.store(a.region, 4095, b"x"), Err(refused(Refusal::BadKey)));
    let mut bytes = *b"as before";
    assert_eq!(one.load_into(a.region, 5112, &mut bytes), Err(refused(Refusal::BadKey)));
    assert_eq!(&bytes, b"as before");
    let partner = Partner { number: 0x02_0001, address: address(2) };
    assert_eq!(one.connect(a.qp, partner, terms()), Err(refused(Refusal::BadState)));
    let request = WorkRequest::send(1, a.region.range(4096, 8));
    for _ in 0..64 {
        one.post_send(a.qp, &request).unwrap();
    }
    assert_eq!(one.post_send(a.qp, &request), Err(refused(Refusal::SqFull)));
    assert_eq!(one.drop_region(a.region), Err(refused(Refusal::InUse)));
    assert_eq!(one.drop_region(other.region), Ok(()));
    assert_eq!(one.drop_region(other.region), Err(refused(Refusal::NoSuch)));
    let image = one.stop(other.context).unwrap();
    assert_eq!(one.load(other.region, 4096, 1), Err(refused(Refusal::Stopped)));
    drop(image);
}

#[test]
fn numbers_out_of_range_are_invalid() {
    let mut one = device(1);
    let context = one.make_context("a").unwrap();
    let domain = one.make_domain(context, "p").unwrap();
    let cq = one.make_completion_queue(context, "c", MAX_CAPACITY).unwrap();
    assert_eq!(one.make_completion_queue(context, "d", 0), Err(Error::Invalid));
    assert_eq!(one.make_completion_queue(context, "d", MAX_CAPACITY + 1), Err(Error::Invalid));
    let mut region = |base, length| one.make_region(domain, "m", base, length, Rights::NONE).map(|_| ());
    assert_eq!(region(0, 0), Err(Error::Invalid));
    assert_eq!(region(0, MAX_REGION + 1), Err(Error::Invalid));
    assert_eq!(region(MAX_BASE + 1, 1), Err(Error::Invalid));
    assert_eq!(region(MAX_BASE, 1), Ok(()));
    for (send_depth, recv_depth) in [(0, 1), (MAX_DEPTH + 1, 1), (1, 0), (1, MAX_DEPTH + 1)] {
        let options = QueuePairOptions { send_depth, recv_depth, ..QueuePairOptions::new(cq) };
        assert_eq!(one.make_queue_pair(domain, "q", options), Err(Error::Invalid));
    }
    let options =
        QueuePairOptions { send_depth: MAX_DEPTH, recv_depth: MAX_DEPTH, ..QueuePairOptions::new(cq) };
    let qp = one.make_queue_pair(domain, "q", options).unwrap();
    for terms in [
        Terms { own_start: MAX_PSN + 1, ..terms() },
        Terms { peer_start: MAX_PSN + 1, ..terms() },
        Terms { retry: 8, ..terms() },
        Terms { rnr: 8, ..terms() },
        Terms { reads: 0, ..terms() },
        Terms { reads: 17, ..terms() },
    ] {
        let partner = Partner { number: 1, address: address(2) };
        assert_eq!(one.connect(qp, partner, terms), Err(Error::Invalid));
    }
    let partner = Partner { number: MAX_QP_NUMBER + 1, address: address(2) };
    assert_eq!(one.connect(qp, partner, terms()), Err(Error::Invalid));
    assert_eq!(one.info(qp).unwrap().state, State::Init);
}

#[test]
fn a_datagram_stays_where_the_buffer_is_too_small() {
    let (mut one, a, _two, b) = connected(terms());
    let request = WorkRequest::write(1, a.region.range(4096, 4), b.region.remote(8192));
    one.post_send(a.qp, &request).unwrap();
    one.transmit(a.qp).unwrap();
    // Headers of 28 bytes, four bytes of payload and four of CRC.
    assert_eq!(one.next_sent(&mut [0; 35]), Err(Error::TooSmall { needed: 36 }));
    let mut buffer = [0; 36];
    let sent = SentInto { to: address(2), number: Some(0), length: 36 };
    assert_eq!(one.next_sent(&mut buffer), Ok(Some(sent)));
    assert_eq!(buffer[0], 0x0a);
    assert_eq!(one.next_sent(&mut buffer), Ok(None));
}

#[test]
fn what_lives_here_is_told() {
    let (mut one, a, _two, b) = connected(terms());
    let other = application(&mut one, "other", 4096);
    assert_eq!(one.contexts().collect::<Vec<_>>(), [a.context, other.context]);
    let second = one.make_queue_pair(a.domain, "r", QueuePairOptions::new(a.cq)).unwrap();
    let told: Vec<_> = one.queue_pairs(a.context).map(|info| (info.qp, info.state)).collect();
    assert_eq!(told, [(a.qp, State::Running), (second, State::Init)]);
    assert_eq!(one.queue_pair(a.context, "r").unwrap().qp, second);
    assert_eq!(one.queue_pair(a.context, "s"), None);
    assert_eq!(one.queue_pair(a.context, "no name"), None);
    assert_eq!(one.queue_pairs(b.context).next(), None);
    let numbered = one.queue_pair_numbered(0x01_0001).unwrap();
    assert_eq!((numbered.qp, numbered.peer, numbered.rnr), (a.qp, 0x02_0001, 7));
    assert_eq!(one.queue_pair_numbered(second.number()), None);
    assert_eq!(one.queue_pair_numbered(u32::MAX), None);
    assert_eq!(one.marks(0x01_0001), Some(Marks { expected: 0, top: 0 }));
    assert_eq!(one.marks(0x01_0002), None);
}

#[test]
fn hostile_bytes_do_nothing() {
    let (mut one, _, _two, _) = connected(terms());
    let mut hostile = vec![vec![], vec![0xff; 4132], vec![0; 70_000]];
    hostile.push(hex("0a 00 ffff 00 090009 80 000064 0000000000002000 02000003 00000004 deadbeef 00000000"));
    for bytes in &hostile {
        let arrival = one.arrive(address(9), bytes).unwrap();
        assert!(matches!(arrival.effect, ArrivalEffect::Silent(_)), "{:?}", arrival.effect);
        assert_eq!(one.sent().next(), None);
    }
}
