//! A move in the middle of a WRITE, as the worked script of the repository has it, and images as bytes.

mod common;

use common::*;
use jichurpa::*;
use std::io::{ErrorKind, Read};

/// The WRITE of 600 bytes of `a` to `b`, of which the first of three packets has arrived. Answers the second one, and the
/// bytes.
fn begin_write(one: &mut Device, a: Application, two: &mut Device, b: Application) -> (Datagram, Vec<u8>) {
    let bytes = pattern(600);
    one.store(a.region, 4096, &bytes).unwrap();
    let request = WorkRequest::write(1, a.region.range(4096, 600), b.region.remote(8192));
    one.post_send(a.qp, &request).unwrap();
    let packets = [go(one, a.qp), go(one, a.qp), go(one, a.qp)];
    assert_eq!(packets.each_ref().map(|packet| packet.number), [Some(0), Some(1), Some(2)]);
    assert_eq!(one.transmit(a.qp), Ok(Transmitted::Idle));
    assert_eq!(deliver_silently(two, 1, &packets[0]), ArrivalEffect::Acted);
    let [_, second, _] = packets;
    (second, bytes)
}

/// What is left of the WRITE, once `b` lives on device 3 and has sent nothing.
fn end_write(one: &mut Device, a: Application, three: &mut Device, b: Application) {
    let resume = go(three, b.qp);
    let (effect, answer) = deliver_answered(one, 3, &resume);
    assert_eq!(effect, ArrivalEffect::Resumed);
    assert_eq!(deliver_silently(three, 1, &answer), ArrivalEffect::Running);

    let (effect, answer) = deliver_answered(three, 1, &go(one, a.qp));
    assert_eq!(effect, ArrivalEffect::DupAck);
    assert_eq!(deliver_silently(one, 3, &answer), ArrivalEffect::Acked);
    assert_eq!(deliver_silently(three, 1, &go(one, a.qp)), ArrivalEffect::Acted);
    let (effect, answer) = deliver_answered(three, 1, &go(one, a.qp));
    assert_eq!(effect, ArrivalEffect::Ack);
    assert_eq!(deliver_silently(one, 3, &answer), ArrivalEffect::Acked);
}

/// The completion `wc 010001 1 write 0 600`.
const WRITTEN: Completion = Completion {
    id: 1,
    qp: 0x01_0001,
    kind: CompletionKind::Write,
    status: CompletionStatus::Success,
    length: 600,
    imm: None,
};

#[test]
fn a_write_is_moved_in_its_middle() {
    let (mut one, a, mut two, b) = connected(terms());
    let (second, bytes) = begin_write(&mut one, a, &mut two, b);

    let image = two.stop(b.context).unwrap();
    assert_eq!(two.contexts().next(), None);
    let (effect, answer) = deliver_answered(&mut two, 1, &second);
    assert_eq!(effect, ArrivalEffect::Stopped);
    assert_eq!(deliver_silently(&mut one, 2, &answer), ArrivalEffect::Paused);
    assert_eq!(one.info(a.qp).unwrap().state, State::Paused);
    assert_eq!(one.transmit(a.qp), Ok(Transmitted::Waiting));
    assert_eq!(one.expire(a.qp), Ok(Expiry::NotCounted(NotCounted::Paused)));

    let mut three = device(3);
    assert_eq!(three.restore(image).unwrap(), b.context);
    let info = three.info(b.qp).unwrap();
    assert_eq!((info.state, info.moves, info.may_send), (State::Resuming, 1, true));
    end_write(&mut one, a, &mut three, b);

    assert_eq!(one.poll(a.cq, 4), Ok(vec![WRITTEN]));
    assert_eq!(three.load(b.region, 8192, 600), Ok(bytes));
    assert_eq!(three.info(b.qp).unwrap().state, State::Running);
    assert_eq!(two.release(b.context), Ok(()));
    assert_eq!(two.release(b.context), Err(Error::Refused(Refusal::NoSuch)));
}

#[test]
fn the_image_goes_through_bytes() {
    let (mut one, a, mut two, b) = connected(terms());
    let (second, bytes) = begin_write(&mut one, a, &mut two, b);
    let mut image = two.stop(b.context).unwrap();
    let dump = image.to_bytes().unwrap();
    assert_eq!(image.dump_length(), Ok(dump.len() as u64));
    let told = image.queue_pairs();
    drop(image);
    drop(two);

    let mut image = Image::decode(&dump).unwrap();
    assert_eq!(image.context(), b.context);
    assert_eq!(image.queue_pairs(), told);
    assert_eq!(told.iter().map(|info| info.qp).collect::<Vec<_>>(), [b.qp]);
    let mut three = device(3);
    three.restore(image).unwrap();
    // The old device is gone, so nothing answers the second packet, and the RESUME finds a Running partner.
    drop(second);
    assert_eq!(one.info(a.qp).unwrap().state, State::Running);
    end_write(&mut one, a, &mut three, b);
    assert_eq!(one.poll(a.cq, 4), Ok(vec![WRITTEN]));
    assert_eq!(three.load(b.region, 8192, 600), Ok(bytes));
}

/// The image of the empty context `e`. The bytes of its dump are those of the documents.
fn smallest() -> Image {
    let mut device = device(1);
    let context = device.make_context("e").unwrap();
    device.stop(context).unwrap()
}

const SMALLEST: [u8; 20] = *b"MIGDUMP\0\x00\x02\x01e\x00\x00\x00\x00\x00\x00\x00\x00";

#[test]
fn the_smallest_dump_is_that_of_the_documents() {
    let mut image = smallest();
    assert_eq!(image.to_bytes().unwrap(), SMALLEST);
    assert_eq!(image.queue_pairs(), []);
    assert_eq!(Image::decode(&SMALLEST).unwrap().context(), Context::named("e").unwrap());
}

#[test]
fn an_image_is_read_in_pieces_of_any_length() {
    let (_, _, mut two, b) = connected(terms());
    let mut image = two.stop(b.context).unwrap();
    let dump = image.to_bytes().unwrap();
    for length in [1, 7, 600, 4096] {
        let mut read = Vec::new();
        let mut piece = vec![0; length];
        loop {
            let count = image.read(&mut piece).unwrap();
            read.extend_from_slice(&piece[..count]);
            if count == 0 {
                break;
            }
        }
        assert_eq!(read, dump);
        image.rewind();
    }
    let mut read = vec![0; 5];
    image.read_exact(&mut read).unwrap();
    image.read_to_end(&mut read).unwrap();
    assert_eq!(read, dump);
    assert_eq!(image.read(&mut [0; 8]).unwrap(), 0);
    let mut tail = [0; 16];
    let place = dump.len() as u64 - 10;
    assert_eq!(image.read_at(place, &mut tail), Ok(10));
    assert_eq!(tail[..10], dump[dump.len() - 10..]);
}

#[test]
fn a_large_image_is_read_through() {
    let mut two = device(2);
    let b = sized_application(&mut two, "b", 8192, 3_000_000);
    let bytes = pattern(3_000_000);
    two.store(b.region, 8192, &bytes).unwrap();
    let mut image = two.stop(b.context).unwrap();
    let dump = image.to_bytes().unwrap();
    let mut copied = Vec::new();
    std::io::copy(&mut image, &mut copied).unwrap();
    assert_eq!(copied, dump);
    image.rewind();
    let mut large = vec![0; 2_000_000];
    image.read_exact(&mut large).unwrap();
    assert_eq!(large, dump[..2_000_000]);
    image.rewind();

    let mut three = device(3);
    three.restore(Image::read_from(image).unwrap()).unwrap();
    assert_eq!(three.load(b.region, 8192, 3_000_000), Ok(bytes));
}

#[test]
fn what_is_no_dump_is_refused_with_its_fault() {
    let fault = |place, reason| Error::BadDump(DumpFault { place, reason });
    let short = fault(12, FaultReason::Short);
    assert_eq!(Image::decode(&SMALLEST[..12]).unwrap_err(), short);
    let trailing = [&SMALLEST[..], &[0]].concat();
    assert_eq!(Image::decode(&trailing).unwrap_err(), fault(20, FaultReason::Trailing));
    assert_eq!(Image::decode(b"").unwrap_err(), fault(0, FaultReason::Short));
    let version = [&SMALLEST[..9], &[3], &SMALLEST[10..]].concat();
    assert_eq!(Image::decode(&version).unwrap_err(), fault(8, FaultReason::Version));

    let mut reader = DumpReader::new().unwrap();
    reader.feed(&SMALLEST[..12]).unwrap();
    assert_eq!(reader.finish().unwrap_err(), short);
    let mut reader = DumpReader::new().unwrap();
    let magic = fault(0, FaultReason::Magic);
    assert_eq!(reader.feed(b"MIGDUMP!"), Err(magic));
    assert_eq!(reader.feed(b"more"), Err(magic));

    let error = Image::read_from(&b"MIGDUMP!"[..]).unwrap_err();
    assert_eq!(error.kind(), ErrorKind::InvalidData);
    let inner = error.get_ref().and_then(|inner| inner.downcast_ref::<Error>());
    assert_eq!(inner, Some(&magic));
    assert_eq!(magic.to_string(), "no dump, at byte 0: the first eight bytes are not those of a dump");
}

#[test]
fn a_context_does_not_move_while_its_partner_does() {
    let (mut one, a, mut two, b) = connected(terms());
    let (second, _) = begin_write(&mut one, a, &mut two, b);
    let image = two.stop(b.context).unwrap();
    let (_, answer) = deliver_answered(&mut two, 1, &second);
    deliver_silently(&mut one, 2, &answer);
    assert_eq!(one.stop(a.context).unwrap_err(), Error::Refused(Refusal::PeerMoving));

    let failed = two.restore(image).unwrap_err();
    assert_eq!(failed.error(), Error::Refused(Refusal::NumberTaken));
    let mut three = device(3);
    three.restore(failed.into_image()).unwrap();
    end_write(&mut one, a, &mut three, b);
    assert_eq!(one.stop_knowing_partners(a.context).unwrap().context(), a.context);
}

#[test]
fn a_device_and_an_image_go_to_other_threads() {
    let (mut one, a, mut two, b) = connected(terms());
    let (_, bytes) = begin_write(&mut one, a, &mut two, b);
    let image = std::thread::spawn(move || two.stop(b.context).unwrap()).join().unwrap();
    let mut three = std::thread::spawn(move || {
        let mut three = device(3);
        three.restore(image).unwrap();
        three
    })
    .join()
    .unwrap();
    end_write(&mut one, a, &mut three, b);
    assert_eq!(three.load(b.region, 8192, 600), Ok(bytes));
}
