//! A plain device that does the same work as the proved one for Writes of 1 KiB: names looked up by hash, keys checked,
//! payload taken at posting, a datagram encoded and decoded, numbers checked, completions reserved and polled.
use std::collections::{HashMap, VecDeque};
use std::time::Instant;

const ROW: u32 = 60;
const ROWS: u32 = 2000;

#[derive(Clone, Copy, PartialEq, Eq, Hash)]
struct Name {
    bytes: [u8; 16],
    len: u8,
}

fn name(t: &[u8]) -> Name {
    let mut b = [0; 16];
    b[..t.len()].copy_from_slice(t);
    Name {
        bytes: b,
        len: t.len() as u8,
    }
}

#[derive(Clone, Copy)]
struct ObjName {
    context: Name,
    name: Name,
}

#[derive(Clone, Copy, PartialEq)]
struct Address {
    ip: u32,
    port: u16,
}

#[derive(Clone, Copy)]
struct Request {
    id: u64,
    length: u32,
    remote: u64,
    rkey: u32,
    lkey: u32,
    local: u64,
    signaled: bool,
}

#[derive(Clone, Copy)]
#[allow(dead_code)]
struct Completion {
    qp: u32,
    id: u64,
    status: u8,
    length: u32,
}

struct Posted {
    request: Request,
    payload: Vec<u8>,
    first: u64,
    span: u64,
}

#[allow(dead_code)]
struct Sent {
    to: Address,
    number: Option<u64>,
    bytes: Vec<u8>,
}

struct Region {
    base: u64,
    rights: u8,
    local: u32,
    remote: u32,
    bytes: Vec<u8>,
}

struct Cq {
    capacity: usize,
    reserved: usize,
    entries: VecDeque<Completion>,
}

struct Link {
    peer: u32,
    partner: Address,
    mtu: u32,
    own: u32,
    other: u32,
    una: u64,
    next: u64,
    top: u64,
    end: u64,
    expected: u64,
    msn: u32,
    nak: bool,
}

struct End {
    number: u32,
    cq: usize,
    depth: usize,
    sq: VecDeque<Posted>,
    link: Link,
}

struct Context {
    regions: Vec<Region>,
    local: HashMap<u32, usize>,
    remote: HashMap<u32, usize>,
    cqs: HashMap<Name, usize>,
    queues: Vec<Cq>,
    names: HashMap<Name, usize>,
    ends: Vec<End>,
}

struct Device {
    contexts: HashMap<Name, Context>,
    index: HashMap<u32, (Name, usize)>,
}

enum Took {
    Ack,
    Acked,
    Silent,
}

#[derive(Debug)]
enum Refusal {
    NoSuch,
    SqFull,
    CqFull,
    BadKey,
    TooLong,
}

#[allow(dead_code)]
enum Answer {
    Done,
    Sent,
    Idle,
    Took(Took),
    Polled(Vec<Completion>),
    Refused(Refusal),
}

struct Outcome {
    answer: Answer,
    sent: Vec<Sent>,
}

fn plain(answer: Answer) -> Outcome {
    Outcome {
        answer,
        sent: Vec::new(),
    }
}

impl Context {
    fn spot(&self, lkey: u32, at: u64, length: u32) -> Option<(usize, usize)> {
        let i = *self.local.get(&lkey)?;
        let r = &self.regions[i];
        if at < r.base || at + u64::from(length) > r.base + r.bytes.len() as u64 {
            return None;
        }
        Some((i, (at - r.base) as usize))
    }
    fn remote_spot(&self, rkey: u32, at: u64, length: u32) -> Option<(usize, usize)> {
        let i = *self.remote.get(&rkey)?;
        let r = &self.regions[i];
        if r.rights & 2 == 0
            || at < r.base
            || at.checked_add(u64::from(length))? > r.base + r.bytes.len() as u64
        {
            return None;
        }
        Some((i, (at - r.base) as usize))
    }
}

fn head(out: &mut Vec<u8>, opcode: u8, dest: u32, ask: bool, psn: u32) {
    out.push(opcode);
    out.push(0);
    out.extend_from_slice(&[0xff, 0xff]);
    out.extend_from_slice(&dest.to_be_bytes());
    out.extend_from_slice(&(psn | if ask { 0x8000_0000 } else { 0 }).to_be_bytes());
}

impl Device {
    fn post(&mut self, o: ObjName, request: &Request) -> Outcome {
        let Some(c) = self.contexts.get_mut(&o.context) else {
            return plain(Answer::Refused(Refusal::NoSuch));
        };
        let Some(&e) = c.names.get(&o.name) else {
            return plain(Answer::Refused(Refusal::NoSuch));
        };
        if request.length > 1_048_576 {
            return plain(Answer::Refused(Refusal::TooLong));
        }
        let Some((r, at)) = c.spot(request.lkey, request.local, request.length) else {
            return plain(Answer::Refused(Refusal::BadKey));
        };
        let end = &mut c.ends[e];
        if end.sq.len() >= end.depth {
            return plain(Answer::Refused(Refusal::SqFull));
        }
        let q = &mut c.queues[end.cq];
        if q.entries.len() + q.reserved >= q.capacity {
            return plain(Answer::Refused(Refusal::CqFull));
        }
        q.reserved += 1;
        let payload = c.regions[r].bytes[at..at + request.length as usize].to_vec();
        let span = u64::from(request.length.div_ceil(end.link.mtu).max(1));
        end.sq.push_back(Posted {
            request: *request,
            payload,
            first: end.link.end,
            span,
        });
        end.link.end += span;
        plain(Answer::Done)
    }
    fn transmit(&mut self, o: ObjName) -> Outcome {
        let Some(c) = self.contexts.get_mut(&o.context) else {
            return plain(Answer::Refused(Refusal::NoSuch));
        };
        let Some(&e) = c.names.get(&o.name) else {
            return plain(Answer::Refused(Refusal::NoSuch));
        };
        let end = &mut c.ends[e];
        let l = &mut end.link;
        if l.next >= l.end || l.next - l.una >= 64 {
            return plain(Answer::Idle);
        }
        let n = l.next;
        let i = end.sq.partition_point(|p| p.first + p.span <= n);
        let p = &end.sq[i];
        let k = (n - p.first) as usize;
        let mtu = l.mtu as usize;
        let (from, to) = (k * mtu, ((k + 1) * mtu).min(p.payload.len()));
        let last = n + 1 == p.first + p.span;
        let psn = ((u64::from(l.own) + n) % (1 << 24)) as u32;
        let mut bytes = Vec::with_capacity(12 + 16 + (to - from) + 4);
        let opcode = match (k == 0, last) {
            (true, true) => 0x0a,
            (true, false) => 6,
            (false, false) => 7,
            (false, true) => 8,
        };
        head(&mut bytes, opcode, l.peer, last || psn % 8 == 7, psn);
        if k == 0 {
            bytes.extend_from_slice(&p.request.remote.to_be_bytes());
            bytes.extend_from_slice(&p.request.rkey.to_be_bytes());
            bytes.extend_from_slice(&p.request.length.to_be_bytes());
        }
        bytes.extend_from_slice(&p.payload[from..to]);
        bytes.extend_from_slice(&[0; 4]);
        l.next = n + 1;
        l.top = l.top.max(l.next);
        Outcome {
            answer: Answer::Sent,
            sent: vec![Sent {
                to: l.partner,
                number: Some(n),
                bytes,
            }],
        }
    }
    fn arrive(&mut self, bytes: &[u8]) -> Outcome {
        let silent = || plain(Answer::Took(Took::Silent));
        if bytes.len() < 16 {
            return silent();
        }
        let word = |i: usize| u32::from_be_bytes(bytes[i..i + 4].try_into().unwrap());
        let (opcode, dest, psn) = (bytes[0], word(4) & 0xff_ffff, word(8) & 0xff_ffff);
        let Some(&(ref context, place)) = self.index.get(&dest) else {
            return silent();
        };
        let Some(c) = self.contexts.get_mut(context) else {
            return silent();
        };
        if opcode == 0x0a {
            if bytes.len() < 32 {
                return silent();
            }
            let address = u64::from_be_bytes(bytes[12..20].try_into().unwrap());
            let (rkey, length) = (word(20), word(24));
            let l = &c.ends[place].link;
            let near = (u64::from(psn) + (1 << 24) - (u64::from(l.other) + l.expected) % (1 << 24))
                % (1 << 24);
            if near != 0 {
                return silent();
            }
            let payload = &bytes[28..bytes.len() - 4];
            if payload.len() != length as usize || payload.len() > l.mtu as usize {
                return silent();
            }
            let Some((r, at)) = c.remote_spot(rkey, address, length) else {
                return silent();
            };
            c.regions[r].bytes[at..at + payload.len()].copy_from_slice(payload);
            let l = &mut c.ends[place].link;
            l.expected += 1;
            l.msn = (l.msn + 1) % (1 << 24);
            l.nak = false;
            let mut out = Vec::with_capacity(20);
            head(&mut out, 0x11, l.peer, false, psn);
            out.extend_from_slice(&(0x1f00_0000 | l.msn).to_be_bytes());
            out.extend_from_slice(&[0; 4]);
            let n = l.expected - 1;
            Outcome {
                answer: Answer::Took(Took::Ack),
                sent: vec![Sent {
                    to: l.partner,
                    number: Some(n),
                    bytes: out,
                }],
            }
        } else if opcode == 0x11 {
            let end = &mut c.ends[place];
            let l = &mut end.link;
            let off =
                (u64::from(psn) + (1 << 24) - (u64::from(l.own) + l.una) % (1 << 24)) % (1 << 24);
            let n = l.una + off;
            if n >= l.top {
                return silent();
            }
            l.una = n + 1;
            while let Some(p) = end.sq.front() {
                if p.first + p.span > l.una {
                    break;
                }
                let q = &mut c.queues[end.cq];
                q.reserved -= 1;
                if p.request.signaled {
                    q.entries.push_back(Completion {
                        qp: end.number,
                        id: p.request.id,
                        status: 0,
                        length: p.request.length,
                    });
                }
                end.sq.pop_front();
            }
            plain(Answer::Took(Took::Acked))
        } else {
            silent()
        }
    }
    fn poll(&mut self, o: ObjName, most: usize) -> Outcome {
        let Some(c) = self.contexts.get_mut(&o.context) else {
            return plain(Answer::Refused(Refusal::NoSuch));
        };
        let Some(&q) = c.cqs.get(&o.name) else {
            return plain(Answer::Refused(Refusal::NoSuch));
        };
        let q = &mut c.queues[q];
        let k = most.min(q.entries.len());
        plain(Answer::Polled(q.entries.drain(..k).collect()))
    }
}

fn address_of(place: u8) -> Address {
    Address {
        ip: 0x0a00_0000 | u32::from(place),
        port: 4791,
    }
}

fn make(place: u8, partner: u8) -> Device {
    let (local, number) = (u32::from(place) << 24 | 2, u32::from(place) << 16 | 1);
    let region = Region {
        base: 65536,
        rights: 15,
        local,
        remote: local + 1,
        bytes: vec![0; 1 << 20],
    };
    let link = Link {
        peer: u32::from(partner) << 16 | 1,
        partner: address_of(partner),
        mtu: 1024,
        own: 100,
        other: 100,
        una: 0,
        next: 0,
        top: 0,
        end: 0,
        expected: 0,
        msn: 0,
        nak: false,
    };
    let end = End {
        number,
        cq: 0,
        depth: 64,
        sq: VecDeque::with_capacity(64),
        link,
    };
    let context = Context {
        local: HashMap::from([(region.local, 0)]),
        remote: HashMap::from([(region.remote, 0)]),
        regions: vec![region],
        cqs: HashMap::from([(name(b"c"), 0)]),
        queues: vec![Cq {
            capacity: 256,
            reserved: 0,
            entries: VecDeque::with_capacity(256),
        }],
        names: HashMap::from([(name(b"q"), 0)]),
        ends: vec![end],
    };
    Device {
        contexts: HashMap::from([(name(b"a"), context)]),
        index: HashMap::from([(number, (name(b"a"), 0))]),
    }
}

fn main() {
    let begin = Instant::now();
    let (mut a, mut b) = (make(1, 2), make(2, 1));
    let making = begin.elapsed().as_nanos();
    let q = ObjName {
        context: name(b"a"),
        name: name(b"q"),
    };
    let c = ObjName {
        context: name(b"a"),
        name: name(b"c"),
    };
    let mut best = [u128::MAX; 5];
    let mut done = 0usize;
    for _ in 0..ROWS {
        let t = Instant::now();
        for i in 0..ROW {
            let at = 65536 + u64::from(i) * 1024;
            let r = Request {
                id: u64::from(i),
                length: 1024,
                remote: at,
                rkey: 0x0200_0003,
                lkey: 0x0100_0002,
                local: at,
                signaled: true,
            };
            if let Answer::Refused(r) = std::hint::black_box(a.post(q, &r)).answer {
                panic!("{r:?}")
            }
        }
        best[0] = best[0].min(t.elapsed().as_nanos());
        let t = Instant::now();
        let mut row = Vec::with_capacity(64);
        for _ in 0..ROW {
            row.extend(a.transmit(q).sent);
        }
        best[1] = best[1].min(t.elapsed().as_nanos());
        let t = Instant::now();
        let mut acks = Vec::with_capacity(64);
        for s in &row {
            acks.extend(b.arrive(&s.bytes).sent);
        }
        best[2] = best[2].min(t.elapsed().as_nanos());
        let t = Instant::now();
        for s in &acks {
            std::hint::black_box(a.arrive(&s.bytes));
        }
        best[3] = best[3].min(t.elapsed().as_nanos());
        let t = Instant::now();
        for _ in 0..ROW {
            if let Answer::Polled(e) = a.poll(c, 1).answer {
                done += e.len();
            }
        }
        best[4] = best[4].min(t.elapsed().as_nanos());
    }
    println!("making two {making} ns; completions {done}; ns for each event:");
    println!(
        "post {} transmit {} arrive {} ack {} poll {}",
        best[0] / 60,
        best[1] / 60,
        best[2] / 60,
        best[3] / 60,
        best[4] / 60
    );
}
