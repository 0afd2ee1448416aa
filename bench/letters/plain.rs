use std::collections::VecDeque;
use std::time::Instant;

const TURNS: u32 = 200;

struct Letter { tag: u32, body: Vec<u8> }

/// Letters by value: bytes are copied into the queue of the network, out of it into the receiver's place, and out of that into the letter.
struct Mail { sent: VecDeque<(u32, Vec<u8>)>, place: Vec<u8>, here: VecDeque<Letter> }

impl Mail {
    fn send(&mut self, tag: u32, body: &[u8]) { self.sent.push_back((tag, body.to_vec())); }

    fn settle(&mut self) {
        while let Some((tag, bytes)) = self.sent.pop_front() {
            self.place[..bytes.len()].copy_from_slice(&bytes);
            self.here.push_back(Letter { tag, body: self.place[..bytes.len()].to_vec() });
        }
    }

    fn take(&mut self, tag: u32) -> Option<Letter> {
        let at = self.here.iter().position(|l| l.tag == tag)?;
        self.here.remove(at)
    }
}

fn measure(count: u32, size: usize) {
    let body = vec![7u8; size];
    let mut mail = Mail { sent: VecDeque::new(), place: vec![0; size], here: VecDeque::new() };
    let (mut best, mut bytes) = (u128::MAX, 0u64);
    for _ in 0..5 {
        let start = Instant::now();
        bytes = 0;
        for _ in 0..TURNS {
            for tag in 0..count { mail.send(tag, &body); }
            mail.settle();
            for tag in 0..count { if let Some(l) = mail.take(tag) { bytes += l.body.len() as u64; } }
        }
        best = best.min(start.elapsed().as_nanos());
    }
    println!("{size} bytes, {count} a turn: {} ns a letter ({bytes} bytes taken)", best / (u128::from(TURNS) * u128::from(count)));
}

fn main() {
    measure(8, 64);
    measure(8, 1024);
    measure(8, 4072);
    measure(1, 16_384);
    measure(1, 1_048_576);
}
