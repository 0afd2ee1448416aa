// The same work in plain Rust: one thread sends numbered completions over a bounded channel, and consumers share its receiver.
#![allow(dead_code)]

use std::sync::mpsc::{sync_channel, Receiver};
use std::sync::Mutex;
use std::thread;
use std::time::Instant;

const UNTIL: usize = 50_000;
const RUNS: usize = 5;

#[derive(Clone, Copy)]
struct Completion { qp: u32, id: u64, kind: u8, status: u8, length: u32, imm: Option<u32> }

#[derive(Clone, Copy)]
struct Entry { place: u64, completion: Completion }

fn consume(receiver: &Mutex<Receiver<Option<Entry>>>) -> Vec<Entry> {
    let mut taken = Vec::with_capacity(UNTIL + 1);
    loop {
        let next = receiver.lock().unwrap().recv();
        match next {
            Ok(Some(entry)) => taken.push(entry),
            _ => return taken,
        }
    }
}

fn taken(consumers: usize, capacity: usize) -> usize {
    let (sender, receiver) = sync_channel(capacity);
    let receiver = Mutex::new(receiver);
    let mut given: Vec<Completion> = Vec::with_capacity(UNTIL);
    thread::scope(|scope| {
        let takers: Vec<_> = (0..consumers).map(|_| scope.spawn(|| consume(&receiver))).collect();
        let giver = scope.spawn(move || {
            for place in 0..UNTIL as u64 {
                let completion = Completion { qp: 65_537, id: place, kind: 4, status: 0, length: 8, imm: None };
                given.push(completion);
                sender.send(Some(Entry { place, completion })).unwrap();
            }
            for _ in 0..consumers {
                sender.send(None).unwrap();
            }
            given.len()
        });
        giver.join().unwrap();
        takers.into_iter().map(|taker| taker.join().unwrap().len()).sum()
    })
}

fn main() {
    for consumers in 1..5 {
        for capacity in [16, 1024] {
            let least = (0..RUNS)
                .map(|_| {
                    let start = Instant::now();
                    assert_eq!(taken(consumers, capacity), UNTIL);
                    start.elapsed().as_nanos()
                })
                .min()
                .unwrap();
            let rate = UNTIL as u128 * 1000 / (least / 1000).max(1);
            println!("consumers {consumers} capacity {capacity}: {rate} thousand completions a second");
        }
    }
}
