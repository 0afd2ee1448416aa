#![allow(dead_code)]

use std::collections::VecDeque;
use std::time::Instant;

const TURNS: u64 = 4_000_000;

#[derive(Clone, Copy)]
struct Completion { qp: u32, id: u64, kind: u8, status: u8, length: u32, imm: Option<u32> }

#[derive(Clone, Copy)]
struct Address { ip: u32, port: u16 }

struct Sent { to: Address, number: Option<u64>, bytes: Vec<u8> }

struct Flight { from: Address, sent: Sent, lost: bool, taken: bool }

fn queue() {
    let blank = Completion { qp: 1, id: 0, kind: 0, status: 0, length: 4, imm: None };
    let mut entries: VecDeque<Completion> = VecDeque::with_capacity(1024);
    let mut reserved = 0usize;
    let mut out = [blank; 16];
    let mut sum = 0u64;
    let start = Instant::now();
    for id in 0..TURNS {
        if entries.len() + reserved < 1024 {
            reserved += 1;
            reserved -= 1;
            entries.push_back(Completion { id, ..blank });
        }
        if id % 16 == 15 {
            for place in out.iter_mut() {
                match entries.pop_front() { Some(c) => *place = c, None => break }
            }
            for done in &out { sum = sum.wrapping_add(done.id); }
        }
    }
    let each = start.elapsed().as_nanos() / u128::from(TURNS);
    println!("plain push and poll: {each} ns ({sum} {})", out[0].qp as u64 + out[0].kind as u64 + out[0].status as u64 + out[0].length as u64 + out[0].imm.unwrap_or(0) as u64);
}

fn store() {
    let mut ring: VecDeque<Flight> = VecDeque::with_capacity(16_384);
    let (mut gone, mut settled, mut sum) = (0u64, 0usize, 0u64);
    let from = Address { ip: 1, port: 4791 };
    let start = Instant::now();
    for turn in 0..TURNS {
        if ring.len() == 16_384 { ring.pop_front(); gone += 1; settled = settled.saturating_sub(1); }
        ring.push_back(Flight { from, sent: Sent { to: from, number: Some(turn), bytes: Vec::new() }, lost: false, taken: false });
        let k = gone + ring.len() as u64;
        if let Some(f) = ring.get((k - gone - 1) as usize) {
            if !f.lost && !f.sent.number.is_some_and(|n| n + 4_194_304 < turn) { sum = sum.wrapping_add(f.sent.to.port as u64 + f.sent.bytes.len() as u64); }
        }
        ring[(k - gone - 1) as usize].taken = true;
        while settled < ring.len() && (ring[settled].lost || ring[settled].taken) { settled += 1; }
        sum = sum.wrapping_add(if settled < ring.len() { gone + settled as u64 + 1 } else { 0 });
    }
    let each = start.elapsed().as_nanos() / u128::from(TURNS);
    println!("plain send, look, took and pending: {each} ns ({sum})");
}

fn main() { queue(); store(); }
