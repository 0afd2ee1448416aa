use std::collections::HashMap;
use std::hint::black_box;
use std::time::Instant;

struct Region {
    domain: [u8; 16],
    base: u64,
    rights: u8,
    bytes: Vec<u8>,
}

fn writes(bytes: &[u8], turns: u64) {
    let mut list = vec![0u8; 65_536];
    let start = Instant::now();
    for turn in 0..turns {
        let at = (turn % 60 * 1024) as usize;
        list[at..at + bytes.len()].copy_from_slice(bytes);
        black_box(&mut list);
    }
    let each = start.elapsed().as_nanos() / u128::from(turns);
    println!("plain: writes of {} bytes: {each} ns ({})", bytes.len(), list[1024]);
}

fn granted(r: &Region, domain: &[u8; 16], at: u64, length: u64, rights: u8) -> Option<usize> {
    let inside = at >= r.base && length <= r.bytes.len() as u64 && at - r.base <= r.bytes.len() as u64 - length;
    (r.domain == *domain && r.rights & rights == rights && inside).then(|| (at - r.base) as usize)
}

fn snapshots(length: usize, bytes: &[u8], turns: u64) {
    let domain = [1; 16];
    let mut regions = HashMap::new();
    regions.insert(2u32, Region { domain, base: 8192, rights: 15, bytes: vec![0; 131_072] });
    let mut sum = 0u64;
    let start = Instant::now();
    for turn in 0..turns {
        let at = 8192 + turn % 60 * 1024;
        let region = regions.get_mut(&2).unwrap();
        let first = granted(region, &domain, at, length as u64, 0).unwrap();
        let payload = region.bytes[first..first + length].to_vec();
        let place = granted(region, &domain, at, bytes.len() as u64, 1).unwrap();
        region.bytes[place..place + bytes.len()].copy_from_slice(bytes);
        sum = sum.wrapping_add(u64::from(black_box(&payload)[0]));
    }
    let each = start.elapsed().as_nanos() / u128::from(turns);
    println!("plain: a copy of {length} bytes and a store of {}: {each} ns ({sum})", bytes.len());
}

fn moves(turns: u64) {
    let mut list = vec![7u8; 16 << 20];
    let start = Instant::now();
    for _ in 0..turns {
        let image = black_box(&list).to_vec();
        list = image;
    }
    let each = start.elapsed().as_nanos() / u128::from(turns);
    println!("plain: a copy of 16 MiB: {each} ns ({})", list[4096]);
}

fn main() {
    writes(&[7; 64], 4_000_000);
    writes(&[7; 1024], 4_000_000);
    writes(&[7; 4096], 4_000_000);
    snapshots(1024, &[7; 1024], 1_000_000);
    snapshots(65_536, &[7; 4], 1_000_000);
    moves(64);
}
