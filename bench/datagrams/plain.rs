use std::hint::black_box;
use std::time::Instant;

const TURNS: u64 = 1_000_000;

struct Write<'a> { dest: u32, psn: u32, ack: bool, address: u64, key: u32, length: u32, payload: &'a [u8] }

fn be(bytes: &[u8]) -> u64 { bytes.iter().fold(0, |n, b| n << 8 | u64::from(*b)) }

fn decode(bytes: &[u8]) -> Option<Write<'_>> {
    if bytes.len() < 32 || bytes[0] != 0x0a || bytes[1] & 0x0f != 0 { return None; }
    let pad = usize::from(bytes[1] >> 4 & 3);
    let payload = bytes[28..bytes.len() - 4].len().checked_sub(pad)?;
    Some(Write {
        dest: be(&bytes[5..8]) as u32, psn: be(&bytes[9..12]) as u32, ack: bytes[8] & 0x80 != 0,
        address: be(&bytes[12..20]), key: be(&bytes[20..24]) as u32, length: be(&bytes[24..28]) as u32, payload: &bytes[28..28 + payload],
    })
}

fn encode(d: &Write<'_>, out: &mut [u8]) {
    let pad = (4 - d.payload.len() % 4) % 4;
    out[..4].copy_from_slice(&[0x0a, (pad as u8) << 4, 0xff, 0xff]);
    out[4..8].copy_from_slice(&d.dest.to_be_bytes());
    out[8..12].copy_from_slice(&(d.psn | u32::from(d.ack) << 31).to_be_bytes());
    out[12..20].copy_from_slice(&d.address.to_be_bytes());
    out[20..24].copy_from_slice(&d.key.to_be_bytes());
    out[24..28].copy_from_slice(&d.length.to_be_bytes());
    let end = 28 + d.payload.len();
    out[28..end].copy_from_slice(d.payload);
    out[end..].fill(0);
}

fn measure(size: usize) {
    let mut bytes = vec![0u8; 32 + size];
    bytes[0] = 0x0a;
    let mut out = bytes.clone();
    let (mut one, mut two) = (0u64, 0u64);
    let start = Instant::now();
    for _ in 0..TURNS { if let Some(d) = decode(black_box(&bytes)) { one += u64::from(d.psn) + d.payload.len() as u64; } }
    let reads = start.elapsed().as_nanos() / u128::from(TURNS);
    let start = Instant::now();
    for _ in 0..TURNS { if let Some(d) = decode(black_box(&bytes)) { encode(&d, &mut out); two += u64::from(black_box(&out)[0]); } }
    let both = start.elapsed().as_nanos() / u128::from(TURNS);
    println!("{size} bytes: read {reads} ns, read and written {both} ns ({one} {two})");
}

fn main() { for size in [0, 64, 256, 1024, 4096] { measure(size); } }
