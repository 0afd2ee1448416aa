// A bare loop over loopback: a datagram of SIZE bytes goes, one of 20 bytes comes back, and so on. Prints microseconds for each.
// usage: plain SIZE COUNT
use std::net::UdpSocket;
use std::time::{Duration, Instant};

const LONGEST: usize = 4201;

fn socket() -> UdpSocket {
    let socket = UdpSocket::bind("127.0.0.1:0").unwrap();
    socket.set_read_timeout(Some(Duration::from_millis(1000))).unwrap();
    socket
}

fn main() {
    let words: Vec<usize> = std::env::args().skip(1).map(|word| word.parse().unwrap()).collect();
    let (size, count) = (words[0], words[1]);
    let (one, two) = (socket(), socket());
    let to = two.local_addr().unwrap();
    let answering = std::thread::spawn(move || {
        let mut buffer = [0; LONGEST];
        for _ in 0..count {
            let (_, from) = two.recv_from(&mut buffer).unwrap();
            two.send_to(&buffer[..20], from).unwrap();
        }
    });
    let mut buffer = [0; LONGEST];
    let begun = Instant::now();
    for _ in 0..count {
        one.send_to(&buffer[..size], to).unwrap();
        one.recv_from(&mut buffer).unwrap();
    }
    let taken = begun.elapsed();
    answering.join().unwrap();
    println!("{:.1}", taken.as_secs_f64() * 1e6 / count as f64);
}
