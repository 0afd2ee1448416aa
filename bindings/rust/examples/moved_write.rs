//! A WRITE of three packets, whose target moves to another device after the first one.
use jichurpa::*;

/// A context with a region of 4,096 bytes from address 4096 on, and a queue pair.
fn application(device: &mut Device, name: &str) -> Result<(Region, QueuePair), Error> {
    let context = device.make_context(name)?;
    let domain = device.make_domain(context, "d")?;
    let cq = device.make_completion_queue(context, "c", 16)?;
    let qp = device.make_queue_pair(domain, "q", QueuePairOptions::new(cq))?;
    Ok((device.make_region(domain, "r", 4096, 4096, Rights::ALL)?, qp))
}

/// A queue pair sends a packet. It arrives, and so does what answers it.
fn send(devices: &mut [Device; 3], mut at: usize, qp: QueuePair) -> Result<(), Error> {
    devices[at].transmit(qp)?;
    while let Some(datagram) = devices[at].sent().next() {
        let from = devices[at].address();
        at = usize::from(datagram.to.ip().octets()[3]) - 1;
        println!("{}: {:?}", datagram.to.ip(), devices[at].arrive(from, &datagram.bytes)?.effect);
    }
    Ok(())
}

fn main() -> Result<(), Box<dyn std::error::Error>> {
    let [one, two, three] = ["10.0.0.1:4791".parse()?, "10.0.0.2:4791".parse()?, "10.0.0.3:4791".parse()?];
    let mut devices = [Device::new(1, one)?, Device::new(2, two)?, Device::new(3, three)?];
    let ((source, a), (target, b)) = (application(&mut devices[0], "a")?, application(&mut devices[1], "b")?);
    devices[0].connect(a, Partner::new(b, two), Terms::default())?;
    devices[1].connect(b, Partner::new(a, one), Terms::default())?;
    devices[0].post_send(a, &WorkRequest::write(1, source.range(4096, 3000), target.remote(4096)))?;
    send(&mut devices, 0, a)?;
    let dump = devices[1].stop(b.context())?.to_bytes()?; // carry these bytes where you like
    send(&mut devices, 0, a)?;
    devices[2].restore(Image::decode(&dump)?)?;
    send(&mut devices, 2, b)?; // RESUME, with the new address
    (0..3).try_for_each(|_| send(&mut devices, 0, a))?; // again from the first packet
    println!("{:?}", devices[0].poll(a.context().completion_queue("c")?, 1)?);
    Ok(())
}
