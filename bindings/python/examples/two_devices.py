"""A WRITE of 500 bytes in two packets. Between them the context that it is for moves from device 2 to device 3."""

from jichurpa import Device, Rights, Terms, WorkRequest, connect


def application(device, name, base):
    """A context with a completion queue, a region of 512 bytes at an address, and a queue pair."""
    context = device.make_context(name)
    domain, cq = context.make_domain("p"), context.make_cq("c", 16)
    region = context.make_region("m", domain, base, 512, Rights.LOCAL_WRITE | Rights.REMOTE_WRITE)
    return context, cq, region, context.make_qp("q", domain, cq, cq, 8, 8)


def carry(devices, source, datagrams):
    """The network: datagrams arrive where they are sent to, and then what answers them."""
    for datagram in datagrams:
        device = next(device for device in devices if device.address == datagram.to)
        arrival = device.arrive(source.address, datagram.data)
        print(f"device {device.id}: {arrival.took.name}")
        carry(devices, device, arrival.sent)


with Device(1, "10.0.0.1") as one, Device(2, "10.0.0.2") as two, Device(3, "10.0.0.3") as three:
    devices = [one, two, three]
    a, done, m, sender = application(one, "a", 4096)
    b, _, n, receiver = application(two, "b", 8192)
    connect(sender, receiver, Terms(mtu=256, own_start=100, peer_start=200))
    m.store(4096, b"01234" * 100)
    sender.post_send(WorkRequest.write(1, m.local_key, 4096, 500, 8192, n.remote_key))
    first, second = sender.outgoing()
    carry(devices, one, [first])
    image = b.stop()  # bytes: send them to the machine where the context is to live
    carry(devices, one, [second])
    moved = three.restore(image)
    carry(devices, three, moved.qp("q").outgoing())
    carry(devices, one, sender.outgoing())
    two.release("b")
    print(done.poll()[0].status.name, moved.region("m").load(8192, 500) == b"01234" * 100)
