"""A lossy network between nodes on one machine.

Each node has a face: an address of the proxy at which its partners find it. A datagram to a face goes on to the node behind it, and
seems to come from the face of its sender. So nodes know each other by faces alone, and every datagram passes the proxy. RESUME and
RESUME_ACK name the address of a device; the proxy writes the face in its place, or the device, as they go.
"""
import random
import select
import socket
import threading

PORT = 4791
RESUME, RESUME_ACK = 0x1E, 0x1F
# Where the address and the port of a device stand in RESUME and RESUME_ACK.
ADDRESS = slice(16, 22)


def packed(ip, port=PORT):
    """An address as RESUME writes it."""
    return socket.inet_aton(ip) + port.to_bytes(2, "big")


class Proxy(threading.Thread):
    """Passes datagrams on, and drops some: of each hundred `percent` on the average, as a generator with this seed draws."""

    def __init__(self, faces, percent=0, seed=1):
        """`faces` has the address of the face of each node's address."""
        super().__init__(daemon=True)
        self.faces, self.percent, self.random = faces, percent, random.Random(seed)
        self.behind = {face: ip for ip, face in faces.items()}
        self.sockets = {}
        self.passed = self.dropped = 0
        self.is_over = False
        for face in faces.values():
            made = socket.socket(socket.AF_INET, socket.SOCK_DGRAM)
            made.setsockopt(socket.SOL_SOCKET, socket.SO_RCVBUF, 4 << 20)
            made.setblocking(False)
            made.bind((face, PORT))
            self.sockets[face] = made

    def run(self):
        faces = {made.fileno(): face for face, made in self.sockets.items()}
        poller = select.poll()
        for number in faces:
            poller.register(number, select.POLLIN)
        while not self.is_over:
            for number, _ in poller.poll(50):
                self.drain(faces[number])

    def drain(self, face):
        """Passes on what waits at a face."""
        for _ in range(64):
            try:
                datagram, (sender, _) = self.sockets[face].recvfrom(8192)
            except OSError:
                return
            if sender not in self.faces:
                continue
            if self.random.random() * 100 < self.percent:
                self.dropped += 1
                continue
            self.passed += 1
            try:
                self.sockets[self.faces[sender]].sendto(self.translated(datagram), (self.behind[face], PORT))
            except OSError:
                pass

    def translated(self, datagram):
        """The datagram as its receiver has to read it."""
        if datagram[:1] not in (bytes([RESUME]), bytes([RESUME_ACK])) or len(datagram) < ADDRESS.stop:
            return datagram
        told = socket.inet_ntoa(datagram[ADDRESS][:4])
        turned = self.faces.get(told) if datagram[0] == RESUME else self.behind.get(told)
        if turned is None:
            return datagram
        return datagram[: ADDRESS.start] + packed(turned) + datagram[ADDRESS.stop :]

    def close(self):
        """Ends it."""
        self.is_over = True
        self.join()
        for made in self.sockets.values():
            made.close()
