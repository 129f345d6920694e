"""A client that sends bytes and reads packets, and packets as bytes (MQTT 5.0, 2.1, 3.1, 3.3, 3.8)."""
import socket


def text_of(text):
    return len(text).to_bytes(2, "big") + text.encode()


def packet(first, rest):
    """A packet of a first byte and what follows its length (2.1.4)."""
    length, left = b"", len(rest)
    while True:
        left, low = divmod(left, 128)
        length += bytes([low | (128 if left else 0)])
        if not left:
            return bytes([first]) + length + rest


class Client:
    """A client that sends bytes and reads packets."""

    def __init__(self, port, window=0):
        self.socket = socket.socket()
        if window:
            self.socket.setsockopt(socket.SOL_SOCKET, socket.SO_RCVBUF, window)
        self.socket.settimeout(20)
        self.socket.connect(("127.0.0.1", port))
        self.held = b""

    def send(self, *packets):
        self.socket.sendall(b"".join(packets))

    def read(self):
        """The next packet, or nothing where the server closed."""
        while True:
            found = self.whole()
            if found is not None:
                return found
            try:
                more = self.socket.recv(65536)
            except OSError:
                return b""
            if not more:
                return b""
            self.held += more

    def whole(self):
        length = shift = 0
        for at, byte in enumerate(self.held[1:5]):
            length |= (byte & 127) << shift
            shift += 7
            if byte < 128:
                end = 2 + at + length
                if len(self.held) < end:
                    return None
                found, self.held = self.held[:end], self.held[end:]
                return found
        return None

    def connect(self, name, clean=True, expiry=0, aliases=0):
        """CONNECT (3.1), with a Topic Alias Maximum if it isn't 0; the CONNACK."""
        flags = b"\x02" if clean else b"\x00"
        properties = b"\x11" + expiry.to_bytes(4, "big") + (b"\x22" + aliases.to_bytes(2, "big") if aliases else b"")
        properties = bytes([len(properties)]) + properties
        self.send(packet(0x10, text_of("MQTT") + b"\x05" + flags + b"\x00\x00" + properties + text_of(name)))
        return self.read()

    def subscribe(self, topic, qos):
        self.send(packet(0x82, b"\x00\x01\x00" + text_of(topic) + bytes([qos])))
        return self.read()

    def ping(self):
        self.send(b"\xc0\x00")
        return self.read()

    def close(self):
        self.socket.close()


def publish(topic, payload, qos=0, identifier=1, retain=0):
    number = identifier.to_bytes(2, "big") if qos else b""
    return packet(0x30 | qos << 1 | retain, text_of(topic) + number + b"\x00" + payload)
