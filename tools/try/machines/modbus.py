"""A client of Modbus TCP that waits no longer than it's told."""
import socket
import struct

import program


def connection(address, limit):
    stream = socket.create_connection(address, limit)
    stream.settimeout(limit)
    stream.setsockopt(socket.IPPROTO_TCP, socket.TCP_NODELAY, 1)
    return stream


class Modbus:
    """A client over a connection that has a limit of time. Where it has an exception or no answer, it's an OSError."""

    def __init__(self, stream):
        self.stream = stream

    def __enter__(self):
        return self

    def __exit__(self, *_):
        self.stream.close()

    def ask(self, pdu):
        self.stream.sendall(struct.pack('>HHHB', 1, 0, len(pdu) + 1, 1) + pdu)
        reply = self.take(struct.unpack('>HHHB', self.take(7))[2] - 1)
        if reply[0] & 0x80:
            raise OSError(f'exception {reply[1]}')
        return reply

    def take(self, count):
        taken = b''
        while len(taken) < count:
            more = self.stream.recv(count - len(taken))
            if not more:
                raise OSError('closed')
            taken += more
        return taken

    def outputs(self):
        return program.Outputs.of(self.ask(program.READ))

    def write_bit(self, place, value):
        self.ask(struct.pack('>BHH', 5, place, 0xff00 if value else 0))

    def write_word(self, place, value):
        self.ask(struct.pack('>BHh', 6, place, value))
