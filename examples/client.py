#!/usr/bin/env python3
"""client.py [PORT]: a client of Modbus TCP for `plc serve`, by Python's standard library alone. As a program it starts and stops the
motor of motor.il at 127.0.0.1 and prints what it sees; `from client import Plc` has it for your own (tools/try/try-readme runs both), and
`Machines` for a group of several machines."""
import socket
import struct
import sys
import time


class Refused(Exception):
    """The controller answered with an exception of Modbus: 1 no such function, 2 no such address, 3 no such value, 4 it's full."""


class Plc:
    """One connection. Bits have the numbers 0 to 511 (%IXb.n and %QXb.n are 8b+n), words 0 to 63, with values of 16 bits."""

    def __init__(self, host='127.0.0.1', port=5020, timeout=5):
        self.socket = socket.create_connection((host, port), timeout)
        self.transaction = 0

    def __enter__(self):
        return self

    def __exit__(self, *_):
        self.socket.close()

    def read_outputs(self, first, count):
        """Bits of %Q, as the last scan released them."""
        return self._bits(2, first, count)

    def read_output_words(self, first, count):
        return self._words(4, first, count)

    def read_inputs(self, first, count):
        """Bits of %I, as clients wrote them."""
        return self._bits(1, first, count)

    def read_input_words(self, first, count):
        return self._words(3, first, count)

    def write_inputs(self, first, values):
        """Bits of %I, all in one scan: the next one to begin has them."""
        packed = bytearray((len(values) + 7) // 8)
        for place, value in enumerate(values):
            packed[place // 8] |= bool(value) << place % 8
        self._ask(struct.pack('>BHHB', 15, first, len(values), len(packed)) + packed)

    def write_input_words(self, first, values):
        self._ask(struct.pack('>BHHB', 16, first, len(values), 2 * len(values)) + struct.pack(f'>{len(values)}H', *(it % 65536 for it in values)))

    def _bits(self, function, first, count):
        packed = self._ask(struct.pack('>BHH', function, first, count))[2:]
        return [packed[place // 8] >> place % 8 & 1 == 1 for place in range(count)]

    def _words(self, function, first, count):
        return list(struct.unpack(f'>{count}h', self._ask(struct.pack('>BHH', function, first, count))[2:]))

    def _ask(self, request):
        """The reply to a request, without the header of seven bytes: transaction, protocol 0, length, unit."""
        self.transaction = (self.transaction + 1) % 65536
        self.socket.sendall(struct.pack('>HHHB', self.transaction, 0, len(request) + 1, 1) + request)
        transaction, _, length, _ = struct.unpack('>HHHB', self._take(7))
        reply = self._take(length - 1)
        if transaction != self.transaction:
            raise ConnectionError('a reply to another request')
        if reply[0] & 0x80:
            raise Refused(reply[1])
        return reply

    def _take(self, count):
        taken = b''
        while len(taken) < count:
            more = self.socket.recv(count - len(taken))
            if not more:
                raise ConnectionError('the controller closed the connection')
            taken += more
        return taken


class Machines(Plc):
    """A group of machines, each at a host and a port: a connection with the one that drives. Where that ends it comes anew, with another
    one, and writes again what was written last at each place, since a machine that died may not have told its last inputs to the others."""

    def __init__(self, addresses, timeout=0.3, patience=10):
        self.addresses, self.timeout, self.patience, self.written, self.socket = list(addresses), timeout, patience, {}, None
        self._come()

    def _come(self):
        """A connection with the first machine that answers. To connect isn't enough: one that stands still has a port too."""
        end = time.monotonic() + self.patience
        while time.monotonic() < end:
            for host, port in self.addresses:
                try:
                    Plc.__init__(self, host, port, self.timeout)
                    for request in [*self.written.values(), struct.pack('>BHH', 2, 0, 1)]:
                        Plc._ask(self, request)
                    return
                except (OSError, Refused):
                    self._leave()
            time.sleep(0.005)
        raise ConnectionError('no machine drives')

    def _leave(self):
        if self.socket:
            self.socket.close()
        self.socket = None

    def _ask(self, request):
        if request[0] in (15, 16):
            self.written[request[:5]] = request
        while True:
            try:
                if self.socket:
                    return Plc._ask(self, request)
            except OSError:
                self._leave()
            except Refused as refused:
                if refused.args != (4,):
                    raise
                self._leave()  # what it released last is too old: it drives no more
            self._come()


def main():
    with Plc(port=int(sys.argv[1]) if len(sys.argv) > 1 else 5020) as plc:
        plc.write_inputs(0, [False, False, True])  # STOP first: the motor may run already
        time.sleep(0.5)
        for what, inputs in [('nobody presses', [False, True, True]), ('START is pressed', [True, True, True]),
                             ('and let go', [False, True, True]), ('STOP is pressed', [False, False, True])]:
            plc.write_inputs(0, inputs)
            time.sleep(0.5)  # some scans of 100 ms
            run, green, red = plc.read_outputs(0, 3)
            print(f'{what}: the motor {"runs" if run else "stands"}')
        try:
            plc.read_outputs(510, 3)
        except Refused as refused:
            print(f'bit 512 is no output: exception {refused}')


if __name__ == '__main__':
    main()
