#!/usr/bin/env python3
"""coupler.py [PORT]: a Modbus coupler with three inputs and three outputs, for the motor of motor.il, by Python's standard library
alone. It takes the words start, stop, trip and good on standard input (start and stop are pressed for half a second) and
prints its outputs when they change."""
import socket
import struct
import sys
import threading
import time

inputs = [0, 1, 1]   # START, STOP_OK, RELAY_OK: the last two are TRUE while nobody presses and nothing has tripped
coils = [0, 0, 0]    # RUN, GREEN, RED


def reply(pdu):
    """Functions 2 (discrete inputs) and 15 (coils); exception 1 to others, 2 where cells aren't there."""
    function, first, count = struct.unpack('>BHH', pdu[:5])
    if function not in (2, 15):
        return bytes([function | 0x80, 1])
    if first + count > 3:
        return bytes([function | 0x80, 2])
    if function == 2:
        return bytes([2, 1, sum(bit << k for k, bit in enumerate(inputs[first:first + count]))])
    before = list(coils)
    coils[first:first + count] = [pdu[6] >> k & 1 for k in range(count)]
    if coils != before:
        print('RUN GREEN RED =', *coils, flush=True)
    return pdu[:5]


def whole(connection, count):
    data = b''
    while len(data) < count:
        piece = connection.recv(count - len(data))
        if not piece:
            raise OSError
        data += piece
    return data


def serve(connection):
    try:
        while True:
            transaction, protocol, length, unit = struct.unpack('>HHHB', whole(connection, 7))
            answer = reply(whole(connection, length - 1))
            connection.sendall(struct.pack('>HHHB', transaction, protocol, len(answer) + 1, unit) + answer)
    except OSError:
        connection.close()


def obey():
    for word in sys.stdin:
        match word.strip():
            case 'start':
                inputs[0] = 1
                time.sleep(0.5)
                inputs[0] = 0
            case 'stop':
                inputs[1] = 0
                time.sleep(0.5)
                inputs[1] = 1
            case 'trip':
                inputs[2] = 0
            case 'good':
                inputs[2] = 1


def main():
    threading.Thread(target=obey, daemon=True).start()
    server = socket.create_server(('127.0.0.1', int(sys.argv[1]) if len(sys.argv) > 1 else 1502))
    while True:
        threading.Thread(target=serve, args=(server.accept()[0],), daemon=True).start()


main()
