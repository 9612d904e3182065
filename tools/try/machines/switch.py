#!/usr/bin/env python3
"""switch.py INTERFACE ..: a process that is the switch of a network, as root: what comes at an interface of this
computer (by its place in the list: that is a machine's number) goes to the one where its address was seen, or to all
others, and it makes the faults of a network. Lines on standard input say which, as {"cut": [[0, 1]], "delay": 5,
"jitter": 2}, in machines and milliseconds: that is all that holds from then on, and `done` answers it. It ends with its
input.

What goes a way that is cut is lost. What is late keeps its order. (The kernel's netem does so, too, where it has one.)
"""
import heapq
import json
import random
import selectors
import socket
import sys
import time

FRAME = 1 << 17
SOL_PACKET, PACKET_VNET_HDR = 263, 15   # what a frame lacks of its sums and cuts goes with it, 10 bytes ahead of it
AHEAD = 10
ALL_FRAMES = 3
OUTGOING = 4


class Switch:
    def __init__(self, interfaces):
        self.cut, self.delay, self.jitter = set(), 0.0, 0.0
        self.at, self.waits, self.last, self.number = {}, [], {}, 0
        self.ports = [self.port(name) for name in interfaces]
        self.selector = selectors.DefaultSelector()
        for place, port in enumerate(self.ports):
            self.selector.register(port, selectors.EVENT_READ, place)
        self.selector.register(sys.stdin, selectors.EVENT_READ, None)

    @staticmethod
    def port(name):
        port = socket.socket(socket.AF_PACKET, socket.SOCK_RAW, socket.htons(ALL_FRAMES))
        port.setsockopt(SOL_PACKET, PACKET_VNET_HDR, 1)
        port.bind((name, ALL_FRAMES))
        port.setblocking(False)
        return port

    def hear(self):
        """Takes a line of what holds from now on; whether there was one."""
        line = sys.stdin.readline()
        if line:
            said = json.loads(line)
            self.cut = {tuple(it) for it in said.get('cut', ())}
            self.delay, self.jitter = said.get('delay', 0) / 1000, said.get('jitter', 0) / 1000
            print('done', flush=True)
        return bool(line)

    def take(self, place):
        """Takes a frame that came from a machine, and sees where it's to go."""
        frame, (_, _, kind, _, _) = self.ports[place].recvfrom(FRAME)
        if kind == OUTGOING:
            return
        to, own = frame[AHEAD:AHEAD + 6], frame[AHEAD + 6:AHEAD + 12]
        self.at[own] = place
        for other in [self.at[to]] if to in self.at else range(len(self.ports)):
            if other != place and (place, other) not in self.cut:
                self.hold((place, other), frame)

    def hold(self, way, frame):
        """Sends a frame, or keeps it until it's due."""
        late = max(0.0, self.delay + random.uniform(-self.jitter, self.jitter))
        due = max(self.last.get(way, 0.0), time.monotonic() + late)
        self.last[way], self.number = due, self.number + 1
        heapq.heappush(self.waits, (due, self.number, way, frame))

    def give(self):
        """Sends what is due, unless its way was cut meanwhile. How long it is until the next."""
        while self.waits:
            due, _, way, frame = self.waits[0]
            if due > time.monotonic():
                return due - time.monotonic()
            heapq.heappop(self.waits)
            if way not in self.cut:
                self.send(way[1], frame)
        return None

    def send(self, place, frame):
        try:
            self.ports[place].send(frame)
        except OSError:
            pass        # it's lost, as where a queue is full

    def run(self):
        print('done', flush=True)
        while True:
            for key, _ in self.selector.select(self.give()):
                if key.data is None:
                    if not self.hear():
                        return
                    continue
                try:
                    self.take(key.data)
                except OSError:
                    pass


if __name__ == '__main__':
    Switch(sys.argv[1:]).run()
