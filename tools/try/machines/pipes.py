#!/usr/bin/env python3
"""pipes.py ADDRESS FROM,INTO,PORT,TO ..: a process that carries connections between the machines of one computer, those
that machine FROM makes to machine INTO from PORT of the address to port TO, and makes the faults of a network. Lines on
standard input say which, as {"cut": [[0, 1]], "delay": 5, "jitter": 2}, in machines and milliseconds: that is all that
holds from then on, and `done` answers it. It ends with its input.

What goes a way that is cut waits until it's whole again, the end of a connection too, as with a cable that is pulled:
either end finds out by what doesn't come. What is late keeps its order."""
import asyncio
import json
import random
import sys

PIECE = 65536
PIECES = 64             # that are under way in one direction, at most


class Network:
    """What holds just now."""

    def __init__(self):
        self.cut, self.delay, self.jitter, self.changed = set(), 0.0, 0.0, asyncio.Event()

    def change(self, said):
        self.cut = {tuple(it) for it in said.get('cut', ())}
        self.delay, self.jitter = said.get('delay', 0) / 1000, said.get('jitter', 0) / 1000
        self.changed.set()
        self.changed = asyncio.Event()

    def due(self):
        """When what comes now is to be given on."""
        late = self.delay + random.uniform(-self.jitter, self.jitter)
        return asyncio.get_running_loop().time() + max(0.0, late)

    async def wait(self, way, due):
        """Until then, and until the way is whole."""
        while (late := due - asyncio.get_running_loop().time()) > 0:
            await asyncio.sleep(late)
        while way in self.cut:
            await self.changed.wait()


async def take(network, reader, held):
    """What comes, each piece with its moment; the empty one is the end."""
    piece = b'.'
    while piece:
        try:
            piece = await reader.read(PIECE)
        except OSError:
            piece = b''
        await held.put((network.due(), piece))


async def give(network, way, reader, writer):
    """Gives on what comes, until one end is closed."""
    held = asyncio.Queue(PIECES)
    taking = asyncio.create_task(take(network, reader, held))
    try:
        while True:
            due, piece = await held.get()
            await network.wait(way, due)
            if not piece:
                return
            writer.write(piece)
            await writer.drain()
    except OSError:
        return
    finally:
        taking.cancel()


async def carry(network, way, address, target, reader, writer):
    """A connection, both ways, once there is one with the other machine."""
    far_writer = None
    try:
        await network.wait(way, network.due())
        far_reader, far_writer = await asyncio.open_connection(address, target)
        both = [asyncio.create_task(it) for it in (give(network, way, reader, far_writer),
                                                   give(network, way[::-1], far_reader, writer))]
        await asyncio.wait(both, return_when=asyncio.FIRST_COMPLETED)
        for it in both:
            it.cancel()
    except OSError:
        pass
    finally:
        for it in (writer, far_writer):
            if it:
                it.close()


async def main(address, *words):
    network = Network()
    for word in words:
        one, other, port, target = map(int, word.split(','))

        async def serve(reader, writer, way=(one, other), target=target):
            await carry(network, way, address, target, reader, writer)

        await asyncio.start_server(serve, address, port)
    print('done', flush=True)
    while line := await asyncio.to_thread(sys.stdin.readline):
        network.change(json.loads(line))
        print('done', flush=True)


if __name__ == '__main__':
    try:
        asyncio.run(main(*sys.argv[1:]))
    except KeyboardInterrupt:
        pass
