#!/usr/bin/env python3
"""play.py PLC PICTURE.svg [SECONDS]: starts three machines of a group on this computer, each a process of `PLC serve --group` with
failover.il, kills the one that drives every four seconds, or so, and starts it again, plays the tank and its pump at whichever drives for that
long (30), and draws what it saw. By Python's standard library alone."""
import os
import random
import subprocess
import sys
import tempfile
import threading
import time

HERE = os.path.dirname(os.path.abspath(__file__))
sys.path.insert(0, os.path.dirname(HERE))
from client import Machines  # noqa: E402
from failover import Lines, free_port, gaps, picture, play  # noqa: E402

MACHINES = 3
PERIOD = 100            # milliseconds from scan to scan
BETWEEN = 4.0           # seconds from kill to kill
OFF = 1.0               # seconds until it's started again


class Group:
    """The machines, and when each was killed."""

    def __init__(self, plc, folder):
        self.plc, self.folder, self.kills, self.machines = plc, folder, [], [None] * MACHINES
        self.modbus = [free_port() for _ in range(MACHINES)]
        self.file = os.path.join(folder, 'group.toml')
        with open(self.file, 'w', encoding='ascii') as file:
            file.write(f'name = "failover"\nperiod = {PERIOD}\n')
            for port in self.modbus:
                file.write(f'[[machine]]\nreplica = "127.0.0.1:{free_port()}"\nmodbus = "127.0.0.1:{port}"\n')
        subprocess.run([plc, 'format', '--new-group', '--group', self.file], check=True)
        for machine in range(MACHINES):
            subprocess.run([plc, 'format', os.path.join(HERE, '..', 'failover.il'), '--group', self.file, '--machine', str(machine),
                            '--store', self.store(machine)], check=True)
            self.start(machine)

    def store(self, machine):
        return os.path.join(self.folder, f'store-{machine}')

    def start(self, machine):
        process = subprocess.Popen([self.plc, 'serve', '--group', self.file, '--store', self.store(machine)], stderr=subprocess.PIPE, text=True)
        self.machines[machine] = process, Lines(process.stderr)

    def driving(self):
        """The machine that said last that it drives, of those that are up."""
        told = [(at, machine) for machine, (_, lines) in enumerate(self.machines) for at, line in list(lines.lines) if line.startswith('driving')]
        return max(told, default=(0, None))[1]

    def trouble(self, seconds):
        """Kills the one that drives, again and again, and starts it again."""
        end = time.monotonic() + seconds
        while time.monotonic() + BETWEEN < end:
            time.sleep(BETWEEN - OFF + random.uniform(0, PERIOD / 1000))
            machine = self.driving()
            self.kills.append((time.monotonic(), machine))
            self.machines[machine][0].kill()
            self.machines[machine][0].wait()
            time.sleep(OFF)
            self.start(machine)

    def end(self):
        for process, _ in self.machines:
            process.kill()
            process.wait()


def main(words):
    if len(words) not in (2, 3):
        sys.exit(__doc__)
    seconds = float(words[2]) if len(words) == 3 else 30.0
    with tempfile.TemporaryDirectory() as folder:
        group = Group(os.path.abspath(words[0]), folder)
        try:
            with Machines([('127.0.0.1', port) for port in group.modbus]) as plc:
                killer = threading.Thread(target=group.trouble, args=(seconds,), daemon=True)
                killer.start()
                begin, seen = play(plc, seconds)
            killer.join()
        finally:
            group.end()
    kills = [(at - begin, machine) for at, machine in group.kills]
    gap = gaps(seen)
    longest = max(it for _, it in gap)
    title = f'The machine that drives is killed {len(kills)} times in {seconds:.0f} s: the longest time from scan to scan was {longest * 1000:.0f} ms'
    with open(words[1], 'w', encoding='utf-8') as file:
        file.write(picture(seconds, seen, kills, gap, title, 'Red: the machine that drives is killed, and another one goes on. Its number stands above.'))
    print(title)


if __name__ == '__main__':
    main(sys.argv[1:])
