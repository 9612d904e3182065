#!/usr/bin/env python3
"""failover.py PLC PICTURE.svg [SECONDS]: has `PLC serve` (as build/plc) run failover.il on three replicas, of which one crashes and comes back
behind every 20 scans, plays the tank and its pump for that long (30), and draws what it saw. By Python's standard library alone."""
import json
import os
import socket
import subprocess
import sys
import tempfile
import threading
import time

from client import Plc

HERE = os.path.dirname(os.path.abspath(__file__))
PERIOD = 0.05           # seconds from scan to scan
CRASH = 20              # behind so many scans a replica crashes
FILLS, DRAINS = 330, 120    # millimetres a second: what the pump brings, what the users take
LEFT, WIDE = 70, 860    # of the picture, in points


def free_port():
    with socket.create_server(('127.0.0.1', 0)) as taken:
        return taken.getsockname()[1]


class Lines(threading.Thread):
    """The lines on standard error of the controller, each with its moment."""

    def __init__(self, stream):
        super().__init__(daemon=True)
        self.stream, self.lines, self.serves = stream, [], threading.Event()
        self.start()

    def run(self):
        for line in self.stream:
            self.lines.append((time.monotonic(), line.strip()))
            self.serves.set()
        self.serves.set()

    def crashes(self, begin):
        """The moments of crashes, each with its replica."""
        return [(at - begin, int(line.split()[1])) for at, line in self.lines if line.endswith(' crashed')]


def play(plc, seconds):
    """The tank: what was seen, as (moment, level, pump, count of scans)."""
    begin = last = time.monotonic()
    level, pump, seen = 260.0, False, []
    while last - begin < seconds:
        plc.write_input_words(0, [round(level)])
        pump = plc.read_outputs(0, 1)[0]
        scans = plc.read_output_words(0, 1)[0]
        now = time.monotonic()
        seen.append((now - begin, level, pump, scans))
        level += (now - last) * ((FILLS if pump else 0) - DRAINS)
        last = now
        time.sleep(PERIOD / 10)
    return begin, seen


def gaps(seen):
    """How long it was from each scan that was seen to the next one, as (moment, seconds)."""
    found, since = [], None
    for (at, _, _, scans), (_, _, _, before) in zip(seen[1:], seen):
        if scans != before:
            if since is not None:
                found.append((at, at - since))
            since = at
    return found


# ---- the picture

def picture(seconds, seen, crashes, gap, title, note='Red: a replica crashes, and comes back from its file. Its number stands above.'):
    def x(at):
        return LEFT + WIDE * at / seconds

    def level_y(level):
        return 230 - 0.19 * level

    def gap_y(gap):
        return 370 - min(70.0, 280 * gap)

    put = []
    put.append(f'<svg xmlns="http://www.w3.org/2000/svg" viewBox="0 0 960 420" width="960" height="420" role="img" font-family="sans-serif" font-size="13">')
    put.append(f'<title>{title}</title><rect width="960" height="420" fill="#ffffff"/>')
    put.append(f'<text x="{LEFT}" y="24" font-size="15">{title}</text>')
    for at, replica in crashes:
        put.append(f'<line x1="{x(at):.1f}" y1="44" x2="{x(at):.1f}" y2="372" stroke="#c62828" stroke-width="1" stroke-dasharray="3 3"/>')
        put.append(f'<text x="{x(at):.1f}" y="41" font-size="10" fill="#c62828" text-anchor="middle">{replica}</text>')
    for level in (200, 800):
        put.append(f'<line x1="{LEFT}" y1="{level_y(level):.1f}" x2="{LEFT + WIDE}" y2="{level_y(level):.1f}" stroke="#bbbbbb"/>')
        put.append(f'<text x="{LEFT - 6}" y="{level_y(level) + 4:.1f}" text-anchor="end">{level}</text>')
    points = ' '.join(f'{x(at):.1f},{level_y(level):.1f}' for at, level, _, _ in seen[::4])
    put.append(f'<polyline points="{points}" fill="none" stroke="#1565c0" stroke-width="2"/>')
    put.append(f'<text x="{LEFT - 6}" y="140" text-anchor="end" fill="#1565c0">level</text><text x="{LEFT - 6}" y="156" text-anchor="end" fill="#1565c0">mm</text>')
    since = None
    for at, _, pump, _ in [*seen, (seconds, 0, False, 0)]:
        if pump and since is None:
            since = at
        if not pump and since is not None:
            put.append(f'<rect x="{x(since):.1f}" y="248" width="{x(at) - x(since):.1f}" height="22" fill="#2e7d32"/>')
            since = None
    put.append(f'<line x1="{LEFT}" y1="270" x2="{LEFT + WIDE}" y2="270" stroke="#888888"/><text x="{LEFT - 6}" y="264" text-anchor="end" fill="#2e7d32">pump</text>')
    for at, gap in gap:
        put.append(f'<line x1="{x(at):.1f}" y1="370" x2="{x(at):.1f}" y2="{gap_y(gap):.1f}" stroke="#6d4c41" stroke-width="1.4"/>')
    for milliseconds in (50, 150, 250):
        put.append(f'<line x1="{LEFT}" y1="{gap_y(milliseconds / 1000):.1f}" x2="{LEFT + WIDE}" y2="{gap_y(milliseconds / 1000):.1f}" stroke="#dddddd"/>')
        put.append(f'<text x="{LEFT - 6}" y="{gap_y(milliseconds / 1000) + 4:.1f}" text-anchor="end" font-size="10">{milliseconds} ms</text>')
    put.append(f'<line x1="{LEFT}" y1="370" x2="{LEFT + WIDE}" y2="370" stroke="#888888"/><text x="{LEFT + 4}" y="292" fill="#6d4c41">from scan to scan</text>')
    for second in range(0, int(seconds) + 1, 5):
        put.append(f'<text x="{x(second):.1f}" y="388" text-anchor="middle">{second} s</text>')
    put.append(f'<text x="{LEFT}" y="408" font-size="12">{note}</text></svg>')
    return '\n'.join(put) + '\n'


def main(words):
    if len(words) not in (2, 3):
        sys.exit(__doc__)
    seconds = float(words[2]) if len(words) == 3 else 30.0
    port = free_port()
    with tempfile.TemporaryDirectory() as folder:
        report = os.path.join(folder, 'report')
        call = [words[0], 'serve', os.path.join(HERE, 'failover.il'), '--store', os.path.join(folder, 'stores'), '--port', str(port),
                '--period', str(round(PERIOD * 1000)), '--scans', str(round(seconds / PERIOD)), '--crash', str(CRASH), '--report', report]
        with subprocess.Popen(call, stdout=subprocess.PIPE, stderr=subprocess.PIPE, text=True) as running:
            lines = Lines(running.stderr)
            lines.serves.wait()
            if not lines.lines or not lines.lines[0][1].startswith('serving on '):
                sys.exit(lines.lines[0][1] if lines.lines else 'the controller did not start')
            with Plc(port=port) as plc:
                begin, seen = play(plc, seconds - 1)
            out = running.stdout.read()
            status = running.wait()
        lines.join()
        with open(report, encoding='ascii') as file:
            counts = json.load(file)
    crashes = [(at, replica) for at, replica in lines.crashes(begin) if at < seconds - 1]
    gap = gaps(seen)
    longest = max(it for _, it in gap)
    title = f'{len(crashes)} crashes in {seconds - 1:.0f} s: the longest time from scan to scan was {longest * 1000:.0f} ms'
    with open(words[1], 'w', encoding='utf-8') as file:
        file.write(picture(seconds - 1, seen, crashes, gap, title))
    print(title)
    print(f'{out.strip()}, report {json.dumps(counts)}')
    for _, line in lines.lines[1:]:
        if not line.endswith(' crashed'):
            print(line)
    sys.exit(status)


if __name__ == '__main__':
    main(sys.argv[1:])
