#!/usr/bin/env python3
"""play.py PLC PICTURE.svg: `PLC serve` runs motor.il, `PLC field` carries for it, and a coupler has its buttons, contactor and lamps:
libmodbus' server (coupler.c), where a compiler and libmodbus are there, else coupler.py. START is pressed, the coupler is stopped and
comes back, START is pressed again; what was seen is drawn."""
import os
import socket
import subprocess
import sys
import tempfile
import threading
import time

HERE = os.path.dirname(os.path.abspath(__file__))
sys.path.insert(0, os.path.dirname(HERE))
from client import Plc  # noqa: E402

SECONDS = 9.0
PLAY = [(1.0, 'start', 'START is pressed'), (3.0, 'kill', 'the coupler is stopped'), (5.0, 'begin', 'and started again'),
        (6.5, 'start', 'START is pressed'), (8.0, 'stop', 'STOP is pressed')]
LEFT, WIDE, TOP, HIGH = 150, 780, 74, 34    # of the picture, in points
ROWS = [('START', '#1565c0'), ('STOP_OK', '#1565c0'), ('RELAY_OK', '#1565c0'), ('alive (%IX63.0)', '#6d4c41'), ('RUN', '#2e7d32'), ('RED', '#c62828')]


def free_port():
    with socket.create_server(('127.0.0.1', 0)) as taken:
        return taken.getsockname()[1]


def coupler_call(folder):
    """What starts a coupler, and whose server it is."""
    flags = subprocess.run(['sh', '-c', 'pkg-config --cflags --libs libmodbus'], capture_output=True, text=True).stdout.split()
    program = os.path.join(folder, 'coupler')
    made = subprocess.run(['sh', '-c', 'cc -o "$@"', 'cc', program, os.path.join(HERE, 'coupler.c'), *flags], capture_output=True)
    if flags and made.returncode == 0:
        return [program], 'libmodbus'
    return [sys.executable, os.path.join(HERE, 'coupler.py')], 'coupler.py'


class Notices(threading.Thread):
    """The lines on standard error of `plc field`, each with its moment."""

    def __init__(self, stream):
        super().__init__(daemon=True)
        self.stream, self.lines = stream, []
        self.start()

    def run(self):
        for line in self.stream:
            self.lines.append((time.monotonic(), line.strip()))


def field_text(port, coupler_port):
    with open(os.path.join(HERE, 'motor.toml'), encoding='utf-8') as file:
        return file.read().replace(':5020', f':{port}').replace(':1502', f':{coupler_port}')


def play(plc, call, port):
    """What the controller has, as (moment, START, STOP_OK, RELAY_OK, alive, RUN, RED)."""
    coupler = subprocess.Popen([*call, str(port)], stdin=subprocess.PIPE, stdout=subprocess.DEVNULL, text=True)
    while not plc.read_inputs(504, 1)[0]:
        time.sleep(0.02)
    begin, seen, due = time.monotonic(), [], list(PLAY)
    while (now := time.monotonic() - begin) < SECONDS:
        if due and due[0][0] <= now:
            _, word, _ = due.pop(0)
            if word == 'kill':
                coupler.kill()
                coupler.wait()
            elif word == 'begin':
                coupler = subprocess.Popen([*call, str(port)], stdin=subprocess.PIPE, stdout=subprocess.DEVNULL, text=True)
            else:
                coupler.stdin.write(word + '\n')
                coupler.stdin.flush()
        run, _, red = plc.read_outputs(0, 3)
        seen.append((now, *plc.read_inputs(0, 3), *plc.read_inputs(504, 1), run, red))
        time.sleep(0.01)
    coupler.kill()
    coupler.wait()
    return begin, seen


def bars(seen, row):
    """From when to when a bit was TRUE."""
    since = None
    for it in [*seen, (SECONDS,) + (False,) * len(ROWS)]:
        if it[row + 1] and since is None:
            since = it[0]
        if not it[row + 1] and since is not None:
            yield since, it[0]
            since = None


def picture(seen, notices, title):
    def x(at):
        return LEFT + WIDE * at / SECONDS

    end = TOP + HIGH * len(ROWS)
    put = [f'<svg xmlns="http://www.w3.org/2000/svg" viewBox="0 0 960 {end + 62}" width="960" height="{end + 62}" role="img" font-family="sans-serif" font-size="13">',
           f'<title>{title}</title><rect width="960" height="{end + 62}" fill="#ffffff"/><text x="{LEFT}" y="22" font-size="15">{title}</text>']
    for at, _, what in PLAY:
        put.append(f'<line x1="{x(at):.1f}" y1="48" x2="{x(at):.1f}" y2="{end}" stroke="#999999" stroke-dasharray="3 3"/>')
        put.append(f'<text x="{x(at):.1f}" y="44" font-size="11" text-anchor="middle">{what}</text>')
    for row, (name, colour) in enumerate(ROWS):
        base = TOP + HIGH * (row + 1) - 8
        put.append(f'<line x1="{LEFT}" y1="{base}" x2="{LEFT + WIDE}" y2="{base}" stroke="#bbbbbb"/><text x="{LEFT - 8}" y="{base - 4}" text-anchor="end" fill="{colour}">{name}</text>')
        for since, until in bars(seen, row):
            put.append(f'<rect x="{x(since):.1f}" y="{base - 20}" width="{x(until) - x(since):.1f}" height="20" fill="{colour}"/>')
    for at, line in notices:
        put.append(f'<text x="{x(at):.1f}" y="{TOP - 10}" font-size="11" fill="#c62828" text-anchor="start">{line}</text>')
    for second in range(int(SECONDS) + 1):
        put.append(f'<text x="{x(second):.1f}" y="{end + 18}" text-anchor="middle">{second} s</text>')
    put.append(f'<text x="{LEFT}" y="{end + 44}" font-size="12">Bars: TRUE at the controller. Red: what plc field told. The inputs of a lost coupler are FALSE (on_loss = "zero").</text></svg>')
    return '\n'.join(put) + '\n'


def main(words):
    if len(words) != 2:
        sys.exit(__doc__)
    port, coupler_port = free_port(), free_port()
    with tempfile.TemporaryDirectory() as folder:
        field = os.path.join(folder, 'motor.toml')
        with open(field, 'w', encoding='utf-8') as file:
            file.write(field_text(port, coupler_port))
        call, server = coupler_call(folder)
        serve = [words[0], 'serve', os.path.join(os.path.dirname(HERE), 'motor.il'), '--store', os.path.join(folder, 'stores'), '--port', str(port),
                 '--period', '20']
        with subprocess.Popen(serve, stdout=subprocess.DEVNULL, stderr=subprocess.PIPE, text=True) as serving:
            serving.stderr.readline()
            with subprocess.Popen([words[0], 'field', field], stderr=subprocess.PIPE, text=True) as carrying:
                notices = Notices(carrying.stderr)
                try:
                    with Plc(port=port) as plc:
                        begin, seen = play(plc, call, coupler_port)
                finally:
                    carrying.kill()
                    serving.kill()
    told = [(at - begin, line) for at, line in notices.lines if 0 < at - begin < SECONDS]
    title = f'A motor at a coupler ({server}) that is stopped and comes back'
    with open(words[1], 'w', encoding='utf-8') as file:
        file.write(picture(seen, told, title))
    print(title)
    for at, line in told:
        print(f'{at:.2f} s  {line}')


main(sys.argv[1:])
