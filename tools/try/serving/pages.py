"""What shows of a controller, of a machine and of a field, as whoever asks for it over HTTP has it, by the rows of
page.rows and field_page.rows: in these `~` stands for a number, `*` for what is told. README.md beside it says more."""
import contextlib
import http.client
import json
import os
import re
import socket
import socketserver
import threading
import time

import disks
import requests
from controller import PATIENCE, Served, came_true, ended, free_port, reply_to, request, run, take
from groups import Patient

# It stops at an overflow where %IW0 is 32767.
SOURCE = """VAR START AT %IX0.3 : BOOL; LEVEL AT %QW7 : INT; SIZE AT %IW0 : INT; END_VAR
    LD START
    ST %QX0.0
    LD -5
    ST LEVEL
    LD SIZE
    ADD 1
"""

# M7 hands over to %QX0.6, to %QW3 and, by two instructions, to %QX2.0; M1 of NORTH to a VAR_IN_OUT, which is %QX1.0.
# NORTH.M2 is another one that does, and TROUBLE lies at its place already. At %QX2.1 and %QX2.2 something else is stored.
UNITS = """FUNCTION_BLOCK MOTOR
  VAR_INPUT WANTED : BOOL; END_VAR
  VAR_OUTPUT RUNS : BOOL; STARTS : INT; FAULT : BOOL; END_VAR
  VAR START : R_TRIG; END_VAR
    LD WANTED
    ST RUNS
    CAL START(CLK := WANTED)
    LD START.Q
    RETCN
    LD STARTS
    ADD 1
    ST STARTS
END_FUNCTION_BLOCK
FUNCTION_BLOCK HALL
  VAR_INPUT OPEN : BOOL; END_VAR
  VAR_IN_OUT LAMP : BOOL; END_VAR
  VAR M1, M2 : MOTOR; END_VAR
    CAL M1(WANTED := OPEN, RUNS => LAMP)
    CAL M2(WANTED := M1.RUNS, RUNS => LAMP)
END_FUNCTION_BLOCK
PROGRAM HALLS
  VAR TROUBLE AT %QX7.0 : BOOL; NORTH : HALL; M7 : MOTOR; END_VAR
  VAR DEPTH AT %QD8 : REAL; STATUS AT %QW5 : WORD; ALARMS AT %QD6 : DWORD; SUM AT %QD10 : DINT; END_VAR
    CAL M7(WANTED := TRUE, RUNS => %QX0.6, STARTS => %QW3, FAULT => %QX7.0)
    CAL NORTH(OPEN := M7.RUNS, LAMP := %QX1.0)
    LD M7.RUNS
    ST %QX2.0
    ANDN %IX0.0
    ST %QX2.1
    LD M7.RUNS
    STN %QX2.2
    LD -1.5
    ST DEPTH
    LD WORD#16#00FB
    ST STATUS
    LD DWORD#16#8000000A
    ST ALARMS
    LD DINT#-70000
    ST SUM
END_PROGRAM
"""


# It has an instance, a double word at two words, and an output where no variable lies.
VALUES = """VAR_GLOBAL START AT %IX0.0 : BOOL; RUN AT %QX0.0 : BOOL; SUM AT %QD2 : DINT; LEVEL : INT := 7; WARM : TON; END_VAR
    CAL WARM(IN := START, PT := T#1s)
    LD START
    ST RUN
    LD DINT#65536
    ST SUM
    LD LEVEL
    ST %QW0
"""
# What an operator forces: an input; the lower word of SUM; an output where no variable lies.
FORCES = '[{"force": ["%IX0.0", true]}, {"force": ["%QW3", -1]}, {"force": ["%QX1.0", true]}]'


def asked(page, path, method='GET', **fields):
    """The status, the type and the text of what is answered; a host is named as `Host`, or none is."""
    link = http.client.HTTPConnection(*page, timeout=PATIENCE)
    link.putrequest(method, path, skip_host=True, skip_accept_encoding=True)
    for name, value in fields.items():
        if value:
            link.putheader(name, value)
    link.endheaders()
    got = link.getresponse()
    text = got.read().decode()
    link.close()
    return got.status, got.getheader('content-type'), text


def text_at(page, path):
    return asked(page, path, Host=f'{page[0]}:{page[1]}')[2]


def state(page):
    return json.loads(text_at(page, '/state'))


PATHS = {'metrics': '/metrics', 'state': '/state', 'values': '/values', 'page': '/'}


def pattern(text):
    """What a text of a row stands for."""
    return re.escape(text).replace('\\~', r'\d+').replace('\\*', '.*')


def differences(row, page):
    """Each text of a row that comes otherwise: the first line that differs, or all."""
    for title, path in PATHS.items():
        if title not in row.given:
            continue
        wanted = row.given[title].rstrip('\n') + '\n'
        if title in ('state', 'values'):
            wanted = ''.join(wanted.split('\n')) + '\n'
        got = text_at(page, path)
        if not re.fullmatch(pattern(wanted), got):
            lines = zip(wanted.split('\n'), got.split('\n'))
            yield next((it for it in lines if not re.fullmatch(pattern(it[0]), it[1])), (wanted, got))


def is_shown(row, page):
    """Whether each text of a row comes so, at last."""
    if came_true(lambda: not list(differences(row, page)), pause=0.2):
        return True
    for wanted, got in differences(row, page):
        print(f'  otherwise: {row.name}\n    wanted {wanted}\n    got    {got}')
    return False


def are_answered(row, page):
    """Whether each request of a row has its status and its type; 8080 in it is the port."""
    right = True
    for cell, said in row.table('answer'):
        method, path, *host = cell.replace('8080', str(page[1])).split()
        got = asked(page, path, method, Host=host[0] if host else None)
        if f'{got[0]} {got[1]}' != said:
            print(f'  otherwise: {cell}: {got[:2]}, wanted {said}')
            right = False
    return right


def row_of(beginning, name='page.rows'):
    return requests.row_of(beginning, name)


def figures(page):
    """The numbers of /metrics, by name and label."""
    lines = re.findall(r'^(\w+(?:\{.*\})?) (\S+)$', text_at(page, '/metrics'), re.M)
    return {name: float(number) for name, number in lines}


def counts_agree(page):
    """Whether the numbers that a row leaves open fit one another."""
    told, shown = figures(page), state(page)
    below = [number for name, number in told.items() if name.startswith('plc_scan_interval_seconds_bucket')]
    count, scans = told['plc_scan_interval_seconds_count'], told['plc_scans_total']
    right = below == sorted(below) and below[-1] == count and len(below) == 13 and count in (scans, scans - 1)
    bounds = [float(it) for it in re.findall(r'le="([\d.]+)"', text_at(page, '/metrics'))]
    mean = told['plc_scan_interval_seconds_sum'] / count
    least = sum((b - a) * bound for a, b, bound in zip([0] + below, below, [0] + bounds)) / count
    right = right and bounds == sorted(bounds) and least <= mean and told['plc_releases_total'] <= scans
    right = right and shown['scans']['count'] >= scans and shown['scans']['releases'] >= told['plc_releases_total']
    right = right and shown['process']['memory'] > 10 ** 6 and told['process_resident_memory_bytes'] > 10 ** 6
    right = right and abs(shown['notices'][0]['at'] - time.time()) < 600 and shown['view'] == told['plc_view']
    standing = [it for it in shown['replicas'] if it['status'] == 'normal' and it['view'] == shown['view']]
    right = right and all(it['primary'] == (it['replica'] == it['view'] % 3) for it in standing)
    if not right:
        print('  ', told, shown, bounds)
    return right


def are_asked(served):
    """Requests of a client, of which some are counted in each of the rows; another client came and went."""
    with served.client():
        pass
    client = served.client()
    for _ in range(6):
        reply_to(client, request(3, 0, 1))
    reply_to(client, request(3, 60, 10))
    for value in (1, 2):
        reply_to(client, bytes([0, 7, 0, 0, 0, 9, 1, 16, 0, 5, 0, 1, 2, 0, value]))
    reply_to(client, bytes([0, 7, 0, 0, 0, 2, 1, 7]))
    reply_to(client, request(1, 0, 600))
    return client


def what_shows_of_a_controller(plc, work):
    """Held, with what clients asked and a replica whose store failed."""
    page, console = ('127.0.0.1', free_port()), free_port()
    with disks.crashing(plc, work, disks.fails, '--status', page[1], '--console', console, source=SOURCE) as served:
        right = served.says('replica 0 store') and came_true(lambda: state(page)['replicas'][0]['failed'])
        right = right and ended(plc, 'ask', f'127.0.0.1:{console}', '-', input='[{"break":2}]')[:2] == (0, 'done\n')
        right = right and came_true(lambda: state(page)['scans']['halt'] is not None)
        stand = ['down', 'normal', 'normal']
        right = right and came_true(lambda: [it['status'] for it in state(page)['replicas']] == stand)
        if not right:
            print('  ', served.lines)
            return False
        with are_asked(served):
            return is_shown(row_of('a group of three with a replica down'), page) and counts_agree(page)


def what_shows_of_one_that_stopped(plc, work):
    """A controller that goes on, and stops at an overflow; and what each request is answered."""
    page = '127.0.0.1', free_port()
    with Served(plc, work, '--period', 50, '--status', page[1], source=SOURCE) as served:
        right = served.serves() and came_true(lambda: state(page)['scans']['count'] > 2)
        right = right and are_answered(row_of('a method, a path and a host'), page)
        right = right and is_shown(row_of('a controller that goes on'), page) and counts_agree(page)
        with served.client() as client:
            reply_to(client, request(6, 0, 32767))
            right = right and is_shown(row_of('a controller that stopped'), page)
    return right


def what_shows_of_instances(plc, work):
    """A controller whose program has instances, which hand over to outputs, and outputs of most types."""
    page = '127.0.0.1', free_port()
    with Served(plc, work, '--period', 50, '--status', page[1], source=UNITS) as served:
        return served.serves() and is_shown(row_of('what instances hand over'), page)


def what_shows_of_values(plc, work):
    """A controller of which something is forced."""
    page, console = ('127.0.0.1', free_port()), free_port()
    with Served(plc, work, '--period', 50, '--status', page[1], '--console', console, source=VALUES) as served:
        right = served.serves() and is_shown(row_of('a controller with an instance'), page)
        right = right and ended(plc, 'ask', f'127.0.0.1:{console}', '-', input=FORCES)[:2] == (0, 'done\n' * 3)
        right = right and is_shown(row_of('a controller of which three'), page)
        return right and figures(page)['plc_forces'] == 3 and state(page)['forces'] == 3


def what_shows_of_a_machine(plc, work):
    """One that drives, one that stands by, and one that hears none."""
    with Patient(plc, work, has_pages=True) as group:
        group.start(0, 1)
        pages = [group.network.page(machine) for machine in range(2)]
        right = group.says(0, 'driving view 0') and group.says(1, 'replica normal')
        right = right and is_shown(row_of('machine 0 of a group, which drives'), pages[0])
        right = right and is_shown(row_of('machine 1 of a group, which stands by'), pages[1])
        group.end(0)
        right = right and is_shown(row_of('machine 1 of a group, which hears none'), pages[1])
        if not right:
            print(*group.since(0), sep='\n  ')
        return right


class Coupler(socketserver.BaseRequestHandler):
    """A Modbus device with three inputs, of which the first and the third are TRUE, that takes all outputs."""

    def handle(self):
        with contextlib.suppress(OSError):
            while True:
                head = take(self.request, 6)
                asked_for = take(self.request, head[5])
                reply = asked_for[:2] + b'\1\5' if asked_for[1] == 2 else asked_for[:6]
                self.request.sendall(head[:5] + bytes([len(reply)]) + reply)


class Couplers(socketserver.ThreadingTCPServer):
    daemon_threads = True


# a device that answers, and two that aren't there, whose names have what is escaped in a text
FIELD = """controller = "127.0.0.1:{}"
cycle = 200
fresh = 5000
scan_count = "%QW7"
[[device]]
name = "pumps"
address = "127.0.0.1:{}"
unit = 1
timeout = 200
on_loss = "zero"
[[device.read]]
table = "discrete_inputs"
from = 0
count = 3
to = "%IX0.0"
[[device.write]]
table = "coils"
from = "%QX0.0"
count = 2
to = 16
on_stop = "zero"
[[device]]
name = 'tank"1\\'
address = "127.0.0.1:{}"
unit = 1
timeout = 200
on_loss = "zero"
[[device.read]]
table = "input_registers"
from = 0
count = 1
to = "%IW3"
[[device]]
name = "<gate>&"
address = "127.0.0.1:{}"
unit = 2
timeout = 200
on_loss = "hold"
[[device.read]]
table = "coils"
from = 7
count = 1
to = "%IX1.0"
"""


def what_shows_of_a_field(plc, work):
    """A device that answers and has outputs, and two that nobody is at: figures, JSON, the page, and what each request
    is answered."""
    devices, page = Couplers(('127.0.0.1', 0), Coupler), ('127.0.0.1', free_port())
    threading.Thread(target=devices.serve_forever, daemon=True).start()
    path = os.path.join(work, 'field.toml')
    with Served(plc, work, '--period', 50, source='LD %QW7\nADD 1\nST %QW7\n') as served:
        right = served.serves()
        with open(path, 'w') as file:
            file.write(FIELD.format(served.port, devices.server_address[1], free_port(), free_port()))
        with open(path + '.err', 'w') as err:
            carried = run([plc, 'field', path, '--status', str(page[1])], stderr=err)
        right = right and came_true(lambda: is_open(page)) and came_true(lambda: state(page)['devices'][0]['outputs'])
        row = row_of('a device that answers', 'field_page.rows')
        right = right and is_shown(row, page) and rounds_agree(page)
        right = right and are_answered(row_of('a method, a path and a host', 'field_page.rows'), page)
        carried.kill()
    if not right:
        print(open(path + '.err').read())
    return right


def is_open(page):
    try:
        socket.create_connection(page, PATIENCE).close()
        return True
    except OSError:
        return False


def rounds_agree(page):
    """Whether the numbers that a row leaves open fit one another."""
    told = figures(page)
    bucket = 'plc_field_round_seconds_bucket{device="pumps"'
    below = [number for name, number in told.items() if name.startswith(bucket)]
    rounds = told['plc_field_round_seconds_count{device="pumps"}']
    right = below == sorted(below) and below[-1] == rounds and len(below) == 13
    right = right and rounds <= told['plc_field_cycles_total']
    right = right and told['plc_field_replies_total{device="pumps"}'] >= 2 * rounds - 5
    if not right:
        print('  ', told)
    return right


GATE = [what_shows_of_a_controller, what_shows_of_one_that_stopped, what_shows_of_instances, what_shows_of_values,
        what_shows_of_a_machine, what_shows_of_a_field]
