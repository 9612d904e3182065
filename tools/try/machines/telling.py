"""What a machine of a group tells where something is wanting: a majority, its port, an operator; and what clients read
meanwhile."""
import json
import signal
import socket
import time
import urllib.request

import console
import network
from group import Group, now

MISSED = 3.0            # seconds until it's told that no majority is heard
GIVEN_UP = 4.0          # seconds until another machine drives, where a port is taken


def printed(group, since):
    print('\n'.join(f'    {line}' for line in group.since(since)))


def a_majority_is_missed(options):
    """All but one are killed: it tells once, seconds later, that it hears no majority, and tells that it hears one once
    enough are there again. The others tell nothing of it."""
    with Group(options) as group:
        right, last = group.begin(), group.machines[-1]
        killed = now()
        for machine in group.machines[:-1]:
            machine.kill()
        line = f'no majority: hears 0 of {group.size - 1}'
        missed = last.told(line, killed, MISSED + 3)
        time.sleep(2)
        again = now()
        for machine in group.machines[:-1]:
            machine.start()
        heard = last.told('majority', again, 5)
        told = [it for it in last.since(killed) if 'majority' in it]
        others = [it for machine in group.machines[:-1] for it in machine.since(again) if 'majority' in it]
        if missed is None or missed - killed < MISSED or heard is None or told != [line, 'majority'] or others:
            printed(group, killed)
            return False
        print(f'  told {missed - killed:.1f} s behind it, and {heard - again:.1f} s behind the others\' start')
        return right


def asked(group, machine, path):
    """What the page of a machine answers."""
    url = f'http://{network.told(*group.network.page(machine))}{path}'
    with urllib.request.urlopen(url, timeout=5) as answer:
        return answer.read().decode()


def state_of(group, machine):
    """What /state says of a machine."""
    return json.loads(asked(group, machine, '/state'))['machine']


def shown(group, machine):
    """What the page of a machine shows of a majority: in its state, its figures and its words."""
    state = state_of(group, machine)
    figures = dict(line.split() for line in asked(group, machine, '/metrics').split('\n') if line.startswith('plc_m'))
    words = 'no majority: hears 0 of' in asked(group, machine, '/')
    return state['majority'], state['heard'], figures['plc_majority'], figures['plc_machines_connected'], words


def a_lone_machine_shows_it(options):
    """All but one stand still: its page, its state and its figures show that it hears no majority, "status" is answered
    at once, behind a command that waits too, and that command ends after ten seconds by `plc: no majority`."""
    with Group(options, has_pages=True) as group:
        right, lone = group.begin(), group.size - 1
        before = shown(group, lone)
        with console.Console(group.network.console(lone)) as session:
            session.ask('forces')
            stopped = now()
            for machine in group.machines[:-1]:
                machine.send(signal.SIGSTOP)
            session.stream.sendall(b'{"force": ["%IX0.2", true]}\n')
            time.sleep(MISSED + 1)
            during = shown(group, lone)
            begun = now()
            with console.Console(group.network.console(lone)) as other:
                status = other.ask('status')
            answered = now() - begun
            session.stream.settimeout(20)
            line = session.lines.readline()
        waited = now() - stopped
        for machine in group.machines[:-1]:
            machine.send(signal.SIGCONT)
        right = group.are_well(20) and right
        print(f'  "status" behind {answered * 1000:.0f} ms; the command was given up after {waited:.1f} s: {status}')
        wanted = [(True, group.size - 1, '1', str(group.size - 1), False), (False, 0, '0', '0', True)]
        if [before, during] != wanted or line != b'plc: no majority\n' or waited > 16 or not right:
            printed(group, stopped)
            print(f'  {before} {during} {line}')
            return False
        return shown(group, lone)[0]


def a_taken_port_hands_over(options):
    """The port of the machine that is to drive first is taken: it says at its page that it stands by, and another one
    drives within seconds. Once it's free it drives again, where no other can."""
    with Group(options, has_pages=True) as group:
        taken = socket.create_server(group.network.modbus(0))
        for machine in group.machines:
            machine.start()
        begun = now()
        told = group.machines[0].told('no port view 0', begun, 10)
        shows = [state_of(group, 0)['driving']]
        drives = group.machines[1].told('driving view', begun, 10)
        stands = group.machines[0].told('standing by', begun, 10)
        time.sleep(0.5)
        shows += [state_of(group, machine)['driving'] for machine in (0, 1)]
        is_late = None in (told, drives, stands) or drives - told > GIVEN_UP
        if is_late or shows != [False, False, True]:
            printed(group, begun)
            print(f'  shown as driving: {shows}')
            return False
        print(f'  another one drives {drives - told:.1f} s behind the first try')
        time.sleep(1)
        taken.close()
        for machine in group.machines[1:]:
            gone = now()
            machine.kill()
            time.sleep(2)
            machine.start()
            machine.is_normal(20)
        again = group.machines[0].told('driving view', begun, 10)
        if again is None:
            printed(group, gone)
        return again is not None


def ports_that_are_all_taken(options):
    """Each machine's port is taken: none drives, and none ends. The first that is free is found."""
    with Group(options) as group:
        taken = [socket.create_server(group.network.modbus(machine)) for machine in range(group.size)]
        for machine in group.machines:
            machine.start()
        begun = now()
        time.sleep(12)
        turns = sum(line.startswith('no port') for machine in group.machines for line in machine.since(begun))
        up = all(machine.is_up() for machine in group.machines)
        taken[1].close()
        freed = now()
        drives = group.machines[1].told('driving view', freed, 60)
        for it in taken:
            it.close()
        if not up or turns > 15 or drives is None:
            printed(group, begun)
            return False
        print(f'  {turns} turns in 12 s; the free one drives behind {drives - freed:.1f} s')
        return True


def by_hand_is_told(options):
    """f+1 machines of a group that begins anew by hand lose their memory: each tells at once that an operator is
    wanted, and how."""
    with Group(options, cold_start='"by hand"') as group:
        right, some = group.begin(), group.machines[:group.size // 2 + 1]
        for machine in some:
            machine.kill()
        time.sleep(1)
        for machine in some:
            machine.start()
        since = some[0].started
        told = [machine.lines_with('cold start by hand', since, 5) for machine in some]
        if not right or any(len(lines) != 1 for lines in told):
            printed(group, since)
            return False
        return True


def taken_doors_are_tried(options):
    """The ports of a machine's console and of its page are taken: that's told, once, and all else goes on; once they
    are free both answer."""
    with Group(options, has_pages=True) as group:
        console_at, page_at = group.network.console(1), group.network.page(1)
        taken = [socket.create_server(it) for it in (console_at, page_at)]
        right, one = group.begin(), group.machines[1]
        lines = [f'no console port {console_at[1]}', f'no page port {page_at[1]}']
        told = [len(one.lines_with(line, one.started, 5)) for line in lines]
        for it in taken:
            it.close()
        freed, found = now(), []
        for line in lines:
            at = one.told(line.removeprefix('no '), freed, 70)
            found.append(None if at is None else at - freed)
        if told != [1, 1] or None in found or not right:
            printed(group, one.started)
            print(f'  {told} {found}')
            return False
        print(f'  the console is there {found[0]:.1f} s behind its port, the page {found[1]:.1f} s')
        with console.Console(console_at) as session:
            answer = session.ask('status')
        return answer.startswith('status scans ') and shown(group, 1)[0]


TRIES = [a_majority_is_missed, a_lone_machine_shows_it, a_taken_port_hands_over, ports_that_are_all_taken,
         taken_doors_are_tried, by_hand_is_told]
