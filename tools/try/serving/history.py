"""Sixteen clients of a controller whose replicas crash in turn, and whether all that they saw is one history: the scans
in one list, each with the inputs that a client wrote at once, and each reply from a place of it no earlier than those
before.

Each client writes the same value to 64 words, by one request, reads them back, and reads the outputs: 63 words that
mirror the inputs, and the count of scans. Each value is written once, so a word tells by which request it came; none
tells of a write that was refused."""
import bisect
import json
import math
import os
import random
import threading
import time
import urllib.request
from typing import NamedTuple

from controller import PATIENCE, Served, free_port, reply_to, tells, words

CLIENTS, SCANS, CRASH, PERIOD = 16, 40, 5, 100
SOURCE = 'VAR N : INT; END_VAR\nLD N\nADD 1\nST N\nST %QW63\n' + ''.join(f'LD %IW{k}\nST %QW{k}\n' for k in range(63))


class Write(NamedTuple):
    """Of a value to all words. One that wasn't acknowledged has no end."""
    begun: float
    ended: float
    value: int


class Read(NamedTuple):
    """Of the words, as they were written."""
    begun: float
    ended: float
    words: tuple


class Shown(NamedTuple):
    """Of the outputs."""
    begun: float
    ended: float
    words: tuple

    @property
    def scans(self):
        return self.words[-1]


def halves(reads):
    """Replies of which words are of two requests."""
    return [it for it in reads if len(set(it.words)) > 1]


def mixed(outputs):
    """Outputs that mirror two inputs."""
    return [it for it in outputs if len(set(it.words[:-1])) > 1]


def older(outputs):
    """Outputs that are older than some whose reply was there before they were asked for, of whichever client."""
    found, latest, ends = [], None, sorted(outputs, key=lambda it: it.ended)
    behind = iter(ends)
    done = next(behind, None)
    for it in sorted(outputs, key=lambda it: it.begun):
        while done is not None and done.ended < it.begun:
            latest = done if latest is None or done.scans > latest.scans else latest
            done = next(behind, None)
        if latest is not None and it.scans < latest.scans:
            found.append((latest, it))
    return found


def two_of_a_scan(outputs):
    """Scans that two replies show with other outputs."""
    shown = {}
    for it in outputs:
        shown.setdefault(it.scans, set()).add(it.words)
    return {scans: found for scans, found in shown.items() if len(found) > 1}


def samples(outputs):
    """When each scan that was seen took the inputs, and which: behind the release of the scan before, so behind each
    read that showed an earlier one still, and ahead of each reply that showed this one or a later one."""
    begins, ends = {}, {}
    for it in outputs:
        begins[it.scans] = max(begins.get(it.scans, -math.inf), it.begun)
        ends[it.scans] = min(ends.get(it.scans, math.inf), it.ended)
    values = {it.scans: it.words[0] for it in outputs if it.scans}
    taken = []
    for scans, value in values.items():
        begun = max((at for other, at in begins.items() if other < scans - 1), default=-math.inf)
        taken.append(Read(begun, min(at for other, at in ends.items() if other >= scans), (value,)))
    return taken


def disordered(writes, reads):
    """Values whose writes and reads have no order among those of others in which each read gives what was written last.
    Of a value's write and its reads, `first` is the earliest end, `last` the latest beginning. Where `first` comes
    before `last`, no other value has its turn between them."""
    first, last, begins = {0: -math.inf}, {0: -math.inf}, {0: -math.inf}
    for it in writes:
        first[it.value], last[it.value], begins[it.value] = it.ended, it.begun, it.begun
    found, seen = [], set()
    for it in reads:
        value = it.words[0]
        seen.add(value)
        if value not in begins or it.ended < begins[value]:
            found.append(('read before it was written', it))
            continue
        first[value], last[value] = min(first[value], it.ended), max(last[value], it.begun)
    turns = sorted((first[it], last[it], it) for it in first if first[it] < last[it])
    for (_, until, one), (since, _, other) in zip(turns, turns[1:]):
        if since < until:
            found.append(('two at once', one, other))
    begun = [since for since, _, _ in turns]
    for value in first:
        at = bisect.bisect_left(begun, last[value]) - 1     # the last turn that had begun by then
        counts = last[value] <= first[value] and (value in seen or first[value] < math.inf)
        if counts and at >= 0 and first[value] < turns[at][1]:
            found.append(('within the turn of another one', value, turns[at][2]))
    return found


def faults_of(writes, reads, outputs):
    """What is wrong with a history, by name: each list is empty if nothing is."""
    return {'mixed inputs': halves(reads), 'mixed outputs': mixed(outputs),
            'older outputs behind newer ones': older(outputs), 'two of one scan': two_of_a_scan(outputs),
            'no order of inputs': disordered(writes, reads + samples(outputs))}


class Client(threading.Thread):
    """One that writes a value, reads the inputs back, and reads the outputs, until its connection ends."""

    def __init__(self, served, number):
        super().__init__(daemon=True)
        self.stream, self.number = served.client(), number
        self.writes, self.reads, self.outputs = [], [], []

    def run(self):
        try:
            for turn in range(1, 4000):
                self.go_round(turn * CLIENTS + self.number)
        except OSError:
            pass

    def go_round(self, value):
        written = bytes([0, 0, 0, 0, 0, 135, 1, 16, 0, 0, 0, 64, 128]) + 64 * value.to_bytes(2, 'big')
        self.writes.append(Write(time.monotonic(), math.inf, value))
        if reply_to(self.stream, written)[7] == 16:
            self.writes[-1] = self.writes[-1]._replace(ended=time.monotonic())
        else:
            self.writes.pop()       # refused: 4096 writes have come since the last scan, which waits for a new primary
        for function, of, kept in ((3, Read, self.reads), (4, Shown, self.outputs)):
            begun = time.monotonic()
            got = tuple(words(self.stream, function, 64))
            kept.append(of(begun, time.monotonic(), got))


def page_of(port):
    """How many scans were released, by the page."""
    try:
        with urllib.request.urlopen(f'http://127.0.0.1:{port}/state', timeout=PATIENCE) as answer:
            return json.load(answer)['scans']['releases']
    except OSError:
        return None


def sixteen_clients_see_one_history(plc, work):
    """Forty scans, behind each five of which a replica crashes in turn. The report counts crashes, scans, clients and
    what they wrote; the count of scans at the page never goes back."""
    page, report = free_port(), os.path.join(work, 'report')
    own = '--period', PERIOD, '--crash', CRASH, '--status', page, '--report', report
    with Served(plc, work, *own, source=SOURCE, scans=SCANS) as served:
        right = served.serves()
        clients = [Client(served, number) for number in range(CLIENTS)]
        for it in clients:
            it.start()
        counts = []
        while served.process.poll() is None and any(it.is_alive() for it in clients):
            counts.append(page_of(page))
            time.sleep(0.05)
        right = served.status(2 * PATIENCE) == 0 and served.out == f'scans {SCANS}\n' and right
        for it in clients:
            it.join(PATIENCE)
        writes, reads, outputs = ([it for client in clients for it in getattr(client, kept)]
                                  for kept in ('writes', 'reads', 'outputs'))
        counts = [it for it in counts if it is not None]
        right = right and all(client.outputs for client in clients) and counts == sorted(counts) and counts[-1] <= SCANS
        with open(report) as file:
            told = json.load(file)
        crashes, counted = told['crashes'], told['writes']
        done = [it for it in writes if it.ended < math.inf]
        right = right and (told['scans'], told['sessions']) == (SCANS, CLIENTS)
        right = right and 2 <= crashes <= SCANS // CRASH and len(done) <= counted <= len(writes)
        right = right and tells(served.lines, [f'replica {n % 3} crashed' for n in range(crashes)])
        found = {name: it for name, it in faults_of(writes, reads, outputs).items() if it}
        seen = len({it.scans for it in outputs})
        if not right or found or seen < SCANS // 2:
            print('  ', told, f'{len(done)} of {len(writes)} writes, {len(reads)} reads, {len(outputs)} outputs',
                  f'of {seen} scans', counts[-1:], served.lines)
            for name, it in found.items():
                print('  ', name, str(it)[:600])
            return False
        return True


def made_up(chance, turns=200):
    """A history of clients at a register and at scans of it, each at one moment, seen with the times of a busy
    machine."""
    writes, reads, outputs, value, scans, shown = [], [], [], 0, 0, (0,) * 64
    for at in range(turns):
        begun, ended = at - chance.uniform(0, 3), at + chance.uniform(0, 3)
        what = chance.choice('wrrosss')
        if what == 'w':
            value = at + 1
            writes.append(Write(begun, ended, value))
        elif what == 'r':
            reads.append(Read(begun, ended, (value,) * 64))
        elif what == 's':
            scans, shown = scans + 1, (value,) * 63 + (scans + 1,)
        else:
            outputs.append(Shown(begun, ended, shown))
    return writes, reads, outputs


def spoilt(chance, history, fault):
    """The history with one reply that can't be: none where it has no place for that."""
    writes, reads, outputs = history
    if fault == 'mixed inputs':
        at = chance.randrange(len(reads))
        reads[at] = reads[at]._replace(words=reads[at].words[:63] + (reads[at].words[0] + 1,))
    elif fault == 'mixed outputs':
        at = chance.randrange(len(outputs))
        outputs[at] = outputs[at]._replace(words=(outputs[at].words[0] + 1, *outputs[at].words[1:]))
    elif fault == 'two of one scan':
        at = chance.randrange(len(outputs))
        outputs.append(outputs[at]._replace(words=63 * (outputs[at].words[0] + 1,) + (outputs[at].scans,)))
    elif fault == 'older outputs behind newer ones':
        early, late = outputs[len(outputs) // 3], outputs[-1]
        outputs.append(early._replace(begun=late.ended + 1, ended=late.ended + 2))
        return early.scans < late.scans
    else:
        value, late = writes[len(writes) // 2].value, writes[-1]
        reads.append(Read(late.ended + 1, late.ended + 2, (value,) * 64))
    return True


FAULTS = ['mixed inputs', 'mixed outputs', 'older outputs behind newer ones', 'two of one scan', 'no order of inputs']


def histories_are_judged(_plc, _work):
    """The checker of histories, by some that are made up: nothing is wrong with those that can be, and what is spoilt
    in one is found."""
    chance = random.Random(7)
    for _ in range(20):
        found = {name: it for name, it in faults_of(*made_up(chance)).items() if it}
        if found:
            print('  ', found)
            return False
        for fault in FAULTS:
            history = made_up(chance)
            if spoilt(chance, history, fault) and not faults_of(*history)[fault]:
                print('  ', fault, 'is not found')
                return False
    return True


GATE = [histories_are_judged, sixteen_clients_see_one_history]
