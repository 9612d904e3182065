"""The rules of replication once more, for pictures: which messages a schedule of `plc sim` sends, and what each
replica becomes.

It is an independent reading, in Python, of crates/vr_model/specs/Rules.antt, Choices.antt, World.antt and
Report.antt: nothing proves it, and `plc` doesn't use it. `tools/user/sequence --check` compares its report with the known
one of each schedule of examples/ and of crates/tests_rows/data. It never runs a program: answers come from elsewhere
(`answers`). That memory runs out isn't played."""
import collections
import json
import re

CLIENTS = 16
NORMAL, VIEW_CHANGE, RECOVERING, DOWN = 'normal', 'view change', 'recovering', 'down'

Request = collections.namedtuple('Request', 'client number command')
Message = collections.namedtuple('Message', 'sender receiver name body')  # parties are ('replica', 1) or ('client', 0)
KeptLog = collections.namedtuple('KeptLog', 'last_normal_view commit log')


class NotASchedule(Exception):
    """The text is no schedule: `plc: schedule`."""


class Refused(Exception):
    """An event can't take place: `plc: schedule I R`."""

    def __init__(self, reason):
        super().__init__(reason)
        self.reason = reason


# ---- a replica

class Replica:
    """Replica i of 2f+1: what it knows. A rule changes it, and answers which view it saves (or None) and what it sends."""

    def __init__(self, f, i):
        self.f, self.i, self.size = f, i, 2 * f + 1
        self.status, self.stored, self.nonce = NORMAL, 0, 0
        self.forget()

    def forget(self):
        self.view = self.commit = self.last_normal_view = 0
        self.log = []
        self.acknowledged, self.responses = {}, {}
        self.forget_view_change()

    def forget_view_change(self):
        self.heard, self.logs, self.told = set(), {}, False

    def is_primary(self):
        return self.view % self.size == self.i

    def takes_part(self):
        return self.status in (NORMAL, VIEW_CHANGE)

    # what is sent

    def to(self, receiver, name, **body):
        return [Message(('replica', self.i), ('replica', receiver), name, body)]

    def to_others(self, name, **body):
        return [it for to in range(self.size) if to != self.i for it in self.to(to, name, **body)]

    def replies(self, begin, end):
        return [Message(('replica', self.i), ('client', it.client), 'REPLY', dict(view=self.view, number=it.number, place=place))
                for place, it in enumerate(self.log) if begin <= place < end]

    def replies_from(self, begin):
        return self.replies(begin, self.commit) if self.is_primary() else []

    # the normal case

    def last_number(self, client):
        return max((it.number for it in self.log if it.client == client), default=None)

    def on_request(self, request):
        if self.status != NORMAL or not self.is_primary():
            return None, []
        last = self.last_number(request.client)
        if last is None or last < request.number:
            self.log = self.log + [request]
            return None, self.to_others('PREPARE', view=self.view, request=request, op=len(self.log), commit=self.commit)
        if request.number == last:
            place = next(p for p, it in enumerate(self.log) if (it.client, it.number) == (request.client, request.number))
            return None, self.replies(place, place + 1) if place < self.commit else []
        return None, []

    def is_backup_in(self, view):
        return self.status == NORMAL and self.view == view and not self.is_primary()

    def is_behind(self, view):
        return self.takes_part() and (self.view < view or self.status == VIEW_CHANGE and self.view == view)

    def asks(self, view, place):
        primary = view % self.size
        return None, [] if primary == self.i else self.to(primary, 'GETSTATE', view=view, op=place)

    def holds(self, log, commit):
        self.log, self.commit = log, max(self.commit, min(commit, len(log)))
        return None, self.to(self.view % self.size, 'PREPAREOK', view=self.view, op=len(log))

    def on_prepare(self, view, request, op, commit):
        if self.is_backup_in(view):
            if op == len(self.log) + 1:
                return self.holds(self.log + [request], commit)
            return self.holds(self.log, commit) if op <= len(self.log) else self.asks(view, len(self.log))
        return self.asks(view, self.commit) if self.is_behind(view) else (None, [])

    def on_prepare_ok(self, sender, view, op):
        if not (self.status == NORMAL and self.is_primary() and self.view == view and op <= len(self.log)):
            return None, []
        self.acknowledged[sender] = max(self.acknowledged.get(sender, 0), op)
        reached = next((n for n in range(len(self.log), 0, -1)
                        if sum(s != self.i and far >= n for s, far in self.acknowledged.items()) >= self.f), 0)
        before, self.commit = self.commit, max(self.commit, reached)
        return None, self.replies(before, self.commit)

    def on_commit(self, view, commit):
        if self.is_backup_in(view):
            self.commit = max(self.commit, min(commit, len(self.log)))
            return None, self.to(view % self.size, 'GETSTATE', view=view, op=len(self.log)) if len(self.log) < commit else []
        return self.asks(view, self.commit) if self.is_behind(view) else (None, [])

    # the view change

    def enters(self, view):
        self.status, self.view, self.stored = VIEW_CHANGE, view, view
        self.forget_view_change()
        return view, self.to_others('STARTVIEWCHANGE', view=view)

    def on_timeout(self):
        return self.enters(self.view + 1) if self.takes_part() and self.view + 1 < 2 ** 64 else (None, [])

    def enters_first(self, view, then):
        """Enters the view where it's above, and goes on where it is now in its view change."""
        saves, sends = self.enters(view) if self.view < view else (None, [])
        if self.status == VIEW_CHANGE and self.view == view:
            more, others = then()
            saves, sends = saves if more is None else more, sends + others
        return saves, sends

    def adopts(self, view):
        """It's normal in the view; answers what it saves."""
        saves = view if self.stored < view else None
        self.status, self.view, self.last_normal_view, self.stored = NORMAL, view, view, max(self.stored, view)
        return saves

    def begins_if_elected(self):
        if self.i not in self.logs or len(self.logs) < self.f + 1:
            return None, []
        sender = min(self.logs, key=lambda s: (-self.logs[s].last_normal_view, -len(self.logs[s].log), s))
        log, known = self.logs[sender].log, max(it.commit for it in self.logs.values())
        saves = self.adopts(self.view)
        self.log, self.commit, self.acknowledged = log, max(self.commit, min(known, len(log))), {}
        return saves, self.to_others('STARTVIEW', view=self.view, commit=self.commit, log=log)

    def own_log(self):
        return KeptLog(self.last_normal_view, self.commit, self.log)

    def on_start_view_change(self, sender, view):
        def counts():
            self.heard.add(sender)
            if self.told or len(self.heard) < self.f:
                return None, []
            self.told = True
            if self.is_primary():
                self.logs[self.i] = self.own_log()
                return self.begins_if_elected()
            return None, self.to(self.view % self.size, 'DOVIEWCHANGE', view=self.view, content=self.own_log())
        return self.enters_first(view, counts) if self.takes_part() else (None, [])

    def on_do_view_change(self, sender, view, content):
        def keeps():
            if sender in self.logs:
                return None, []
            self.logs[sender] = content
            return self.begins_if_elected()
        return self.enters_first(view, keeps) if self.takes_part() and view % self.size == self.i else (None, [])

    def on_start_view(self, view, commit, log):
        if not self.is_behind(view) or len(log) < self.commit:
            return None, []
        before, saves = self.commit, self.adopts(view)
        self.log, self.commit = log, max(before, min(commit, len(log)))
        left = self.to(view % self.size, 'PREPAREOK', view=view, op=len(log)) if self.commit < len(log) else []
        return saves, self.replies_from(before) + left

    # recovery and state transfer

    def on_recovery(self, sender, nonce, view):
        if self.status != NORMAL:
            return None, []
        if self.view < view:
            return self.enters(view)
        state = (self.commit, self.log) if self.is_primary() else None
        return None, self.to(sender, 'RECOVERYRESPONSE', nonce=nonce, view=self.view, state=state)

    def on_recovery_response(self, sender, nonce, view, state):
        if self.status != RECOVERING or self.nonce != nonce:
            return None, []
        def rank(it):
            return it[0], len(it[1][1]) if it[1] else 0
        kept = self.responses.get(sender)
        if kept is None or rank(kept) < rank((view, state)):
            self.responses[sender] = (view, state)
        latest = max(it[0] for it in self.responses.values())
        said = self.responses.get(latest % self.size)
        if len(self.responses) < self.f + 1 or latest < self.stored or said is None or said[0] != latest or said[1] is None:
            return None, []
        commit, log = said[1]
        saves = self.adopts(latest)
        self.log, self.commit = log, max(self.commit, min(commit, len(log)))
        return saves, []

    def on_get_state(self, sender, view, op):
        if self.status == NORMAL and self.view == view and op <= len(self.log):
            return None, self.to(sender, 'NEWSTATE', view=view, op=op, commit=self.commit, log=self.log[op:])
        return None, []

    def on_new_state(self, view, op, commit, log):
        end = op + len(log)
        if self.is_backup_in(view):
            if op <= len(self.log) < end:
                return self.holds(self.log + log[len(self.log) - op:], commit)
            return None, []
        if not (self.is_behind(view) and op <= self.commit <= end):
            return None, []
        before, saves = self.commit, self.adopts(view)
        _, sends = self.holds(self.log[:op] + log, commit)
        return saves, self.replies_from(before) + sends

    # resend and restart

    def on_resend(self):
        primary = self.view % self.size
        if self.status == RECOVERING:
            return None, self.to_others('RECOVERY', nonce=self.nonce, view=self.stored)
        if self.status == VIEW_CHANGE:
            again = self.to_others('STARTVIEWCHANGE', view=self.view)
            tells = self.told and not self.is_primary()
            return None, again + (self.to(primary, 'DOVIEWCHANGE', view=self.view, content=self.own_log()) if tells else [])
        if not self.is_primary():
            return None, self.to(primary, 'PREPAREOK', view=self.view, op=len(self.log))
        if self.commit == len(self.log):
            return None, self.to_others('COMMIT', view=self.view, commit=self.commit)
        return None, [it for place in range(self.commit, len(self.log)) for it in
                      self.to_others('PREPARE', view=self.view, request=self.log[place], op=place + 1, commit=self.commit)]

    def on_restart(self, nonce):
        self.status, self.nonce = RECOVERING, nonce
        self.forget()
        return None, self.to_others('RECOVERY', nonce=nonce, view=self.stored)

    def receives(self, message):
        kind, sender = message.sender
        if kind == 'client':
            return self.on_request(message.body['request'])
        rule, told = {
            'PREPARE': (self.on_prepare, False), 'PREPAREOK': (self.on_prepare_ok, True), 'COMMIT': (self.on_commit, False),
            'STARTVIEWCHANGE': (self.on_start_view_change, True), 'DOVIEWCHANGE': (self.on_do_view_change, True),
            'STARTVIEW': (self.on_start_view, False), 'RECOVERY': (self.on_recovery, True),
            'RECOVERYRESPONSE': (self.on_recovery_response, True), 'GETSTATE': (self.on_get_state, True),
            'NEWSTATE': (self.on_new_state, False),
        }[message.name]
        return rule(sender, **message.body) if told else rule(**message.body)


# ---- the world

class Client:
    """What a client knows."""

    def __init__(self):
        self.starts = self.sequence = self.view = 0
        self.waits = None


class World:
    """Replicas with their stores, clients, and every message that was ever sent."""

    def __init__(self, f):
        self.f, self.size = f, 2 * f + 1
        self.replicas = [Replica(f, i) for i in range(self.size)]
        self.stores = [0] * self.size
        self.clients = [Client() for _ in range(CLIENTS)]
        self.sent, self.used, self.failing, self.order = [], set(), {}, []
        self.lengths, self.releases = [], []

    def needs(self, fact, reason):
        if not fact:
            raise Refused(reason)

    def does(self, i, rule):
        """One step of a replica: the rule, the save that it asks for, and only then what it sends."""
        replica = self.replicas[i]
        saves, sends = rule(replica)
        if saves is not None and i in self.failing:
            if self.failing.pop(i):
                self.stores[i] = saves
            self.goes_down(i)
            return
        if saves is not None:
            self.stores[i] = saves
        self.sent += sends
        self.executes(replica)

    def executes(self, replica):
        if len(self.order) < replica.commit:
            self.order = replica.log[:replica.commit]

    def goes_down(self, i):
        replica = self.replicas[i]
        replica.status, replica.log, replica.commit = DOWN, [], 0

    def if_up(self, i, rule):
        if self.replicas[i].status != DOWN:
            self.does(i, rule)

    def submit(self, client, command):
        self.needs(client < CLIENTS, 1)
        knows = self.clients[client]
        self.needs(knows.waits is None, 4)
        self.needs(knows.sequence + 1 < 2 ** 32, 6)
        knows.sequence += 1
        knows.waits = Request(client, knows.starts * 2 ** 32 + knows.sequence, command)
        self.sent.append(Message(('client', client), ('replica', knows.view % self.size), 'REQUEST', dict(request=knows.waits)))

    def retry(self, client):
        self.needs(client < CLIENTS, 1)
        waits = self.clients[client].waits
        self.needs(waits is not None, 4)
        self.sent += [Message(('client', client), ('replica', i), 'REQUEST', dict(request=waits)) for i in range(self.size)]

    def clientrestart(self, client):
        self.needs(client < CLIENTS, 1)
        knows = self.clients[client]
        self.needs(knows.starts + 1 < 2 ** 32, 6)
        knows.starts, knows.sequence, knows.waits = knows.starts + 1, 0, None

    def deliver(self, number):
        self.needs(number < len(self.sent), 2)
        message = self.sent[number]
        kind, receiver = message.receiver
        if kind == 'replica':
            self.if_up(receiver, lambda replica: replica.receives(message))
            return
        knows, said = self.clients[receiver], message.body
        if knows.waits is not None and knows.waits.number == said['number']:
            self.releases.append((len(self.lengths), receiver, said['number'], said['place']))
            knows.waits = None
        knows.view = max(knows.view, said['view'])

    def timeout(self, i):
        self.needs(i < self.size, 1)
        self.if_up(i, Replica.on_timeout)

    def resend(self, i):
        self.needs(i < self.size, 1)
        self.if_up(i, Replica.on_resend)

    def crash(self, i):
        self.needs(i < self.size, 1)
        self.goes_down(i)

    def restart(self, i, nonce):
        self.needs(i < self.size, 1)
        self.needs((i, nonce) not in self.used, 3)
        self.needs(self.replicas[i].status == DOWN, 5)
        self.used.add((i, nonce))
        self.replicas[i].stored = self.stores[i]
        self.does(i, lambda replica: replica.on_restart(nonce))

    def storefail(self, i, kept):
        self.needs(i < self.size, 1)
        self.failing[i] = kept == 'new'

    def happens(self, event):
        (name, given), = event.items()
        getattr(self, name)(*(given if isinstance(given, list) else [given]))
        self.lengths.append(len(self.order))

    def line(self, answers):
        """The line of its report; `answers` has the answer to each place of the order that a release names."""
        told = dict(lengths=self.lengths, order=[[it.client, it.number] for it in self.order],
                    releases=[[*it[:3], answers[it[3]]] for it in self.releases], sent=len(self.sent))
        return json.dumps(told, separators=(',', ':'))


# ---- schedules as text

def is_number(it, most=2 ** 64 - 1):
    return type(it) is int and 0 <= it <= most


def is_pair(it):
    return isinstance(it, list) and len(it) == 2


def is_scan(it):
    return isinstance(it, dict) and set(it) == {'ix', 'iw', 'moment'} and is_number(it['moment'])


DOUBLES = '%D'  # stands for the double words among the names of a text


def is_known(name, names):
    """A location, or a declared name, itself or with a field behind its last dot; `names` None takes any."""
    if not isinstance(name, str) or names is None:
        return isinstance(name, str)
    if name.startswith('%'):
        return name[2:3].upper() != 'D' or DOUBLES in names
    return name.upper() in names or name.upper().rpartition('.')[0] in names


def is_hex(it):
    return isinstance(it, str) and len(it) % 2 == 0 and len(it) <= 65536 and all(c in '0123456789abcdefABCDEF' for c in it)


def is_command(it, names):
    if isinstance(it, str):
        return it in ('step', 'continue', 'cr', 'reset', 'warm')
    if not isinstance(it, dict) or len(it) != 1:
        return False
    (name, given), = it.items()
    checks = {'scan': is_scan, 'break': is_number, 'clear': is_number, 'force': lambda g: is_pair(g) and isinstance(g[0], str),
              'unforce': lambda g: isinstance(g, str), 'read': lambda g: is_known(g, names), 'change': is_hex}
    return name in checks and checks[name](given)


def is_event(it, names):
    if not isinstance(it, dict) or len(it) != 1:
        return False
    (name, given), = it.items()
    if name in ('retry', 'clientrestart', 'deliver', 'timeout', 'resend', 'crash'):
        return is_number(given)
    if not is_pair(given) or not is_number(given[0]):
        return False
    checks = {'submit': lambda g: is_command(g, names), 'restart': is_number, 'storefail': lambda g: g in ('old', 'new')}
    return name in checks and checks[name](given[1])


def declared(source):
    """The names that a text declares, in capitals: read off its VAR blocks, so of a good text alone. A text that begins with VAR_GLOBAL has
    DOUBLES among them."""
    bare = re.sub(r'(?s)\(\*.*?\*\)', ' ', source)
    blocks = re.findall(r'(?is)(?<![\w.])VAR(?:_GLOBAL(?:\s+(?:NON_)?RETAIN)?)?\b(.*?)\bEND_VAR\b', bare)
    names = {name.strip().upper() for block in blocks for item in block.split(';')
             for name in re.split(r'(?i)\bAT\b', item.partition(':')[0])[0].split(',') if name.strip()}
    return names | ({DOUBLES} if re.match(r'(?i)\s*VAR_GLOBAL\b', bare) else set())


def schedule_of(text, source=None):
    """The events of a schedule; NotASchedule where it's none, or asks for a name that the program's text doesn't declare."""
    names = None if source is None else declared(source)
    try:
        events = json.loads(text)
    except ValueError:
        raise NotASchedule() from None
    if not isinstance(events, list) or not all(is_event(it, names) for it in events):
        raise NotASchedule()
    return events
