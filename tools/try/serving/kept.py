"""Directories of machines by the rows of stores.rows: what `plc show` prints of them, how a machine starts from them,
and what `plc format` makes of them. README.md beside it says how a row is written."""
import concurrent.futures
import hashlib
import os
import shutil
import stat
import struct
import subprocess
import tempfile

from controller import came_true, ended, free_port, run
import requests
from requests import spread

OWN_NUMBER = 9      # what a store is known by whose row doesn't say it
KINDS = {'nothing': 0, 'above': 1, 'entered': 2, 'begun': 3}
# what a machine tells that waits for an epoch, above one or above none
WAITS = 'machine 0 waits for an epoch after 1', 'waits: hears 0 of 2 machines, wants 2'
STATES = ['waits', 'waits above', 'entered', 'begun']
ODD = {'folder': os.mkdir, 'socket': lambda path: os.mknod(path, stat.S_IFSOCK | 0o600)}    # in the place of a file
OWN, GIVEN, CHANGED = 'LD %IX0.0\nST %QX0.0\n', 'LDN %IX0.0\nST %QX0.0\n', 'LD %IX0.1\nST %QX0.1\n'


def row_of(beginning):
    return requests.row_of(beginning, 'stores.rows')


def keyed(words):
    """What stands behind each `key=`, and the words that have none."""
    pairs = [word.split('=', 1) for word in words.split()]
    return {it[0]: it[1] for it in pairs if len(it) == 2}, [it[0] for it in pairs if len(it) == 1]


class Made:
    """A store by its words, and what else there is in its directory."""

    def __init__(self, words, own=b'ILP', given=b'', identities=None):
        said, self.others = keyed(words)
        self.said, self.own, self.given = said, own, given
        self.kind = next((it for it in KINDS if it in said), 'nothing')
        self.identities, self.program = identities or {}, None

    def epoch(self, key):
        """An epoch as its number and a byte for each of its sum, in hexadecimal, or that of the program that is
        given."""
        number, _, begins = self.said[key].partition('.')
        summed = hashlib.sha256(self.given).digest() if begins == 'given' else bytes.fromhex(begins) * 32
        return struct.pack('>Q', int(number)) + summed

    def sum(self, key):
        """A sum, as one byte for each of 32."""
        return bytes([int(self.said[key])]) * 32

    def spelled(self):
        said, seen = self.said, [0] * 7
        if 'saw' in said:
            machine, store = said['saw'].split('.')
            seen[int(machine)] = int(store)
        epoch = self.epoch(self.kind) if self.kind in said else bytes(40)
        identity = self.identities.get(said['identity'], self.sum('identity'))
        made = b'PLCSTORE\0\3' + identity + bytes([KINDS[self.kind]]) + epoch + (self.program or self.sum('program'))
        made += bytes([int(said['machine'])]) + struct.pack('>8Q', int(said.get('store', OWN_NUMBER)), *seen)
        made += struct.pack('>I', len(self.own)) + self.own
        return made + hashlib.sha256(made).digest()

    def files(self, changed):
        """The files of a directory: the store, a view of a replica, a mark of a change."""
        files = {}
        if 'bytes' in self.others:
            files['group'] = spread(self.others[1])
        elif 'identity' in self.said:
            files['group'] = self.spelled()
        if 'view' in self.said:
            files[f'replica-{self.said["view"]}'] = struct.pack('>QQ', 0, 1)
        if 'kept' in self.said:
            kept = self.said['kept']
            files[f'replica-{self.said["machine"]}'] = kept if kept in ODD else bytes.fromhex(kept)
        for key, image in (('marked', changed), ('unknown', b''), ('torn', None)):
            if key in self.said:
                mark = self.epoch(key) + (image or b'')
                files['changed'] = mark + (hashlib.sha256(mark).digest() if image is not None else b'')
        return files

    def lines(self):
        """What is shown of it, without whether its program was changed."""
        said = self.said
        epoch = self.epoch(self.kind) if self.kind in said else bytes(40)
        shown = ['format 3', f'machine {said["machine"]}', f'identity {self.sum("identity").hex()}',
                 f'store {int(said.get("store", OWN_NUMBER)):016x}', f'state {STATES[KINDS[self.kind]]}',
                 f'epoch {int.from_bytes(epoch[:8], "big")}', f'begins with {epoch[8:].hex()}']
        if 'saw' in said:
            machine, store = said['saw'].split('.')
            shown.append(f'machine {machine} has store {int(store):016x}')
        return shown + [f'program {self.sum("program").hex()}', f'image {len(self.own)}']


class Plant:
    """The file of a group of three, the images of three programs, and directories."""

    def __init__(self, plc, work):
        self.plc, self.work = plc, work
        self.file = self.path('group.toml')
        machines = ''.join(f'[[machine]]\nreplica = "127.0.0.1:{free_port()}"\nmodbus = "127.0.0.1:{free_port()}"\n'
                           for _ in range(3))
        with open(self.file, 'w') as file:
            file.write(f'name = "plant"\nfresh = 200\nperiod = 50\n{machines}')
        os.chmod(self.file, 0o600)
        self.ok(ended(plc, 'format', '--new-group', '--group', self.file))
        self.images = []
        for name, text in (('own', OWN), ('given', GIVEN), ('changed', CHANGED)):
            with open(self.path(name + '.il'), 'w') as file:
                file.write(text)
            self.ok(ended(plc, 'asm', self.path(name + '.il'), self.path(name)))
            with open(self.path(name), 'rb') as file:
                self.images.append(file.read())
        own = '--group', self.file, '--store', self.path('made')
        self.ok(ended(plc, 'format', self.path('own.il'), '--machine', 0, *own))
        with open(self.path('made/group'), 'rb') as file:
            self.made = file.read()

    def path(self, name):
        return os.path.join(self.work, name)

    @staticmethod
    def ok(done):
        if done[0] != 0:
            raise OSError(done)

    def store(self, words, own=None):
        """A store of this group where its identity is 11."""
        own = self.images[0] if own is None else own
        return Made(words, own, self.images[1], {'11': self.made[10:42]})

    def directory(self, files):
        path = tempfile.mkdtemp(dir=self.work)
        for name, content in files.items():
            if content in ODD:
                ODD[content](os.path.join(path, name))
                continue
            with open(os.path.join(path, name), 'wb') as file:
                file.write(content)
        return path


def refusals():
    """The line and the status of each refusal, by its name."""
    told = {}
    for name, said in row_of('how a refusal is told').table('told refusal'):
        line, _, status = said.rpartition(' (')
        told[name] = (int(status[:-1]), line)
    return told


def differs(what, wanted, got):
    print(f'  otherwise: {what}\n    wanted {wanted}\n    got    {got}')
    return False


def shows(plant, files, *words):
    """What is shown of a directory, with `, ` between the lines, or its refusal."""
    path = plant.directory(files)
    status, out, err = ended(plant.plc, 'show', path, *words)
    shutil.rmtree(path)
    return (status, err.strip()) if status else (0, ', '.join(out.splitlines()))


def is_said(told, what, said, got):
    """Whether what came is what a row says: a refusal by its name, or lines."""
    wanted = told.get(said, (0, said))
    return got == wanted or differs(what, wanted, got)


def stores_are_read(plc, work):
    """Each store has one spelling, and shows what that says; nothing else is one, wherever it's cut or changed."""
    plant, told, right = Plant(plc, work), refusals(), True
    for words, spelled in row_of('a store has one spelling').table('spelt store'):
        made = Made(words)
        right = (made.spelled() == spread(spelled) or differs(words, spelled, made.spelled().hex())) and right
        said = ', '.join(made.lines() + ['changed no'])
        right = is_said(told, words, said, shows(plant, {'group': made.spelled()})) and right
    for given, said in row_of('nothing else is read').table('read store'):
        right = is_said(told, given, said, shows(plant, {'group': spread(given)})) and right
    with concurrent.futures.ThreadPoolExecutor(4) as pool:
        for words, said in row_of('nothing else is read').table('spoilt store'):
            shown = pool.map(lambda it: is_said(told, *it[:2], shows(plant, {'group': it[2]})), spoilt(words, said))
            right = all(list(shown)) and right
    for words, said in row_of('what is shown').table('shown directory'):
        right = is_said(told, words, said, shows(plant, Made(words).files(b'IPL'))) and right
    return right


def spoilt(words, first):
    """A store that is cut at each third place, and one of which a byte there is changed: what is said of each, and its
    bytes."""
    whole = Made(words).spelled()
    for place in range(int(first), len(whole), 3):
        changed = whole[:place] + bytes([whole[place] ^ 0x55]) + whole[place + 1:]
        yield f'cut at {place}', 'torn', whole[:place]
        yield f'changed at {place}', 'other format' if place in (8, 9) else 'torn', changed


def start(plant, path):
    """How a machine starts from a directory: the refusal, or what its lines or its view tell."""
    with open(path + '.err', 'w+') as err:
        words = [plant.plc, 'serve', '--group', plant.file, '--store', path]
        process = run(words, stdout=subprocess.DEVNULL, stderr=err)

        def told():
            has_ended = process.poll() is not None
            lines = content(path + '.err').decode().splitlines()
            views = [content(os.path.join(path, it)) for it in os.listdir(path) if it.startswith('replica-')]
            if has_ended:
                return process.returncode, (lines or [''])[-1]
            if any(it.startswith('epoch ') and it.endswith(' waits for other machines') for it in lines):
                return 0, 'first'
            if any(it in lines for it in WAITS):
                return 0, 'waits'
            return (0, 'again') if struct.pack('>QQ', 0, 2) in views else None
        came_true(told)
        found = told()
        process.kill()
        process.wait()
    return found


def started(plant, words):
    """How a machine starts from a directory; where that's refused, how it starts from what is left there."""
    path = plant.directory(plant.store(words).files(plant.images[2]))
    found = start(plant, path)
    return start(plant, path) if found and found[0] else found


def content(path):
    try:
        with open(path, 'rb') as file:
            return file.read()
    except OSError:
        return b''


def machines_start_by_their_stores(plc, work):
    """A blank directory, epochs that were entered and begun, with and without a view, a disk that was lost, the store
    of another group or machine, bytes that are no store: one line of refusal, the same at each start, or a start."""
    plants = [Plant(plc, tempfile.mkdtemp(dir=work)) for _ in range(3)]     # each has ports of its own
    told, rows = refusals(), row_of('by what its directory holds').table('start')

    def are_said(number):
        return [is_said(told, *row, started(plants[number], row[0])) for row in rows[number::len(plants)]]

    with concurrent.futures.ThreadPoolExecutor(len(plants)) as pool:
        return all(sum(pool.map(are_said, range(len(plants))), []))


def left(path):
    """The bytes of the store that a directory has."""
    return content(os.path.join(path, 'group'))


def stores_are_made_where_nothing_was(plc, work):
    """In an empty directory one is made, of the bytes that its words say; anything of a store is left as it was."""
    plant, told, right = Plant(plc, work), refusals(), True
    for words, said in row_of('a store is made where').table('format'):
        made = plant.store(words)
        path = plant.directory(made.files(plant.images[2]))
        before = left(path)
        own = '--group', plant.file, '--store', path
        status, _, err = ended(plc, 'format', plant.path('own.il'), '--machine', 2, *own)
        came, _, now = said.partition(', ')
        right = is_said({**told, 'formatted': (0, '')}, words, came, (status, err.strip())) and right
        wanted = before
        if now == 'the new store':
            new = plant.store(f'identity=11 entered=1.given machine=2 store={number_in(path)}')
            new.given, new.program = plant.images[0], hashlib.sha256(plant.images[0]).digest()
            wanted = new.spelled()
        right = (left(path) == wanted or differs(words, wanted.hex(), left(path).hex())) and right
    return right


def number_in(path):
    """What the store that a directory has is known by."""
    return int.from_bytes(left(path)[116:124], 'big')


def entered_by_hand(plant, told, words, said):
    """Whether a store is put by hand where a row says, and has the bytes that its words say then, by another number
    where that's another epoch; or is as it was."""
    is_given, words = words.endswith(' given'), words.removesuffix(' given')
    made = plant.store(words)
    path = plant.directory(made.files(plant.images[2]))
    before = left(path)
    given = [plant.path('given.il')] if is_given else []
    way = ['--epoch', made.said['into'], '--forget'] if 'into' in made.said else ['--next-epoch']
    status, out, err = ended(plant.plc, 'format', *given, *way, '--group', plant.file, '--store', path)
    came, kept, _ = (it.strip() for it in f'{said}, , '.split(', ', 2))
    kind, _, epoch = kept.partition(' ')
    if came not in ('with its own', 'with the one given'):
        right = is_said(told, words, came, (status, err.strip()))
        return (left(path) == before or differs(words, 'unchanged', left(path).hex())) and right
    is_new = came == 'with the one given'
    entered, known = f'{kind}={epoch.replace(".aa", ".given")}', number_in(path)
    if known == 0 or (known == OWN_NUMBER) != (entered in words.split()):
        return differs(words, 'another number with another epoch', known)
    wanted = plant.store(f'identity=11 {entered} machine={made.said["machine"]} store={known}', plant.images[is_new])
    wanted.program = hashlib.sha256(plant.images[1]).digest() if is_new else made.sum('program')
    number, spelled = epoch.split('.')[0], wanted.spelled()
    right = (status, out) == (0, f'epoch {number}\n') or differs(words, said, (status, out, err))
    return (left(path) == spelled or differs(words, spelled.hex(), left(path).hex())) and right


def epochs_are_entered_by_hand(plc, work):
    """The next epoch, or one of a number, with the store's own program or one that is given; and what is refused leaves
    the store as it was."""
    plant, told = Plant(plc, work), refusals()
    rows = [row_of('by hand it\'s in the next epoch'), row_of('by hand it\'s in the epoch of a number')]
    tables = [line for row in rows for line in row.table('next epoch by hand of a store')]
    return all([entered_by_hand(plant, told, *line) for line in tables])


def is_fetched(plc, path, said, wanted):
    """Whether the program in force is fetched of a store: the one to which it was changed, else its own."""
    status, out, err = ended(plc, 'fetch', path, '-')
    got = (status, err.strip()) if status else (0, ', '.join(out.splitlines()))
    if said == 'not changed':
        status, out, err = ended(plc, 'show', '--listing', path)
        wanted = (status, err.strip()) if status else (0, ', '.join(out.splitlines()))
    return got == wanted or differs('fetch of a store, ' + said, wanted, got)


def changed_programs_are_had(plc, work):
    """The program to which a store's was changed is listed, and begins the next epoch where that is asked; or why
    there's none."""
    plant, told, right = Plant(plc, work), refusals(), True
    for words, said in row_of('the program to which').table('changed program'):
        files = plant.store(words).files(plant.images[2])
        wanted = (0, ', '.join(['VAR', 'END_VAR', *CHANGED.splitlines()])) if said == 'IPL' else told[said]
        got = shows(plant, files, '--listing', '--changed')
        right = (got == wanted or differs(words, wanted, got)) and right
        path = plant.directory(files)
        right = is_fetched(plc, path, said, wanted) and right
        status, out, err = ended(plc, 'format', '--next-epoch', '--changed', '--group', plant.file, '--store', path)
        if said == 'IPL':
            got, wanted = (status, out, left(path)[184:-32]), (0, 'epoch 2\n', plant.images[2])
        else:
            got, wanted = (status, err.strip()), told[said]
        right = (got == wanted or differs(words, wanted, got)) and right
    return right


GATE = [stores_are_read, machines_start_by_their_stores, stores_are_made_where_nothing_was, epochs_are_entered_by_hand,
        changed_programs_are_had]
