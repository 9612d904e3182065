"""What the program reads and writes beside its stores: streams that are closed, reports, and the words of its call."""
import os
import subprocess
import tempfile
import time

from controller import SOURCE, ended, free_port


def content(path):
    with open(path, 'rb') as file:
        return file.read()


def words_are_heard(plc, work):
    """Those of scans, replicas, the period and the budget."""
    source = os.path.join(work, 'words.il')
    with open(source, 'w') as file:
        file.write('L1: LD %IW0\nEQ 0\nJMPC L2\nJMP L1\nL2:\n')
    store, begun = tempfile.mkdtemp(dir=work), time.monotonic()
    words = '--scans', 20, '--f', 2, '--period', 150, '--budget', 4, '--port', free_port()
    status, out, err = ended(plc, 'serve', source, '--store', store, *words)
    took, files = time.monotonic() - begun, sorted(os.listdir(store))
    words = '--scans', 1, '--budget', 3, '--port', free_port()
    stopped = ended(plc, 'serve', source, '--store', tempfile.mkdtemp(dir=work), *words)
    right = (status, out) == (0, 'scans 20\n') and 'stopped' not in err and took >= 2.85
    right = right and files == [f'replica-{n}' for n in range(5)]
    return right and stopped[2].endswith('\nstopped budget 4\n')


def closed_streams_fail(plc, work):
    """An output that is closed is a device that failed; that another stream is does no harm."""
    source, image, wanted = (os.path.join(work, name) for name in ('s.il', 'closed.image', 'good.image'))
    with open(source, 'w') as file:
        file.write(SOURCE)
    right = ended(plc, 'asm', source, wanted)[0] == 0

    def by_shell(closes):
        if os.path.exists(image):
            os.remove(image)
        call = ['sh', '-c', f'exec "$0" asm "$1" "$2" {closes}', plc, source, image]
        return subprocess.run(call, capture_output=True, text=True)

    line = 'plc: device output\n'
    closed = ('>&-', 2, line), ('<&- >&-', 2, line), ('<&-', 0, ''), ('2>&-', 0, ''), ('>&- 2>&-', 2, '')
    for closes, *wants in closed:
        done = by_shell(closes)
        same = content(image) == content(wanted)
        if [done.returncode, done.stderr] != wants or not same:
            print('  ', closes, done.returncode, done.stderr, same)
            right = False
    return right


def read_files_are_kept(plc, work):
    """No image and no report is written over what is read, or among the stores; a report is put in its place at a good
    end."""
    source, store, report = os.path.join(work, 'kept.il'), os.path.join(work, 'kept'), os.path.join(work, 'kept.report')
    with open(source, 'w') as file:
        file.write(SOURCE)
    with open(report, 'w') as file:
        file.write('before\n')

    def status(*words):
        return ended(plc, *words)[0]

    served = 'serve', source, '--store', store, '--port', free_port(), '--scans', 2, '--period', 20, '--report'
    refused = [status('asm', source, source), status(*served, source)]
    refused.append(status(*served, os.path.join(store, 'replica-0')))
    with open(source) as file:
        right = file.read() == SOURCE and refused == [1, 1, 1] and not os.path.exists(store)
    lost = status('serve', source, '--store', source, '--port', free_port(), '--scans', 2, '--report', report)
    with open(report) as file:
        right = right and lost == 2 and file.read() == 'before\n'
    done = status(*served, report)
    with open(report) as file:
        right = right and done == 0 and file.read().startswith('{"crashes":0,"scans":2,')
    return right and not os.path.exists(report + '.new')


GATE = [words_are_heard, closed_streams_fail, read_files_are_kept]
