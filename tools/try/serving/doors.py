"""The doors of a controller beside that of its clients: who may reach its console and its page, and what becomes of one
that is taken."""
import http.server
import os
import shutil
import socket
import subprocess
import threading
import time
import urllib.request

from controller import PATIENCE, Served, came_true, ended, free_port, is_written, take, words

# what a browser sends for fetch(.., {method: 'POST', mode: 'no-cors', body}), and for a form of type text/plain
FETCHED = (b'POST / HTTP/1.1\r\nHost: 127.0.0.1:7680\r\nConnection: keep-alive\r\nContent-Length: 33\r\n'
           b'Content-Type: text/plain;charset=UTF-8\r\nAccept: */*\r\nOrigin: http://elsewhere.example\r\n\r\n'
           b'{"force": ["%QX0.0", true]}\n"cr"\n')
FORM = (b'POST / HTTP/1.1\r\nHost: 127.0.0.1:7680\r\nContent-Type: text/plain\r\nContent-Length: 35\r\n\r\n'
        b'a=\r\n{"force": ["%QX0.0", true]}\r\n\r\n')
HEADLESS = b'Host: 127.0.0.1\n{"force": ["%QX0.0", true]}\n'
WORDS = b'force\nplease\nnow\n{"force": ["%QX0.0", true]}\n'

# two pages of another origin: the one asks by itself, the other has a form that sends itself
PAGES = {'/fetch': """<!doctype html><title>page</title><script>
const body = '{"force": ["%QX0.0", true]}\\n{"force": ["%QX0.0", true]}\\n';
fetch('http://127.0.0.1:CONSOLE/', {method: 'POST', mode: 'no-cors', body})
    .catch(() => 0).then(() => { document.title = 'asked'; });
</script>""", '/form': """<!doctype html><title>page</title>
<form method="post" enctype="text/plain" action="http://127.0.0.1:CONSOLE/">
<textarea name="a">

{"force": ["%QX0.0", true]}
</textarea></form><script>document.forms[0].submit();</script>"""}


def heard(port, sent):
    """All that a console answers to these bytes, up to its end."""
    with socket.create_connection(('127.0.0.1', port), PATIENCE) as stream:
        stream.sendall(sent)
        came = b''
        try:
            while piece := stream.recv(4096):
                came += piece
        except ConnectionError:
            pass
        return came


def browsers():
    return [path for path in map(shutil.which, ('chromium', 'chromium-browser', 'google-chrome')) if path][:1]


class Relay:
    """Hands on what comes to its port to another one, and keeps what went there and back in each connection."""

    def __init__(self, port):
        self.to, self.talks, self.listener = port, [], socket.create_server(('127.0.0.1', 0))
        self.port = self.listener.getsockname()[1]
        threading.Thread(target=self.take, daemon=True).start()

    def take(self):
        while True:
            near, _ = self.listener.accept()
            far, talk = socket.create_connection(('127.0.0.1', self.to)), [b'', b'']
            self.talks.append(talk)
            for way, (source, sink) in enumerate(((near, far), (far, near))):
                threading.Thread(target=self.hand_on, args=(source, sink, talk, way), daemon=True).start()

    @staticmethod
    def hand_on(source, sink, talk, way):
        try:
            while piece := source.recv(65536):
                talk[way] += piece
                sink.sendall(piece)
            sink.shutdown(socket.SHUT_WR)
        except OSError:
            pass


class Pages(http.server.BaseHTTPRequestHandler):
    """Serves the pages, whose port of a console is `console`."""

    console = 0

    def do_GET(self):
        content = PAGES.get(self.path, '').replace('CONSOLE', str(self.console)).encode()
        self.send_response(200 if content else 404)
        self.send_header('Content-Type', 'text/html')
        self.send_header('Content-Length', str(len(content)))
        self.end_headers()
        self.wfile.write(content)

    def log_message(self, *_):
        pass


def browser_is_refused(browser, work, console):
    """Whether what a real browser sends to a console for these pages is answered by the end of its session alone."""
    relay, right = Relay(console), True
    server = http.server.ThreadingHTTPServer(('127.0.0.1', 0), type('', (Pages,), {'console': relay.port}))
    threading.Thread(target=server.serve_forever, daemon=True).start()
    for path in PAGES:
        before = len(relay.talks)
        subprocess.run([browser, '--headless', '--no-sandbox', '--disable-gpu',
                        '--host-resolver-rules=MAP elsewhere.example 127.0.0.1',
                        '--user-data-dir=' + os.path.join(work, 'profile'), '--virtual-time-budget=4000', '--dump-dom',
                        f'http://elsewhere.example:{server.server_port}{path}'], capture_output=True, timeout=180)
        talks = relay.talks[before:]
        posts = [(sent, told) for sent, told in talks if sent.startswith(b'POST / HTTP/1.1\r\n')]
        is_seen = any(b'"force"' in sent for sent, _ in posts)
        if not is_seen or any(told != b'plc: session ends\n' for _, told in posts):
            print(f'{path} of {browser}: {talks}')
            right = False
    server.shutdown()
    return right


def a_web_page_cant_command(plc, work):
    """Requests of browsers, and words of no command, end a session; nothing behind them is read. A real Chromium tries
    it, too, if there is one."""
    console = free_port()
    with Served(plc, work, '--period', 20, '--console', console) as served:
        right = served.serves()
        for sent in (FETCHED, FORM, HEADLESS):
            right = right and heard(console, sent) == b'plc: session ends\n'
        right = right and heard(console, WORDS) == b'plc: commands\nplc: commands\nplc: session ends\n'
        for browser in browsers():
            right = browser_is_refused(browser, work, console) and right
        right = right and served.says('console refused')
        right = right and heard(console, b'"forces"\n"x"\n"x"\n"x"\n').startswith(b'forces\n')
        return right and not [line for line in served.lines if line.startswith('console force')]


def a_key_comes_first(plc, work):
    """Nothing is answered before the key, a wrong one ends the session, and a file that others can read is refused."""
    console, key = free_port(), os.path.join(work, 'key')
    with open(key, 'w') as file:
        file.write('a-word-of-mine\n')
    os.chmod(key, 0o644)
    open_to_all = Served(plc, work, '--console', console, '--console-key', key)
    right = open_to_all.status() == 1
    os.chmod(key, 0o600)
    with Served(plc, work, '--period', 20, '--console', console, '--console-key', key) as served:
        right = right and served.serves()
        begun = time.monotonic()
        right = right and heard(console, b'"status"\n') == b'plc: key\n' and time.monotonic() - begun > 0.9
        right = right and heard(console, b'a-word-of-mind\n"cr"\n') == b'plc: key\n'
        with socket.create_connection(('127.0.0.1', console), PATIENCE) as known:
            known.sendall(b'a-word-of-mine\n"cr"\n')
            wanted = b'done\nrefused 1\n'
            right = right and take(known, len(wanted)) == wanted
        asked = ended(plc, 'ask', console, '-', '--console-key', key, input='["cr"]')
        return right and asked[:2] == (4, 'refused 1\n') and served.says('console refused')


def mode(path):
    return os.stat(path).st_mode & 0o777


def a_socket_is_its_owners(plc, work):
    """A console at a path has mode 0600, and takes the place of a socket at which nobody listens any more; nothing else
    gives way to it. Where another program has it, or there is a file, that's told, once; all else goes on, and it's had
    once it's free."""
    path = os.path.join(work, 'console')

    def is_asked():
        return ended(plc, 'ask', path, '-', input='["cr"]')[:2] == (4, 'refused 1\n')

    def has_it(served):
        has = served.says('console socket', 2 * PATIENCE) and served.lines.count('no console socket') == 1
        return has and mode(path) == 0o600 and is_asked()

    with open(path, 'w') as file:
        file.write('something else')
    with Served(plc, work, '--period', 20, '--console-socket', path) as served:
        right = served.serves() and served.says('no console socket')
        os.remove(path)
        right = right and has_it(served)
        with Served(plc, work, '--period', 20, '--console-socket', path) as waits:
            right = right and waits.serves() and waits.says('no console socket')
            right = right and is_asked() and served.says('console begins', times=2)
            served.end()
            right = right and has_it(waits)
            if not right:
                print('  ', served.lines, waits.lines)
    return right


def taken_doors_are_tried(plc, work):
    """A console's port and a page's that others have are told, once each; the controller serves, and has them once they
    are free."""
    console, page = free_port(), free_port()
    taken = [socket.create_server(('127.0.0.1', port)) for port in (console, page)]
    with Served(plc, work, '--period', 20, '--console', console, '--status', page) as served:
        right = served.serves() and served.says(f'no console port {console}') and served.says(f'no page port {page}')
        with served.client() as client:
            right = right and is_written(client, 6, 0, 4) and came_true(lambda: words(client, 4, 1) == [5])
        for it in taken:
            it.close()
        for door in (f'console port {console}', f'page port {page}'):
            right = right and served.says(door, 2 * PATIENCE) and served.lines.count(f'no {door}') == 1
        right = right and ended(plc, 'ask', console, '-', input='["cr"]')[:2] == (4, 'refused 1\n')
        with urllib.request.urlopen(f'http://127.0.0.1:{page}/state', timeout=PATIENCE) as answer:
            right = right and answer.status == 200
        if not right:
            print('  ', served.lines)
        return right


def its_status_is_always_told(plc, work):
    """While a command waits, since the group is lost, others are told how the controller is."""
    console = free_port()
    with Served(plc, work, '--period', 20, '--console', console) as served:
        right = served.serves()
        shutil.rmtree(served.store)
        served.pause(3)
        right = right and served.says('replica 0 down')
        with socket.create_connection(('127.0.0.1', console)) as waits:
            waits.sendall(b'"cr"\n')
            time.sleep(0.5)
            for _ in range(3):
                status, out, _ = ended(plc, 'ask', console, '-', input='["status"]')
                right = right and status == 0 and out.startswith('status scans ')
        return right


GATE = [a_socket_is_its_owners, taken_doors_are_tried]
BY_HAND = [a_web_page_cant_command, a_key_comes_first, its_status_is_always_told]
