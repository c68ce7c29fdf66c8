# Three clients and a collector at one server: see run.sh.
import hashlib, http.client, os, random, socket, subprocess, sys, threading, time

SERVER, CLIENT, WORK, SECONDS, SEED = sys.argv[1], sys.argv[2], sys.argv[3], int(sys.argv[4]), int(sys.argv[5])
LIB = '11111111-2222-4333-8444-555555555555'
SECRET = hashlib.sha1(os.urandom(20)).hexdigest()
NAMES = ['ann', 'bob', 'cy']
os.chdir(WORK)
wrong = []


def free_port():
    with socket.socket() as s:
        s.bind(('127.0.0.1', 0))
        return s.getsockname()[1]


def run(*words):
    done = subprocess.run(words, stdin=subprocess.DEVNULL, capture_output=True, text=True)
    return done.returncode, done.stdout


def ask(port, method, path, body=b''):
    link = http.client.HTTPConnection('127.0.0.1', port, timeout=300)
    link.request(method, f'/repo/{LIB}/{path}', body, {'Seafile-Repo-Token': SECRET, 'Connection': 'close'})
    reply = link.getresponse()
    return reply.status, reply.read()


def tree(folder):
    found = {}
    for place, _, files in os.walk(folder):
        for name in files:
            path = os.path.join(place, name)
            if name not in ('.seaf-cli.spare', '.seaf-cli.library'):
                found[os.path.relpath(path, folder)] = open(path, 'rb').read()
    return found


class Client(threading.Thread):
    """Changes files of its own and shared ones, and syncs between."""

    def __init__(self, name, port):
        super().__init__()
        self.name_of, self.random, self.port = name, random.Random(f'{SEED}{name}'), port
        self.own, self.shared, self.syncs, self.refused, self.slowest = {}, {}, 0, {}, 0.0

    def begin(self):
        assert run(CLIENT, 'init', '-c', f'conf-{self.name_of}')[0] == 0
        os.mkdir(self.name_of)
        status, line = run(CLIENT, 'download', '-c', f'conf-{self.name_of}', '-l', LIB, '-s', f'http://127.0.0.1:{self.port}', '-w', self.name_of, '-u', self.name_of, '-k', SECRET)
        assert status == 0, line

    def write(self, path, size):
        bytes_ = f'{self.name_of} {self.syncs} {self.random.random()}\n'.encode() + self.random.randbytes(size)
        os.makedirs(os.path.dirname(os.path.join(self.name_of, path)), exist_ok=True)
        with open(os.path.join(self.name_of, path), 'wb') as file:
            file.write(bytes_)
        return bytes_

    def edit(self):
        for _ in range(self.random.randint(1, 5)):
            path = f'{self.name_of}/{self.random.randint(0, 19)}/{self.random.randint(0, 19)}'
            if self.random.random() < 0.1 and path in self.own:
                os.remove(os.path.join(self.name_of, path))
                del self.own[path]
            else:
                self.own[path] = self.write(path, self.random.choice([0, 100, 4096, 300000]))
        if self.random.random() < 0.5:
            path = f'shared/{self.random.randint(0, 4)}'
            self.shared[path] = self.write(path, 50)

    def sync(self):
        began = time.time()
        status, line = run(CLIENT, 'start', '-c', f'conf-{self.name_of}', '-n', '1')
        self.slowest = max(self.slowest, time.time() - began)
        self.syncs += 1
        if status != 0:
            self.refused[line.strip()] = self.refused.get(line.strip(), 0) + 1
        return status == 0

    def run(self):
        while time.time() < END:
            self.edit()
            self.sync()


port = free_port()
os.mkdir('kept')
assert run(SERVER, 'create', 'kept', LIB, 'office', 'ann', SECRET)[0] == 0
serving = subprocess.Popen([SERVER, 'serve', 'kept', str(port), '8', '4294967295', LIB], stdin=subprocess.DEVNULL, stdout=open('out', 'wb'), stderr=open('err', 'wb'))
while b'listening' not in open('err', 'rb').read():
    assert serving.poll() is None, open('out').read()
    time.sleep(0.05)
clients = [Client(name, port) for name in NAMES]
for client in clients:
    client.begin()
assert ask(port, 'PUT', 'history-limit?days=1')[0] == 200
END = time.time() + SECONDS
for client in clients:
    client.start()
collections, slowest = 0, 0.0
while time.time() < END:
    time.sleep(min(5, SECONDS / 10))
    began = time.time()
    status, body = ask(port, 'POST', 'collect')
    slowest = max(slowest, time.time() - began)
    collections += 1
    if status != 200:
        wrong.append(f'a collection was answered {status}: {body}')
for client in clients:
    client.join()
# (history is kept for a day, so no base is cut away)
for _ in range(6):
    for client in clients:
        client.sync()
trees = [tree(name) for name in NAMES]
for name, other in zip(NAMES[1:], trees[1:]):
    if other != trees[0]:
        wrong.append(f'the folder of {name} differs from that of {NAMES[0]}: {sorted(set(other.items()) ^ set(trees[0].items()), key=str)[:3]}')
held = {}
for found in trees:
    held.update({bytes_: path for path, bytes_ in found.items()})
for client in clients:
    for path, bytes_ in client.own.items():
        if trees[0].get(path) != bytes_:
            wrong.append(f'{path} of {client.name_of} is not as it was left')
for path in {path for client in clients for path in client.shared}:
    lost = [client.name_of for client in clients if path in client.shared and client.shared[path] not in held]
    # (the last version of one who saw another's may have been replaced by that other; not all can be)
    if len(lost) == sum(path in client.shared for client in clients):
        wrong.append(f'no last version of {path} is left')
serving.kill()
serving.wait()
again = subprocess.Popen([SERVER, 'serve', 'kept', str(port), '1', '4294967295', LIB], stdin=subprocess.DEVNULL, stdout=subprocess.DEVNULL, stderr=open('err2', 'wb'))
while b'listening' not in open('err2', 'rb').read():
    time.sleep(0.05)
run(CLIENT, 'init', '-c', 'conf-after')
os.mkdir('after')
status, line = run(CLIENT, 'download', '-c', 'conf-after', '-l', LIB, '-s', f'http://127.0.0.1:{port}', '-w', 'after', '-u', 'after', '-k', SECRET)
again.kill()
again.wait()
if status != 0 or tree('after') != trees[0]:
    wrong.append(f'after a kill another folder is downloaded otherwise: {line}')
for client in clients:
    print(f'{client.name_of}: {client.syncs} syncs, the slowest {client.slowest:.2f} s, refused: {client.refused}')
print(f'{collections} collections, the slowest {slowest:.2f} s; {len(trees[0])} files in the end; {len(wrong)} wrong')
for line in wrong[:20]:
    print(line)
sys.exit(1 if wrong else 0)
