"""How long another client waits while a library is collected: collect.py SERVER [OBJECTS [FOLDER]]

A library of OBJECTS objects (100,000), half of which no kept commit needs, at `seaf-server serve` with 8 workers. Over a link of its own a
client gets blocks that are kept and puts new ones, of 4 KiB, in turn, first for as long as a collection takes with none beside it, and
then beside the collection. Then what happens beside `restic prune` and `git gc --prune=now`, where they are installed: a backup and a push
that begin while these run, and an upload from before that nothing names yet. Ports are of 127.0.0.1 alone.
"""
import hashlib, http.client, os, random, shutil, socket, subprocess, sys, tempfile, threading, time

sys.path.insert(0, os.path.join(os.path.dirname(os.path.abspath(__file__)), '..'))
from pipe_client import Connection, command, commit_object, directory_entry, directory_object, file_entry, file_object, name_of

SERVER, OBJECTS = os.path.realpath(sys.argv[1]), int(sys.argv[2]) if len(sys.argv) > 2 else 100_000
LIB, TOKEN, MOMENT = '11111111-2222-4333-8444-555555555555', 'a' * 40, 1_700_000_000


def push(folder, count, kind):
    """A commit of files of one block each, in folders of 100: so many objects. Some of its blocks."""
    connection = Connection(SERVER, folder, LIB, TOKEN)
    connection.need('PUT', '/history-limit?days=0')
    rows, entries, folders, blocks, asked, files = [], [], [], [], 0, (count - count // 200 - 2) // 2
    for number in range(files):
        data = random.Random(f'{kind}{number}').randbytes(4096 if number % 50 == 0 else 64)
        name = connection.put_block(data)
        if number % 50 == 0:
            blocks.append(name)
        rows.append(file_object([name], len(data)))
        entries.append(file_entry(f'f{number}', name_of(rows[-1]), len(data), MOMENT))
        if len(entries) == 100 or number == files - 1:
            rows.append(directory_object(entries))
            folders.append(directory_entry(f'd{number}', name_of(rows[-1]), MOMENT))
            entries = []
        asked += 1
        if asked == 9000:
            connection.end()
            connection, asked = Connection(SERVER, folder, LIB, TOKEN), 0
    rows.append(directory_object(folders))
    for at in range(0, len(rows), 1000):
        connection.put_fs([(name_of(row), row) for row in rows[at:at + 1000]])
    name, data = commit_object(LIB, name_of(rows[-1]), connection.head(), kind, MOMENT)
    connection.put_commit(name, data)
    connection.update(name)
    connection.end()
    return blocks


class Link:
    def __init__(self, port):
        self.port, self.link, self.asked = port, None, 0

    def ask(self, method, path, body=None):
        if self.link is None or self.asked == 9000:
            self.link, self.asked = http.client.HTTPConnection('127.0.0.1', self.port, timeout=300), 0
        self.asked += 1
        self.link.request(method, f'/repo/{LIB}/{path}', body, {'Seafile-Repo-Token': TOKEN})
        reply = self.link.getresponse()
        return reply.status, reply.read()


class Other(threading.Thread):
    """Another client: how long each of its gets and puts takes, until it is to end."""

    def __init__(self, port, blocks, kind):
        super().__init__()
        self.link, self.blocks, self.random, self.ends, self.took, self.bad = Link(port), blocks, random.Random(kind), False, {'GET': [], 'PUT': []}, 0

    def run(self):
        while not self.ends:
            data = self.random.randbytes(4096)
            for method, name, body in (('GET', self.random.choice(self.blocks), None), ('PUT', hashlib.sha1(data).hexdigest(), data)):
                began = time.perf_counter()
                status, _ = self.link.ask(method, f'block/{name}', body)
                self.took[method].append(time.perf_counter() - began)
                self.bad += status != 200

    def tell(self, what):
        self.ends = True
        self.join()
        for method, took in self.took.items():
            took.sort()
            print(f'{what}: {len(took)} {method}, half within {took[len(took) // 2] * 1e3:.2f} ms, 99 of 100 within '
                  f'{took[len(took) * 99 // 100] * 1e3:.2f} ms, the slowest {took[-1] * 1e3:.1f} ms; {self.bad} not answered 200', flush=True)


def ours(folder):
    place = os.path.join(folder, 'place')
    os.mkdir(place)
    assert command(SERVER, 'create', place, LIB, 'docs', 'me', TOKEN)[0] == 0
    push(place, OBJECTS // 2, 'first')
    blocks = push(place, OBJECTS // 2, 'second')
    with socket.socket() as s:
        s.bind(('127.0.0.1', 0))
        port = s.getsockname()[1]
    err = open(os.path.join(folder, 'err'), 'w+b')
    serving = subprocess.Popen([SERVER, 'serve', place, str(port), '8', '4294967295', LIB], stdin=subprocess.DEVNULL, stdout=subprocess.DEVNULL, stderr=err)
    try:
        while b'listening' not in open(err.name, 'rb').read():
            assert serving.poll() is None
            time.sleep(0.05)
        def spent():
            fields = open(f'/proc/{serving.pid}/stat').read().rsplit(') ', 1)[1].split()
            return (int(fields[11]) + int(fields[12])) / 100
        # (it listens before its libraries are open)
        assert Link(port).ask('GET', 'commit/HEAD')[0] == 200
        other = Other(port, blocks, 'beside')
        other.start()
        time.sleep(0.5)
        began, before = time.time(), spent()
        status, body = Link(port).ask('POST', 'collect')
        took = time.time() - began
        print(f'a collection of {OBJECTS} objects: {status} {body.decode()} in {took:.2f} s, {spent() - before:.2f} s of the processor with the other client\'s')
        other.tell('beside the collection')
        other = Other(port, blocks, 'alone')
        other.start()
        time.sleep(took + 0.5)
        other.tell('with none')
    finally:
        serving.kill()
        serving.wait()


def shell(line, folder, **more):
    return subprocess.run(['sh', '-c', line], cwd=folder, capture_output=True, text=True, env={**os.environ, 'HOME': folder, 'RESTIC_PASSWORD': 'x',
                          'GIT_CONFIG_GLOBAL': os.path.join(folder, 'gitconfig'), **more})


def files(folder, kind, count):
    os.makedirs(folder, exist_ok=True)
    for number in range(count):
        os.makedirs(f'{folder}/d{number // 100}', exist_ok=True)
        open(f'{folder}/d{number // 100}/f{number}', 'wb').write(random.Random(f'{kind}{number}').randbytes(64))


def beside(long, short, folder):
    """Runs `long`, and `short` again and again until that ends: how long each took, and how often it failed."""
    began, running = time.time(), subprocess.Popen(['sh', '-c', long], cwd=folder, stdout=subprocess.DEVNULL, stderr=subprocess.DEVNULL,
                                                   env={**os.environ, 'HOME': folder, 'RESTIC_PASSWORD': 'x', 'GIT_CONFIG_GLOBAL': os.path.join(folder, 'gitconfig')})
    took, said = [], {}
    while running.poll() is None:
        start = time.time()
        done = shell(short, folder)
        took.append(time.time() - start)
        line = 'well' if done.returncode == 0 else (done.stderr.strip().splitlines() or ['?'])[0]
        said[line] = said.get(line, 0) + 1
    return time.time() - began, took, said


def restic(folder):
    for kind in ('first', 'second'):
        shutil.rmtree(f'{folder}/source', ignore_errors=True)
        files(f'{folder}/source', kind, OBJECTS // 10)
        shell('[ -d kept ] || restic init -q -r kept; restic -q -r kept backup source', folder)
    files(f'{folder}/small', 'small', 1)
    took, each, said = beside('restic -q -r kept forget --keep-last 1 --prune', 'restic -q -r kept backup small', folder)
    print(f'restic prune of {OBJECTS // 5} files, half of them garbage: {took:.2f} s; backups of one file beside it: {said}, the slowest {max(each, default=0):.2f} s', flush=True)


def git(folder):
    open(f'{folder}/gitconfig', 'w').write('[user]\nemail = a@b\nname = a\n[gc]\nauto = 0\n[init]\ndefaultBranch = m\n')
    shell('git init -q --bare kept; git init -q work', folder)
    for kind in ('first', 'second'):
        shutil.rmtree(f'{folder}/work/files', ignore_errors=True)
        files(f'{folder}/work/files', kind, OBJECTS // 10)
        shell(f'cd work && git add -A && git commit -q -m {kind} && git push -q ../kept HEAD:{kind}', folder)
    shell('git clone -q --depth 1 -b second "file://$PWD/kept" other', folder)
    # (the first generation is left without a name, and an upload that nothing names yet: what a push has before it moves a branch)
    upload = shell('git -C kept update-ref -d refs/heads/first; echo an upload | git -C kept hash-object -w --stdin', folder).stdout.strip()
    took, each, said = beside('git -C kept gc -q --prune=now', 'cd other && date +%s%N > new && git add new && git commit -q -m new && git push -q origin HEAD:refs/heads/new', folder)
    left = shell(f'git -C kept cat-file -e {upload}', folder).returncode == 0
    print(f'git gc --prune=now of {OBJECTS // 5} files, half of them garbage: {took:.2f} s; pushes beside it: {said}, the slowest {max(each, default=0):.2f} s; '
          f'the upload of before is {"there" if left else "gone"}', flush=True)


with tempfile.TemporaryDirectory(prefix='collect.', dir=sys.argv[3] if len(sys.argv) > 3 else None) as folder:
    ours(folder)
    for name, run in (('restic', restic), ('git', git)):
        if shutil.which(name):
            os.mkdir(os.path.join(folder, name))
            run(os.path.join(folder, name))
