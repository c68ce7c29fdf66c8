"""No measure but a trial: bad peers at `seaf-server serve`. peers.py SERVER [SECONDS]

Words: a port in use, port 80 without the right, 0 and 65 workers, a library twice. Peers: one that gives nothing, one that gives half a
head, one that takes nothing, one that gives a byte now and then for SECONDS (150), one that closes in the middle of a head, a body and a
reply; 64 that say nothing at 64 workers; 1,000 at once. After each an ordinary client has to be answered. Ports are of 127.0.0.1 alone.
"""
import hashlib, os, selectors, socket, subprocess, sys, tempfile, threading, time

SERVER, SECONDS = os.path.realpath(sys.argv[1]), int(sys.argv[2]) if len(sys.argv) > 2 else 150
LIB, TOKEN, LIMIT = '11111111-2222-4333-8444-555555555555', 'a' * 40, 60
HEAD = f'GET /repo/{LIB}/commit/HEAD HTTP/1.1\r\nHost: x\r\nSeafile-Repo-Token: {TOKEN}\r\n'.encode()
ONCE = HEAD + b'Connection: close\r\n\r\n'
BLOCK = bytes(1 << 20)
NAME = hashlib.sha1(BLOCK).hexdigest()
wrong, guard = [], threading.Lock()


def tell(what, good):
    with guard:
        print(('    ' if good else 'NO  ') + what, flush=True)
        if not good:
            wrong.append(what)


def free_port():
    with socket.socket() as s:
        s.bind(('127.0.0.1', 0))
        return s.getsockname()[1]


def dial(port):
    return socket.create_connection(('127.0.0.1', port), timeout=300)


def ask(port, request=ONCE):
    """What is answered until the server hangs up, and how long that takes."""
    began, got = time.time(), b''
    with dial(port) as link:
        link.sendall(request)
        while more := link.recv(1 << 16):
            got += more
    return got, time.time() - began


def is_good(reply):
    return reply.startswith(b'HTTP/1.1 200 OK\r\n') and b'head_commit_id' in reply


class Served:
    """A server of one library with so many workers."""

    def __init__(self, folder, workers):
        self.port, self.err = free_port(), os.path.join(folder, f'err{workers}')
        os.mkdir(os.path.join(folder, f'place{workers}'))
        place = os.path.join(folder, f'place{workers}')
        assert subprocess.run([SERVER, 'create', place, LIB, 'docs', 'me', TOKEN], capture_output=True).returncode == 0
        self.process = subprocess.Popen([SERVER, 'serve', place, str(self.port), str(workers), '4294967295', LIB], stdin=subprocess.DEVNULL,
                                        stdout=subprocess.DEVNULL, stderr=open(self.err, 'wb'))
        while b'listening' not in open(self.err, 'rb').read():
            assert self.process.poll() is None
            time.sleep(0.05)

    def kill(self):
        self.process.kill()
        self.process.wait()


def until_hung_up(link):
    began = time.time()
    try:
        while link.recv(1 << 16):
            pass
    except OSError:
        pass
    return time.time() - began


def silent(port, said, what):
    with dial(port) as link:
        link.sendall(said)
        took = until_hung_up(link)
    tell(f'{what}: hung up on after {took:.1f} s', LIMIT - 2 <= took <= LIMIT + 5)


def takes_nothing(port):
    link = dial(port)
    link.setsockopt(socket.SOL_SOCKET, socket.SO_RCVBUF, 4096)
    request = HEAD.replace(b'commit/HEAD', f'block/{NAME}'.encode()) + b'\r\n'
    link.sendall(request * 64)
    began, took = time.time(), None
    while time.time() - began < 6 * LIMIT:
        time.sleep(1)
        # (the server's end is gone from the table of the system's links once it hung up)
        at = f'{port:04X}'
        mine = f'{link.getsockname()[1]:04X}'
        rows = [row.split() for row in open('/proc/net/tcp')]
        if not any(row[1].endswith(':' + at) and row[2].endswith(':' + mine) and row[3] == '01' for row in rows):
            took = time.time() - began
            break
    link.close()
    tell(f'a peer that takes nothing of 64 MiB: hung up on after {took and round(took, 1)} s', took is not None and LIMIT - 2 <= took <= 6 * LIMIT)


def byte_by_byte(port):
    began, gave = time.time(), 0
    with dial(port) as link:
        try:
            while time.time() - began < SECONDS:
                link.sendall(HEAD[gave:gave + 1])
                gave += 1
                time.sleep(min(50, SECONDS / 3))
            link.sendall(HEAD[gave:] + b'Connection: close\r\n\r\n')
            reply = b''
            while more := link.recv(1 << 16):
                reply += more
        except OSError as fault:
            reply = repr(fault).encode()
    tell(f'a peer that gave {gave} bytes in {time.time() - began:.0f} s has its worker, and is answered in the end', is_good(reply))


def closes(port):
    put = f'PUT /repo/{LIB}/block/{NAME} HTTP/1.1\r\nHost: x\r\nSeafile-Repo-Token: {TOKEN}\r\nContent-Length: {len(BLOCK)}\r\n\r\n'.encode()
    for what, said in (('a head', HEAD[:20]), ('a body', put + BLOCK[:1000]), ('a reply', HEAD.replace(b'commit/HEAD', f'block/{NAME}'.encode()) + b'\r\n')):
        for _ in range(20):
            link = dial(port)
            link.sendall(said)
            link.close()
        reply, took = ask(port)
        tell(f'after 20 peers that closed in the middle of {what}: answered in {took:.2f} s', is_good(reply) and took < 10)


def words(folder):
    def run(*said, **how):
        done = subprocess.run([SERVER, 'serve', folder, *said], stdin=subprocess.DEVNULL, capture_output=True, text=True, timeout=60, **how)
        return done.returncode, done.stdout.strip()
    with socket.socket() as taken:
        taken.bind(('127.0.0.1', 0))
        taken.listen()
        said = run(str(taken.getsockname()[1]), '1', '1', LIB)
        tell(f'a port in use: {said}', said == (1, 'seaf-server: link fault'))
    if os.getuid() == 0 and int(open('/proc/sys/net/ipv4/ip_unprivileged_port_start').read()) > 80:
        said = run('80', '1', '1', LIB, user=65534, group=65534, extra_groups=[])
        tell(f'port 80 without the right: {said}', said == (1, 'seaf-server: link fault'))
    for workers in ('0', '65'):
        said = run(str(free_port()), workers, '1', LIB)
        tell(f'{workers} workers: status {said[0]}', said[0] == 2)
    said = run(str(free_port()), '1', '1', LIB, LIB)
    tell(f'a library twice: status {said[0]}', said[0] == 2)


def all_at_once(port, count):
    # All begin to dial before the first is answered; each asks as soon as it may.
    waiting, replies, began, last = selectors.DefaultSelector(), [], time.time(), 0.0
    for _ in range(count):
        link = socket.socket()
        link.setblocking(False)
        link.connect_ex(('127.0.0.1', port))
        waiting.register(link, selectors.EVENT_WRITE, [b''])
    while len(replies) < count and time.time() - began < 120:
        for key, ready in waiting.select(1):
            try:
                if ready & selectors.EVENT_WRITE:
                    key.fileobj.sendall(ONCE)
                    waiting.modify(key.fileobj, selectors.EVENT_READ, key.data)
                elif more := key.fileobj.recv(1 << 16):
                    key.data[0] += more
                    continue
                else:
                    raise OSError
            except OSError:
                waiting.unregister(key.fileobj)
                key.fileobj.close()
                replies.append(key.data[0])
                last = time.time() - began
    good = sum(map(is_good, replies))
    tell(f'{count} peers at once: {good} answered, the last after {last:.1f} s', good == count)


def main(folder):
    words(folder)
    small, wide = Served(folder, 8), Served(folder, 64)
    try:
        put = f'PUT /repo/{LIB}/block/{NAME} HTTP/1.1\r\nHost: x\r\nSeafile-Repo-Token: {TOKEN}\r\nConnection: close\r\nContent-Length: {len(BLOCK)}\r\n\r\n'.encode()
        assert ask(small.port, put + BLOCK)[0].startswith(b'HTTP/1.1 200')
        closes(small.port)
        all_at_once(small.port, 1000)
        idle = [dial(wide.port) for _ in range(64)]
        time.sleep(1)
        others = [threading.Thread(target=it, args=args) for it, args in (
            (silent, (small.port, b'', 'a peer that gives nothing')), (silent, (small.port, HEAD[:30], 'a peer that gives half a head')),
            (takes_nothing, (small.port,)), (byte_by_byte, (small.port,)))]
        for other in others:
            other.start()
        time.sleep(1)
        reply, took = ask(small.port)
        tell(f'beside these four, at 8 workers: answered in {took:.2f} s', is_good(reply) and took < 10)
        reply, took = ask(wide.port)
        tell(f'behind 64 peers that say nothing, at 64 workers: answered after {took:.1f} s', is_good(reply) and took < LIMIT + 10)
        for link in idle:
            link.close()
        for other in others:
            other.join()
        for served in (small, wide):
            reply, took = ask(served.port)
            tell(f'in the end: answered in {took:.2f} s; {len(open(served.err).read().splitlines())} lines on standard error', is_good(reply))
            tell('no line has the token', TOKEN not in open(served.err).read())
    finally:
        small.kill()
        wide.kill()


with tempfile.TemporaryDirectory(prefix='peers.') as folder:
    os.chmod(folder, 0o755)
    main(folder)
print(f'{len(wrong)} wrong')
sys.exit(1 if wrong else 0)
