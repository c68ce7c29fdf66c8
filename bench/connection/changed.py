"""changed.py SERVER LIBRARY [COUNT [SEED]]: a trial, no measure. Random prefixes of good requests with one byte changed, each a connection
of its own: the server ends with status 0 or 1, says nothing on standard error, and gives whole replies or none; the last of them has 413
or 431 only at status 1. Each sixteenth comes once more, in pieces: the status, the statuses of its replies and the number of their bytes
are the same. Which reply is due, and what the bodies of replies say, is not looked at."""
import hashlib
import random
import re
import subprocess
import sys

server, library = sys.argv[1:3]
count = int(sys.argv[3]) if len(sys.argv) > 3 else 65536
seed = int(sys.argv[4]) if len(sys.argv) > 4 else 1
chance = random.Random(seed)
SECRET = "a" * 40
NAME = "a9993e364706816aba3e25717850c26c9cd0d89d"
# (more than one piece)
LONG = b"a" * 70000
LONG_NAME = hashlib.sha1(LONG).hexdigest()


def good():
    """The bytes of one to three good requests."""
    out = b""
    for _ in range(chance.randint(1, 3)):
        method, path, body = chance.choice(
            [
                ("GET", "/protocol-version", None),
                ("GET", f"/repo/{library}/commit/HEAD", None),
                ("PUT", f"/repo/{library}/block/{NAME}", b"abc"),
                ("PUT", f"/repo/{library}/block/{LONG_NAME}", LONG),
                ("GET", f"/repo/{library}/block/{NAME}", None),
                ("POST", f"/repo/{library}/check-blocks", f'["{NAME}"]'.encode()),
                ("POST", f"/repo/{library}/pack-fs", f'["{NAME}","{NAME}"]'.encode()),
                ("GET", f"/repo/{library}/permission-check?op=upload", None),
            ]
        )
        lines = [f"{method} {path} HTTP/1.1", "Host: x", f"Seafile-Repo-Token: {SECRET}"]
        if body is not None:
            lines.append(f"Content-Length: {len(body)}")
            if chance.random() < 0.3:
                lines.append("Expect: 100-continue")
        if chance.random() < 0.2:
            lines.append("Connection: close")
        out += ("\r\n".join(lines) + "\r\n\r\n").encode() + (body or b"")
    return out


def run(data):
    done = subprocess.run([server, "inetd", ":memory:", library], input=data, capture_output=True, timeout=60)
    return done.returncode, done.stdout, done.stderr


def run_in_pieces(data):
    """The same bytes, each piece in a write of its own."""
    child = subprocess.Popen([server, "inetd", ":memory:", library], stdin=subprocess.PIPE, stdout=subprocess.PIPE, stderr=subprocess.PIPE)
    try:
        at = 0
        while at < len(data):
            size = chance.choice([1, 2, 7, 40] if len(data) < len(LONG) else [40, 4000, 65536])
            child.stdin.write(data[at : at + size])
            child.stdin.flush()
            at += size
        child.stdin.close()
    except BrokenPipeError:
        pass
    child.stdin = None
    out, said = child.communicate(timeout=60)
    return child.returncode, out, said


REPLY = re.compile(rb"HTTP/1\.1 (\d{3}) [^\r]*\r\n(?:[^\r]+\r\n)*\r\n")


def replies(out):
    """The statuses of what was given, which must be whole replies."""
    told, at = [], 0
    while at < len(out):
        head = REPLY.match(out, at)
        assert head, out[at : at + 200]
        size = re.search(rb"Content-Length: (\d+)\r\n", head.group(0))
        at = head.end() + (int(size.group(1)) if size else 0)
        told.append(int(head.group(1)))
    assert at == len(out), "a reply is cut"
    return told


seen = {}
wrong = 0
for number in range(count):
    data = good()
    # (in half of them at most 300 bytes lack, so that requests behind a long body come too)
    least = max(1, len(data) - 300) if chance.random() < 0.5 else 1
    data = bytearray(data[: chance.randint(least, len(data))])
    place = chance.randrange(len(data))
    data[place] = (data[place] + chance.randint(1, 255)) % 256
    data = bytes(data)
    try:
        status, out, said = run(data)
        told = replies(out)
        assert status in (0, 1) and not said, (status, said)
        assert not (status == 0 and told and told[-1] in (413, 431)), told
        if number % 16 == 0:
            # (but for the commit of a library that was made at another moment)
            other = run_in_pieces(data)
            assert (other[0], replies(other[1]), len(other[1])) == (status, told, len(out)), "other in pieces"
        kind = (status, told[-1] if told else None)
        seen[kind] = seen.get(kind, 0) + 1
    except Exception as why:
        wrong += 1
        print(f"connection {number}, seed {seed}: {why!r}: {data!r}")
        if wrong > 20:
            break
for kind in sorted(seen, key=str):
    print(f"status {kind[0]}, last reply {kind[1]}: {seen[kind]}")
print(f"{sum(seen.values())} as they should be, {wrong} not")
sys.exit(wrong > 0)
