"""head.py SERVER LIBRARY: processor time of one head that comes byte by byte, for heads of growing length (after empty lines, of
one long field and of many short ones), and for as many bytes in two pieces."""
import os
import resource
import subprocess
import sys
import time

server, library = sys.argv[1:]


def head(size, lines):
    """A head of so many bytes, of one long field or of many short ones, or after empty lines where it has no such field, that closes."""
    front = "GET /protocol-version HTTP/1.1\r\nHost: x\r\nConnection: close\r\n"
    left = size - len(front) - 2
    if lines == 0:
        return ("\n" * left + front + "\r\n").encode()
    each = left // lines
    text = front
    for number in range(lines):
        wide = left - each * (lines - 1) if number == lines - 1 else each
        name = f"F{number:02}: "
        text += name + "a" * (wide - len(name) - 2) + "\r\n"
    return (text + "\r\n").encode()


def spent(data, pieces):
    """Seconds of CPU of the server, which reads the bytes in so many pieces."""
    before = resource.getrusage(resource.RUSAGE_CHILDREN)
    child = subprocess.Popen([server, "inetd", ":memory:", library], stdin=subprocess.PIPE, stdout=subprocess.PIPE)
    step = -(-len(data) // pieces)
    for at in range(0, len(data), step):
        os.write(child.stdin.fileno(), data[at : at + step])
        if pieces > 2:
            # (so that each byte is a take of its own)
            while pending(child.stdin.fileno()):
                time.sleep(0)
    child.stdin.close()
    reply = child.stdout.read()
    child.wait()
    assert reply.startswith(b"HTTP/1.1 200 OK\r\n"), reply
    after = resource.getrusage(resource.RUSAGE_CHILDREN)
    return after.ru_utime - before.ru_utime + after.ru_stime - before.ru_stime


def pending(pipe):
    """How many bytes the pipe still holds."""
    import array
    import fcntl
    import termios

    size = array.array("i", [0])
    fcntl.ioctl(pipe, termios.FIONREAD, size)
    return size[0]


for lines in (0, 1, 60):
    for size in (2000, 4000, 8000, 16000):
        data = head(size, lines)
        each = [sum(spent(data, pieces) for _ in range(10)) / 10 for pieces in (len(data), 2)]
        print(f"{len(data):6} bytes in {lines:2} fields: byte by byte {each[0] * 1e3:6.1f} ms of CPU ({(each[0] - each[1]) * 1e9 / len(data):6.0f} ns a byte more than in two pieces)", flush=True)
