"""Feeds pipelined requests while it reads every reply, and prints wall and processor time for each request.

feed.py LABEL COUNT FILE port PORT PID      a server that listens on the loopback, with its process
feed.py LABEL COUNT FILE run SERVER FOLDER LIBRARY      `SERVER inetd FOLDER LIBRARY`, timed from its first reply on
"""
import os
import socket
import subprocess
import sys
import threading
import time

label, count, path, how = sys.argv[1], int(sys.argv[2]), sys.argv[3], sys.argv[4]
TICKS = os.sysconf("SC_CLK_TCK")


def processor(pid):
    fields = open(f"/proc/{pid}/stat").read().rsplit(") ", 1)[1].split()
    return (int(fields[11]) + int(fields[12])) / TICKS


def exchange(send, receive):
    """Sends the file and reads to the end: the seconds, and how many replies were 200."""
    data = open(path, "rb").read()
    sender = threading.Thread(target=send, args=(data,))
    start, good, last = time.monotonic(), 0, b""
    sender.start()
    while True:
        piece = receive()
        if not piece:
            break
        good += (last + piece).count(b"HTTP/1.1 200 OK\r\n")
        last = piece[-16:]
    sender.join()
    return time.monotonic() - start, good


def tell(seconds, cpu, good, more=""):
    print(f"{label} n={count:<5} us_each={seconds * 1e6 / count:<8.1f} cpu_us_each={cpu * 1e6 / count:<8.1f} "
          f"answered_200={good}{more}", flush=True)


def over_port(port, pid):
    link = socket.create_connection(("127.0.0.1", port))
    before = processor(pid)

    def send(data):
        link.sendall(data)
        link.shutdown(socket.SHUT_WR)

    seconds, good = exchange(send, lambda: link.recv(1 << 18))
    tell(seconds, processor(pid) - before, good)


def over_pipes(server, folder, library):
    process = subprocess.Popen([server, "inetd", folder, library], stdin=subprocess.PIPE, stdout=subprocess.PIPE, bufsize=0)
    process.stdin.write(b"GET /protocol-version HTTP/1.1\r\nHost: x\r\n\r\n")
    process.stdout.read(1)
    while not process.stdout.read(1 << 12).endswith(b"}"):
        pass
    before = processor(process.pid)

    def send(data):
        view = memoryview(data)
        while view:
            view = view[os.write(process.stdin.fileno(), view):]
        process.stdin.close()

    seconds, good = exchange(send, lambda: os.read(process.stdout.fileno(), 1 << 18))
    _, status, used = os.wait4(process.pid, 0)
    process.returncode = os.waitstatus_to_exitcode(status)
    tell(seconds, used.ru_utime + used.ru_stime - before, good,
         f" peakMiB={used.ru_maxrss / 1024:.1f} status={process.returncode}")


if how == "port":
    over_port(int(sys.argv[5]), int(sys.argv[6]))
else:
    over_pipes(*sys.argv[5:8])
