"""Writes pipelined requests to a file: `requests.py put|get SIZE COUNT FIRST FILE` has COUNT puts or gets of distinct
blocks, those of the numbers from FIRST on."""
import hashlib
import sys

LIBRARY = "11111111-2222-4333-8444-555555555555"
TOKEN = "a" * 40


def block(number, size):
    """Its number, and then what differs from block to block and from byte to byte."""
    if size <= 8:
        return number.to_bytes(size, "big")
    seed = hashlib.sha256(number.to_bytes(8, "big")).digest()
    return (seed * (size // len(seed) + 1))[:size]


def request(method, data, last):
    lines = [f"{method} /repo/{LIBRARY}/block/{hashlib.sha1(data).hexdigest()} HTTP/1.1", "Host: x",
             f"Seafile-Repo-Token: {TOKEN}"]
    if method == "PUT":
        lines.append(f"Content-Length: {len(data)}")
    if last:
        lines.append("Connection: close")
    return ("\r\n".join(lines) + "\r\n\r\n").encode() + (data if method == "PUT" else b"")


call, path = sys.argv[1], sys.argv[5]
size, count, first = (int(word) for word in sys.argv[2:5])
with open(path, "wb") as out:
    for number in range(first, first + count):
        out.write(request(call.upper(), block(number, size), number == first + count - 1))
