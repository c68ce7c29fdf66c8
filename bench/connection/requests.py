"""Writes pipelined requests to a file: `requests.py many FILE` has 5,000 puts and 5,000 gets of distinct blocks of 1,000 bytes, `requests.py large FILE` one put and one get of 16 MiB, `requests.py none FILE` no request."""
import hashlib
import sys

LIBRARY = "11111111-2222-4333-8444-555555555555"
TOKEN = "a" * 40


def request(method, body_id, body=None, last=False):
    lines = [f"{method} /repo/{LIBRARY}/block/{body_id} HTTP/1.1", "Host: x", f"Seafile-Repo-Token: {TOKEN}"]
    if body is not None:
        lines.append(f"Content-Length: {len(body)}")
    if last:
        lines.append("Connection: close")
    return ("\r\n".join(lines) + "\r\n\r\n").encode() + (body or b"")


def block(number, size):
    return (number.to_bytes(8, "big") * (size // 8 + 1))[:size]


kind, path = sys.argv[1:]
count, size = {"many": (5000, 1000), "large": (1, 16 * 1024 * 1024), "none": (0, 0)}[kind]
with open(path, "wb") as out:
    blocks = [block(number, size) for number in range(count)]
    names = [hashlib.sha1(b).hexdigest() for b in blocks]
    for name, body in zip(names, blocks):
        out.write(request("PUT", name, body))
    for place, name in enumerate(names):
        out.write(request("GET", name, last=place == count - 1))
