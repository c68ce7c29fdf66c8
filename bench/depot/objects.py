"""Lays COUNT blocks into a library's folder, as a server would have left them: objects.py LIBRARY_FOLDER COUNT."""
import hashlib
import os
import sys

folder, count = sys.argv[1], int(sys.argv[2])
for first in range(256):
    os.makedirs(f"{folder}/blocks/{first:02x}", mode=0o700, exist_ok=True)
for number in range(count):
    data = b"block %d" % number
    name = hashlib.sha1(data).hexdigest()
    with open(f"{folder}/blocks/{name[:2]}/{name[2:]}", "wb") as out:
        out.write(data)
