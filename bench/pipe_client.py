"""A client of `SERVER inetd FOLDER LIB` over pipes: objects as Seafile's clients write them, requests and replies.

Nothing but Python's standard library. A process is only ever ended by the object that started it.
"""
import hashlib
import json
import os
import select
import signal
import subprocess
import time

NIL = "0" * 40
PLAIN_FILE, DIRECTORY = 33188, 16384
REPLY_SECONDS = 60


class Cut(Exception):
    """The server is gone before a reply stood in full."""


class Odd(Exception):
    """The server said what it may not say."""


def name_of(data):
    return hashlib.sha1(data).hexdigest()


def compact(value):
    return json.dumps(value, separators=(",", ":"), sort_keys=True, ensure_ascii=False).encode()


def file_object(blocks, size):
    return compact({"block_ids": blocks, "size": size, "type": 1, "version": 1})


def directory_object(entries):
    entries = sorted(entries, key=lambda entry: entry["name"].encode(), reverse=True)
    return compact({"dirents": entries, "type": 3, "version": 1})


def file_entry(name, name_of_object, size, moment):
    return {"id": name_of_object, "mode": PLAIN_FILE, "modifier": "me", "mtime": moment, "name": name, "size": size}


def directory_entry(name, name_of_object, moment):
    return {"id": name_of_object, "mode": DIRECTORY, "mtime": moment, "name": name}


def commit_object(library, root, parent, description, moment):
    """Its id and bytes; the id is the name of the same text with forty zeros in its place."""
    value = {
        "commit_id": NIL, "creator": NIL, "creator_name": "me", "ctime": moment, "description": description,
        "parent_id": parent, "repo_id": library, "root_id": root, "second_parent_id": None, "version": 1,
    }
    value["commit_id"] = name_of(compact(value))
    return value["commit_id"], compact(value)


def rows_of(objects):
    """The body of recv-fs: for each object its name, its length and its bytes."""
    return b"".join(name.encode() + len(data).to_bytes(4, "big") + data for name, data in objects)


def read_rows(body):
    objects, at = {}, 0
    while at < len(body):
        length = int.from_bytes(body[at + 40:at + 44], "big")
        objects[body[at:at + 40].decode()] = body[at + 44:at + 44 + length]
        at += 44 + length
    return objects


class Connection:
    """One connection over standard input and output of a server that it starts."""

    def __init__(self, server, folder, library, token):
        self.base, self.token, self.buffer, self.asking = f"/repo/{library}", token, b"", "start"
        self.process = subprocess.Popen(
            [server, "inetd", folder, library], stdin=subprocess.PIPE, stdout=subprocess.PIPE, bufsize=0)

    def kill(self):
        self.process.send_signal(signal.SIGKILL)

    def end(self):
        """Closes the connection and waits; the server's status."""
        for pipe in (self.process.stdin, self.process.stdout):
            try:
                pipe.close()
            except OSError:
                pass
        try:
            return self.process.wait(REPLY_SECONDS)
        except subprocess.TimeoutExpired:
            self.kill()
            return self.process.wait()

    def ask(self, method, path, body=None):
        """The status and body of the reply. Cut where it doesn't come in full."""
        words = path.split("?")[0].split("/")
        self.asking = " ".join([method, words[1]] + words[2:][:words[-1] == "HEAD"])
        head = f"{method} {self.base}{path} HTTP/1.1\r\nHost: x\r\nSeafile-Repo-Token: {self.token}\r\n"
        if body is not None:
            head += f"Content-Length: {len(body)}\r\n"
        self.send(head.encode() + b"\r\n" + (body or b""))
        return self.reply()

    def need(self, method, path, body=None):
        """The body of the reply, which has to be 200."""
        status, given = self.ask(method, path, body)
        if status != 200:
            raise Odd(f"{method} {path}: {status} {given[:200]!r}")
        return given

    def send(self, data):
        view = memoryview(data)
        try:
            while view:
                view = view[os.write(self.process.stdin.fileno(), view):]
        except (BrokenPipeError, ValueError, OSError):
            raise Cut() from None

    def reply(self):
        while b"\r\n\r\n" not in self.buffer:
            self.more()
        head, self.buffer = self.buffer.split(b"\r\n\r\n", 1)
        lines = head.decode().split("\r\n")
        fields = {name.lower(): value.strip() for name, value in (line.split(":", 1) for line in lines[1:])}
        length = int(fields.get("content-length", "0"))
        while len(self.buffer) < length:
            self.more()
        body, self.buffer = self.buffer[:length], self.buffer[length:]
        return int(lines[0].split(" ")[1]), body

    def more(self):
        out = self.process.stdout.fileno()
        ready, _, _ = select.select([out], [], [], REPLY_SECONDS)
        if not ready:
            raise Odd(f"no reply in {REPLY_SECONDS} s: {self.asking}")
        piece = os.read(out, 1 << 20)
        if not piece:
            raise Cut()
        self.buffer += piece

    # The calls of the service.
    def head(self):
        return json.loads(self.need("GET", "/commit/HEAD"))["head_commit_id"]

    def put_block(self, data):
        name = name_of(data)
        self.need("PUT", f"/block/{name}", data)
        return name

    def put_fs(self, objects):
        self.need("POST", "/recv-fs", rows_of(objects))

    def put_commit(self, name, data):
        self.need("PUT", f"/commit/{name}", data)

    def update(self, name):
        """The head after the update."""
        return json.loads(self.need("PUT", f"/commit/HEAD?head={name}"))["head_commit_id"]

    def commit(self, name):
        return json.loads(self.need("GET", f"/commit/{name}"))

    def block(self, name):
        return self.need("GET", f"/block/{name}")

    def absent(self, call, names):
        return json.loads(self.need("POST", f"/{call}", compact(names)))

    def fs_names(self, head):
        return json.loads(self.need("GET", f"/fs-id-list?server-head={head}"))

    def fs_objects(self, names):
        return read_rows(self.need("POST", "/pack-fs", compact(names))) if names else {}


def command(server, *words):
    """Runs a command to its end: its status, and what it wrote."""
    done = subprocess.run([server, *words], stdin=subprocess.DEVNULL, stdout=subprocess.PIPE,
                          stderr=subprocess.STDOUT, timeout=REPLY_SECONDS)
    return done.returncode, done.stdout.decode()


def files_of(connection, head):
    """The files of a commit's tree, by path, each read block by block."""
    objects = connection.fs_objects(connection.fs_names(head))
    files = {}

    def visit(path, name):
        value = json.loads(objects[name]) if name != NIL else {"type": 3, "dirents": []}
        if value["type"] == 1:
            files[path] = b"".join(connection.block(block) for block in value["block_ids"])
            return
        for entry in value["dirents"]:
            visit(f"{path}/{entry['name']}".lstrip("/"), entry["id"])

    visit("", connection.commit(head)["root_id"])
    return files


def seconds_of(work):
    """What the work gives, and how long it took."""
    start = time.monotonic()
    return work(), time.monotonic() - start
