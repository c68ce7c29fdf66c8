"""Cuts the power after random calls of recorded syncs of a client: client.py SERVER CLIENT FOLDER COUNT RUNS SEED. See client.sh.

A folder follows a library that another one changes too. Before each recorded sync both change, and what a user saved counts as
durable. The power is cut after a call of the client, in the model of storage.py: over its synced folder and its own. Where the
client had sent its update by then, the library has it, else it stands as before. What is left of both folders is laid out, and
the next sync there ends well and comes to just the files to which the sync without a cut came.
"""
import os
import random
import re
import shutil
import subprocess
import sys
import time

here = os.path.dirname(os.path.abspath(__file__))
sys.path[:0] = [here]
from storage import BEGUN, File, Folder, Storage, calls_of

LIBRARY, TOKEN, SPARE = "11111111-2222-4333-8444-555555555555", "a" * 40, ".seaf-cli.spare"
TRACED = ("open,openat,close,write,fsync,fdatasync,mkdir,rmdir,unlink,rename,renameat,renameat2,fcntl,dup,sendto,"
          "writev,pwrite64,sync,syncfs,link,ftruncate,linkat,mkdirat,unlinkat")
FOLDERS, FILES = 4, 24
UPDATE = f"/repo/{LIBRARY}/commit/HEAD".encode()


class Odd(Exception):
    """Something is lost, or not as it was told."""


class Watched(Storage):
    """The folders below `root`, in which the client runs, and what it does with them by open directories."""

    def __init__(self, root):
        super().__init__(root)
        self.top, self.updated = durable(root), False

    def find(self, path):
        words = [word for word in path.split("/") if word not in ("", ".")]
        if words[:3] == ["proc", "self", "fd"] and len(words) > 3:
            folder, words = self.open.get(int(words[3])), words[4:]
        elif not path.startswith("/"):
            folder = self.top
        elif path == self.root or path.startswith(self.root + "/"):
            folder, words = self.top, words[len(self.root.split("/")) - 1:]
        else:
            return None
        if folder is None:
            return None
        for word in words[:-1]:
            folder = folder.now(word)
        return folder, words[-1] if words else None

    def do(self, call):
        moment, name, texts, words, result = call
        if name in ("fcntl", "dup"):
            if result >= 0 and (name == "dup" or "DUPFD" in words):
                self.open[result] = self.open.get(int(words.split(",")[0]))
            return None
        if name == "sendto":
            self.updated = self.updated or (texts[0].startswith(b"PUT ") and UPDATE in texts[0].split(b"\r\n")[0])
            return None
        return super().do(call)


def durable(path):
    """What stands at a path, all of it durable."""
    if os.path.isdir(path):
        node = Folder(1)
        for name in os.listdir(path):
            node.names[name] = [(durable(os.path.join(path, name)), 1)]
        return node
    node = File(1)
    with open(path, "rb") as file:
        node.data = node.kept = file.read()
    return node


def held(top):
    """What a folder holds, without the client's own: of each path of a file its bytes, of a directory None. A conflict copy goes by
    its name without the moment, and counts once: a change that is offered twice, since the first reply was lost, is copied twice."""
    found = {}
    for above, directories, files in os.walk(top):
        for name in directories:
            found[os.path.relpath(os.path.join(above, name), top)] = None
        for name in files:
            if not name.startswith(".seaf-cli."):
                with open(os.path.join(above, name), "rb") as file:
                    path = re.sub(r"(SFConflict \S+) [-0-9]+", r"\1", os.path.relpath(os.path.join(above, name), top))
                    found.setdefault(path, []).append(file.read())
    return {path: data and sorted(set(data)) for path, data in found.items()}


def change(chance, top, numbers):
    """Saves and removes files of these numbers, and sometimes puts a file in the place of a directory or the reverse."""
    for number in chance.sample(numbers, 5):
        path = os.path.join(top, f"d{number % FOLDERS}")
        if os.path.isfile(path):
            os.remove(path)
        os.makedirs(path, exist_ok=True)
        if os.path.exists(os.path.join(path, f"f{number}")) and chance.random() < 0.3:
            os.remove(os.path.join(path, f"f{number}"))
        else:
            with open(os.path.join(path, f"f{number}"), "wb") as file:
                file.write(chance.randbytes(chance.choice([0, 3, 4096, 65536, 300_000])))


class Served:
    """A library at a port, from a folder, as long as the block lasts."""

    def __init__(self, server, folder, port):
        self.words = [server, "serve", folder, str(port), "2", "4294967295", LIBRARY]

    def __enter__(self):
        self.process = subprocess.Popen(self.words, stdin=subprocess.DEVNULL, stdout=subprocess.PIPE, stderr=subprocess.PIPE)
        line = self.process.stderr.readline()
        if b"listening" not in line:
            raise Odd(f"serve: {line!r} {self.process.stdout.read()!r}")
        return self

    def __exit__(self, *_):
        self.process.kill()
        self.process.wait()
        self.process.stdout.close()
        self.process.stderr.close()


def sync(words, room):
    """Runs a command of the client, which has to be done, in this folder."""
    done = subprocess.run(words, cwd=room, stdin=subprocess.DEVNULL, stdout=subprocess.PIPE, stderr=subprocess.PIPE, timeout=120)
    if done.returncode:
        raise Odd(f"{words[1]}: {done.returncode} {done.stdout!r} {done.stderr!r}")
    return done.stdout.decode()


class Run:
    """A recorded sync: what stood before, the library before and behind it, and to which files it came."""

    def __init__(self, number, work, room):
        self.record, self.before = f"{work}/record{number}", f"{work}/before{number}"
        self.libraries = [f"{work}/library{number}.{side}" for side in ("before", "behind")]
        self.room, self.files = room, {}


def record(server, client, work, count, port, chance):
    """Recorded syncs of the folder `docs` of `room`, of which the first is its download."""
    room, other, store = f"{work}/room", f"{work}/other", f"{work}/store"
    for path in (room, other, f"{room}/docs", f"{other}/docs", store):
        os.mkdir(path)
    sync([server, "create", store, LIBRARY, "docs", "me", TOKEN], work)
    job = ["-c", "own", "-l", LIBRARY, "-s", f"http://127.0.0.1:{port}", "-u", "me", "-k", TOKEN, "-w", "docs"]
    script = f"{work}/recorded"
    with open(script, "w") as file:
        file.write(f'#!/bin/sh\nexec strace -f -ttt -xx -s 4000000 -e signal=none -e trace={TRACED} -o "$RECORD" "{client}" "$@"\n')
    os.chmod(script, 0o700)
    runs, turn = [], ["start", "-c", "own", "-n", "1"]
    with Served(server, store, port):
        for place in (room, other):
            sync([client, "init", "-c", "own"], place)
        sync([client, "download", *job], other)
    for number in range(count):
        run = Run(number, work, room)
        if number > 0:
            change(chance, f"{room}/docs", range(0, FILES, 2))
        with Served(server, store, port):
            change(chance, f"{other}/docs", range(1, FILES, 2) if chance.random() < 0.7 else range(FILES))
            sync([client, *turn], other)
        shutil.copytree(room, run.before)
        shutil.copytree(store, run.libraries[0])
        with Served(server, store, port):
            os.environ["RECORD"] = run.record
            run.words = ["download", *job] if number == 0 else turn
            sync([script, *run.words], room)
        shutil.copytree(store, run.libraries[1])
        run.files = held(f"{room}/docs")
        with Served(server, store, port):
            sync([client, *turn], other)
        runs.append(run)
    return runs


def look(server, client, run, port, cut, updated):
    """The next sync of what a cut left ends well, and comes to the same files."""
    library = f"{cut}.library"
    shutil.copytree(run.libraries[updated], library)
    try:
        with Served(server, library, port):
            if os.path.exists(f"{cut}/own/seaf.json") and LIBRARY in open(f"{cut}/own/seaf.json").read():
                line = sync([client, "start", "-c", "own", "-n", "1"], cut)
            else:
                # (a first download that broke off is begun anew, in an empty folder)
                shutil.rmtree(f"{cut}/docs")
                os.mkdir(f"{cut}/docs")
                line = sync([client, *run.words], cut)
    finally:
        shutil.rmtree(library)
    if held(f"{cut}/docs") != run.files:
        stands, wanted = held(f"{cut}/docs"), run.files
        differ = [path for path in {*stands, *wanted} if stands.get(path, 0) != wanted.get(path, 0)]
        raise Odd(f"other files than without a cut: {sorted(differ)} after {line!r}")


def main():
    server, client, work, count, wanted, seed = *sys.argv[1:4], *map(int, sys.argv[4:7])
    chance, port = random.Random(seed), 20000 + random.Random(time.time()).randrange(40000)
    runs = record(server, client, work, wanted, port, chance)
    calls = [calls_of(run.record) for run in runs]
    chosen = sorted((number, chance.randrange(len(calls[number]) + 1)) for number in chance.choices(range(len(runs)), k=count))
    lost, syncs = 0, 0
    for number, run in enumerate(runs):
        storage, places = Watched(run.room), [place for other, place in chosen if other == number]
        storage.top = durable(run.before)
        for place, call in enumerate([*calls[number], None]):
            for _ in range(places.count(place)):
                cut = f"{work}/cut"
                storage.lay_out(cut, chance)
                try:
                    look(server, client, run, port, cut, storage.updated)
                except Exception as fault:
                    lost += 1
                    print(f"LOST at call {place} of {len(calls[number])} (sync {number}): {fault}", flush=True)
                shutil.rmtree(cut)
            if call is not None:
                syncs += call[1] == BEGUN
                storage.do(call)
    print(f"seed {seed}: {len(runs)} syncs, {sum(map(len, calls))} calls of which {syncs} sync; {count} cuts, {lost} lost anything")
    sys.exit(1 if lost else 0)


main()
