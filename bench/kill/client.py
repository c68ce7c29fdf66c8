"""Kills a client at random moments of a push and of a checkout, and syncs again: client.py SERVER CLIENT FOLDER COUNT SECONDS SEED.

Two folders follow one library. In each round the first one changes; the client is killed as it pushes that, and the second one's as
it takes it in. After a kill a push has changed nothing in its folder, and a checkout has left the old or the new file at each
path, and each that is in both; nothing else is there but the spare. The next sync of each ends well, and then both folders are as
the first one was changed, without a conflict and without a spare.
"""
import os
import random
import shutil
import socket
import subprocess
import sys
import threading
import time

LIBRARY = "11111111-2222-4333-8444-555555555555"
TOKEN = "a" * 40
SPARE, MARKER = ".seaf-cli.spare", ".seaf-cli.library"
FOLDERS, FILES = 5, 40
COMMAND_SECONDS = 120


class Odd(Exception):
    """Something is lost, or not as it was told."""


class Service:
    """One connection after the other, each by `SERVER inetd FOLDER LIB`."""

    def __init__(self, server, folder):
        self.words = [server, "inetd", folder, LIBRARY]
        self.listener = socket.create_server(("127.0.0.1", 0))
        self.port = self.listener.getsockname()[1]
        threading.Thread(target=self.run, daemon=True).start()

    def run(self):
        while True:
            link, _ = self.listener.accept()
            with link:
                subprocess.run(self.words, stdin=link.fileno(), stdout=link.fileno())


def must(words, beginning=""):
    """The output of a command that has to be done."""
    done = subprocess.run(words, stdin=subprocess.DEVNULL, stdout=subprocess.PIPE, stderr=subprocess.STDOUT,
                          timeout=COMMAND_SECONDS, text=True)
    if done.returncode or not done.stdout.startswith(beginning):
        raise Odd(f"{words[1]}: {done.returncode} {done.stdout!r}")
    return done.stdout


def held(top):
    """What a folder holds beside its marker: of each path of a file its bytes, of a directory None."""
    found = {}
    for above, directories, files in os.walk(top):
        for name in directories:
            found[os.path.relpath(os.path.join(above, name), top)] = None
        for name in files:
            path = os.path.join(above, name)
            with open(path, "rb") as file:
                found[os.path.relpath(path, top)] = file.read()
    found.pop(MARKER, None)
    return found


def change(chance, top):
    """Saves and removes files, and sometimes puts a file in the place of a directory or the reverse, or moves a directory."""
    for number in chance.sample(range(FILES), 15):
        path = os.path.join(top, f"d{number % FOLDERS}")
        if os.path.isfile(path):
            os.remove(path)
        os.makedirs(path, exist_ok=True)
        with open(os.path.join(path, f"f{number}"), "wb") as file:
            file.write(chance.randbytes(chance.choice([0, 3, 4096, 65536, 400_000])))
    directory = os.path.join(top, f"d{chance.randrange(FOLDERS)}")
    if os.path.isdir(directory):
        what = chance.randrange(4)
        if what == 0:
            os.remove(os.path.join(directory, chance.choice(os.listdir(directory))))
        elif what == 1:
            shutil.rmtree(directory)
            with open(directory, "wb") as file:
                file.write(chance.randbytes(100))
        elif what == 2:
            shutil.rmtree(os.path.join(top, "moved"), ignore_errors=True)
            os.rename(directory, os.path.join(top, "moved"))


class Person:
    """A folder, and the client's own beside it."""

    def __init__(self, client, room, name, port):
        self.client, self.top, self.own = client, os.path.join(room, name), os.path.join(room, name + ".own")
        self.words = [client, "start", "-c", self.own, "-n", "1"]
        must([client, "init", "-c", self.own], "ready")
        os.mkdir(self.top)
        must([client, "download", "-c", self.own, "-l", LIBRARY, "-s", f"http://127.0.0.1:{port}", "-w", self.top,
              "-u", name, "-k", TOKEN], LIBRARY)

    def sync(self):
        """Syncs, and tells the seconds that took."""
        began = time.monotonic()
        line = must(self.words, LIBRARY)
        if not line.endswith(" conflict no\n"):
            raise Odd(f"a conflict after a kill: {line}")
        return time.monotonic() - began

    def sync_and_kill(self, delay):
        """Syncs, and kills that after so many seconds. Whether it was still at work."""
        process = subprocess.Popen(self.words, stdin=subprocess.DEVNULL, stdout=subprocess.DEVNULL)
        try:
            process.wait(delay)
            return False
        except subprocess.TimeoutExpired:
            process.kill()
            return process.wait() < 0


class Moments:
    """Random moments at which to kill: within so many seconds that two in three come before the end, whatever else is running."""

    def __init__(self, chance, seconds):
        self.chance, self.within, self.killed = chance, seconds, 0

    def next(self):
        return self.chance.uniform(0, self.within)

    def note(self, was_killed):
        self.killed += was_killed
        self.within *= 1.1 if was_killed else 0.8


def kill_push(person, delay):
    before = held(person.top)
    was_killed = person.sync_and_kill(delay)
    if held(person.top) != before:
        raise Odd("a push has changed its folder")
    person.sync()
    if held(person.top) != before:
        raise Odd("the sync after a push that was killed has changed its folder")
    return was_killed


def kill_checkout(person, new, delay):
    old = held(person.top)
    was_killed = person.sync_and_kill(delay)
    stands = held(person.top)
    stands.pop(SPARE, None)
    for path, data in stands.items():
        if not any(path in side and side[path] == data for side in (old, new)):
            raise Odd(f"{path} is neither old nor new")
    for path in old.keys() & new.keys():
        if old[path] == new[path] and path not in stands:
            raise Odd(f"{path} is lost")
    person.sync()
    return was_killed


def main():
    server, client, room, count, seconds, seed = *sys.argv[1:4], *map(int, sys.argv[4:7])
    chance, until = random.Random(seed), time.monotonic() + seconds
    store = os.path.join(room, "libraries")
    os.mkdir(store)
    must([server, "create", store, LIBRARY, "docs", "me", TOKEN], "created")
    port = Service(server, store).port
    first, second = Person(client, room, "first", port), Person(client, room, "second", port)
    change(chance, first.top)
    push, checkout = Moments(chance, first.sync()), Moments(chance, second.sync())
    rounds, kills = 0, 0
    while kills < count and time.monotonic() < until:
        change(chance, first.top)
        push.note(kill_push(first, push.next()))
        new = held(first.top)
        checkout.note(kill_checkout(second, new, checkout.next()))
        if held(second.top) != new or held(first.top) != new:
            raise Odd("the folders differ after their next syncs")
        rounds, kills = rounds + 1, push.killed + checkout.killed
        if rounds % 20 == 0:
            print(f"{rounds} rounds, {kills} kills", flush=True)
    print(f"seed {seed}: {kills} kills, {push.killed} at a push and {checkout.killed} at a checkout, in {rounds} rounds, nothing lost")
    return kills < count


try:
    sys.exit(main())
except Odd as odd:
    sys.exit(f"seed {sys.argv[6]}: {odd}")
