"""Kills a server on a folder at random moments of a load, and opens it again: kill.py SERVER FOLDER COUNT SECONDS SEED.

After every fifth update there is a collection; a block that no commit needs is put before each update, so that it has something to
remove. After each kill every update that was answered 200 must be there, with every object that it needs: the trees of all commits
that are kept, each head and each pushed one, are read whole, and that of the head is as the last update left it. An update that was
sent and not answered may be there or not.
"""
import json
import os
import random
import sys
import threading
import time

sys.path.insert(0, os.path.join(os.path.dirname(os.path.abspath(__file__)), ".."))
from pipe_client import (NIL, Connection, Cut, Odd, command, commit_object, directory_entry, directory_object,
                         file_entry, file_object, files_of, name_of, seconds_of)

LIBRARY = "11111111-2222-4333-8444-555555555555"
TOKEN = "a" * 40
FOLDERS, FILES = 4, 6


class Load:
    """The files of the head, and what the server has said it keeps."""

    def __init__(self, chance):
        self.chance, self.moment = chance, 1_700_000_000
        self.head, self.files = None, {}
        self.before = None              # an older head that was answered, and its files
        self.sent = None                # an update that is sent and not answered: commit, parent, files after it
        self.updated, self.is_due = [], False       # is_due: a collection comes before the next update
        self.merges, self.collected, self.removed = 0, 0, 0

    def tree(self, files):
        """The objects of a tree: the root's name, the fs objects by name, the blocks by name."""
        objects, blocks, folders = {}, {}, []

        def add(data):
            objects[name_of(data)] = data
            return name_of(data)

        for folder in sorted({path.split("/")[0] for path in files}):
            entries = []
            for path, data in sorted(files.items()):
                if path.split("/")[0] == folder:
                    blocks[name_of(data)] = data
                    object_name = add(file_object([name_of(data)], len(data)))
                    entries.append(file_entry(path.split("/")[1], object_name, len(data), self.moment))
            folders.append(directory_entry(folder, add(directory_object(entries)), self.moment))
        return add(directory_object(folders)), objects, blocks

    def push(self, connection):
        """Changes one file and pushes it, on the head or on an older head, so that the server merges."""
        if self.is_due:
            self.collect(connection)
        connection.need("GET", "/permission-check?op=upload")
        self.moment += 1
        place = self.chance.randrange(FOLDERS * FILES)
        path = f"d{place % FOLDERS}/f{place // FOLDERS}"
        data = self.chance.randbytes(self.chance.choice([3, 100, 4096, 65536]))
        base, files = self.head, self.files
        if self.before and self.chance.random() < 0.3 and self.before[1].get(path) == self.files.get(path):
            base, files = self.before
        root, objects, blocks = self.tree({**files, path: data})
        connection.put_block(self.chance.randbytes(100))
        self.store(connection, objects, blocks)
        name, text = commit_object(LIBRARY, root, base, path, self.moment)
        connection.put_commit(name, text)
        self.sent = (name, base, {**self.files, path: data})
        head = connection.update(name)
        self.updated.append(name)
        self.is_due = len(self.updated) % 5 == 0
        self.take(connection, head)

    def store(self, connection, objects, blocks):
        for name in connection.absent("check-blocks", sorted(blocks)):
            connection.put_block(blocks[name])
        wanted = connection.absent("check-fs", sorted(objects))
        connection.put_fs([(name, objects[name]) for name in wanted])

    def collect(self, connection):
        told = json.loads(connection.need("POST", "/collect", b""))
        self.collected, self.removed, self.is_due = self.collected + 1, self.removed + told["removed"], False

    def take(self, connection, head):
        """Takes in that the update that was sent is the head, or was merged into it."""
        name, base, files = self.sent
        if head != name:
            made = connection.commit(head)
            if (made["parent_id"], made["second_parent_id"]) != (self.head, name):
                raise Odd(f"head {head} is neither {name} nor a merge of {self.head} and it")
            self.merges += 1
        if base == self.head:
            self.before = (self.head, self.files)
        self.head, self.files, self.sent = head, files, None

    def check(self, connection):
        """What was answered 200 is there, and the head's tree is whole and as it was pushed."""
        head = connection.head()
        if head != self.head:
            if self.sent is None:
                raise Odd(f"the head is {head}, and {self.head} was answered")
            self.take(connection, head)
        self.sent = None
        self.check_kept(connection)
        if files_of(connection, self.head) != self.files:
            raise Odd(f"the tree of {self.head} is not the one that was pushed")

    def check_kept(self, connection):
        """Every update that was answered is reached from the head, and the trees of all that are reached are whole. The commits that are."""
        reached, ways = {}, [self.head]
        while ways:
            name = ways.pop()
            if name and name not in reached:
                reached[name] = connection.commit(name)
                ways += [reached[name]["parent_id"], reached[name]["second_parent_id"]]
        lost = [name for name in self.updated if name not in reached]
        if lost:
            raise Odd(f"{len(lost)} updates are lost: {lost[0]}")
        read, blocks, wanted = set(), set(), {commit["root_id"] for commit in reached.values()} - {NIL}
        while wanted:
            below = set()
            for name, data in self.given(connection, sorted(wanted)):
                value = json.loads(data)
                blocks.update(value.get("block_ids", ()))
                below.update(entry["id"] for entry in value.get("dirents", ()))
            read |= wanted
            wanted = below - read - {NIL}
        for name in sorted(blocks):
            if name_of(connection.block(name)) != name:
                raise Odd(f"the block {name} is not its own")
        return reached

    def given(self, connection, names):
        for at in range(0, len(names), 500):
            objects = connection.fs_objects(names[at:at + 500])
            wrong = [name for name in names[at:at + 500] if name not in objects or name_of(objects[name]) != name]
            if wrong:
                raise Odd(f"{len(wrong)} files and directories are not given: {wrong[0]}")
            yield from objects.items()


def cut_round(load, server, folder, startup, push):
    """Pushes until the server is killed, at a random moment of its start or, mostly, of the load. What was asked then."""
    in_start = load.chance.random() < 0.2
    connection = Connection(server, folder, LIBRARY, TOKEN)
    timer = threading.Timer(load.chance.uniform(0, startup if in_start else 4 * push), connection.kill)
    try:
        if in_start:
            timer.start()
        connection.head()
        if not in_start:
            timer.start()
        while True:
            load.push(connection)
    except Cut:
        return connection.asking
    finally:
        timer.cancel()
        connection.kill()
        connection.end()


def is_taken(server, folder):
    """A second process gets the fault of storage and changes nothing, while the first has the library."""
    connection = Connection(server, folder, LIBRARY, TOKEN)
    connection.head()
    line = command(server, "token", folder, LIBRARY, "other", "b" * 40, "r")
    second = command(server, "inetd", folder, LIBRARY)
    ok = line == (1, "seaf-server: store fault\n") and second == (1, "")
    connection.head()
    connection.end()
    if not ok:
        raise Odd(f"a second process on the same library: {line}, {second}")


def kill_creates(server, folder, chance, count, longest):
    """Kills `create` at random moments: the next one makes the library, or finds it made."""
    lines = {}
    for number in range(count):
        library = f"{number:08x}-2222-4333-8444-555555555555"
        words = ("create", folder, library, "docs", "me", TOKEN)
        start_and_kill(server, words, chance.uniform(0, longest))
        status, line = command(server, *words)
        told = line.split(" ")[0] if status == 0 else line.strip()
        if told not in ("created", "seaf-server: library exists"):
            raise Odd(f"create after a kill: {status} {line!r}")
        lines[told] = lines.get(told, 0) + 1
        connection = Connection(server, folder, library, TOKEN)
        head = connection.head()
        if connection.commit(head)["commit_id"] != head or connection.end() != 0:
            raise Odd(f"{library} was made and isn't served")
    return lines


def start_and_kill(server, words, delay):
    import signal
    import subprocess
    process = subprocess.Popen([server, *words], stdin=subprocess.DEVNULL, stdout=subprocess.DEVNULL)
    time.sleep(delay)
    process.send_signal(signal.SIGKILL)
    process.wait()


def begin(load, server, folder):
    """Makes the library and its first files; how long a start and a push take."""
    status, line = command(server, "create", folder, LIBRARY, "docs", "me", TOKEN)
    if status != 0 or not line.startswith(f"created {LIBRARY} "):
        raise Odd(f"create: {status} {line!r}")
    load.head = line.split()[2]
    connection, started = seconds_of(lambda: Connection(server, folder, LIBRARY, TOKEN))
    _, answered = seconds_of(connection.head)
    connection.need("GET", "/permission-check?op=upload")
    load.push(connection)
    _, pushed = seconds_of(lambda: [load.push(connection) for _ in range(4)])
    load.check(connection)
    if connection.end() != 0:
        raise Odd("inetd ended with another status than 0")
    return started + answered, pushed / 4


def main(server, folder, count, seconds, seed):
    load, end = Load(random.Random(seed)), time.monotonic() + seconds
    startup, push = begin(load, server, folder)
    print(f"seed {seed}: a start takes {startup * 1e3:.1f} ms, a push {push * 1e3:.1f} ms", flush=True)
    is_taken(server, folder)
    asked, kills, pushes = {}, 0, 0
    while kills < count and time.monotonic() < end:
        before = len(load.updated)
        at = cut_round(load, server, folder, startup, push)
        asked[at], kills, pushes = asked.get(at, 0) + 1, kills + 1, pushes + len(load.updated) - before
        connection = Connection(server, folder, LIBRARY, TOKEN)
        load.check(connection)
        spare = os.listdir(os.path.join(folder, LIBRARY, "tmp"))
        if connection.end() != 0 or spare:
            raise Odd(f"after kill {kills}: spare files {spare}")
    is_taken(server, folder)
    connection = Connection(server, folder, LIBRARY, TOKEN)
    load.check(connection)
    connection.end()
    print(f"{kills} kills, {pushes} pushes answered between them ({load.merges} merged in all), none lost; "
          f"{load.collected} collections answered, which removed {load.removed} objects")
    print("asked when it was killed:", ", ".join(f"{what} {n}" for what, n in sorted(asked.items())))
    made = kill_creates(server, folder, load.chance, 20, 3 * startup)
    print("create after a kill of create:", ", ".join(f"{what} {n}" for what, n in sorted(made.items())))
    if kills < count:
        raise Odd(f"only {kills} of {count} kills in {seconds} s")


if __name__ == "__main__":
    try:
        main(sys.argv[1], sys.argv[2], int(sys.argv[3]), float(sys.argv[4]), int(sys.argv[5]))
    except Odd as odd:
        print(f"FAILED: {odd}")
        sys.exit(1)
