"""Kills a server of a port at random moments of a load of several links, and opens the library again: serve.py SERVER FOLDER COUNT SECONDS SEED.

Each link changes files of its own directory over the commit that it pushed last, so that the server merges most updates; after every fifth
update of a link it collects, and another's upload may be stale then, which is put again. After each kill every update that was answered 200
must be there, with every object that it needs, as kill.py has it; and each directory is as its link's last answered update left it, or as
the one that was sent and not answered.
"""
import os
import random
import socket
import subprocess
import sys
import tempfile
import threading
import time

sys.path.insert(0, os.path.dirname(os.path.abspath(__file__)))
from kill import LIBRARY, TOKEN, Load
from pipe_client import NIL, REPLY_SECONDS, Connection, Cut, Odd, command, commit_object, files_of

LINKS, FILES = 4, 6


class Link(Connection):
    """One connection to a port of this machine."""

    def __init__(self, port):
        self.base, self.token, self.buffer, self.asking = f"/repo/{LIBRARY}", TOKEN, b"", "start"
        try:
            self.socket = socket.create_connection(("127.0.0.1", port), REPLY_SECONDS)
        except OSError:
            raise Cut() from None

    def end(self):
        self.socket.close()

    def send(self, data):
        try:
            self.socket.sendall(data)
        except TimeoutError:
            raise Odd(f"nothing was taken in {REPLY_SECONDS} s: {self.asking}") from None
        except OSError:
            raise Cut() from None

    def more(self):
        try:
            piece = self.socket.recv(1 << 20)
        except TimeoutError:
            raise Odd(f"no reply in {REPLY_SECONDS} s: {self.asking}") from None
        except OSError:
            raise Cut() from None
        if not piece:
            raise Cut()
        self.buffer += piece


class Port:
    """A server of a port. It is only ever ended by this object."""

    def __init__(self, server, folder):
        for _ in range(20):
            with socket.create_server(("127.0.0.1", 0)) as listener:
                self.port = listener.getsockname()[1]
            self.told = tempfile.TemporaryFile()
            self.process = subprocess.Popen(
                [server, "serve", folder, str(self.port), str(LINKS), "4294967295", LIBRARY],
                stdin=subprocess.DEVNULL, stdout=subprocess.DEVNULL, stderr=self.told)
            if self.listens():
                return
        raise Odd("no port was opened")

    def listens(self):
        for _ in range(1000):
            if b"listening" in os.pread(self.told.fileno(), 4096, 0):
                return True
            if self.process.poll() is not None:
                return False
            time.sleep(0.01)
        self.kill()
        raise Odd("the server didn't listen")

    def kill(self):
        """Kills it. Whether it still ran."""
        self.process.kill()
        return self.process.wait() < 0


class Writer(Load):
    """One link's files, and what the server has said it keeps of them."""

    def __init__(self, number, seed, head):
        super().__init__(random.Random(f"{seed} {number}"))
        self.number, self.moment, self.head = number, self.moment + 1_000_000 * number, head
        self.stale, self.asking, self.wrong = 0, None, None

    def push(self, connection):
        """Changes one file of its own and pushes it over its last commit."""
        if self.is_due:
            self.collect(connection)
        self.moment += 1
        path = f"d{self.number}/f{self.chance.randrange(FILES)}"
        files = {**self.files, path: self.chance.randbytes(self.chance.choice([3, 100, 4096, 65536]))}
        root, objects, blocks = self.tree(files)
        name, text = commit_object(LIBRARY, root, self.head, path, self.moment)
        garbage = self.chance.randbytes(100)
        for _ in range(100):
            connection.need("GET", "/permission-check?op=upload")
            connection.put_block(garbage)
            self.store(connection, objects, blocks)
            connection.put_commit(name, text)
            self.sent = (name, files)
            status, given = connection.ask("PUT", f"/commit/HEAD?head={name}")
            if status == 200:
                self.merges += name.encode() not in given
                self.head, self.files, self.sent = name, files, None
                self.updated.append(name)
                self.is_due = len(self.updated) % 5 == 0
                return
            # (a collection of another link came between, and took what was put)
            if (status, b'"stale"' in given or b'"incomplete"' in given) not in ((409, True), (446, True)):
                raise Odd(f"an update was answered {status}: {given[:200]!r}")
            self.stale += 1
        raise Odd("an update was stale a hundred times")

    def work(self, port):
        """Pushes until the server is killed."""
        connection = None
        try:
            connection = Link(port)
            while True:
                self.push(connection)
        except Cut:
            self.asking = connection.asking if connection else "start"
        except Exception as odd:        # told by who waits for this thread
            self.wrong = odd
        finally:
            if connection:
                connection.end()

    def took(self, reached, files):
        """Takes in what the kill left of this link: its directory is as it was answered, or as it was sent."""
        if self.sent and self.sent[0] in reached:
            self.head, self.files = self.sent
        self.sent = None
        own = {path: data for path, data in files.items() if path.startswith(f"d{self.number}/")}
        if own != self.files:
            raise Odd(f"the directory of link {self.number} is not the one that was pushed")


class Whole(Load):
    """All links' updates together, as kill.py looks at them."""

    def check(self, connection, writers):
        self.head, self.updated = connection.head(), [name for writer in writers for name in writer.updated]
        reached = self.check_kept(connection)
        files = files_of(connection, self.head)
        for writer in writers:
            writer.took(reached, files)


def cut_round(writers, server, folder, chance, startup):
    """All links push until the server is killed, at a random moment of its start or, mostly, of the load. How long a start takes."""
    in_start, began = chance.random() < 0.2, time.monotonic()
    port = Port(server, folder)
    threads = [threading.Thread(target=writer.work, args=(port.port,), daemon=True) for writer in writers]
    try:
        if not in_start:
            first = Link(port.port)
            first.head()
            first.end()
            startup = time.monotonic() - began
        for thread in threads:
            thread.start()
        time.sleep(chance.uniform(0, startup if in_start else 0.5))
    finally:
        was_killed = port.kill()
    for writer, thread in zip(writers, threads):
        thread.join(2 * REPLY_SECONDS)
        if thread.is_alive():
            raise Odd(f"link {writer.number} was not cut")
        if writer.wrong:
            raise Odd(f"link {writer.number}: {writer.wrong!r}")
    if not was_killed:
        raise Odd("the server ended by itself")
    return startup


def main(server, folder, count, seconds, seed):
    chance, until = random.Random(seed), time.monotonic() + seconds
    status, line = command(server, "create", folder, LIBRARY, "docs", "me", TOKEN)
    if status != 0 or not line.startswith(f"created {LIBRARY} "):
        raise Odd(f"create: {status} {line!r}")
    writers = [Writer(number, seed, line.split()[2]) for number in range(LINKS)]
    asked, kills, startup = {}, 0, 0.1
    while kills < count and time.monotonic() < until:
        startup = cut_round(writers, server, folder, chance, startup)
        kills += 1
        for writer in writers:
            asked[writer.asking] = asked.get(writer.asking, 0) + 1
        connection = Connection(server, folder, LIBRARY, TOKEN)
        Whole(chance).check(connection, writers)
        spare = os.listdir(os.path.join(folder, LIBRARY, "tmp"))
        if connection.end() != 0 or spare:
            raise Odd(f"after kill {kills}: spare files {spare}")
    told = {what: sum(getattr(writer, what) for writer in writers) for what in ("merges", "stale", "collected", "removed")}
    print(f"seed {seed}: {kills} kills of serve with {LINKS} links, {sum(len(writer.updated) for writer in writers)} pushes answered "
          f"({told['merges']} merged, {told['stale']} times stale), none lost; {told['collected']} collections answered, which removed {told['removed']} objects")
    print("asked when it was killed:", ", ".join(f"{what} {n}" for what, n in sorted(asked.items())))
    if kills < count:
        raise Odd(f"only {kills} of {count} kills in {seconds} s")


if __name__ == "__main__":
    try:
        main(sys.argv[1], sys.argv[2], int(sys.argv[3]), float(sys.argv[4]), int(sys.argv[5]))
    except Odd as odd:
        print(f"FAILED: {odd}")
        sys.exit(1)
