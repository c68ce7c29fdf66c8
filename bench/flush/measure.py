"""Times the first update after a large upload, and the opening after a kill: measure.py SERVER FOLDER NEW STORED LATER.

Each flush of the stand-in takes FLUSH_MS milliseconds (5). What has the processor is told of the server alone. First NEW objects are put into a new library and an update names
them all: how long the puts took, and the update. Then a second library gets STORED objects by one update, and LATER more
that no update names, and the server is killed: how long the next one takes until it replies.
"""
import os
import sys

sys.path.insert(0, os.path.join(os.path.dirname(os.path.abspath(__file__)), ".."))
from pipe_client import (Connection, Odd, command, commit_object, directory_entry, directory_object, file_entry,
                         file_object, name_of, seconds_of)

TOKEN, MOMENT, FOLDER_SIZE = "a" * 40, 1_700_000_000, 100
REQUESTS = 9_000


class Tree:
    """Files of a few bytes, a block each, in folders of 100: so many objects in all, with the folders and the commit."""

    def __init__(self, count):
        self.objects, self.blocks, folders, entries = {}, [], [], []
        files = (count - count // (2 * FOLDER_SIZE) - 2) // 2
        for number in range(files):
            data = b"file %d of %d" % (number, count)
            self.blocks.append(data)
            entries.append(file_entry(f"f{number}", self.add(file_object([name_of(data)], len(data))), len(data), MOMENT))
            if len(entries) == FOLDER_SIZE or number == files - 1:
                folders.append(directory_entry(f"d{number}", self.add(directory_object(entries)), MOMENT))
                entries = []
        self.root = self.add(directory_object(folders))

    def add(self, data):
        self.objects[name_of(data)] = data
        return name_of(data)


def put_all(server, folder, library, tree):
    """Puts all of it over as few connections as it takes. The last one, at which the update can be asked for, and the commit."""
    connection, asked = Connection(server, folder, library, TOKEN), 0
    for data in tree.blocks:
        connection.put_block(data)
        asked += 1
        if asked == REQUESTS:
            connection.end()
            connection, asked = Connection(server, folder, library, TOKEN), 0
    rows = list(tree.objects.items())
    for at in range(0, len(rows), 1000):
        connection.put_fs(rows[at:at + 1000])
    name, data = commit_object(library, tree.root, connection.head(), "all", MOMENT)
    connection.put_commit(name, data)
    return connection, name


def processor(connection):
    """For how many seconds a connection's server had the processor so far."""
    with open(f"/proc/{connection.process.pid}/stat", encoding="ascii") as stat:
        words = stat.read().rsplit(")", 1)[1].split()
    return (int(words[11]) + int(words[12])) / os.sysconf("SC_CLK_TCK")


def upload(server, folder, library, count):
    """A new library with so many objects, and its connection after the update."""
    status, line = command(server, "create", folder, library, "docs", "me", TOKEN)
    if status != 0:
        raise Odd(f"create: {status} {line!r}")
    tree = Tree(count)
    (connection, name), put = seconds_of(lambda: put_all(server, folder, library, tree))
    before = processor(connection)
    _, updated = seconds_of(lambda: connection.update(name))
    held = len(tree.blocks) + len(tree.objects) + 1
    print(f"{held} new objects: put in {put:.2f} s, the update in {updated:.2f} s, both {put + updated:.2f} s; "
          f"the update had the processor for {processor(connection) - before:.2f} s", flush=True)
    return connection


def opened(server, folder, library):
    connection = Connection(server, folder, library, TOKEN)
    connection.head()
    return connection


def main(server, folder, new, stored, later):
    upload(server, folder, "22222222-2222-4333-8444-555555555555", new).end()
    library = "33333333-2222-4333-8444-555555555555"
    connection = upload(server, folder, library, stored)
    for number in range(later):
        connection.put_block(b"later %d" % number)
    connection.kill()
    connection.end()
    connection, took = seconds_of(lambda: opened(server, folder, library))
    print(f"an opening after a kill, {later} objects after the last text: {took:.2f} s until the first reply, "
          f"{processor(connection):.2f} s of the processor", flush=True)
    connection.end()
    connection, took = seconds_of(lambda: opened(server, folder, library))
    print(f"the next opening: {took:.2f} s, {processor(connection):.2f} s of the processor")
    connection.end()


main(sys.argv[1], sys.argv[2], *map(int, sys.argv[3:6]))
