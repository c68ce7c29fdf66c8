"""Times updates of a library of many files with one file changed: update.py SERVER FOLDER FILES ROUNDS [merged].

The library has FILES files of a few bytes in 40 folders. Each update is timed alone, after the objects that are new were
put; besides, the processor time that the server spent in it, and how much memory it had at most. With `merged` each update
changes a file of the first one, so that from the second on it is merged.
"""
import os
import sys

sys.path.insert(0, os.path.join(os.path.dirname(os.path.abspath(__file__)), ".."))
from pipe_client import (Connection, command, commit_object, directory_entry, directory_object, file_entry, file_object,
                         name_of, seconds_of)

LIBRARY = "22222222-2222-4333-8444-555555555555"
TOKEN = "a" * 40
FOLDERS, MOMENT = 40, 1_700_000_000
TICKS = os.sysconf("SC_CLK_TCK")


def processor(connection):
    fields = open(f"/proc/{connection.process.pid}/stat").read().rsplit(") ", 1)[1].split()
    return (int(fields[11]) + int(fields[12])) / TICKS


def peak(connection):
    for line in open(f"/proc/{connection.process.pid}/status"):
        if line.startswith("VmHWM"):
            return int(line.split()[1]) / 1024
    return 0


class Tree:
    """Files by number, and the objects of the tree."""

    def __init__(self, count):
        self.files = {number: b"file %d" % number for number in range(count)}

    def folder(self, place):
        """A folder's objects: its name, its fs objects, its blocks."""
        entries, objects, blocks = [], [], []
        for number in range(place, len(self.files), FOLDERS):
            data = self.files[number]
            text = file_object([name_of(data)], len(data))
            entries.append(file_entry(f"f{number:05}", name_of(text), len(data), MOMENT))
            objects.append((name_of(text), text))
            blocks.append(data)
        text = directory_object(entries)
        return name_of(text), objects + [(name_of(text), text)], blocks

    def root(self, names):
        text = directory_object([directory_entry(f"d{place:02}", name, MOMENT) for place, name in enumerate(names)])
        return name_of(text), text


def put_in_pieces(connection, objects):
    for at in range(0, len(objects), 1000):
        connection.put_fs(objects[at:at + 1000])


def first_push(server, folder, tree):
    """Puts the whole tree; a connection takes 10,000 requests at most. The folders' names."""
    names, objects, blocks = [], [], []
    for place in range(FOLDERS):
        name, more, data = tree.folder(place)
        names.append(name)
        objects += more
        blocks += data
    for at in range(0, len(blocks), 9000):
        connection = Connection(server, folder, LIBRARY, TOKEN)
        for data in blocks[at:at + 9000]:
            connection.put_block(data)
        connection.end()
    connection = Connection(server, folder, LIBRARY, TOKEN)
    name, text = tree.root(names)
    put_in_pieces(connection, objects + [(name, text)])
    commit, data = commit_object(LIBRARY, name, connection.head(), "first", MOMENT)
    connection.put_commit(commit, data)
    _, seconds = seconds_of(lambda: connection.update(commit))
    print(f"first update of {len(tree.files)} files: {seconds:.2f} s, most of it to make its objects durable")
    connection.end()
    return names, commit


def change_one(connection, tree, names, parent, number):
    """Changes one file, puts what is new and updates. The new head, and the seconds of the update."""
    tree.files[number] = b"changed %d after %s" % (number, parent.encode())
    place = number % FOLDERS
    names[place], objects, _ = tree.folder(place)
    root, text = tree.root(names)
    connection.put_block(tree.files[number])
    new = dict(objects + [(root, text)])
    connection.put_fs([(name, new[name]) for name in connection.absent("check-fs", sorted(new))])
    commit, data = commit_object(LIBRARY, root, parent, "one", MOMENT)
    connection.put_commit(commit, data)
    return seconds_of(lambda: connection.update(commit))


def change_first(connection, tree, names, parent, number):
    """The same over the first update, whose files and folders stay as they are."""
    own, data = list(names), tree.files[number]
    told = change_one(connection, tree, own, parent, number)
    tree.files[number] = data
    return told


def main(server, folder, count, rounds, merged):
    print(command(server, "create", folder, LIBRARY, "docs", "me", TOKEN)[1], end="")
    tree = Tree(count)
    names, first = first_push(server, folder, tree)
    head = first
    connection, started = None, 0
    for round_number in range(rounds):
        if connection is None:
            connection = Connection(server, folder, LIBRARY, TOKEN)
            _, started = seconds_of(connection.head)
        before = processor(connection)
        number = 37 * round_number % count
        if merged:
            _, seconds = change_first(connection, tree, names, first, number)
        else:
            head, seconds = change_one(connection, tree, names, head, number)
        print(f"update of {count} files, one changed: {seconds * 1e3:.1f} ms, "
              f"push and update {processor(connection) - before:.2f} s of CPU, peak {peak(connection):.1f} MiB")
    print(f"(start and first reply {started * 1e3:.1f} ms)")
    connection.end()


main(sys.argv[1], sys.argv[2], int(sys.argv[3]), int(sys.argv[4]), sys.argv[5:] == ["merged"])
