"""Is the cost of an update flat in the size of its library, and that of a start in its kept commits?

flat.py SERVER FOLDER updates FILES [ROUNDS]
    A library of FILES files in directories of WIDE entries, 100 if that is left out: a greater one is deeper, and no directory is longer. One file
    changes, by an update that goes on from the head (`forward`); then head and pushed commit change one file each, of one
    directory (`merged near`) and of two (`merged far`). Of each update alone: the server's processor time, and how far its
    memory rose above what it held before. Beside it the objects that such an update touches are read, hashed and parsed
    by Python's SHA-1 and JSON (both compiled), each from a file of its own, and given once by the server itself (pack-fs
    and the commits: read and hashed).
flat.py SERVER FOLDER starts FILES COMMITS [same]
    The processor time of a start over that library with so many kept commits of one changed file each, beside a start
    over one kept commit with the last tree, and over an empty library. With `same` no commit but the first changes a file.
    Beside both all files, directories and commits of the library are read, hashed and parsed once by Python.
The files have 1,000 contents, or as many as CONTENTS says; WIDE=10 makes directories of ten entries. With its directories a
tree has at most 1,000,000 paths.

What an update touches: the commits, and the directories above each file that changed, with that file, in each tree of
those: head and pushed, and where it is merged, the base and what was made. FOLDER in memory (/dev/shm) spares the disk.
"""
import hashlib
import json
import os
import resource
import statistics
import subprocess
import sys
import tempfile
import time

sys.path.insert(0, os.path.join(os.path.dirname(os.path.abspath(__file__)), ".."))
import pipe_client
from pipe_client import (Connection, command, commit_object, directory_entry, directory_object, file_entry, file_object,
                         name_of)

pipe_client.REPLY_SECONDS = 3600
TOKEN = "a" * 40
WIDE, CONTENTS, MOMENT = int(os.environ.get("WIDE", "100")), int(os.environ.get("CONTENTS", "1000")), 1_700_000_000


def spent(connection):
    """Seconds of processor time of the server so far."""
    with open(f"/proc/{connection.process.pid}/schedstat") as file:
        return int(file.read().split()[0]) / 1e9


def memory(connection, word):
    """MiB of the server: VmRSS now, VmHWM at most since `forget_peak`."""
    with open(f"/proc/{connection.process.pid}/status") as file:
        return next(int(line.split()[1]) / 1024 for line in file if line.startswith(word))


def forget_peak(connection):
    with open(f"/proc/{connection.process.pid}/clear_refs", "w") as file:
        file.write("5")


class Tree:
    """A tree by place: (3, 5) is the file 5 of the directory 3. Its files have one of CONTENTS contents, but those that
    were changed."""

    def __init__(self, count):
        self.depth = 2
        while WIDE ** self.depth < count:
            self.depth += 1
        self.top = -(-count // WIDE ** (self.depth - 1))
        self.changed, self.made, self.names = {}, {}, {}

    def copy(self):
        other = object.__new__(Tree)
        other.__dict__.update(self.__dict__, changed=dict(self.changed), names=dict(self.names), made={})
        return other

    def place(self, number):
        """The place of a file, whichever the number. Places of numbers that follow one another lie in two directories of the
        root, and those of numbers below the count of files are distinct."""
        digits, left = [number % self.top], number // self.top
        for _ in range(self.depth - 1):
            digits.append((left + 37 * digits[0]) % WIDE)
            left //= WIDE
        return tuple(digits)

    def number(self, place):
        number = 0
        for digit in place:
            number = number * WIDE + digit
        return number

    def content(self, place):
        return self.changed.get(place, b"content %d" % (self.number(place) % CONTENTS))

    def entry(self, place):
        """The entry of a file. No two have one time, so that no two directories are one object."""
        data = self.content(place)
        return file_entry(f"f{place[-1]:02}", name_of(file_object([name_of(data)], len(data))), len(data), MOMENT + self.number(place))

    def directory(self, place=()):
        """The name of the directory at a place, and where it was not known it is made with what is below it."""
        if place not in self.names:
            below = [(*place, digit) for digit in range(WIDE if place else self.top)]
            if len(place) == self.depth - 1:
                entries = [self.entry(one) for one in below]
            else:
                entries = [directory_entry(f"d{one[-1]:02}", self.directory(one), MOMENT + sum(one)) for one in below]
            text = directory_object(entries)
            self.names[place] = name_of(text)
            self.made[name_of(text)] = text
        return self.names[place]

    def change(self, place, data):
        self.changed[place] = data
        text = file_object([name_of(data)], len(data))
        self.made[name_of(text)] = text
        for length in range(self.depth):
            self.names.pop(place[:length], None)


class Library:
    """A library that is open over one connection, with its head."""

    def __init__(self, server, folder, number, tree):
        self.server, self.folder, self.tree = server, folder, tree
        self.library = f"{number:08}-2222-4333-8444-555555555555"
        status, told = command(server, "create", folder, self.library, "docs", "me", TOKEN)
        assert status == 0, told
        self.connection = None
        self.open()
        self.head = self.connection.head()

    def open(self):
        """Over a new connection: one takes 10,000 requests."""
        if self.connection is not None:
            self.connection.end()
        self.connection = Connection(self.server, self.folder, self.library, TOKEN)

    def commit(self, tree, parent):
        """Puts the objects that the tree made, and a commit of it; the commit's name."""
        root = tree.directory()
        objects = list(tree.made.items())
        for at in range(0, len(objects), 500):
            self.connection.put_fs(objects[at:at + 500])
        tree.made.clear()
        name, data = commit_object(self.library, root, parent, "one", MOMENT)
        self.connection.put_commit(name, data)
        return name

    def first(self):
        for number in range(CONTENTS):
            if number % 9000 == 8999:
                self.open()
            data = b"content %d" % number
            text = file_object([self.connection.put_block(data)], len(data))
            self.tree.made[name_of(text)] = text
        self.open()
        return self.push(self.tree)

    def changed(self, place, mark, parent, tree=None):
        """A tree with one file changed, and its commit, which are put. The file's block too."""
        tree = (tree or self.tree).copy()
        data = b"%s at %s over %s" % (mark.encode(), repr(place).encode(), parent.encode())
        self.connection.put_block(data)
        tree.change(place, data)
        return tree, self.commit(tree, parent)

    def push(self, tree):
        """An update to this tree, with its figures."""
        return self.update(self.commit(tree, self.head), tree)

    def update(self, commit, tree):
        """(seconds of processor time, MiB above what was held)"""
        forget_peak(self.connection)
        held, before = memory(self.connection, "VmRSS"), spent(self.connection)
        self.head = self.connection.update(commit)
        self.tree = tree
        return spent(self.connection) - before, memory(self.connection, "VmHWM") - held

    def above(self, commits, places):
        """The objects above these places in the trees of these commits, with the files there, by name."""
        found = {}
        for root in [self.connection.commit(commit)["root_id"] for commit in commits]:
            for place in places:
                name, words = root, [f"d{digit:02}" for digit in place[:-1]] + [f"f{place[-1]:02}"]
                for word in words:
                    found.update(self.connection.fs_objects([name]) if name not in found else {})
                    name = next(one["id"] for one in json.loads(found[name])["dirents"] if one["name"] == word)
                found.update(self.connection.fs_objects([name]))
        return found


def beside(library, commits, places):
    """What reading, hashing and parsing of the touched objects takes: (how many, bytes, by Python, given by the server)."""
    objects = library.above(commits, places)
    texts = list(objects.values()) + [library.connection.need("GET", f"/commit/{commit}") for commit in commits]
    rounds = 50
    with tempfile.TemporaryDirectory(dir=library.folder) as room:
        for number, text in enumerate(texts):
            with open(f"{room}/{number}", "wb") as file:
                file.write(text)
        began = time.process_time()
        for _ in range(rounds):
            for number in range(len(texts)):
                with open(f"{room}/{number}", "rb") as file:
                    text = file.read()
                hashlib.sha1(text).hexdigest()
                json.loads(text)
        by_python = (time.process_time() - began) / rounds
    before = spent(library.connection)
    for _ in range(rounds):
        library.connection.fs_objects(list(objects))
        for commit in commits:
            library.connection.need("GET", f"/commit/{commit}")
    return len(texts), sum(map(len, texts)), by_python, (spent(library.connection) - before) / rounds


def forward(library, number):
    place = library.tree.place(number)
    head = library.head
    tree, commit = library.changed(place, "forward", head)
    figures = library.update(commit, tree)
    assert library.head == commit
    return figures, [head, commit], [place]


def merged(library, number, is_near):
    """Two commits over one base; the second is pushed when the first is the head."""
    base, ours = library.head, library.tree.place(number)
    theirs = (*ours[:-1], (ours[-1] + 1) % WIDE) if is_near else library.tree.place(number + 1)
    tree, first = library.changed(ours, "first", base)
    _, second = library.changed(theirs, "second", base)
    library.update(first, tree)
    figures = library.update(second, tree)
    assert library.head not in (first, second)
    touched = [base, first, second, library.head]
    # (what is changed next goes on from a tree whose directories are known here)
    both, _ = library.changed(theirs, "both", library.head, tree)
    places = [ours, theirs]
    return figures, touched, places, both


def updates(server, folder, count, rounds):
    library = Library(server, folder, count, Tree(count))
    seconds, rose = library.first()
    print(f"{count} files, depth {library.tree.depth}: the first update {seconds:.2f} s of CPU, {rose:.1f} MiB above", flush=True)
    number = 1
    for kind in ("forward", "merged near", "merged far"):
        took, memories, peers = [], [], []
        for _ in range(rounds):
            library.open()
            library.connection.head()
            if kind == "forward":
                figures, commits, places = forward(library, number)
                both = None
            else:
                figures, commits, places, both = merged(library, number, kind.endswith("near"))
            peers.append(beside(library, commits, places))
            if both is not None:
                library.push(both)
            number += 2
            took.append(figures[0])
            memories.append(figures[1])
        objects, size, _, _ = peers[0]
        least, by_python, given = min(took), min(peer[2] for peer in peers), min(peer[3] for peer in peers)
        print(f"{count} files, {kind:11}: {least * 1e3:9.2f} ms of CPU at least, {statistics.median(took) * 1e3:9.2f} in the middle of {rounds}, "
              f"{max(memories):7.1f} MiB above; {objects} objects of {size} bytes touched: read, hashed and parsed by Python "
              f"{by_python * 1e3:.2f} ms (ratio {least / by_python:.1f}), given by the server {given * 1e3:.2f} ms (ratio {least / given:.1f})",
              flush=True)
    library.connection.end()


def start(server, folder, library):
    """The least processor time of three starts, and the memory at most of the last."""
    least = None
    for _ in range(4):
        before = resource.getrusage(resource.RUSAGE_CHILDREN)
        subprocess.run([server, "inetd", folder, library], stdin=subprocess.DEVNULL, check=True)
        after = resource.getrusage(resource.RUSAGE_CHILDREN)
        took = after.ru_utime - before.ru_utime + after.ru_stime - before.ru_stime
        least = took if least is None else min(took, least)
    return least


def counted(folder, library):
    """The files, directories and commits of a library: (how many, bytes, what reading, hashing and parsing all of them once
    takes by Python)."""
    paths = [os.path.join(above, name) for kind in ("fs", "commits")
             for above, _, names in os.walk(f"{folder}/{library.library}/{kind}") for name in names]
    began, size = time.process_time(), 0
    for path in paths:
        with open(path, "rb") as file:
            text = file.read()
        size += len(text)
        hashlib.sha1(text).hexdigest()
        json.loads(text)
    return len(paths), size, time.process_time() - began


def starts(server, folder, count, commits, is_same):
    library = Library(server, folder, 1, Tree(count))
    library.first()
    for number in range(commits - 1):
        if number % 2000 == 1999:
            library.open()
        if is_same:
            library.push(library.tree)
        else:
            forward(library, number)
    last = library.tree
    library.connection.end()
    whole = Tree(count)
    for place, data in last.changed.items():
        whole.change(place, data)
    alone = Library(server, folder, 2, whole)
    for data in whole.changed.values():
        alone.connection.put_block(data)
    alone.open()
    alone.first()
    alone.connection.end()
    empty = Library(server, folder, 3, Tree(count))
    empty.connection.end()
    # (objects that are younger than the state text by less than file times may be off are looked at again)
    time.sleep(11)
    many, one, none = (start(server, folder, one.library) for one in (library, alone, empty))
    (objects, size, long), (fewer, less, short) = (counted(folder, one) for one in (library, alone))
    print(f"start over {count} files in directories of {WIDE}, of {CONTENTS} contents: {commits} kept commits"
          f"{' of one tree' if is_same else ''} {many * 1e3:.1f} ms of CPU, the last tree alone {one * 1e3:.1f} ms, an empty library "
          f"{none * 1e3:.1f} ms; ratio {many / one:.2f}. {objects} objects of {size} bytes, {fewer} of {less}: by Python {long * 1e3:.0f} "
          f"and {short * 1e3:.0f} ms (ratio {long / short:.2f})", flush=True)


if __name__ == "__main__":
    if sys.argv[3] == "updates":
        updates(sys.argv[1], sys.argv[2], int(sys.argv[4]), int(sys.argv[5]) if len(sys.argv) > 5 else 5)
    else:
        starts(sys.argv[1], sys.argv[2], int(sys.argv[4]), int(sys.argv[5]), sys.argv[6:] == ["same"])
