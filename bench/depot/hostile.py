"""What do trees that few bytes make large cost?

hostile.py SERVER FOLDER [CASE..]
    `doubled`: an update whose tree names one directory twice at each of 40 levels, which is refused as too many paths. `names`: one of a
    directory that names one file object 4,000 times, which names one block 10,000 times, 0.9 MB together; and the list of what it needs.
    `parents`: one of a commit whose 128 first parents have 1 MB each, and none is kept, which is refused as unrelated, asked three times. `flat`:
    one of a directory of 700,000 empty directories, 62 MB, and then one that is merged, where both sides add one file beside it.
    Of each the server's processor time, and how far its memory rose above what it held before.
FOLDER in memory (/dev/shm) spares the disk.
"""
import os
import sys

sys.path.insert(0, os.path.dirname(os.path.abspath(__file__)))
from flat import MOMENT, Library, Tree, forget_peak, memory, spent
from pipe_client import NIL, commit_object, compact, directory_entry, directory_object, file_entry, file_object, name_of


class Asked:
    """A library, and what each request that is measured costs."""

    def __init__(self, server, folder, number):
        self.library = Library(server, folder, number, Tree(1))
        self.connection = self.library.connection
        self.first = self.library.head

    def put(self, *texts):
        """The name of the last of some files and directories."""
        for text in texts:
            self.connection.put_fs([(name_of(text), text)])
        return name_of(texts[-1])

    def commit(self, root, parent=None, description="one"):
        name, data = commit_object(self.library.library, root, parent or self.first, description, MOMENT)
        self.connection.put_commit(name, data)
        return name

    def measured(self, what, method, path):
        """What was replied, in short."""
        forget_peak(self.connection)
        held, before = memory(self.connection, "VmRSS"), spent(self.connection)
        status, given = self.connection.ask(method, path)
        took, rose = spent(self.connection) - before, memory(self.connection, "VmHWM") - held
        told = given if len(given) < 120 else b"%d bytes" % len(given)
        print(f"{what}: {took * 1e3:.2f} ms of CPU, {rose:.1f} MiB above {held:.1f}; {status} {told.decode()}", flush=True)

    def update(self, what, commit):
        self.measured(what, "PUT", f"/commit/HEAD?head={commit}")


def doubled(asked):
    level, texts = NIL, []
    for _ in range(40):
        texts.append(directory_object([directory_entry(name, level, MOMENT) for name in "ab"]))
        level = name_of(texts[-1])
    commit = asked.commit(asked.put(*texts))
    asked.update("a directory twice at each of 40 levels, an update", commit)
    asked.update("the same again", commit)


def names(asked):
    block = asked.connection.put_block(b"x")
    file = file_object([block] * 10_000, 10_000)
    root = directory_object([file_entry(f"f{number:04}", name_of(file), 10_000, MOMENT) for number in range(4_000)])
    commit = asked.commit(asked.put(file, root))
    asked.update("a file object of 430 kB under 4,000 names, an update", commit)
    asked.measured("what it needs", "GET", f"/fs-id-list?server-head={commit}")


def parents(asked):
    commit = "b" * 40
    for number in range(129):
        commit = asked.commit(NIL, commit, f"{number}" + "x" * 1_000_000)
    for what in ("128 first parents of 1 MB, an update", "the same again", "and again"):
        asked.update(what, commit)


def flat(asked):
    entries = [directory_entry(f"{number:06}", NIL, 0) for number in range(700_000)]
    # (one text for all entries: they are in the order in which names are written)
    many = asked.put(b'{"dirents":[' + b",".join(compact(entry) for entry in reversed(entries)) + b'],"type":3,"version":1}')
    sides = [directory_object([directory_entry("d", many, 0), file_entry(name, NIL, 0, MOMENT)][:size]) for name, size in (("e", 1), ("f", 2), ("g", 2))]
    for side in sides:
        asked.put(side)
    base = asked.commit(name_of(sides[0]))
    asked.update("a directory of 700,000 entries, an update", base)
    first, second = [asked.commit(name_of(side), base) for side in sides[1:]]
    asked.update("a file beside it, an update", first)
    asked.update("another one, merged", second)
    three = asked.put(b'{"dirents":[' + b",".join(compact(entry) for entry in reversed(entries[1:])) + b'],"type":3,"version":1}')
    four = asked.put(b'{"dirents":[' + b",".join(compact(entry) for entry in reversed(entries[:-1])) + b'],"type":3,"version":1}')
    base = asked.connection.head()
    first, second = [asked.commit(asked.put(directory_object([directory_entry("d", one, 0)])), base) for one in (three, four)]
    asked.update("an entry of it deleted, an update", first)
    asked.update("another one, merged: it is opened on three sides", second)


CASES = {"doubled": doubled, "names": names, "parents": parents, "flat": flat}

if __name__ == "__main__":
    for at, case in enumerate(sys.argv[3:] or list(CASES), 1):
        one = Asked(sys.argv[1], sys.argv[2], at)
        CASES[case](one)
        one.connection.end()
