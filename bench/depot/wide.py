"""What does a merge cost, and what does it hold, by how much differs?

wide.py SERVER FOLDER FILES KIND..
    A library of FILES files as flat.py makes it. Head and pushed commit then differ from their base: of `near` in one file each, of
    one directory, of `far` in one file each, of two; of `each` in one file each of each lowest directory, so that the merge opens
    all of them on the three sides; of `names` in the name of each file, so that no file of the three trees stands at one path (past
    half a million files the merge is refused as too many). Of each kind, over a library of its own: the processor time of the
    merge, and its memory at most, above what the connection held before it, and above the least that a connection over
    this library needs: the process of an empty library, and the index, by 66 bytes an object.
"""
import os
import sys
import time

sys.path.insert(0, os.path.dirname(os.path.abspath(__file__)))
from flat import CONTENTS, WIDE, Library, Tree, file_object, forget_peak, memory, name_of, spent
from pipe_client import Odd

INDEX_BYTES = 66


class Renamed(Tree):
    """The same files under names with another first letter."""

    def __init__(self, count, letter):
        Tree.__init__(self, count)
        self.letter = letter

    def entry(self, place):
        entry = Tree.entry(self, place)
        return dict(entry, name=self.letter + entry["name"][1:])


def lowest(tree):
    """The places of the directories that have files."""
    places = [(digit,) for digit in range(tree.top)]
    for _ in range(tree.depth - 2):
        places = [(*place, digit) for place in places for digit in range(WIDE)]
    return places


def each_changed(library, mark, digit):
    """The library's tree with this file of each directory changed to the same bytes, whose block is put."""
    tree, data = library.tree.copy(), mark.encode()
    library.connection.put_block(data)
    for place in lowest(tree):
        tree.changed[(*place, digit)] = data
    text = file_object([name_of(data)], len(data))
    tree.made[name_of(text)] = text
    tree.names = {}
    return tree


def one_changed(library, mark, place):
    tree, data = library.tree.copy(), b"%s at %s" % (mark.encode(), repr(place).encode())
    library.connection.put_block(data)
    tree.change(place, data)
    return tree


def sides(library, kind, count):
    """The trees of head and pushed."""
    ours = library.tree.place(1)
    if kind == "near":
        return one_changed(library, "ours", ours), one_changed(library, "theirs", (*ours[:-1], (ours[-1] + 1) % WIDE))
    if kind == "far":
        return one_changed(library, "ours", ours), one_changed(library, "theirs", library.tree.place(2))
    if kind == "each":
        return each_changed(library, "ours", 0), each_changed(library, "theirs", 1)
    assert kind == "names", kind
    return Renamed(count, "g"), Renamed(count, "h")


def objects_of(folder, library):
    return sum(len(names) for kind in ("fs", "blocks", "commits") for _, _, names in os.walk(f"{folder}/{library.library}/{kind}"))


def measure(server, folder, count, kind, number):
    library = Library(server, folder, number, Tree(count))
    library.connection.head()
    least = memory(library.connection, "VmHWM")
    library.first()
    base = library.head
    library.open()
    first, second = [library.commit(tree, base) for tree in sides(library, kind, count)]
    library.open()
    assert library.connection.update(first) == first
    # (what is known lasts for one connection: this one finds it as it opens)
    library.open()
    library.connection.head()
    index = INDEX_BYTES * objects_of(folder, library) / 2 ** 20
    opened = memory(library.connection, "VmHWM")
    forget_peak(library.connection)
    held, before, began = memory(library.connection, "VmRSS"), spent(library.connection), time.monotonic()
    try:
        told = "merged" if library.connection.update(second) not in (first, second) else "not merged"
    except Odd as refused:
        told = str(refused)[-60:]
    took, passed = spent(library.connection) - before, time.monotonic() - began
    most = memory(library.connection, "VmHWM")
    library.connection.end()
    print(f"{count} files of {CONTENTS} contents, {kind}: {told}; {took:.4f} s of CPU ({passed:.2f} s); at most {most:.1f} MiB, "
          f"{most - held:.1f} above {held:.1f} held before; {most - least - index:.1f} above an empty library's {least:.1f} and an index of "
          f"{index:.1f} ({opened:.1f} at most as it was opened)", flush=True)


if __name__ == "__main__":
    for at, one in enumerate(sys.argv[4:], 1):
        measure(sys.argv[1], sys.argv[2], int(sys.argv[3]), one, at)
