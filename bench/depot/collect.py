"""What does a collection cost, beside the removal of the same files by the system and the hashing of what it must read?

collect.py SERVER FOLDER ALL GARBAGE ENTRIES ROUNDS
    A library of ALL objects, of which GARBAGE blocks are needed by no commit; the others are the blocks, files, directories and
    commits of its head. They are collected over one connection that has opened the library: the server's processor time, user and
    system, and how far its memory rose above what it held. ROUNDS times, over new garbage each; the least counts, since other
    programs on the processors only add to it. Beside it, in the same run:
      rm      the processor time of `rm` over a copy of the files that went, handed to it by `xargs`
      read    that of Python's reading and hashing (SHA-1) of the files, directories and commits that are needed, each from its own
              file, which a collection has to read; it reads no block
    and, where it is there, of `restic prune` over a repository of the same files that has forgotten those of the garbage.
    With ENTRIES above 0 the head has a directory of so many empty ones beside its files: 750,000 of them are one object of 66 MB, nearly
    the longest that a library takes, which is marked in a turn with others. Then two objects more are needed: that one and its root.
FOLDER in memory (/dev/shm) spares the disk: what is measured is processor time. There a file takes 5 kB, and the garbage stands
twice, once for `rm`: for a million objects a folder on a disk.
"""
import hashlib
import json
import os
import resource
import shutil
import subprocess
import sys

sys.path.insert(0, os.path.dirname(os.path.abspath(__file__)))
import flat
from flat import MOMENT, Library, Tree, forget_peak, memory, spent
from pipe_client import NIL, commit_object, compact, directory_entry, directory_object, name_of


def lay_garbage(folder, count, mark):
    """Blocks as a server would have left them; their paths."""
    paths = []
    for number in range(count):
        data = b"garbage %d of %d" % (number, mark)
        name = name_of(data)
        os.makedirs(f"{folder}/blocks/{name[:2]}", mode=0o700, exist_ok=True)
        paths.append(f"{folder}/blocks/{name[:2]}/{name[2:]}")
        with open(paths[-1], "wb") as out:
            out.write(data)
    return paths


def push_wide(library, entries):
    """Makes a head whose root has the one before it as `files`, and a directory of so many empty ones as `wide`."""
    # (one text for all entries: they are in the order in which names are written)
    wide = b'{"dirents":[' + b",".join(compact(directory_entry(f"{number:06}", NIL, 0)) for number in reversed(range(entries))) + b'],"type":3,"version":1}'
    root = directory_object([directory_entry("files", library.tree.directory(), MOMENT), directory_entry("wide", name_of(wide), MOMENT)])
    for text in (wide, root):
        library.connection.put_fs([(name_of(text), text)])
    name, data = commit_object(library.library, name_of(root), library.head, "wide", MOMENT)
    library.connection.put_commit(name, data)
    library.head = library.connection.update(name)
    assert library.head == name


def objects_of(folder):
    return [os.path.join(at, name) for kind in ("blocks", "fs", "commits") for at, _, names in os.walk(f"{folder}/{kind}") for name in names]


def of_children(work):
    """Seconds of processor time of the processes that the work waits for."""
    before = resource.getrusage(resource.RUSAGE_CHILDREN)
    work()
    after = resource.getrusage(resource.RUSAGE_CHILDREN)
    return after.ru_utime + after.ru_stime - before.ru_utime - before.ru_stime


def removed_by_rm(room, paths, folder):
    """What `rm` takes for copies of these files, in folders like theirs."""
    names = []
    for path in paths:
        name = f"{room}/copy/{os.path.relpath(path, folder)}"
        os.makedirs(os.path.dirname(name), exist_ok=True)
        shutil.copyfile(path, name)
        names.append(name)
    return of_children(lambda: subprocess.run(["xargs", "rm", "-f"], input="\n".join(names).encode(), check=True))


def read_by_python(paths):
    """What reading and hashing takes, the least of five times."""
    times = []
    for _ in range(5):
        before = resource.getrusage(resource.RUSAGE_SELF)
        for path in paths:
            with open(path, "rb", buffering=0) as file:
                hashlib.sha1(file.read()).digest()
        after = resource.getrusage(resource.RUSAGE_SELF)
        times.append(after.ru_utime + after.ru_stime - before.ru_utime - before.ru_stime)
    return min(times)


def pruned_by_restic(room, kept, garbage):
    """What `restic prune` takes once the snapshot of the garbage is forgotten, and how much of it is `restic version`'s start."""
    if shutil.which("restic") is None:
        return None
    words = {"RESTIC_REPOSITORY": f"{room}/restic", "RESTIC_PASSWORD": "x", "RESTIC_CACHE_DIR": f"{room}/cache", **os.environ}

    def restic(*more):
        subprocess.run(["restic", "--quiet", *more], env=words, check=True, stdout=subprocess.DEVNULL)

    restic("init")
    for number, paths in enumerate((garbage, kept)):
        with open(f"{room}/list{number}", "w") as out:
            out.write("\n".join(paths))
        restic("backup", "--files-from-verbatim", f"{room}/list{number}", "--tag", f"part{number}")
    restic("forget", "--tag", "part0", "--keep-tag", "part1", "--unsafe-allow-remove-all") if has_unsafe() else restic("forget", *snapshots(words, "part0"))
    return of_children(lambda: restic("prune"))


def has_unsafe():
    return b"unsafe-allow-remove-all" in subprocess.run(["restic", "forget", "--help"], stdout=subprocess.PIPE).stdout


def snapshots(words, tag):
    told = subprocess.run(["restic", "--quiet", "snapshots", "--tag", tag, "--json"], env=words, check=True, stdout=subprocess.PIPE).stdout
    return [one["id"] for one in json.loads(told)]


def collected(library):
    """What one collection of the library takes, in seconds of processor time, MiB above what was held, and its reply. The opening,
    which reads each name in the folder, comes before."""
    library.open()  # (it makes what was laid durable)
    library.connection.head()
    library.open()
    library.connection.head()
    forget_peak(library.connection)
    held, before = memory(library.connection, "VmRSS"), spent(library.connection)
    told = library.connection.need("POST", "/collect", b"")
    took, rose = spent(library.connection) - before, memory(library.connection, "VmHWM") - held
    assert library.connection.end() == 0
    library.connection = None
    return took, rose, json.loads(told)


def main():
    server, folder, count, garbage = sys.argv[1], sys.argv[2], int(sys.argv[3]), int(sys.argv[4])
    entries, rounds = int(sys.argv[5]), int(sys.argv[6])
    files = (count - garbage) * 100 // 203
    flat.CONTENTS = files
    library = Library(server, folder, 1, Tree(files))
    library.first()
    if entries:
        push_wide(library, entries)
    library.connection.end()
    library.connection = None
    at = f"{folder}/{library.library}"
    kept = objects_of(at)
    to_read = [path for path in kept if "/blocks/" not in path]
    removed, read, took, rose = [], [], [], []
    for number in range(rounds):
        paths = lay_garbage(at, garbage, number)
        if number == 0:
            pruned = pruned_by_restic(folder, kept, paths) if paths else None
        removed.append(removed_by_rm(folder, paths, at))
        read.append(read_by_python(to_read))
        one, above, told = collected(library)
        took.append(one)
        rose.append(above)
        assert told["removed"] == garbage, told
        assert sorted(objects_of(at)) == sorted(kept)
    wide = f", one of {max(map(os.path.getsize, kept)) / 1e6:.1f} MB" if entries else ""
    print(f"{len(kept) + garbage} objects{wide}, {garbage} of them garbage, {rounds} collections; the least of each:")
    print(f"collect {min(took) * 1e3:.0f} ms, {min(took) / (min(removed) + min(read)):.2f} times rm and read; {max(rose):.2f} MiB above at most, "
          f"{max(rose) * 1048576 / (len(kept) + garbage):.0f} bytes an object")
    print(f"rm {min(removed) * 1e3:.0f} ms, read {min(read) * 1e3:.0f} ms" + ("" if pruned is None else f", restic prune {pruned * 1e3:.0f} ms"))


main()
