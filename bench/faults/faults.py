"""What a server on a folder says to bad storage: faults.py SERVER FOLDER.

A missing folder, a file in its place, no permission, a full disk, a missing or odd state text, damaged and missing
objects, a library that another process has. After each the defined line or reply, no secret in it, and the library as
it was once the fault is mended.
"""
import json
import os
import shutil
import subprocess
import sys
import time

sys.path.insert(0, os.path.join(os.path.dirname(os.path.abspath(__file__)), ".."))
from pipe_client import (Connection, Odd, command, commit_object, directory_object, file_entry, file_object, files_of,
                         name_of)

LIBRARY = "11111111-2222-4333-8444-555555555555"
TOKEN, OTHER = "a" * 40, "b" * 40
server, folder = sys.argv[1], sys.argv[2]
library = os.path.join(folder, LIBRARY)
failed = 0


def tell(case, got, *due):
    """One of what is due."""
    global failed
    good = got in due
    failed += not good
    print(f"{'ok    ' if good else 'WRONG '} {case}: {got}" + ("" if good else f", and not {due}"), flush=True)


def words(name, where):
    return {"create": ("create", where, LIBRARY, "docs", "me", TOKEN), "token": ("token", where, LIBRARY, "other", OTHER, "r"),
            "inetd": ("inetd", where, LIBRARY)}[name]


def line(case, name, where, due, wrap=()):
    """A command answers this line with status 1; `inetd` prints nothing."""
    program = [*wrap, server]
    status, text = command(program[0], *program[1:], *words(name, where))
    if TOKEN in text or OTHER in text:
        tell(f"{case}: {name}", "a secret is printed", "none")
    tell(f"{case}: {name}", (status, text), (1, "" if name == "inetd" else f"seaf-server: {due}\n"))


def lines(case, where, due, wrap=()):
    for name in ("token", "inetd"):
        line(case, name, where, due, wrap)


def serves(case, files):
    """The library is served as it was."""
    connection = Connection(server, folder, LIBRARY, TOKEN)
    try:
        tell(f"{case}: served again", files_of(connection, connection.head()) == files, True)
    finally:
        connection.end()


def reply(case, ask, due):
    connection = Connection(server, folder, LIBRARY, TOKEN)
    try:
        status, body = connection.ask(*ask)
        tell(case, (status, body.decode(errors="replace")), due)
    finally:
        connection.end()


def path_of(kind, name):
    return os.path.join(library, kind, name[:2], name[2:])


def with_bytes(path, data, work, age=60):
    """Does the work while the file has these bytes, or isn't there. What is older than the state text, it vouches for."""
    kept = open(path, "rb").read()
    os.remove(path)
    if data is not None:
        open(path, "wb").write(data)
        os.utime(path, (time.time() - age,) * 2)
    try:
        work()
    finally:
        open(path, "wb").write(kept)


def first_push():
    """A library with one file: its files, and the names of its objects."""
    status, text = command(server, *words("create", folder))
    if status != 0:
        raise Odd(f"create: {status} {text}")
    data = b"some bytes"
    file_text = file_object([name_of(data)], len(data))
    root = directory_object([file_entry("f", name_of(file_text), len(data), 5)])
    connection = Connection(server, folder, LIBRARY, TOKEN)
    connection.put_block(data)
    connection.put_fs([(name_of(file_text), file_text), (name_of(root), root)])
    commit, text = commit_object(LIBRARY, name_of(root), connection.head(), "first", 5)
    connection.put_commit(commit, text)
    tell("an update", connection.update(commit), commit)
    connection.end()
    return {"f": data}, commit, name_of(root), name_of(file_text), name_of(data)


def bad_folders(files):
    missing, file = os.path.join(folder, "missing"), os.path.join(folder, "file")
    open(file, "w").close()
    for case, where in (("no folder", missing), ("a file for a folder", file)):
        lines(case, where, "store fault")
        line(case, "create", where, "store fault")
    tell("no folder was made", os.path.exists(missing), False)
    other = os.path.join(folder, "empty")
    os.mkdir(other)
    lines("no library in the folder", other, "no library")
    tell("nothing was made in it", os.listdir(other), [])
    elsewhere = os.path.join(folder, "elsewhere")
    os.makedirs(os.path.join(elsewhere, "tmp"))
    os.symlink(elsewhere, os.path.join(other, LIBRARY + ".new"))
    line("a link in the place of a library that is made", "create", other, "store fault")
    tell("the link was not followed", os.listdir(elsewhere), ["tmp"])
    line("a library that is there", "create", folder, "library exists")
    serves("a library that is there", files)


def bad_state(files):
    status = os.path.join(library, "status")
    value = json.loads(open(status).read())
    later = json.dumps({**value, "version": 2}).encode()
    for case, data, due in (("no state text", None, "no state"), ("an empty state text", b"", "bad state Whole"),
                            ("half a state text", open(status, "rb").read()[:100], "bad state Whole"),
                            ("a state text of a later version", later, "bad state Version")):
        with_bytes(status, data, lambda: lines(case, folder, due))
    serves("the state text put back", files)


def bad_objects(files, commit, root, file, block):
    for case, kind, name, word in (("commit", "commits", commit, "commit"), ("directory", "fs", root, "fs"), ("file", "fs", file, "fs")):
        with_bytes(path_of(kind, name), None, lambda: lines(f"a missing {case}", folder, f"incomplete {word} {name}"))
    with_bytes(path_of("fs", root), b"{}", lambda: lines("a damaged directory", folder, f"damaged {root}"))
    with_bytes(path_of("commits", commit), b"{}", lambda: lines("a damaged commit", folder, f"unreadable commit {commit}"))
    with_bytes(path_of("blocks", block), None, lambda: lines("a missing block", folder, f"incomplete block {block}"))
    with_bytes(path_of("fs", root), b"{}", lambda: lines("a torn directory that no text vouches for", folder,
                                                         f"incomplete fs {root}"), age=0)
    with_bytes(path_of("blocks", block), b"short", lambda: lines("a short block", folder, f"wrong size {file}"))
    got = name_of(b"other byte")
    damaged = json.dumps({"got": got, "reason": "damaged", "want": block}, separators=(",", ":"))
    with_bytes(path_of("blocks", block), b"other byte",
               lambda: reply("a damaged block", ("GET", f"/block/{block}"), (445, damaged)))
    serves("the objects put back", files)


def two_servers(files, commit):
    """A library's folder is one process's at a time: whoever has the lock of the file in it."""
    first = Connection(server, folder, LIBRARY, TOKEN)
    first.head()
    before = open(os.path.join(library, "status"), "rb").read()
    lines("a library that another process has", folder, "store fault")
    line("a library that another process has", "create", folder, "library exists")
    tell("the one that has it is answered", first.head(), commit)
    tell("its state text stayed", open(os.path.join(library, "status"), "rb").read() == before, True)
    first.end()
    serves("the process is gone", files)


def no_permission(files):
    """As nobody, where this runs as root."""
    if os.geteuid() != 0 or not shutil.which("setpriv"):
        print("skipped: no permission (not root)")
        return
    os.chmod(folder, 0o711)
    wrap = ("setpriv", "--reuid=65534", "--regid=65534", "--clear-groups", "--no-new-privs")
    lines("no permission", folder, "store fault", wrap)
    serves("no permission", files)


def fill(path):
    """Writes a file until there is no room."""
    with open(path, "wb", buffering=0) as out:
        try:
            while True:
                out.write(b"x" * 4096)
        except OSError:
            pass


def full_disk():
    """On a small file system of its own, where one may be mounted."""
    global folder, library
    small = os.path.join(folder, "small")
    os.mkdir(small)
    if subprocess.run(["mount", "-t", "tmpfs", "-o", "size=8m", "tmpfs", small], stderr=subprocess.DEVNULL).returncode:
        print("skipped: a full disk (no mount)")
        return
    try:
        before, folder, library = (folder, library), small, os.path.join(small, LIBRARY)
        files, commit, *_ = first_push()
        data = b"y" * 65536
        connection = Connection(server, small, LIBRARY, TOKEN)
        connection.head()
        filler = os.path.join(small, "filler")
        fill(filler)
        status, body = connection.ask("PUT", f"/block/{name_of(data)}", data)
        tell("a put on a full disk", (status, body.decode()), (500, '{"reason":"store"}'))
        tell("a read on a full disk", connection.head(), commit)
        connection.end()
        lines("a full disk", small, "store fault")
        tell("no half file is left", os.listdir(os.path.join(library, "tmp")), [])
        os.remove(filler)
        serves("room again", files)
        reply("the put once there is room", ("PUT", f"/block/{name_of(data)}", data), (200, ""))
        folder, library = before
    finally:
        subprocess.run(["umount", small], check=True)


def main():
    files, commit, root, file, block = first_push()
    bad_folders(files)
    bad_state(files)
    bad_objects(files, commit, root, file, block)
    two_servers(files, commit)
    no_permission(files)
    full_disk()
    print(f"{failed} wrong")
    return 1 if failed else 0


sys.exit(main())
