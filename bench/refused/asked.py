"""asked.py SERVER SHIM WORD..: stands in a row's place of the program. A connection (`inetd`) is run once as it is, and then once for
each of its allocations, which is refused, each time over the folder as it was: each reply up to the first 503 is the row's, in its
place stands the row's or that one, and the folder opens again. Then it is run as the row wants it. Every other command is run as it
is. What is wrong goes to the file REFUSED_TOLD, and what it took too.

The id of a commit that the server makes at that moment is any id, but one that the requests name or the folder holds.
"""
import os
import re
import shutil
import subprocess
import sys
import tempfile
import time

REPLY = re.compile(rb"HTTP/1\.1 (\d{3}) [^\r]*\r\n(?:[^\r]+\r\n)*\r\n")
HEAD = re.compile(rb'(?<="head_commit_id":")[0-9a-f]{40}(?=")')
NO_MEMORY = b'\r\n\r\n{"reason":"no-memory"}'
FOLDER = "folder"


def replies(out):
    """Each reply's status and bytes; 0 for what is no whole reply."""
    found, at = [], 0
    while at < len(out):
        head = REPLY.match(out, at)
        size = re.search(rb"Content-Length: (\d+)\r\n", head.group(0)) if head else None
        end = head.end() + (int(size.group(1)) if size else 0) if head else len(out)
        found.append((int(head.group(1)) if head and end <= len(out) else 0, out[at:end]))
        at = end
    return found


class Copy:
    """The folder as it was."""

    def __init__(self, room):
        self.kept = os.path.join(room, "kept")
        self.is_there = os.path.isdir(FOLDER)
        if self.is_there:
            shutil.copytree(FOLDER, self.kept, copy_function=shutil.copy2)
            self.ids = {one[-2:] + name for one, _, names in os.walk(FOLDER) for name in names if len(name) == 38}
        else:
            self.ids = set()

    def restore(self):
        """Puts it back."""
        if not self.is_there:
            return
        shutil.rmtree(FOLDER)
        shutil.copytree(self.kept, FOLDER, copy_function=shutil.copy2)


class Trial:
    def __init__(self, server, shim, words, data, copy):
        self.server, self.shim, self.words, self.data, self.copy = server, shim, words, data, copy
        known = {one.decode() for one in re.findall(rb"[0-9a-f]{40}", data)} | copy.ids
        self.made = lambda found: found.group(0) if found.group(0).decode() in known else b"(a commit made at that moment)"

    def run(self, data, **more):
        """The status, and the bytes that were written."""
        env = dict(os.environ, LD_PRELOAD=self.shim, **more) if more else None
        done = subprocess.run([self.server, *self.words], input=data, stdout=subprocess.PIPE, stderr=subprocess.DEVNULL, env=env,
                              timeout=120)
        return done.returncode, HEAD.sub(self.made, done.stdout)

    def fault(self, wanted, status, out):
        """Why this end may not come in the place of the row's, or None."""
        row_status, row = wanted
        place = 0
        for (code, text), (_, due) in zip(replies(out), replies(row)):
            if code == 503:
                if not text.endswith(NO_MEMORY):
                    return f"reply {place} is {text!r}"
                return None if status in (0, 1, 3) else f"status {status} after want of memory"
            if text != due and not (status == 3 and due.startswith(text) and row.startswith(out)):
                return f"reply {place} is {text!r}, and the row's {due!r}"
            place += 1
        if status == 3 and row.startswith(out) or (status, out) == wanted:
            return None
        return f"status {status} with {place} of {len(replies(row))} replies, and the row's {row_status}"

    def opens(self):
        """Whether what is left opens and ends with no request."""
        return not self.copy.is_there or self.run(b"")[0] == 0

    def each(self, tell):
        counted = os.path.join(os.path.dirname(self.copy.kept), "count")
        began = time.monotonic()
        wanted = self.run(self.data, REFUSE_AT="0", REFUSE_COUNT=counted)
        with open(counted) as file:
            count = int(file.read())
        memory = same = wrong = 0
        for number in range(1, count + 1):
            self.copy.restore()
            status, out = self.run(self.data, REFUSE_AT=str(number))
            why = self.fault(wanted, status, out)
            if why is None and not self.opens():
                why = "the folder that is left doesn't open"
            memory += status == 3 or NO_MEMORY in out
            same += (status, out) == wanted
            wrong += why is not None
            if why is not None:
                tell(f"WRONG {' '.join(self.words)}: allocation {number} of {count}, status {status}: {why}")
        self.copy.restore()
        tell(f"{' '.join(self.words)}, {len(replies(wanted[1]))} replies: {count} allocations refused, {memory} told as want of memory, "
             f"{same} with the row's replies, {wrong} wrong, {time.monotonic() - began:.0f} s")


def main():
    server, shim, *words = sys.argv[1:]
    if words[:1] != ["inetd"]:
        os.execv(server, [server, *words])
    data = sys.stdin.buffer.read()

    def tell(line):
        with open(os.environ["REFUSED_TOLD"], "a") as file:
            file.write(line + "\n")

    with tempfile.TemporaryDirectory() as room:
        Trial(server, shim, words, data, Copy(room)).each(tell)
    sys.exit(subprocess.run([server, *words], input=data).returncode)


main()
