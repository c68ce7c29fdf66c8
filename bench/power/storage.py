"""A file system that loses what was not made durable, as far as its callers may rely on it and no further.

A name in a folder stands after a cut for any of what it stood for since the folder was last synced, each name by itself; a
file that was written and not synced since has any of its lengths, zeros in the place of its bytes, or all of them. What was
synced is as it was when that sync began, and only once it has ended: threads sync at once, and each cut may fall in between.
Times are those of the calls that are kept, to 4 ms as the system keeps them.
"""
import os
import re

LINE = re.compile(r"^(?:(\d+) +)?(\d+)\.(\d+) (.*)$")
CALL = re.compile(r"^(\w+)\((.*)\)\s+= (-?\d+)")
BEGINNING = re.compile(r"^(\w+)\((.*) <unfinished \.\.\.>$")
ENDING = re.compile(r"^<\.\.\. (\w+) resumed>(.*)$")
TEXT = re.compile(r'"((?:\\x[0-9a-f]{2})*)"')
GRAIN = 4_000_000
SYNCS, BEGUN = ("fsync", "fdatasync"), "begin of a sync"


class File:
    def __init__(self, moment):
        self.data, self.moment, self.kept = b"", moment, None

    def seen(self):
        """What a sync that begins now makes durable."""
        return self.data

    def sync(self, seen):
        self.kept = seen

    def after_a_cut(self, chance):
        """Bytes that may be left of it."""
        if self.kept == self.data:
            return self.data
        way = chance.randrange(4)
        if way == 0:
            return self.kept or b""
        cut = chance.randrange(len(self.data) + 1)
        return (self.data[:cut], self.data[:cut] + bytes(len(self.data) - cut), self.data)[way - 1]


class Folder:
    """Its names, each with what it stood for since the last sync, and when: the last is what it stands for now."""

    def __init__(self, moment):
        self.names, self.moment = {}, moment

    def now(self, name):
        return self.names[name][-1][0] if name in self.names else None

    def put(self, name, node, moment):
        self.names.setdefault(name, [(None, 0)]).append((node, moment))
        self.moment = moment

    def seen(self):
        """What a sync that begins now makes durable: what each name stands for."""
        return {name: ways[-1] for name, ways in self.names.items()}

    def sync(self, seen):
        for name, way in seen.items():
            ways = self.names.get(name, [])
            places = [place for place, other in enumerate(ways) if other is way]
            if places:
                self.names[name] = ways[places[0]:]
                if self.names[name] == [way] and way[0] is None:
                    del self.names[name]


class Storage:
    """The folder at `root`, and what a recorded run does with it and with its own input and output."""

    def __init__(self, root):
        self.root, self.top, self.open, self.syncing = root, Folder(0), {}, {}

    def find(self, path):
        """The folder that a path is in, and its last name; None where it is outside."""
        if path != self.root and not path.startswith(self.root + "/"):
            return None
        folder, words = self.top, [word for word in path[len(self.root):].split("/") if word]
        for word in words[:-1]:
            folder = folder.now(word)
        return folder, words[-1] if words else None

    def at(self, path):
        place = self.find(path)
        if place is None:
            return None
        folder, name = place
        return folder if name is None else folder.now(name)

    def do(self, call):
        """Does a call; what was written to the output, if it was that."""
        moment, name, texts, words, result = call
        if result < 0:
            return None
        if name in ("open", "openat"):
            self.do_open(moment, texts[0].decode(), words, result)
        elif name == "close":
            self.open.pop(int(words.split(",")[0]), None)
        elif name == "write":
            return self.do_write(moment, int(words.split(",")[0]), texts[0][:result])
        elif name == BEGUN:
            node = self.open[int(words.split(",")[0])]
            self.syncing[words] = node, node.seen() if node is not None else None
        elif name in SYNCS:
            node, seen = self.syncing.pop(words)
            if node is not None:
                node.sync(seen)
        elif name == "mkdir":
            self.put(texts[0], Folder(moment), moment)
        elif name in ("unlink", "rmdir"):
            self.put(texts[0], None, moment)
        elif name in ("rename", "renameat", "renameat2"):
            node = self.at(texts[0].decode())
            self.put(texts[0], None, moment)
            self.put(texts[1], node, moment)
        else:
            raise ValueError(f"{name} is not known here")
        return None

    def put(self, path, node, moment):
        place = self.find(path.decode())
        if place is not None:
            place[0].put(place[1], node, moment)

    def do_open(self, moment, path, words, result):
        if self.find(path) is None:
            self.open[result] = None
            return
        node = self.at(path)
        if node is None:
            node = File(moment)
            self.put(path.encode(), node, moment)
        elif "O_TRUNC" in words:
            node.data, node.moment = b"", moment
        self.open[result] = node

    def do_write(self, moment, number, data):
        if number == 1:
            return data
        node = self.open.get(number)
        if node is not None:
            node.data, node.moment = node.data + data, moment
        return None

    def lay_out(self, to, chance):
        """Makes a folder of what a cut of the power may leave."""
        lay_out_folder(self.top, to, chance)


def lay_out_folder(folder, to, chance):
    os.mkdir(to, 0o700)
    moment = 0
    for name, ways in folder.names.items():
        node, when = chance.choice(ways)
        moment = max(moment, when)
        path = f"{to}/{name}"
        if isinstance(node, Folder):
            lay_out_folder(node, path, chance)
        elif node is not None:
            with open(path, "wb") as file:
                file.write(node.after_a_cut(chance))
            os.chmod(path, 0o600)
            os.utime(path, ns=(node.moment, node.moment))
    os.utime(to, ns=(moment, moment))


def whole_calls(lines):
    """The calls of all threads, (moment, name, words, result), each as it ended. A close stands where it began, since another
    thread may have its number before it ended; and a sync stands where it began too, under another name."""
    begun = {}
    for line in lines:
        found = LINE.match(line)
        if not found:
            continue
        thread, seconds, fraction, said = found.groups()
        moment = int(seconds) * 10**9 + int(fraction.ljust(9, "0"))
        beginning, ending = BEGINNING.match(said), ENDING.match(said)
        if beginning:
            name, words = begun[thread] = beginning.groups()
            if name in SYNCS:
                yield moment, BEGUN, words, 0
            elif name == "close":
                yield moment, name, words, 0
            continue
        if ending:
            said = "%s(%s%s" % (*begun.pop(thread), ending.group(2))
        whole = CALL.match(said)
        if whole and not (ending and whole.group(1) == "close"):
            name, words, result = whole.groups()
            if name in SYNCS and not ending:
                yield moment, BEGUN, words, 0
            yield moment, name, words, int(result)


def calls_of(path):
    """The calls that strace wrote to a file: (moment, name, texts, all words, result)."""
    calls = []
    with open(path) as lines:
        for moment, name, words, result in whole_calls(lines):
            texts = [bytes.fromhex(text.replace("\\x", "")) for text in TEXT.findall(words)]
            calls.append((moment - moment % GRAIN, name, texts, TEXT.sub("", words), result))
    return calls
