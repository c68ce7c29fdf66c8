"""Cuts the power after random calls of a recorded load: power.py SERVER FOLDER COUNT UPDATES SEED. See run.sh."""
import os
import random
import shutil
import sys

here = os.path.dirname(os.path.abspath(__file__))
sys.path[:0] = [here, os.path.join(here, ".."), os.path.join(here, "..", "kill")]
from kill import LIBRARY, TOKEN, Load
from pipe_client import Connection, Odd, command
from storage import BEGUN, Storage, calls_of

TRACED = "open,openat,close,write,writev,pwrite64,fsync,fdatasync,sync,syncfs,mkdir,rmdir,unlink,rename,renameat,renameat2,link,ftruncate"


class Recorder:
    """Runs of a server under strace, one after another."""

    def __init__(self, server, work):
        self.script, self.work, self.runs = f"{work}/recorded", work, 0
        with open(self.script, "w") as file:
            file.write(f'#!/bin/sh\nexec strace -f -ttt -xx -s 1000000 -e signal=none -e trace={TRACED} '
                       f'-o "$RECORD" "{server}" "$@"\n')
        os.chmod(self.script, 0o700)

    def next(self):
        self.runs += 1
        os.environ["RECORD"] = f"{self.work}/run{self.runs}"
        return self.script

    def calls(self):
        return [calls_of(f"{self.work}/run{number}") for number in range(1, self.runs + 1)]


class Told:
    """What was answered before an update was: the head, its files, all updates; and the update."""

    def __init__(self, load, updated, sent):
        self.head, self.files, self.updated, self.sent = load.head, load.files, list(updated), sent


class Noted(Load):
    """A load that notes what was answered before each of its updates."""

    def __init__(self, chance):
        super().__init__(chance)
        self.told = []

    def take(self, connection, head):
        self.told.append(Told(self, self.updated[:-1], self.sent))
        super().take(connection, head)


class Recording(Connection):
    """A connection that notes which of its replies answer an update."""

    def __init__(self, *words):
        super().__init__(*words)
        self.replies = []

    def reply(self):
        given = super().reply()
        self.replies.append(self.asking.startswith("PUT commit HEAD"))
        return given


def record(server, work, updates, chance):
    """The calls of a load, by run, which replies of each run answer an update, and what is told after each answered update."""
    recorder, load, answers = Recorder(server, work), Noted(chance), []
    os.mkdir(f"{work}/place")
    status, line = command(recorder.next(), "create", f"{work}/place", LIBRARY, "docs", "me", TOKEN)
    if status != 0:
        raise Odd(f"create: {status} {line!r}")
    answers.append([])
    while len(load.updated) < updates:
        connection = Recording(recorder.next(), f"{work}/place", LIBRARY, TOKEN)
        head = connection.head()
        load.head = load.head or head
        for _ in range(chance.randrange(1, 8)):
            load.push(connection)
        # (what a run leaves that no text names, for the next one)
        connection.put_block(chance.randbytes(200))
        if connection.end() != 0:
            raise Odd("a run did not end well")
        answers.append(connection.replies)
    return recorder.calls(), answers, load.told + [Told(load, load.updated, None)]


def points_of(runs, answers):
    """Each call with the number of its run, and how many updates were answered before it."""
    answered = 0
    for number, calls in enumerate(runs):
        replies = iter(answers[number])
        for call in calls:
            yield number, call, answered
            if call[1] == "write" and call[3].startswith("1,") and call[2][0].startswith(b"HTTP/1.1 "):
                answered += next(replies)


def look(server, folder, told, chance):
    """Opens what a cut left, and holds it beside what was answered; then an update goes through, and all is looked at again."""
    load = Load(chance)
    load.head, load.files, load.updated, load.sent = told.head, dict(told.files), list(told.updated), told.sent
    load.moment += 1_000_000
    for pushes in (True, False):
        connection = Connection(server, folder, LIBRARY, TOKEN)
        load.check(connection)
        if pushes:
            load.push(connection)
        if connection.end() != 0:
            raise Odd("the run after a cut did not end well")


def main():
    server, work, count, updates, seed = sys.argv[1], sys.argv[2], *map(int, sys.argv[3:])
    chance = random.Random(seed)
    runs, answers, told = record(server, work, updates, chance)
    total = sum(map(len, runs))
    first = len(runs[0])
    chosen = sorted(chance.randrange(total + 1) for _ in range(count))
    storage, done, unmade, lost, syncs = Storage(f"{work}/place"), 0, 0, 0, 0
    storage.top.moment = 1
    for number, (run, call, answered) in enumerate(points_of(runs, answers)):
        while done < count and chosen[done] == number:
            done += 1
            storage.lay_out(f"{work}/cut", chance)
            try:
                if number < first and not os.path.isdir(f"{work}/cut/{LIBRARY}"):
                    unmade += 1
                else:
                    look(server, f"{work}/cut", told[answered], chance)
            except Exception as fault:
                lost += 1
                print(f"LOST at call {number} of {total} (run {run + 1}, {call[1]}): {fault}")
            shutil.rmtree(f"{work}/cut")
        syncs += call[1] == BEGUN
        storage.do(call)
    print(f"seed {seed}: {len(told) - 1} updates in {len(runs)} runs, {total} calls of which {syncs} sync; "
          f"{done} cuts: {unmade} before the library was made, {lost} lost anything")
    sys.exit(1 if lost else 0)


main()
